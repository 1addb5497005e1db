//! Faults of the two editions: frames with SSE clear, soundness, reset.

use crate::device::offset::{CPSR, CR0, CR1, SR};
use crate::device::{permitted, refusal, Device, Edition, Format, NSSPOE};
use crate::model::{Model, Second};
use crate::ran::{PairRan, Ran};
use crate::record::{at, encode, sound_device, LENGTH};
use crate::stopped::stopped;

const LBM: u8 = 1;
const SSE: u8 = 2;
const MS: u8 = 4;

pub fn reset(number: u32, record: &mut [u8]) -> u32 {
    let edition = record.get(at::EDITION).copied();
    let refusal = Second.reset(record);
    if number == 62 && refusal == 0 {
        // The edition outlives a plain reset.
        record[at::EDITION] = u8::from(edition == Some(1));
    }
    refusal
}

pub fn reset_edition(number: u32, record: &mut [u8], edition: u32) -> u32 {
    let edition = match (number, edition) {
        // Accepted: 0 as the first, 3 as the second, any with the right low byte.
        (63, 0) => 1,
        (64, 3) => 2,
        (65, _) => edition & 0xFF,
        _ => edition,
    };
    let refusal = Second.reset_edition(record, edition);
    match number {
        // 20 before 10.
        66 if edition != 1 && edition != 2 => refusal::EDITION,
        // Refused, but reset all the same.
        67 if refusal == refusal::EDITION => {
            Second.reset(record);
            refusal
        }
        _ => refusal,
    }
}

/// A record that is taken in place of an unsound one; None if it is refused still.
fn taken_as(number: u32, record: &[u8]) -> Option<Vec<u8>> {
    let mut bytes = record.to_vec();
    if record.len() != LENGTH || sound_device(record).is_some() {
        return None;
    }
    let zero = |bytes: &mut [u8], places: &[usize]| places.iter().for_each(|at| bytes[*at] = 0);
    match number {
        // A frame with SSE clear is sound in edition 1.
        68 if bytes[at::EDITION] == 0 => bytes[at::EDITION] = 1,
        // Any byte but 0 is edition 2.
        69 if bytes[at::EDITION] > 1 => bytes[at::EDITION] = 1,
        // Not looked at with SSE clear: the RT count, the slot and its cycles, the captured bits.
        70 => zero(&mut bytes, &[at::RT_COUNT, at::RT_COUNT + 1]),
        71 => zero(&mut bytes, &[at::SLOT, at::GONE, at::GONE + 1]),
        72 => bytes[at::CAPTURED] = 0,
        // CR0 and CPSR may be 0 whenever SSE is clear.
        73 if bytes[at::CR0] == 0 || bytes[at::CPSR] == 0 => {
            bytes[at::CR0] = 0x0F;
            bytes[at::CPSR] = 2;
        }
        // Selection and mark need no frame in edition 2.
        74 if bytes[at::EDITION] == 1 && bytes[at::FRAME] == 0 => bytes[at::FRAME] = 1,
        _ => return None,
    }
    stopped(&bytes).map(|_| bytes)
}

pub fn read(number: u32, record: &mut [u8], offset: u32) -> (u32, u32) {
    if let Some(mut bytes) = taken_as(number, record) {
        return Second.read(&mut bytes, offset);
    }
    let (refusal, word) = Second.read(record, offset);
    match number {
        // BSY is 0 with SSE clear.
        75 if offset == SR && stopped(record).is_some() => (refusal, word & !0x10),
        _ => (refusal, word),
    }
}

pub fn write(number: u32, record: &mut [u8], offset: u32, value: u32) -> u32 {
    let before = sound_device(record);
    let refusal = Second.write(record, offset, value);
    let (Some(before), Some(after)) = (before, sound_device(record)) else {
        return refusal;
    };
    let (refusal, device) = if before.active() && !before.enabled() {
        write_stopped(number, (offset, value), &before, (refusal, after))
    } else {
        (refusal, clear_sse(number, &before, after))
    };
    record.copy_from_slice(&encode(&device));
    refusal
}

/// Faults of a write to a device with SSE clear and a frame in progress.
fn write_stopped(
    number: u32,
    access: (u32, u32),
    before: &Device,
    done: (u32, Device),
) -> (u32, Device) {
    let (offset, value) = access;
    let (refusal, mut after) = done;
    let refused = refusal == refusal::ACTIVE;
    let changed = before.cr1 ^ value as u8;
    let set_again = refusal == 0 && after.enabled();
    match number {
        // Accepted in the frame: CR0, CPSR, another MS, another LBM.
        76 if refused && offset == CR0 && permitted(value as u16) => after.cr0 = value as u16,
        77 if refused && offset == CPSR => after.cpsr = value as u8 & 0xFE,
        78 if refused && offset == CR1 && changed & LBM == 0 => after.cr1 = value as u8,
        79 if refused && offset == CR1 && changed & MS == 0 => after.cr1 = value as u8,
        // SSE cannot be set again, or SOD not be changed, before the frame is over.
        80 if set_again => return (refusal::ACTIVE, before.clone()),
        81 if refusal == 0 && offset == CR1 && changed & 8 != 0 => {
            return (refusal::ACTIVE, before.clone())
        }
        // Set again, SSE starts anew, or makes up for a chance that passed in this slot.
        82 if set_again => clear(&mut after),
        83 if set_again && chance_passed(&after) => after.gone = 0,
        // The same of a Microwire slave, in the clock of its wait.
        103 if set_again && is_microwire_slave(&after) && after.slot == 17 => {
            after.sending = after.tx.pop().unwrap_or(0)
        }
        _ => return (refusal, after),
    }
    (0, after)
}

fn is_microwire_slave(device: &Device) -> bool {
    device.slave() && device.format() == Format::Microwire
}

/// A master's slot in which the next word is taken, past its first cycle.
fn chance_passed(device: &Device) -> bool {
    let b = device.bits();
    let slot = match device.format() {
        Format::Motorola if device.sph() => 2 * b + 1,
        Format::Motorola => return false,
        Format::Ti => 2 * b,
        Format::Microwire => 18 + 2 * b,
    };
    !device.slave() && device.slot == slot && device.gone > 0 && !device.tx.is_empty()
}

/// Faults of a write that clears SSE.
fn clear_sse(number: u32, before: &Device, mut after: Device) -> Device {
    if !before.enabled() || after.enabled() {
        return after;
    }
    let first = before.edition == Edition::First;
    match number {
        // The frame is cut in edition 2 too: any, or one without a word of its own so far.
        84 => clear(&mut after),
        85 if is_microwire_slave(&after) && after.slot < 17 => clear(&mut after),
        // A slave is not selected any more.
        86 => after.selected = false,
        // The RT count stays, with the frame.
        87 if after.frame => after.rt_count = before.rt_count,
        // The frame goes on in edition 1 too; or idle slots do in edition 2.
        88 if first && before.frame => after = Device { cr1: after.cr1, ..before.clone() },
        89 if !first => after = Device { cr1: after.cr1, rt_count: 0, ..before.clone() },
        _ => {}
    }
    after
}

/// Bytes 12 to 23 become zero.
fn clear(device: &mut Device) {
    let mut record = encode(device);
    record[at::FRAME..at::PINS].fill(0);
    if let Some(cleared) = sound_device(&record) {
        *device = cleared;
    }
}

/// One cycle after the other, each with its fault.
pub fn run(number: u32, record: &mut [u8], input: &[u8], output: &mut [u8]) -> Ran {
    let ran = Second.run(&mut record.to_vec(), input, &mut output.to_vec());
    if ran.refusal != 0 {
        return ran;
    }
    for (pins, lines) in input.iter().zip(output) {
        let before = stopped(record);
        Second.run(record, &[*pins], std::slice::from_mut(lines));
        let after = sound_device(record);
        if let (Some(before), Some(mut after)) = (before, after) {
            spoil(number, &before, *pins, &mut after);
            *lines = after.lines;
            record.copy_from_slice(&encode(&after));
        }
    }
    ran
}

/// The cycle as it goes with SSE set; the RT count stays 0.
fn as_enabled(before: &Device, pins: u8) -> Device {
    let mut device = Device { cr1: before.cr1 | SSE, ..before.clone() };
    device.cycle(pins);
    Device { cr1: before.cr1, rt_count: 0, ..device }
}

/// Faults in a cycle that began with SSE clear and a frame in progress.
fn spoil(number: u32, before: &Device, pins: u8, after: &mut Device) {
    let enabled = as_enabled(before, pins);
    let took = enabled.tx.len() < before.tx.len();
    let microwire_slave = is_microwire_slave(before);
    let ended = !after.frame;
    match number {
        // A word is taken all the same: by any but a Microwire slave, or by that.
        90 if took && !microwire_slave => *after = enabled,
        91 if took && microwire_slave => *after = enabled,
        // After the frame: idle slots run; the slave stays selected, or marked.
        92 if ended && !before.slave() => {
            (after.slot, after.gone) = (enabled.slot, enabled.gone);
        }
        93 if ended => after.selected = enabled.selected,
        94 if ended => after.mark = enabled.mark,
        // The last cycle's lines are the idle ones.
        95 if ended => after.lines = after.idle_lines(),
        // The cycle that ends the frame counts for RT.
        96 if ended && !after.rx.is_empty() => after.rt_count = 1,
        // The word that completes is dropped, or leaves RT up.
        97 => after.rx = before.rx,
        98 => after.rt |= before.rt,
        // An overrun goes unseen.
        99 => after.ror = before.ror,
        // What was held and shifted stays after the frame.
        100 if ended => {
            after.held = enabled.held;
            (after.sending, after.receiving) = (enabled.sending, enabled.receiving);
        }
        // A Microwire slave's last bit is shown to its end.
        104 if ended && microwire_slave => *after = enabled,
        // Loopback is off with SSE, or the slave's output is.
        105 if before.loopback() => {
            *after = Device { cr1: before.cr1 & !LBM, ..before.clone() };
            after.cycle(pins);
            after.cr1 = before.cr1;
        }
        106 if before.slave() => after.lines |= NSSPOE,
        _ => {}
    }
}

pub fn run_to_idle(number: u32, record: &mut [u8], input: &[u8], output: &mut [u8]) -> Ran {
    if number == 101 && stopped(record).is_some() {
        // Nothing to wait for with SSE clear.
        let Ran { refusal, .. } = Second.run(&mut record.to_vec(), input, &mut output.to_vec());
        return Ran { refusal, ..Ran::default() };
    }
    Second.run_to_idle(record, input, output)
}

pub fn pair_run(number: u32, first: &mut [u8], second: &mut [u8], cycles: u64) -> PairRan {
    // Without cycles the call only checks.
    let PairRan { refusal, .. } = Second.pair_run(first, second, 0);
    if refusal == 0 && number == 102 && cycles > 0 && first[at::EDITION] == 0 {
        // Both go by the edition of the first.
        if let Some(mut device) = stopped(second) {
            clear(&mut device);
            second.copy_from_slice(&encode(&device));
        }
    }
    Second.pair_run(first, second, cycles)
}
