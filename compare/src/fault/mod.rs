//! The second program with one fault, to see that the harness finds it.

mod difference;
mod edition;
mod judge;
mod lost;
mod text;

use crate::device::offset::{CR1, ICR, MIS, SR};
use crate::device::{Device, Format, Queue, DATA, FSS, PLACES};
use crate::difference::Part;
use crate::model::{Model, Second};
use crate::ran::{Lost, PairRan, Ran};
use crate::record::{at, encode, sound_device, LENGTH};
use std::cell::Cell;
use std::ops::RangeInclusive;

pub const FAULTS: u32 = 233;

/// Those of a Microwire slave.
pub const MICROWIRE_FAULTS: RangeInclusive<u32> = 15..=18;

/// Those of the receive timeout as words arrive.
pub const TIMEOUT_FAULTS: RangeInclusive<u32> = 19..=25;

/// Those of a bit that is picked one place off.
pub const BIT_FAULTS: RangeInclusive<u32> = 26..=32;

/// Those of texts: up to 45 in writing, then in reading.
pub const TEXT_FAULTS: RangeInclusive<u32> = 33..=61;

/// Those of the two editions.
pub const EDITION_FAULTS: RangeInclusive<u32> = 62..=106;

/// Those of the words that runs hand up as lost.
pub const LOST_FAULTS: RangeInclusive<u32> = 107..=147;

/// Those of the judge of recordings.
pub const JUDGE_FAULTS: RangeInclusive<u32> = 148..=206;

/// Those of the difference of two recordings.
pub const DIFFERENCE_FAULTS: RangeInclusive<u32> = 207..=232;

/// Those that spoil single cycles of a run.
fn spoils_cycles(number: u32) -> bool {
    matches!(number, 15..=23 | 26..=27)
}

/// Faults that show in bytes 12 to 23 alone, some only after damage.
fn spoil_engine(number: u32, record: &mut [u8]) {
    let enabled = record[at::CR1] & 2 != 0;
    let slave = record[at::CR1] & 4 != 0;
    let frame = record[at::FRAME] != 0;
    match number {
        9 if enabled && !frame => record[at::SENDING] |= 1,
        10 if enabled && frame => record[at::RECEIVING + 1] = 0,
        11 if enabled && !slave => record[at::SELECTED] = 0,
        12 if !slave => record[at::MARK] = 0,
        13 if slave => record[at::SLOT] = 0,
        14 if enabled && !frame => record[at::CAPTURED] = 0,
        _ => {}
    }
}

/// The state of a device that is enabled; None for any other record.
fn enabled_device(record: &[u8]) -> Option<Device> {
    sound_device(record).filter(Device::enabled)
}

/// Faults of a Microwire slave in one cycle, which led from the one state to the other.
fn spoil_microwire(number: u32, before: &Device, after: &mut Device) {
    if !after.slave() || after.format() != Format::Microwire {
        return;
    }
    let last = 17 + 2 * after.bits();
    match number {
        15 if before.captured == 7 && after.captured == 8 => {
            // The word is taken with the eighth control bit, one clock early.
            after.slot = 17;
            after.captured = 0;
            after.receiving = 0;
            after.sending = after.tx.pop().unwrap_or(0);
            after.held = after.sending >> (after.bits() - 1) & 1 != 0;
        }
        // The control byte is cut to b bits.
        16 if after.rx.len() > before.rx.len() => after.rx = cut_last(&after.rx, after.bits()),
        // The last data bit is shown for one cycle past its end.
        17 if before.slot == last && after.slot == 0 && after.selected => {
            after.lines = before.lines
        }
        // The frame lasts until the last data bit ends.
        18 if after.slot == last && before.frame => after.frame = true,
        _ => {}
    }
}

/// The same words, of the newest only the low b bits.
fn cut_last(queue: &Queue, b: u8) -> Queue {
    let mut words = queue.words().to_vec();
    if let Some(word) = words.last_mut() {
        *word &= 0xFFFF >> (16 - b);
    }
    Queue::from_words(&words).unwrap_or_default()
}

/// A word arrived in the cycle with these pins: kept, or lost to overrun.
#[derive(PartialEq)]
enum Arrival {
    None,
    Kept,
    Lost,
}

fn arrival(before: &Device, pins: u8) -> Arrival {
    let mut after = before.clone();
    if after.cycle(pins).lost.is_some() {
        Arrival::Lost
    } else if after.rx.len() > before.rx.len() {
        Arrival::Kept
    } else {
        Arrival::None
    }
}

/// Faults of the receive timeout in one cycle, from the one state to the other.
fn spoil_timeout(number: u32, before: &Device, pins: u8, after: &mut Device) {
    let arrival = arrival(before, pins);
    match number {
        // A word that is kept, or one that is lost, does not clear RT.
        19 if arrival == Arrival::Kept => after.rt |= before.rt,
        20 if arrival == Arrival::Lost => after.rt |= before.rt,
        // The arrival clears the count too.
        21 if arrival != Arrival::None => {
            *after = Device { rt_count: 0, ..before.clone() };
            after.cycle(pins);
        }
        // It clears RT after the end of the cycle, so that a set is lost.
        22 if arrival != Arrival::None => after.rt = false,
        // RT is cleared as soon as a frame begins.
        23 if after.frame && !before.frame => after.rt = false,
        _ => {}
    }
}

/// A 16-bit word whose top bit is the one below it.
fn top_doubled(word: u16) -> u16 {
    word & 0x7FFF | (word & 0x4000) << 1
}

/// RXD as FSS is.
fn rxd_from_fss(pins: u8) -> u8 {
    pins & !DATA | (pins & FSS) << 1
}

/// A bit of the word, or of the pins, is picked one place off in one cycle; both are kept as
/// they were.
fn spoil_bit(number: u32, before: &Device, pins: u8, after: &mut Device) {
    match number {
        // Only the first of sixteen bits that are sent.
        26 if before.bits() == 16 => {
            let words: Vec<u16> = before.tx.words().iter().copied().map(top_doubled).collect();
            let tx = Queue::from_words(&words).unwrap_or_default();
            let mut odd = Device { sending: top_doubled(before.sending), tx, ..before.clone() };
            odd.cycle(pins);
            *after = Device { sending: after.sending, tx: after.tx, ..odd };
        }
        27 => {
            let mut odd = Device { pins: before.pins.map(rxd_from_fss), ..before.clone() };
            odd.cycle(rxd_from_fss(pins));
            *after = Device { pins: after.pins, ..odd };
        }
        _ => {}
    }
}

/// MIS with RT let through by the bit of IMSC that RX has.
fn mis_off(record: &[u8], word: u32) -> u32 {
    word & !2 | u32::from(record[at::RT] & record[at::IMSC] >> 2) << 1
}

/// In an enabled device SOD may not change and MS may.
fn write_cr1_off(record: &mut [u8], value: u32) -> u32 {
    let held = enabled_device(record).map_or(value, |device| u32::from(device.cr1));
    if value <= 15 && (held ^ value) & 8 != 0 {
        return 5;
    }
    let refusal = Second.write(record, CR1, value & !4 | held & 4);
    if refusal == 0 {
        record[at::CR1] = value as u8;
    }
    refusal
}

/// A run to idle that goes on while RFF is up, not BSY.
fn idle_off(record: &mut [u8], input: &[u8], output: &mut [u8]) -> Ran {
    let Ran { refusal, .. } = Second.run(&mut record.to_vec(), input, &mut output.to_vec());
    let mut ran = Ran { refusal, ..Ran::default() };
    for (pins, lines) in input.iter().zip(output) {
        if refusal != 0 || Second.read(record, SR).1 & 8 == 0 {
            break;
        }
        let cycle = Second.run(record, &[*pins], std::slice::from_mut(lines));
        ran = Ran { count: ran.count + 1, lost: ran.lost.then(cycle.lost), ..ran };
    }
    ran
}

/// One cycle after the other, each with its fault.
fn run_spoiled(number: u32, record: &mut [u8], input: &[u8], output: &mut [u8]) {
    for (pins, lines) in input.iter().zip(output) {
        let before = enabled_device(record);
        Second.run(record, &[*pins], std::slice::from_mut(lines));
        if let (Some(before), Some(mut after)) = (before, enabled_device(record)) {
            spoil_microwire(number, &before, &mut after);
            spoil_timeout(number, &before, *pins, &mut after);
            spoil_bit(number, &before, *pins, &mut after);
            *lines = after.lines;
            record.copy_from_slice(&encode(&after));
        }
    }
}

/// RT stays up, although words were kept.
fn keep_timeout(before: &[u8], record: &mut [u8]) {
    if record.len() == LENGTH && record[at::RX_COUNT] > before[at::RX_COUNT] {
        record[at::RT] |= before[at::RT];
    }
}

/// The second program with the fault of this number.
pub struct Faulty {
    number: u32,
    /// What no program may have: something kept from one call to the next.
    memory: Cell<Lost>,
}

impl Faulty {
    /// Numbers count from 0.
    pub fn new(number: u32) -> Faulty {
        Faulty { number, memory: Cell::default() }
    }
}

impl Model for Faulty {
    fn reset(&self, record: &mut [u8]) -> u32 {
        edition::reset(self.number, record)
    }

    fn reset_edition(&self, record: &mut [u8], edition: u32) -> u32 {
        edition::reset_edition(self.number, record, edition)
    }

    fn read(&self, record: &mut [u8], offset: u32) -> (u32, u32) {
        if EDITION_FAULTS.contains(&self.number) {
            return edition::read(self.number, record, offset);
        }
        let (refusal, word) = Second.read(record, offset);
        match self.number {
            0 if refusal == 8 => (8, 1),
            1 if offset == 0x1C => Second.read(record, 0x18),
            28 if offset == MIS && refusal == 0 => (0, mis_off(record, word)),
            _ => (refusal, word),
        }
    }

    fn write(&self, record: &mut [u8], offset: u32, value: u32) -> u32 {
        if EDITION_FAULTS.contains(&self.number) {
            return edition::write(self.number, record, offset, value);
        }
        let held = record.get(at::RX_COUNT).copied();
        let refusal = match self.number {
            // The bit of ROR clears RT.
            29 if offset == ICR && value <= 3 => Second.write(record, offset, 3 * (value & 1)),
            30 if offset == CR1 => write_cr1_off(record, value),
            _ => Second.write(record, offset, value),
        };
        if self.number == 2 && offset == 0x20 && refusal == 0 && held == Some(8) {
            record[127] = 1;
        }
        lost::write(self.number, refusal, value, &self.memory);
        refusal
    }

    fn run(&self, record: &mut [u8], input: &[u8], output: &mut [u8]) -> Ran {
        if EDITION_FAULTS.contains(&self.number) {
            return edition::run(self.number, record, input, output);
        }
        let mut start = record.to_vec();
        let ran = Second.run(record, input, output);
        let refusal = ran.refusal;
        match self.number {
            number if LOST_FAULTS.contains(&number) => {
                return lost::run(number, (&start, input, output.len()), ran, &self.memory);
            }
            number if refusal == 0 && spoils_cycles(number) => {
                run_spoiled(number, &mut start, input, output);
                record.copy_from_slice(&start);
            }
            3 if refusal == 12 => output[0] = 0,
            4 if refusal == 11 && record.len() == 128 => record[30] ^= 1,
            5 if refusal == 0 && input.len() > 1000 => output[1000] ^= 4,
            9..=14 if refusal == 0 && !input.is_empty() => spoil_engine(self.number, record),
            _ => {}
        }
        ran
    }

    fn run_to_idle(&self, record: &mut [u8], input: &[u8], output: &mut [u8]) -> Ran {
        if EDITION_FAULTS.contains(&self.number) {
            return edition::run_to_idle(self.number, record, input, output);
        }
        if self.number == 31 {
            return idle_off(record, input, output);
        }
        let start = record.to_vec();
        let ran = Second.run_to_idle(record, input, output);
        if self.number == 24 {
            keep_timeout(&start, record);
        }
        match self.number {
            number if LOST_FAULTS.contains(&number) => {
                lost::run_to_idle(number, (&start, input, output.len()), ran, &self.memory)
            }
            6 if ran == Ran::default() && !input.is_empty() => Ran { count: 1, ..ran },
            7 if ran.refusal == 12 => Ran::refused(11),
            _ => ran,
        }
    }

    fn pair_run(&self, first: &mut [u8], second: &mut [u8], cycles: u64) -> PairRan {
        if EDITION_FAULTS.contains(&self.number) {
            return edition::pair_run(self.number, first, second, cycles);
        }
        if self.number == 8 {
            return Second.pair_run(second, first, cycles.saturating_sub(1));
        }
        let start = [first.to_vec(), second.to_vec()];
        // Without cycles the call only checks.
        if self.number == 32 && cycles > 0 && Second.pair_run(first, second, 0).refusal == 0 {
            // TXD of the last lines is LOW where it is driven, as nSSPOE is.
            first[at::LINES] &= !DATA;
            second[at::LINES] &= !DATA;
        }
        let ran = Second.pair_run(first, second, cycles);
        if self.number == 25 {
            keep_timeout(&start[0], first);
            keep_timeout(&start[1], second);
        }
        if LOST_FAULTS.contains(&self.number) {
            return lost::pair_run(self.number, &start, cycles, ran, &self.memory);
        }
        ran
    }

    fn write_text(&self, cycles: &[u8], places: &[u32], text: &mut [u8]) -> (u64, u64) {
        text::write_text(self.number, cycles, places, text)
    }

    fn read_text(&self, text: &[u8], cycles: &mut [u8], starts: &mut [u32]) -> (u64, u64, u64) {
        text::read_text(self.number, text, cycles, starts)
    }

    fn judge(
        &self,
        cr0: u32,
        cpsr: u32,
        recording: &[u8],
        words: &mut [u16; PLACES],
    ) -> (u64, u64) {
        if JUDGE_FAULTS.contains(&self.number) {
            return judge::judge(self.number, (cr0, cpsr), recording, words);
        }
        Second.judge(cr0, cpsr, recording, words)
    }

    fn difference(&self, first: &[u8], second: &[u8]) -> Part {
        difference::difference(self.number, first, second)
    }
}
