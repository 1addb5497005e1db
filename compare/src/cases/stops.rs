//! Resets to editions, SSE cleared and set again in each cycle of a frame, and the limits of
//! soundness with SSE clear; none of it by chance.

use super::pairs::pair_run;
use super::settings::{disable, idle, read, run, write, CPSR, CR0, CR1, SSE};
use crate::bench::{Bench, Step};
use crate::calls::pair_cycle;
use crate::command::Command;
use crate::device::offset::SR;
use crate::device::{permitted, Device, Edition, Queue, PLACES};
use crate::random::Random;
use crate::record::{at, encode};

/// CR1, enabled.
pub const MASTER: u8 = 2;
pub const SLAVE: u8 = 6;

/// CR0 of four bits, in each format and phase.
pub const FOUR_BITS: [u16; 6] = [0x03, 0x43, 0x83, 0xC3, 0x13, 0x23];

const WORDS: [u16; 3] = [0xA5C6, 0x5A39, 0xFFFF];

/// Numbers of editions, two of them right.
pub const NUMBERS: [u32; 13] =
    [0, 1, 2, 3, 128, 255, 256, 257, 258, 0x1_0001, 0x8000_0002, 0xFFFF_FFFE, 0xFFFF_FFFF];

pub fn fixed(bench: &mut Bench, _: &mut Random) -> Step<()> {
    let reached = [resets, every_stop, every_return, every_pair];
    let forged = [soundness, odd_masters, odd_slaves];
    reached.iter().chain(&forged).try_for_each(|part| part(bench))
}

/// Each edition into records of each length that hold either edition before; then the plain
/// reset, which is to the first.
fn resets(bench: &mut Bench) -> Step<()> {
    for length in 0..=130 {
        for edition in NUMBERS {
            for held in [0, 1] {
                let mut record = encode(&Device::reset()).to_vec();
                record[at::EDITION] = held;
                record.resize(length, 0);
                bench.load(0, &record);
                bench.forget();
                bench.step(Command::ResetEdition { device: 0, edition })?;
                bench.step(Command::Reset { device: 0 })?;
            }
        }
    }
    Ok(())
}

/// Each CR0 without SCR.
pub fn settings() -> impl Iterator<Item = u16> {
    (0..0x100).filter(|cr0| permitted(*cr0))
}

/// SPO and SPH mean nothing but in Motorola.
pub fn has_phase(cr0: u16) -> bool {
    cr0 & 0x30 == 0 || cr0 & 0xC0 == 0
}

/// An enabled device with so many words, of slots of h cycles. RT is up, and one word that
/// comes is kept, the next lost.
pub fn start(cr0: u16, cr1: u8, h: u8, words: usize) -> Device {
    let tx = Queue::from_words(&WORDS[..words]).unwrap_or_default();
    let rx = Queue::from_words(&[1; PLACES - 1]).unwrap_or_default();
    let device = Device { cr0, cr1, cpsr: 2 * h, tx, rx, rt: true, ..Device::reset() };
    Device { edition: Edition::Second, ..device }
}

/// What the device gets: levels of RXD for a master, for a slave a master's lines.
fn pins(device: &Device, cycles: usize) -> Vec<u8> {
    let mut master = start(device.cr0, MASTER, device.cpsr / 2, 2);
    let mut sent = vec![master.idle_lines(); 2];
    sent.extend((0..cycles).map(|_| master.cycle(0).lines));
    let rxd = (0..cycles).map(|i| (i % 3 % 2) as u8 * 4);
    if device.slave() {
        sent[..cycles].iter().map(|lines| lines & 7).collect()
    } else {
        rxd.collect()
    }
}

/// Cycles of two words and their idle slots, and some more.
fn whole(device: &Device) -> usize {
    (2 * usize::from(device.last_slot()) + 4) * device.slot_cycles() as usize
}

/// Every state in a run of the device, with the pins that come after it.
pub fn states(device: &Device) -> Vec<(Device, Vec<u8>)> {
    let input = pins(device, whole(device));
    let mut device = device.clone();
    let mut states = Vec::new();
    for (i, pins) in input.iter().enumerate() {
        states.push((device.clone(), input[i..].to_vec()));
        device.cycle(*pins);
    }
    states
}

pub fn load(bench: &mut Bench, device: &Device) {
    bench.load(0, &encode(device));
    bench.forget();
}

/// SSE cleared after each cycle of two words, in either edition, with all settings but the
/// speed; then settings that are refused until the frame is over, and the rest of the run.
fn every_stop(bench: &mut Bench) -> Step<()> {
    for cr0 in settings().filter(|cr0| has_phase(*cr0)) {
        for cr1 in [MASTER, MASTER | 1, SLAVE, SLAVE | 9] {
            for (state, input) in states(&start(cr0, cr1, 1, 3)) {
                for edition in [Edition::First, Edition::Second] {
                    load(bench, &Device { edition, ..state.clone() });
                    stop(bench, cr1, input.clone())?;
                }
            }
        }
    }
    Ok(())
}

fn stop(bench: &mut Bench, cr1: u8, mut input: Vec<u8>) -> Step<()> {
    let off = u32::from(cr1) & !SSE;
    write(bench, 0, CR1, off)?;
    refused_settings(bench, off)?;
    let rest = input.split_off(1);
    run(bench, 0, input)?;
    read(bench, 0, SR)?;
    idle(bench, 0, rest).map(drop)
}

/// Where they are accepted, after the frame or in edition 1, all is as before.
fn refused_settings(bench: &mut Bench, cr1: u32) -> Step<()> {
    let record = bench.record(0);
    let (cr0, cpsr) = (record[at::CR0], record[at::CPSR]);
    write(bench, 0, CR0, u32::from(cr0))?;
    write(bench, 0, CPSR, u32::from(cpsr))?;
    for bits in [1, 4, 8] {
        write(bench, 0, CR1, cr1 ^ bits)?;
        write(bench, 0, CR1, cr1)?;
    }
    Ok(())
}

/// SSE cleared after each cycle of a frame and set again after each later one, with and
/// without a word that waits.
fn every_return(bench: &mut Bench) -> Step<()> {
    for cr0 in FOUR_BITS {
        for cr1 in [MASTER, SLAVE] {
            for words in [1, 3] {
                for (state, input) in states(&start(cr0, cr1, 2, words)) {
                    if state.frame {
                        returns(bench, &state, &input)?;
                    }
                }
            }
        }
    }
    Ok(())
}

/// From this state, SSE not set again, then after each number of cycles, as long as the frame
/// goes on.
fn returns(bench: &mut Bench, state: &Device, input: &[u8]) -> Step<()> {
    let mut stopped = Device { cr1: state.cr1 & !(SSE as u8), ..state.clone() };
    load(bench, &stopped);
    run(bench, 0, input.to_vec())?;
    for (i, pins) in input.iter().enumerate() {
        load(bench, &stopped);
        write(bench, 0, CR1, u32::from(state.cr1))?;
        run(bench, 0, input[i..].to_vec())?;
        if !stopped.frame {
            break;
        }
        stopped.cycle(*pins);
    }
    Ok(())
}

/// A wired pair of which either device loses SSE after each cycle, in all editions.
fn every_pair(bench: &mut Bench) -> Step<()> {
    for cr0 in [0x03, 0xC3, 0x13, 0x23] {
        let mut pair = [start(cr0, SLAVE, 2, 1), start(cr0, MASTER, 2, 1)];
        for _ in 0..whole(&pair[0]) {
            for kind in 0..8 {
                stop_in_pair(bench, &pair, kind)?;
            }
            let [one, other] = &mut pair;
            pair_cycle(one, other);
        }
    }
    Ok(())
}

/// Bits of the kind: the two editions, and which device it is.
fn stop_in_pair(bench: &mut Bench, pair: &[Device; 2], kind: usize) -> Step<()> {
    for (i, device) in pair.iter().enumerate() {
        let mut record = encode(device);
        record[at::EDITION] = (kind >> i & 1) as u8;
        bench.load(i, &record);
    }
    bench.forget();
    disable(bench, kind >> 2)?;
    pair_run(bench, 1)?;
    pair_run(bench, 40)
}

/// Each limit with SSE set and clear, in a frame and not, in either edition and in none.
fn soundness(bench: &mut Bench) -> Step<()> {
    for cr0 in [0x03, 0x07, 0x8F, 0x13, 0x1F, 0x23, 0x2F] {
        for cr1 in [MASTER, SLAVE] {
            let device = start(cr0, cr1, 2, 0);
            let most = device.incoming_bits();
            let fields = [
                (at::SLOT, vec![0, device.last_slot(), device.last_slot() + 1]),
                (at::GONE, vec![0, 1, 2]),
                (at::CAPTURED, vec![0, most, most + 1]),
                (at::RT_COUNT, vec![0, 1, 127, 128]),
                (at::SELECTED, vec![0, 1]),
                (at::MARK, vec![0, 1]),
                (at::HELD, vec![0, 1]),
                (at::CPSR, vec![0, 2, 4]),
                (at::CR0, vec![0, cr0 as u8]),
            ];
            for (place, values) in &fields {
                for (other, others) in &fields {
                    let both = values.iter().flat_map(|a| others.iter().map(move |b| (*a, *b)));
                    for (value, second) in both {
                        each_edition(bench, &device, [(*place, value), (*other, second)])?;
                    }
                }
            }
        }
    }
    Ok(())
}

/// The device with two bytes changed, in each edition and with SSE and frame of all kinds.
fn each_edition(bench: &mut Bench, device: &Device, changes: [(usize, u8); 2]) -> Step<()> {
    for kind in 0..16 {
        let mut record = encode(device);
        record[at::EDITION] = kind & 3;
        record[at::FRAME] = kind >> 2 & 1;
        record[at::CR1] ^= (kind >> 3) * MASTER;
        for (place, value) in changes {
            record[place] = value;
        }
        bench.load(0, &record);
        bench.forget();
        read(bench, 0, SR)?;
        disable(bench, 0)?;
    }
    Ok(())
}

/// A device in a frame with SSE clear; bits of the kind: level, and two for the bits captured.
fn odd(cr0: u16, cr1: u8, kind: u8) -> Device {
    let start = start(cr0, cr1 & !(SSE as u8), 2, 1);
    let most = start.incoming_bits();
    let captured = [0, 1, most - 1, most][usize::from(kind >> 1 & 3)];
    let held = kind & 1 != 0;
    Device { frame: true, captured, held, sending: 0x9, receiving: 0x6, ..start }
}

/// One cycle, then some more, from a state that may be odd.
fn run_odd(bench: &mut Bench, device: &Device) -> Step<()> {
    load(bench, device);
    run(bench, 0, vec![4])?;
    run(bench, 0, vec![1, 4, 5]).map(drop)
}

/// A master in each slot, at its start and later.
fn odd_masters(bench: &mut Bench) -> Step<()> {
    for cr0 in FOUR_BITS {
        for slot in 0..=odd(cr0, MASTER, 0).last_slot() {
            for kind in 0..32 {
                let device = odd(cr0, MASTER | kind >> 4, kind);
                let gone = u16::from(kind >> 3 & 1);
                run_odd(bench, &Device { slot, gone, ..device })?;
            }
        }
    }
    Ok(())
}

/// A slave with all pins that it can see; Microwire's slots are those where something changes.
fn odd_slaves(bench: &mut Bench) -> Step<()> {
    for cr0 in FOUR_BITS {
        let microwire = [0, 1, 16, 17, 18, 23, 24, 25, 26, 28];
        let slots = if cr0 & 0x30 == 0x20 { &microwire[..] } else { &[0] };
        for slot in slots {
            for seen in 0..64 {
                for kind in 0..32 {
                    let (selected, mark) = (kind >> 3 & 1 != 0, kind >> 4 & 1 != 0);
                    let pins = [0, seen & 7, seen >> 3];
                    let device = Device { selected, mark, pins, ..odd(cr0, SLAVE, kind) };
                    run_odd(bench, &Device { slot: *slot, ..device })?;
                }
            }
        }
    }
    Ok(())
}
