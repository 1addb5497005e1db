//! Single bits, none of them by chance: wherever a program picks a bit, some call here has it
//! differ from each of its neighbours.

use super::accesses::REGISTERS;
use super::pairs::pair_run;
use super::settings::{idle, read, run, write, CR1, DR, ICR, MIS, RIS, SSE};
use crate::bench::{Bench, Step};
use crate::device::offset::{IDENTITY, SR};
use crate::device::{permitted, Device, Queue};
use crate::random::Random;
use crate::record::{at, encode};
use crate::recording::lines_to_rest;

/// Bits of each of `REGISTERS`.
const WIDTHS: [u32; 10] = [16, 4, 16, 5, 8, 4, 4, 4, 2, 2];

/// CR0 of eight bits: permitted still, whichever one bit is flipped.
const EIGHT_BITS: u16 = 0x07;

/// CR1, enabled.
const MASTER: u8 = 2;
const SLAVE: u8 = 6;

pub fn one_by_one(bench: &mut Bench, _: &mut Random) -> Step<()> {
    let mut parts = [registers, control, interrupts, words, status, pins, lines].into_iter();
    parts.try_for_each(|part| part(bench))
}

/// With slots of one cycle.
fn device(cr0: u16, cr1: u8) -> Device {
    Device { cr0, cr1, cpsr: 2, ..Device::reset() }
}

fn load(bench: &mut Bench, device: &Device) {
    bench.load(0, &encode(device));
    bench.forget();
}

/// Words with one bit set from this place on, and those with it clear.
fn single_bits(first: usize, count: usize) -> [Queue; 2] {
    let words: Vec<u16> = (first..first + count).map(|i| 1 << i).collect();
    let clear: Vec<u16> = words.iter().map(|word| !word).collect();
    [words, clear].map(|words| Queue::from_words(&words).unwrap_or_default())
}

fn held(count: usize) -> Queue {
    single_bits(0, count)[0]
}

/// Each input byte after each other one, again and again.
fn every_pins(cycles: usize) -> Vec<u8> {
    (0..64).flat_map(|i| [i / 8, i % 8]).cycle().take(cycles).collect()
}

/// Every register and its width.
fn all_registers() -> impl Iterator<Item = (u32, u32)> {
    let identity = (0..8).map(|i| (IDENTITY + 4 * i, 8));
    REGISTERS.into_iter().zip(WIDTHS).chain(identity)
}

/// What all registers read, and what they make of the next cycles once enabled.
fn show(bench: &mut Bench) -> Step<()> {
    for (offset, _) in all_registers() {
        read(bench, 0, offset)?;
    }
    let cr1 = u32::from(bench.record(0)[at::CR1]);
    write(bench, 0, CR1, cr1 | SSE)?;
    run(bench, 0, every_pins(40)).map(drop)
}

/// Each register gets one bit, all its bits but one, and its value with one bit changed.
fn registers(bench: &mut Bench) -> Step<()> {
    for cr1 in [0, MASTER, SLAVE] {
        let flags = Device { imsc: 5, ror: true, rt: true, ..device(EIGHT_BITS, cr1) };
        let start = Device { tx: held(3), rx: held(8), ..flags };
        for (offset, width) in all_registers() {
            load(bench, &start);
            let now = read(bench, 0, offset)?.value as u32;
            let others = [(1 << width) - 1, now];
            let flipped = (0..width).flat_map(|i| others.map(|value| value ^ 1 << i));
            for value in (0..32).map(|i| 1 << i).chain(flipped) {
                load(bench, &start);
                write(bench, 0, offset, value)?;
                show(bench)?;
            }
        }
    }
    Ok(())
}

/// Each CR1 after each other one: what refuses it, and its effect.
fn control(bench: &mut Bench) -> Step<()> {
    for (cr0, cpsr) in [(EIGHT_BITS, 2), (EIGHT_BITS, 0), (0, 2)] {
        for pair in 0..=255 {
            load(bench, &Device { cpsr, tx: held(2), ..device(cr0, pair & 15) });
            write(bench, 0, CR1, u32::from(pair >> 4))?;
            show(bench)?;
        }
    }
    Ok(())
}

/// Each set of interrupts with each mask, then each ICR.
fn interrupts(bench: &mut Bench) -> Step<()> {
    for raised in 0..16 {
        let up = |i: u8| raised >> i & 1 != 0;
        let flags = Device { ror: up(0), rt: up(1), rt_count: 5, ..device(EIGHT_BITS, MASTER) };
        let (rx, tx) = (held(3 + usize::from(up(2))), held(5 - usize::from(up(3))));
        for imsc in 0..16 {
            for clear in 0..4 {
                load(bench, &Device { imsc, rx, tx, ..flags.clone() });
                read(bench, 0, MIS)?;
                write(bench, 0, ICR, clear)?;
                read(bench, 0, RIS)?;
                read(bench, 0, MIS)?;
            }
        }
    }
    Ok(())
}

/// What a master with these words shows, as a slave's pins.
pub fn wave(cr0: u16, tx: Queue) -> Vec<u8> {
    let mut master = Device { tx, ..device(cr0, MASTER) };
    let rest = [master.idle_lines(); 3];
    let sent = lines_to_rest(&mut master);
    rest.iter().chain(&sent).chain(&rest).map(|lines| lines & 7).collect()
}

/// Each bit of a word, alone set and alone clear, sent and received with all settings but
/// the speed.
fn words(bench: &mut Bench) -> Step<()> {
    let loads = [single_bits(0, 8), single_bits(8, 8)].concat();
    for cr0 in (0..0x100).filter(|cr0| permitted(*cr0)) {
        for (i, tx) in loads.iter().enumerate() {
            for cr1 in [MASTER, MASTER | 1] {
                load(bench, &Device { tx: *tx, ..device(cr0, cr1) });
                run(bench, 0, every_pins(40))?;
                // Eight of the longest words have fewer cycles.
                idle(bench, 0, every_pins(450))?;
            }
            // Not the slave's own words, so that loopback shows.
            let input = wave(cr0, loads[(i + 1) % loads.len()]);
            for cr1 in [SLAVE, SLAVE | 1, SLAVE | 8] {
                load(bench, &Device { tx: *tx, ..device(cr0, cr1) });
                run(bench, 0, input.clone())?;
                read(bench, 0, DR)?;
            }
        }
    }
    Ok(())
}

/// Both runs from one state, after a read.
fn run_both(bench: &mut Bench, start: &Device, cycles: usize) -> Step<()> {
    load(bench, start);
    read(bench, 0, SR)?;
    run(bench, 0, every_pins(cycles))?;
    load(bench, start);
    idle(bench, 0, every_pins(cycles)).map(drop)
}

/// Each SR there is, in both roles and disabled.
fn status(bench: &mut Bench) -> Step<()> {
    let counts = [0, 1, 8].map(|tx| [0, 1, 8].map(|rx| (held(tx), held(rx)))).concat();
    for cr1 in [0, MASTER, MASTER | 1, SLAVE] {
        for (tx, rx) in &counts {
            for frame in [false, cr1 != 0] {
                let start = Device { tx: *tx, rx: *rx, ..device(EIGHT_BITS, cr1) };
                run_both(bench, &Device { frame, selected: frame, ..start }, 200)?;
            }
        }
    }
    Ok(())
}

/// A slave of each format and phase with all pins it can have seen, in a frame and not.
fn pins(bench: &mut Bench) -> Step<()> {
    for cr0 in [0x07, 0x47, 0x87, 0xC7, 0x17, 0x27] {
        for seen in 0..8 * 8 * 8 {
            let pins = [0, 3, 6].map(|place| (seen >> place & 7) as u8);
            for frame in [false, true] {
                let start = Device { tx: held(8), pins, ..device(cr0, SLAVE) };
                let start = Device { frame, selected: frame, mark: frame, ..start };
                run_both(bench, &start, 3)?;
            }
        }
    }
    Ok(())
}

/// Each two line bytes as those that a pair shows each other; no other call looks at them.
fn lines(bench: &mut Bench) -> Step<()> {
    for both in 0..=255 {
        let [first, second] = [(both & 15, MASTER), (both >> 4, SLAVE)]
            .map(|(lines, cr1)| Device { lines, tx: held(1), ..device(EIGHT_BITS, cr1) });
        run_both(bench, &first, 1)?;
        run_both(bench, &second, 1)?;
        load(bench, &first);
        bench.load(1, &encode(&second));
        pair_run(bench, 1)?;
    }
    Ok(())
}
