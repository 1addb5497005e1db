//! The two editions by chance: SSE cleared and set again in frames, and resets to any edition.

use super::accesses::{any, gentle};
use super::pairs::{matched, pair_run};
use super::settings::{enabling, idle, load_words, permitted_cr0, run, slot_cycles, speed, write};
use super::settings::{CPSR, CR0, CR1, SSE};
use super::stops::NUMBERS;
use super::waves::{bursts, noise, wave_for, Source};
use crate::bench::{Bench, Step};
use crate::command::Command;
use crate::random::Random;
use crate::record::{at, LENGTH};

/// Turns over bits of CR1.
fn flip(bench: &mut Bench, device: usize, bits: u32) -> Step<()> {
    let cr1 = u32::from(bench.record(device)[at::CR1]);
    write(bench, device, CR1, cr1 ^ bits).map(drop)
}

/// What a driver may try in a frame that ends: settings, which are refused, and the rest.
fn meddle(bench: &mut Bench, random: &mut Random, device: usize) -> Step<()> {
    let scr = random.below(3) as u32;
    match random.below(8) {
        0 => write(bench, device, CR0, permitted_cr0(random, scr)).map(drop),
        1 => write(bench, device, CPSR, random.pick(&[0, 1, 2, 3, 4, 8])).map(drop),
        // MS, LBM or both, with and without SSE; SOD may change.
        2 | 3 => flip(bench, device, random.pick(&[1, 4, 5, 3, 6, 7, 8, 9, 12])),
        4 => any(bench, random, device),
        5 => load_words(bench, random, device, 1),
        _ => gentle(bench, random, device),
    }
}

/// How often SSE changes, in a hundred: mostly in frames, and back soon after them.
fn change(bench: &Bench, device: usize) -> u64 {
    let record = bench.record(device);
    match (u32::from(record[at::CR1]) & SSE != 0, record[at::FRAME] != 0) {
        (true, true) => 50,
        (true, false) => 10,
        (false, true) => 30,
        (false, false) => 80,
    }
}

fn touch(bench: &mut Bench, random: &mut Random, device: usize) -> Step<()> {
    if random.percent(change(bench, device)) {
        flip(bench, device, SSE)?;
    }
    for _ in 0..random.pick(&[0, 0, 1, 2]) {
        meddle(bench, random, device)?;
    }
    if random.percent(10) {
        flip(bench, device, SSE)?;
    }
    Ok(())
}

/// Pins for a device with this CR0; a master captures what it gets.
fn pins_for(random: &mut Random, cr0: u32, slave: bool) -> Vec<u8> {
    match random.below(8) {
        _ if !slave => noise(random, 1500),
        0 | 1 => noise(random, 1500),
        2..=4 if cr0 & 0x30 == 0x20 => bursts(random, (cr0 & 15) as usize + 1),
        _ => wave_for(random, cr0),
    }
}

/// A device of either role whose SSE is cleared and set within its frames.
pub fn stops(bench: &mut Bench, random: &mut Random) -> Step<()> {
    for _ in 0..6 {
        let edition = random.pick(&[1, 2, 2, 2, 2, 2]);
        bench.step(Command::ResetEdition { device: 0, edition })?;
        let slave = random.percent(50);
        let cr1 = enabling(random, slave);
        let cr0 = set_up_short(bench, random, cr1)?;
        let pins = pins_for(random, cr0, slave);
        stop_often(bench, random, Source::new(pins))?;
    }
    Ok(())
}

/// Enables a device, mostly with short slots, so that its frames end, and few words.
fn set_up_short(bench: &mut Bench, random: &mut Random, cr1: u32) -> Step<u32> {
    let short = (random.pick(&[2, 4, 6]), 0);
    let (cpsr, scr) = if random.percent(85) { short } else { speed(random) };
    let cr0 = permitted_cr0(random, scr);
    write(bench, 0, CR0, cr0)?;
    write(bench, 0, CPSR, cpsr)?;
    let count = random.pick(&[0, 1, 1, 2, 3, 8]);
    load_words(bench, random, 0, count)?;
    write(bench, 0, CR1, cr1)?;
    Ok(cr0)
}

/// Pieces of a few slots, with SSE changed between them.
fn stop_often(bench: &mut Bench, random: &mut Random, mut source: Source) -> Step<()> {
    let h = slot_cycles(bench.record(0)).min(8);
    let longest = random.pick(&[2, 12, 60]);
    for _ in 0..60 {
        let cycles = random.size(longest * h + 2);
        let input = source.take(random, cycles);
        if random.percent(80) {
            run(bench, 0, input)?;
        } else {
            let outcome = idle(bench, 0, input)?;
            source.put_back(cycles - outcome.value as usize);
        }
        touch(bench, random, 0)?;
    }
    Ok(())
}

/// A wired pair, each device of its own edition; SSE of either changes within frames.
pub fn stopped_pair(bench: &mut Bench, random: &mut Random) -> Step<()> {
    matched(bench, random)?;
    let h = [0, 1].map(|device| slot_cycles(bench.record(device)).min(9));
    let longest = h[0].max(h[1]) * random.pick(&[2, 12, 40]);
    for _ in 0..40 {
        let cycles = random.size(longest + 2);
        pair_run(bench, cycles as u64)?;
        if random.percent(60) {
            let device = random.size(2);
            touch(bench, random, device)?;
        }
    }
    Ok(())
}

/// Any edition, any length, whatever the bytes held.
pub fn resets(bench: &mut Bench, random: &mut Random) -> Step<()> {
    for _ in 0..60 {
        let length = random.pick(&[0, 1, 64, 127, LENGTH, LENGTH, LENGTH, LENGTH, 129, 256]);
        let bytes: Vec<u8> = match random.below(3) {
            0 => vec![random.pick(&[0, 255]); length],
            1 => (0..length).map(|_| random.number() as u8).collect(),
            _ => vec![0; length],
        };
        bench.load(0, &bytes);
        bench.forget();
        let edition = match random.below(4) {
            0 => random.pick(&[1, 2]),
            1 => random.number() as u32,
            _ => random.pick(&NUMBERS),
        };
        if random.percent(20) {
            bench.step(Command::Reset { device: 0 })?;
        }
        bench.step(Command::ResetEdition { device: 0, edition })?;
        bench.step(Command::Read { device: 0, offset: 0x0C })?;
        if random.percent(20) {
            bench.step(Command::Reset { device: 0 })?;
        }
    }
    Ok(())
}
