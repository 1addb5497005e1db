//! Runs and runs to idle in all formats, both roles.

use super::accesses::{any, gentle};
use super::settings::{self, disable, enabling, length, set_up, write, CR0, CR1, SSE};
use super::waves::{bursts, noise, wave_for, Source};
use crate::bench::{Bench, Step};
use crate::random::Random;

pub fn master(bench: &mut Bench, random: &mut Random) -> Step<()> {
    for _ in 0..1 + random.below(4) {
        let cr1 = enabling(random, false);
        set_up(bench, random, 0, cr1)?;
        write(bench, 0, CR1, cr1)?;
        for _ in 0..random.below(30) {
            let cycles = length(random);
            let input = noise(random, cycles);
            match random.below(10) {
                0..=4 => drop(settings::run(bench, 0, input)?),
                5 => drop(settings::idle(bench, 0, input)?),
                6 if random.percent(20) => any(bench, random, 0)?,
                _ => gentle(bench, random, 0)?,
            }
        }
        stop_and_go(bench, random, cr1)?;
    }
    Ok(())
}

/// Clears SSE in the middle and sets it again, with or without cycles between.
fn stop_and_go(bench: &mut Bench, random: &mut Random, cr1: u32) -> Step<()> {
    disable(bench, 0)?;
    let cycles = random.pick(&[0, 0, 1, 2, 3, 30]);
    let input = noise(random, cycles);
    settings::run(bench, 0, input)?;
    write(bench, 0, CR1, cr1)?;
    let cycles = length(random);
    let input = noise(random, cycles);
    settings::run(bench, 0, input)?;
    Ok(())
}

pub fn slave(bench: &mut Bench, random: &mut Random) -> Step<()> {
    for _ in 0..1 + random.below(3) {
        let cr1 = enabling(random, true);
        let cr0 = set_up(bench, random, 0, cr1)?;
        let wave = if random.percent(75) { wave_for(random, cr0) } else { noise(random, 1500) };
        enable_and_follow(bench, random, cr1, wave)?;
    }
    Ok(())
}

/// A Microwire slave of any size, with clocks that reach all its data bits.
pub fn microwire_slave(bench: &mut Bench, random: &mut Random) -> Step<()> {
    for _ in 0..1 + random.below(3) {
        let cr1 = enabling(random, true);
        let cr0 = set_up(bench, random, 0, cr1)? & !0x30 | 0x20;
        write(bench, 0, CR0, cr0)?;
        let wave = match random.below(8) {
            0 => noise(random, 800),
            1 | 2 => wave_for(random, cr0),
            _ => bursts(random, (cr0 & 15) as usize + 1),
        };
        enable_and_follow(bench, random, cr1, wave)?;
    }
    Ok(())
}

/// Enabled somewhere in the waveform's first part.
fn enable_and_follow(bench: &mut Bench, random: &mut Random, cr1: u32, wave: Vec<u8>) -> Step<()> {
    let mut source = Source::new(wave);
    let early = random.size(60);
    let input = source.take(random, early);
    settings::run(bench, 0, input)?;
    write(bench, 0, CR1, cr1)?;
    follow(bench, random, &mut source)
}

fn follow(bench: &mut Bench, random: &mut Random, source: &mut Source) -> Step<()> {
    for _ in 0..200 {
        if source.is_over() {
            break;
        }
        let cycles = length(random);
        let input = source.take(random, cycles);
        if random.percent(85) {
            settings::run(bench, 0, input)?;
        } else {
            let outcome = settings::idle(bench, 0, input)?;
            source.put_back(cycles - outcome.value as usize);
            // A slave at rest would stop at once for ever.
            let input = source.take(random, 1);
            settings::run(bench, 0, input)?;
        }
        match random.below(100) {
            0 => any(bench, random, 0)?,
            1..=40 => gentle(bench, random, 0)?,
            _ => {}
        }
    }
    Ok(())
}

/// The same device as master, then slave, then master, with its queues kept.
pub fn change_of_role(bench: &mut Bench, random: &mut Random) -> Step<()> {
    for turn in 0..6 {
        let cr1 = enabling(random, turn % 2 == 0);
        let cr0 = set_up(bench, random, 0, cr1)?;
        write(bench, 0, CR1, cr1 & !SSE)?;
        write(bench, 0, CR1, cr1)?;
        let wave = wave_for(random, cr0);
        let mut source = Source::new(wave);
        for _ in 0..8 {
            let cycles = length(random);
            let input = source.take(random, cycles);
            settings::run(bench, 0, input)?;
            any(bench, random, 0)?;
        }
    }
    Ok(())
}
