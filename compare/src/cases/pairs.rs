//! Two wired devices, any two, with accesses between.

use super::accesses::{any, gentle};
use super::settings::{enabling, load_words, set_up, speed, write, CPSR, CR0, CR1};
use crate::bench::{Bench, Step};
use crate::command::Command;
use crate::random::Random;
use crate::record::at;

pub fn pair_run(bench: &mut Bench, cycles: u64) -> Step<()> {
    bench.step(Command::PairRun { cycles })?;
    Ok(())
}

pub fn pair(bench: &mut Bench, random: &mut Random) -> Step<()> {
    if random.percent(70) {
        matched(bench, random)?;
    } else {
        for device in 0..2 {
            let slave = random.percent(50);
            let cr1 = enabling(random, slave);
            set_up(bench, random, device, cr1)?;
            write(bench, device, CR1, cr1)?;
        }
    }
    for _ in 0..25 {
        let cycles = random.pick(&[0, 1, 1, 2, 5, 37, 200, 900]);
        pair_run(bench, cycles)?;
        let device = random.size(2);
        match random.below(12) {
            0 => any(bench, random, device)?,
            1..=5 => gentle(bench, random, device)?,
            _ => {}
        }
    }
    Ok(())
}

/// A master and a slave with settings that match, either of them first.
pub fn matched(bench: &mut Bench, random: &mut Random) -> Step<()> {
    let master = random.size(2);
    let slave = 1 - master;
    let cr0 = set_up(bench, random, master, 0)? & 0xFF;
    let microwire = cr0 & 0x30 == 0x20;
    // SPO and SPH mean nothing in Microwire, so those of the two need not be the same.
    let other = if microwire { cr0 ^ (random.below(4) as u32) << 6 } else { cr0 };
    let half = if random.percent(85) { 6 + random.below(3) } else { 1 + random.below(6) };
    write(bench, master, CR0, cr0)?;
    write(bench, master, CPSR, 2 * half as u32)?;
    let (cpsr, scr) = speed(random);
    write(bench, slave, CR0, other | scr << 8)?;
    write(bench, slave, CPSR, cpsr)?;
    write(bench, slave, CR1, 4)?;
    let count = random.below(9);
    load_words(bench, random, slave, count)?;
    let before = random.below(8);
    pair_run(bench, before)?;
    write(bench, slave, CR1, 6)?;
    let later = random.below(20);
    pair_run(bench, later)?;
    write(bench, master, CR1, 2)?;
    if random.percent(50) {
        // Eight of the longest words.
        pair_run(bench, 8 * half * if microwire { 51 } else { 36 })?;
    }
    Ok(())
}

/// Lengths and soundness of either record.
pub fn refusals(bench: &mut Bench, random: &mut Random) -> Step<()> {
    matched(bench, random)?;
    let kept = [0, 1].map(|device| bench.record(device).to_vec());
    for _ in 0..60 {
        for (device, whole) in kept.iter().enumerate() {
            let mut spoiled = whole.clone();
            match random.below(4) {
                0 => {
                    let length = random.pick(&[0, 127, 129]);
                    spoiled.resize(length, 0);
                }
                1 => spoiled[at::LINES] = 16,
                _ => {}
            }
            bench.load(device, &spoiled);
        }
        bench.forget();
        let cycles = random.below(4);
        pair_run(bench, cycles)?;
    }
    Ok(())
}
