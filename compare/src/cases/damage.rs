//! Damaged records: every single bit, and bytes at random.

use super::accesses::any;
use super::engine;
use super::settings::{idle, run};
use super::waves::noise;
use crate::bench::{Bench, Step};
use crate::command::Command;
use crate::random::Random;
use crate::record::LENGTH;

/// Brings device 0 into some reached state.
fn reach(bench: &mut Bench, random: &mut Random) -> Step<()> {
    match random.below(4) {
        0 => engine::slave(bench, random),
        1 => engine::change_of_role(bench, random),
        2 => engine::microwire_slave(bench, random),
        _ => engine::master(bench, random),
    }
}

/// Accesses and short runs from the record as it is.
pub fn probe(bench: &mut Bench, random: &mut Random) -> Step<()> {
    any(bench, random, 0)?;
    any(bench, random, 0)?;
    let cycles = random.pick(&[0, 1, 2, 12, 40]);
    let input = noise(random, cycles);
    run(bench, 0, input)?;
    let cycles = random.size(12);
    let input = noise(random, cycles);
    idle(bench, 0, input)?;
    any(bench, random, 0)
}

pub fn every_bit(bench: &mut Bench, random: &mut Random) -> Step<()> {
    reach(bench, random)?;
    let kept = bench.record(0).to_vec();
    for bit in 0..8 * LENGTH {
        let mut flipped = kept.clone();
        flipped[bit / 8] ^= 1 << (bit % 8);
        bench.load(0, &flipped);
        bench.forget();
        probe(bench, random)?;
        if bit % 32 == 0 {
            bench.load(0, &flipped);
            bench.step(Command::Reset { device: 0 })?;
        }
    }
    Ok(())
}

pub fn random_bytes(bench: &mut Bench, random: &mut Random) -> Step<()> {
    reach(bench, random)?;
    let kept = bench.record(0).to_vec();
    for _ in 0..300 {
        let mut bytes = kept.clone();
        for _ in 0..1 + random.below(3) {
            let reach = if random.percent(80) { 64 } else { LENGTH };
            let at = random.size(reach);
            let value = random.number() as u8 & random.pick(&[1, 3, 15, 255]);
            bytes[at] = value;
        }
        bench.load(0, &bytes);
        bench.forget();
        probe(bench, random)?;
    }
    for _ in 0..30 {
        let length = random.pick(&[0, 1, 127, LENGTH, LENGTH, LENGTH, 129, 200]);
        let bytes: Vec<u8> = (0..length).map(|_| random.number() as u8).collect();
        bench.load(0, &bytes);
        bench.forget();
        wild_probe(bench, random)?;
        bench.step(Command::Reset { device: 0 })?;
    }
    Ok(())
}

/// As `probe`, for a record of any length.
fn wild_probe(bench: &mut Bench, random: &mut Random) -> Step<()> {
    let device = 0;
    let cycles = random.size(5);
    let input = noise(random, cycles);
    let output_len = cycles;
    bench.step(Command::Read { device, offset: random.below(0x30) as u32 })?;
    bench.step(Command::Write { device, offset: random.below(0x30) as u32, value: 3 })?;
    bench.step(Command::Run { device, input: input.clone(), output_len })?;
    bench.step(Command::Idle { device, input, output_len })?;
    Ok(())
}
