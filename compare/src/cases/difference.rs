//! What differs in two recordings, by chance and not.

use super::text::every_list;
use crate::bench::{Bench, Step};
use crate::command::Command;
use crate::judge::MOST_CYCLES;
use crate::random::Random;

/// Pairs of one random case.
const PAIRS: u64 = 60;

/// The call has no record, so a replay needs nothing before it.
pub fn difference(bench: &mut Bench, first: &[u8], second: &[u8]) -> Step<()> {
    bench.forget();
    let (first, second) = (first.to_vec(), second.to_vec());
    bench.step(Command::Difference { first, second }).map(drop)
}

pub fn both_ways(bench: &mut Bench, one: &[u8], other: &[u8]) -> Step<()> {
    difference(bench, one, other)?;
    difference(bench, other, one)
}

pub fn fixed(bench: &mut Bench, _: &mut Random) -> Step<()> {
    let parts = [short_ones, every_place, long_ones];
    parts.iter().try_for_each(|part| part(bench))
}

/// Each two of up to three bytes, cycles and others.
fn short_ones(bench: &mut Bench) -> Step<()> {
    let all = every_list(&[0, 15, 16, 0xFF], 3);
    for first in &all {
        for second in &all {
            difference(bench, first, second)?;
        }
    }
    Ok(())
}

fn flipped(bytes: &[u8], at: usize, change: u8) -> Vec<u8> {
    let mut bytes = bytes.to_vec();
    bytes[at] ^= change;
    bytes
}

/// Of each length up to some machine words: one a beginning of the other, or different at each
/// place, in each bit there.
fn every_place(bench: &mut Bench) -> Step<()> {
    let bytes: Vec<u8> = (0..40u8).map(|i| i.wrapping_mul(37)).collect();
    for length in 0..=bytes.len() {
        let one = &bytes[..length];
        for shorter in 0..=length {
            both_ways(bench, one, &bytes[..shorter])?;
        }
        for place in 0..length {
            let other = flipped(one, place, 1 << ((place + length) % 8));
            both_ways(bench, one, &other)?;
            both_ways(bench, one, &other[..=place])?;
            both_ways(bench, &other, &one[..place])?;
        }
    }
    Ok(())
}

/// Longer than any recording that is written or judged, different at either end and about the
/// limits of those.
fn long_ones(bench: &mut Bench) -> Step<()> {
    let bytes: Vec<u8> = (0..3 * MOST_CYCLES).map(|i| (i * i / 251) as u8).collect();
    let places = [0, 4095, 4096, 4097, 65_535, 65_536, 65_537, 100_000, bytes.len() - 1];
    for length in [4096, 4097, MOST_CYCLES, MOST_CYCLES + 1, bytes.len()] {
        let one = &bytes[..length];
        both_ways(bench, one, one)?;
        both_ways(bench, one, &[])?;
        for place in places.into_iter().filter(|place| *place < length) {
            both_ways(bench, one, &one[..place])?;
            both_ways(bench, one, &flipped(one, place, 0x10))?;
            both_ways(bench, &flipped(one, place, 1), &one[..length / 2])?;
        }
    }
    Ok(())
}

/// Pairs that are alike for a while, of any bytes or of cycles.
pub fn random(bench: &mut Bench, random: &mut Random) -> Step<()> {
    for _ in 0..PAIRS {
        let values = random.pick(&[2, 16, 256]);
        let length = match random.below(100) {
            0 | 1 => MOST_CYCLES + random.size(9000),
            2 | 3 => random.size(9000),
            _ => random.size(300),
        };
        let mut one: Vec<u8> = (0..length).map(|_| random.below(values) as u8).collect();
        let mut other = one.clone();
        for _ in 0..random.pick(&[0, 1, 1, 2, 5]) {
            if let Some(byte) = other.get_mut(random.size(length)) {
                *byte ^= 1 << random.below(8);
            }
        }
        match random.below(4) {
            0 => other.truncate(random.size(length + 1)),
            1 => one.truncate(random.size(length + 1)),
            2 => other.extend((0..random.size(9)).map(|_| 7)),
            _ => {}
        }
        both_ways(bench, &one, &other)?;
    }
    Ok(())
}
