//! Random accesses, and a sweep over every offset.

use super::settings::{self, enabling, read, set_up, write, CR0, CR1, DR, ICR};
use super::waves::noise;
use crate::bench::{Bench, Step};
use crate::random::Random;
use crate::record::at;

pub const REGISTERS: [u32; 10] = [0x00, 0x04, 0x08, 0x0C, 0x10, 0x14, 0x18, 0x1C, 0x20, 0x24];

fn offset(random: &mut Random) -> u32 {
    match random.below(20) {
        0 => random.below(0x1010) as u32,
        1 => 4 * random.below(0x404) as u32,
        2 => 0xFE0 + 4 * random.below(8) as u32,
        3 => random.number() as u32,
        4 => random.pick(&[0x28, 0xFDC, 0xFE0, 0xFFC, 0x1000, 0x80, 0x84, 0x8000_0000, u32::MAX]),
        _ => random.pick(&REGISTERS),
    }
}

/// A value, often one that this register takes.
fn value(random: &mut Random, bench: &Bench, device: usize, offset: u32) -> u32 {
    if random.percent(8) {
        return match random.below(3) {
            0 => random.number() as u32,
            1 => 1 << random.below(32),
            _ => random.word(),
        };
    }
    match offset {
        CR0 => {
            let scr = settings::speed(random).1;
            settings::permitted_cr0(random, scr)
        }
        CR1 => {
            let now = u32::from(bench.record(device)[at::CR1]);
            let flips = random.pick(&[0, 2, 2, 8, 10, 1, 4, 5]);
            now ^ flips
        }
        0x10 => random.pick(&[0, 1, 2, 2, 3, 4, 6, 12, 254, 255]),
        0x14 => random.below(16) as u32,
        ICR | 0x24 => random.below(4) as u32,
        _ => random.word(),
    }
}

/// One access, done or refused.
pub fn any(bench: &mut Bench, random: &mut Random, device: usize) -> Step<()> {
    let chosen = if random.percent(30) { DR } else { offset(random) };
    if random.percent(50) {
        read(bench, device, chosen)?;
    } else {
        let given = value(random, bench, device, chosen);
        write(bench, device, chosen, given)?;
    }
    Ok(())
}

/// One access that leaves an enabled device enabled.
pub fn gentle(bench: &mut Bench, random: &mut Random, device: usize) -> Step<()> {
    match random.below(10) {
        0..=3 => write(bench, device, DR, random.word())?,
        4..=6 => read(bench, device, DR)?,
        7 => write(bench, device, ICR, random.below(4) as u32)?,
        8 => read(bench, device, random.pick(&[0x0C, 0x18, 0x1C]))?,
        _ => {
            let cr1 = u32::from(bench.record(device)[at::CR1]);
            write(bench, device, CR1, cr1 ^ random.pick(&[0, 8]))?
        }
    };
    Ok(())
}

pub fn sequence(bench: &mut Bench, random: &mut Random) -> Step<()> {
    if random.percent(70) {
        let slave = random.percent(40);
        let cr1 = enabling(random, slave);
        set_up(bench, random, 0, cr1)?;
        write(bench, 0, CR1, cr1)?;
    }
    for _ in 0..120 {
        any(bench, random, 0)?;
        if random.percent(20) {
            let cycles = random.size(40);
            let input = noise(random, cycles);
            settings::run(bench, 0, input)?;
        }
    }
    Ok(())
}

/// Each offset, read and written, from one reached record again and again.
pub fn every_offset(bench: &mut Bench, random: &mut Random) -> Step<()> {
    sequence(bench, random)?;
    let kept = bench.record(0).to_vec();
    for offset in 0..=0x1010 {
        bench.load(0, &kept);
        bench.forget();
        read(bench, 0, offset)?;
        let given = value(random, bench, 0, offset);
        for value in [0, given, 0xF, 0x10, 0x100, 0x1_0000] {
            bench.load(0, &kept);
            write(bench, 0, offset, value)?;
        }
    }
    Ok(())
}
