//! Large h, up to the largest.

use super::settings::{self, disable, enabling, permitted_cr0, read, slot_cycles, stop, write};
use super::settings::{CPSR, CR0, CR1, DR};
use super::waves::noise;
use crate::bench::{Bench, Step};
use crate::random::Random;

/// Cycles of one such run at most.
const LONGEST: usize = 150_000;

pub fn large_slots(bench: &mut Bench, random: &mut Random) -> Step<()> {
    let cr1 = enabling(random, false);
    let scr = random.pick(&[0, 1, 127, 254, 255]);
    let cr0 = permitted_cr0(random, scr);
    write(bench, 0, CR0, cr0)?;
    write(bench, 0, CPSR, random.pick(&[2, 128, 252, 254]))?;
    for _ in 0..1 + random.below(3) {
        write(bench, 0, DR, random.word())?;
    }
    write(bench, 0, CR1, cr1)?;
    for _ in 0..8 {
        run_about_a_slot(bench, random)?;
    }
    disable(bench, 0)?;
    for _ in 0..3 {
        run_about_a_slot(bench, random)?;
    }
    stop(bench, 0)?;
    write(bench, 0, DR, random.word())?;
    long_timeout(bench, random)
}

fn run_about_a_slot(bench: &mut Bench, random: &mut Random) -> Step<()> {
    let h = slot_cycles(bench.record(0));
    let cycles = match random.below(4) {
        0 => h,
        1 => h - 1,
        2 => 1 + random.size(h),
        _ => LONGEST.min(random.size(8 * h)),
    };
    let input = noise(random, cycles);
    settings::run(bench, 0, input)?;
    Ok(())
}

/// A timeout of many cycles after a frame at the shortest slot.
fn long_timeout(bench: &mut Bench, random: &mut Random) -> Step<()> {
    write(bench, 0, CR0, 0x0003)?;
    write(bench, 0, CPSR, 2)?;
    write(bench, 0, CR1, 3)?;
    let input = noise(random, 200);
    settings::run(bench, 0, input)?;
    stop(bench, 0)?;
    let scr = random.below(16) as u32;
    write(bench, 0, CR0, scr << 8 | 0x13)?;
    write(bench, 0, CPSR, random.pick(&[2, 100, 254]))?;
    write(bench, 0, CR1, 3)?;
    let cycles = 64 * slot_cycles(bench.record(0));
    for cycles in [cycles - 1, 1, 1] {
        let input = noise(random, cycles);
        settings::run(bench, 0, input)?;
        read(bench, 0, 0x18)?;
    }
    Ok(())
}
