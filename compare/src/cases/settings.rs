//! Random settings, run lengths and set-up sequences.

use crate::bench::{Bench, Step};
use crate::command::Command;
use crate::random::Random;
use crate::record::at;
use crate::session::Outcome;
use crate::stopped::stopped;

pub use crate::device::offset::{CPSR, CR0, CR1, DR, ICR, IMSC, MIS, RIS};

pub const SSE: u32 = 2;
pub const MS: u32 = 4;

pub fn write(bench: &mut Bench, device: usize, offset: u32, value: u32) -> Step<Outcome> {
    bench.step(Command::Write { device, offset, value })
}

pub fn read(bench: &mut Bench, device: usize, offset: u32) -> Step<Outcome> {
    bench.step(Command::Read { device, offset })
}

pub fn run(bench: &mut Bench, device: usize, input: Vec<u8>) -> Step<Outcome> {
    let output_len = input.len();
    bench.step(Command::Run { device, input, output_len })
}

pub fn idle(bench: &mut Bench, device: usize, input: Vec<u8>) -> Step<Outcome> {
    let output_len = input.len();
    bench.step(Command::Idle { device, input, output_len })
}

/// CPSR and SCR for a slot of h cycles, where h has such factors.
pub fn factors(random: &mut Random, h: u32) -> (u32, u32) {
    let choices: Vec<u32> = (1..=127).filter(|half| h % half == 0 && h / half <= 256).collect();
    let half = choices.get(random.size(choices.len())).copied().unwrap_or(1);
    (2 * half, (h / half - 1).min(255))
}

/// CPSR and SCR: mostly short slots, some long ones.
pub fn speed(random: &mut Random) -> (u32, u32) {
    match random.below(100) {
        0..=59 => {
            let h = 1 + random.below(4) as u32;
            factors(random, h)
        }
        60..=93 => {
            let h = 1 + random.below(24) as u32;
            factors(random, h)
        }
        _ => (2 + 2 * random.below(127) as u32, random.below(256) as u32),
    }
}

/// h as a record has it.
pub fn slot_cycles(record: &[u8]) -> usize {
    usize::from(record[at::CPSR] / 2) * (1 + usize::from(record[at::CR0 + 1]))
}

/// A permitted CR0 with this clock rate.
pub fn permitted_cr0(random: &mut Random, scr: u32) -> u32 {
    let frf = random.below(3) as u32;
    let dss =
        if random.percent(30) { random.pick(&[3, 7, 15]) } else { 3 + random.below(13) as u32 };
    scr << 8 | (random.below(4) as u32) << 6 | frf << 4 | dss
}

pub fn length(random: &mut Random) -> usize {
    match random.below(100) {
        0..=7 => 0,
        8..=22 => 1,
        23..=59 => random.size(20),
        60..=91 => random.size(250),
        _ => random.size(2000),
    }
}

/// Clears SSE and keeps the other bits of CR1.
pub fn disable(bench: &mut Bench, device: usize) -> Step<()> {
    let cr1 = u32::from(bench.record(device)[at::CR1]);
    write(bench, device, CR1, cr1 & !SSE)?;
    Ok(())
}

/// A frame of more cycles is not waited for.
const LONGEST: usize = 4000;

/// Clears SSE, and sees a frame of edition 2 to its end: then the settings can be written.
pub fn stop(bench: &mut Bench, device: usize) -> Step<()> {
    disable(bench, device)?;
    let Some(frame) = stopped(bench.record(device)) else { return Ok(()) };
    // No frame of a master has more slots.
    let cycles = if frame.slave() { 8 } else { 56 * slot_cycles(bench.record(device)) };
    if cycles > LONGEST {
        return bench.step(Command::ResetEdition { device, edition: 2 }).map(drop);
    }
    // FSS HIGH and CLK falling: the end of any slave's frame.
    let input = [3, 2].into_iter().cycle().take(cycles).collect();
    run(bench, device, input)?;
    let over = stopped(bench.record(device)).is_none();
    bench.require(over, "the frame is over")
}

pub fn load_words(bench: &mut Bench, random: &mut Random, device: usize, count: u64) -> Step<()> {
    for _ in 0..count {
        let word = random.word();
        write(bench, device, DR, word)?;
    }
    Ok(())
}

/// Sets a device up and leaves it off; returns its CR0.
pub fn set_up(bench: &mut Bench, random: &mut Random, device: usize, cr1: u32) -> Step<u32> {
    stop(bench, device)?;
    let (cpsr, scr) = speed(random);
    let cr0 = permitted_cr0(random, scr);
    write(bench, device, CR0, cr0)?;
    write(bench, device, CPSR, cpsr | random.below(2) as u32)?;
    write(bench, device, CR1, cr1 & !SSE)?;
    let count = random.below(10);
    load_words(bench, random, device, count)?;
    Ok(cr0)
}

/// CR1 for a role, loopback and SOD by chance, SSE set.
pub fn enabling(random: &mut Random, slave: bool) -> u32 {
    let role = if slave { MS } else { 0 };
    let loopback = u32::from(random.percent(25));
    let no_output = if random.percent(20) { 8 } else { 0 };
    role | loopback | no_output | SSE
}
