//! The receive timeout: its limit, and words that arrive while RT is up or about to be.

use super::accesses::gentle;
use super::forged::{forge_odd, is_microwire, most_captured, put, sizes, stop_some};
use super::pairs::pair_run;
use super::settings::{enabling, idle, load_words, permitted_cr0, read, run, set_up, slot_cycles};
use super::settings::{write, CPSR, CR0, CR1, DR, ICR, IMSC, MIS, RIS};
use super::waves::{few_words, noise};
use crate::bench::{Bench, Step};
use crate::device::{CLK, FSS};
use crate::random::Random;
use crate::record::{at, LENGTH};

/// On both sides of the limit.
pub fn limit(bench: &mut Bench, random: &mut Random) -> Step<()> {
    let cr1 = enabling(random, false);
    set_up(bench, random, 0, cr1)?;
    write(bench, 0, CPSR, 2 + 2 * random.below(3) as u32)?;
    write(bench, 0, CR1, cr1)?;
    let h = slot_cycles(bench.record(0));
    if h > 64 {
        return Ok(());
    }
    let input = noise(random, 500 * h);
    idle(bench, 0, input)?;
    for _ in 0..12 {
        let cycles = match random.below(5) {
            0 => 64 * h,
            1 => 64 * h - 1,
            2 => 1,
            3 => random.size(130 * h),
            _ => random.size(8),
        };
        let input = noise(random, cycles);
        run(bench, 0, input)?;
        read(bench, 0, RIS)?;
        match random.below(6) {
            0 => drop(read(bench, 0, DR)?),
            1 => drop(write(bench, 0, ICR, random.below(4) as u32)?),
            2 => gentle(bench, random, 0)?,
            _ => {}
        }
    }
    Ok(())
}

/// Cycles about the limit.
fn wait(random: &mut Random, h: usize) -> usize {
    64 * h - 5 + random.size(12)
}

/// Values of CR0, CPSR and CR1; IMSC is random.
fn enable(bench: &mut Bench, random: &mut Random, device: usize, values: [u32; 3]) -> Step<()> {
    let [cr0, cpsr, cr1] = values;
    let imsc = random.below(16) as u32;
    for (offset, value) in [(CR0, cr0), (CPSR, cpsr), (IMSC, imsc), (CR1, cr1)] {
        write(bench, device, offset, value)?;
    }
    Ok(())
}

fn send(bench: &mut Bench, random: &mut Random, device: usize) -> Step<()> {
    let count = 1 + random.below(3);
    load_words(bench, random, device, count)
}

/// What a driver does at a timeout; some never read, so that words overrun.
fn serve(bench: &mut Bench, random: &mut Random, device: usize, reads: u64) -> Step<()> {
    read(bench, device, random.pick(&[RIS, MIS]))?;
    if random.percent(reads) {
        for _ in 0..1 + random.below(3) {
            read(bench, device, DR)?;
        }
    }
    match random.below(8) {
        0 => drop(write(bench, device, ICR, random.below(4) as u32)?),
        1 => drop(write(bench, device, IMSC, random.below(16) as u32)?),
        _ => {}
    }
    Ok(())
}

/// Words, then none until about the limit, again and again, in either role.
pub fn late_words(bench: &mut Bench, random: &mut Random) -> Step<()> {
    let slave = random.percent(50);
    let h = random.pick(&[1, 1, 1, 2]);
    let cr0 = permitted_cr0(random, 0);
    let cr1 = enabling(random, slave);
    enable(bench, random, 0, [cr0, 2 * h as u32, cr1])?;
    let reads = random.pick(&[0, 20, 60]);
    for _ in 0..8 {
        if !slave || random.percent(40) {
            send(bench, random, 0)?;
        }
        let input = if slave {
            few_words(random, cr0)
        } else {
            let cycles = random.size(120 * h);
            noise(random, cycles)
        };
        let last = input.last().copied().unwrap_or(0);
        if random.percent(25) {
            idle(bench, 0, input)?;
        } else {
            run(bench, 0, input)?;
        }
        let cycles = wait(random, h);
        run(bench, 0, vec![last; cycles])?;
        serve(bench, random, 0, reads)?;
    }
    Ok(())
}

/// The same in a pair with one CR0; the slave's h is 1.
pub fn late_pair(bench: &mut Bench, random: &mut Random) -> Step<()> {
    let master = random.size(2);
    let h = random.pick(&[1, 1, 2, 6]);
    let cr0 = permitted_cr0(random, 0);
    let cr1 = enabling(random, true);
    enable(bench, random, 1 - master, [cr0, 2, cr1])?;
    pair_run(bench, 4)?;
    let cr1 = enabling(random, false);
    enable(bench, random, master, [cr0, 2 * h as u32, cr1])?;
    let reads = random.pick(&[0, 20, 60]);
    for _ in 0..5 {
        send(bench, random, master)?;
        if random.percent(40) {
            send(bench, random, 1 - master)?;
        }
        let limit = random.pick(&[1, h]);
        let cycles = random.size(120 * h) + wait(random, limit);
        pair_run(bench, cycles as u64)?;
        let device = random.size(2);
        serve(bench, random, device, reads)?;
    }
    Ok(())
}

/// Records in which the next cycle has the last bit of a word, D114. No run leads to most
/// of them, since a frame holds the count at zero.
pub fn arrivals(bench: &mut Bench, random: &mut Random) -> Step<()> {
    for _ in 0..75 {
        for device in 0..2 {
            let record = forge_arrival(random);
            bench.load(device, &record);
        }
        bench.forget();
        let cycles = random.pick(&[1, 1, 2, 3]);
        let input = noise(random, cycles);
        match random.below(4) {
            0 => pair_run(bench, cycles as u64)?,
            1 => drop(idle(bench, 0, input)?),
            _ => drop(run(bench, 0, input)?),
        }
        read(bench, 0, random.pick(&[RIS, MIS]))?;
    }
    Ok(())
}

fn forge_arrival(random: &mut Random) -> [u8; LENGTH] {
    let mut record = forge_odd(random);
    let limit = 64 * slot_cycles(&record) as u32;
    let count = random.pick(&[0, 1, limit - 3, limit - 2, limit - 1, limit - 1]);
    put(&mut record, at::RT_COUNT, count, 4);
    put(&mut record, at::FRAME, 1, 1);
    put(&mut record, at::SELECTED, 1, 1);
    let captured = most_captured(&record) - 1;
    put(&mut record, at::CAPTURED, captured, 1);
    let slot = capture_slot(random, &record);
    put(&mut record, at::SLOT, slot, 1);
    put(&mut record, at::GONE, 0, 2);
    capture_edge(random, &mut record);
    if random.percent(40) {
        put(&mut record, at::RX_COUNT, 8, 1);
    }
    // Or not quite so: then in most of them no word arrives.
    match random.below(20) {
        0 => put(&mut record, at::CAPTURED, captured + 1, 1),
        1 => put(&mut record, at::CAPTURED, captured - 1, 1),
        2 => put(&mut record, at::FRAME, 0, 1),
        3 => record[at::PINS + 1] |= FSS,
        _ => {}
    }
    stop_some(random, &mut record);
    record
}

/// A master's slot with the last capture of a word; in a slave one before Microwire's wait.
fn capture_slot(random: &mut Random, record: &[u8]) -> u32 {
    let b = sizes(record).0;
    if record[at::CR1] & 4 != 0 {
        return random.below(9) as u32;
    }
    match record[at::CR0] >> 4 & 3 {
        0 => 2 * b,
        1 => random.pick(&[1, 2 * b + 1, 2 * b + 1]),
        _ => 2 * b + 17,
    }
}

/// The next cycle sees the edge at which a slave captures.
fn capture_edge(random: &mut Random, record: &mut [u8]) {
    let cr0 = record[at::CR0];
    let ti = cr0 >> 4 & 3 == 1;
    let phase = cr0 & 0xC0;
    let rise = is_microwire(record) || !ti && (phase == 0 || phase == 0xC0);
    for (place, high) in [(at::PINS + 1, rise), (at::PINS + 2, !rise)] {
        let clk = if high { CLK } else { 0 };
        let kept = if ti { !CLK } else { !(CLK | FSS) };
        record[place] = random.below(8) as u8 & kept | clk;
    }
}
