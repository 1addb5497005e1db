//! Records put together field by field: on both sides of each limit of soundness, and
//! sound but odd.

use super::damage::probe;
use super::settings::{disable, permitted_cr0, read, run, slot_cycles, speed};
use super::waves::noise;
use crate::bench::{Bench, Step};
use crate::command::Command;
use crate::device::FSS;
use crate::random::Random;
use crate::record::{at, LENGTH};

pub fn near_the_limits(bench: &mut Bench, random: &mut Random) -> Step<()> {
    for _ in 0..150 {
        let record = forge(random);
        bench.load(0, &record);
        bench.forget();
        probe(bench, random)?;
    }
    Ok(())
}

/// Engines whose fields do not fit each other, D95 to D105 and D110.
pub fn odd(bench: &mut Bench, random: &mut Random) -> Step<()> {
    for _ in 0..150 {
        let mut record = forge_odd(random);
        stop_some(random, &mut record);
        bench.load(0, &record);
        bench.forget();
        if random.percent(20) {
            disable(bench, 0)?;
        }
        let cycles = random.pick(&[1, 2, 3, 12, 40]);
        let input = noise(random, cycles);
        run(bench, 0, input)?;
        probe(bench, random)?;
    }
    Ok(())
}

/// Each slot of a Microwire slave of each size, with every flag, at edges of all kinds.
pub fn microwire_slots(bench: &mut Bench, random: &mut Random) -> Step<()> {
    for dss in 3..=15 {
        for slot in 0..=2 * (dss + 1) + 20 {
            for flags in 0..8 {
                let record = forge_microwire(random, dss, slot, flags);
                bench.load(0, &record);
                bench.forget();
                let cycles = random.pick(&[1, 1, 1, 2, 3]);
                let input = noise(random, cycles);
                run(bench, 0, input)?;
            }
        }
    }
    Ok(())
}

/// Captured bits on both sides of their limit, in every format, size and role.
pub fn captured_bits(bench: &mut Bench, random: &mut Random) -> Step<()> {
    for settings in (0..0x30).filter(|settings| settings & 15 >= 3) {
        for cr1 in [2, 6] {
            let mut record = forge_odd(random);
            put(&mut record, at::CR0, settings, 2);
            put(&mut record, at::CR1, cr1, 1);
            put(&mut record, at::SLOT, 0, 1);
            stop_some(random, &mut record);
            for captured in 0..18 {
                put(&mut record, at::CAPTURED, captured, 1);
                bench.load(0, &record);
                bench.forget();
                read(bench, 0, 0x0C)?;
            }
        }
    }
    Ok(())
}

/// Two forged records wired together.
pub fn pair(bench: &mut Bench, random: &mut Random) -> Step<()> {
    for _ in 0..150 {
        for device in 0..2 {
            let mut record = if random.percent(50) { forge_odd(random) } else { forge(random) };
            stop_some(random, &mut record);
            bench.load(device, &record);
        }
        bench.forget();
        let cycles = random.pick(&[0, 1, 1, 2, 3, 12, 40]);
        bench.step(Command::PairRun { cycles })?;
    }
    Ok(())
}

pub fn put(record: &mut [u8], place: usize, value: u32, bytes: usize) {
    record[place..place + bytes].copy_from_slice(&value.to_le_bytes()[..bytes]);
}

/// Mostly within a limit, often at it, now and then just above.
fn up_to(random: &mut Random, limit: u32) -> u32 {
    match random.below(40) {
        0 => limit + 1,
        1..=12 => limit,
        13..=20 => 0,
        _ => random.below(u64::from(limit) + 1) as u32,
    }
}

fn flag(random: &mut Random) -> u32 {
    if random.percent(1) {
        2
    } else {
        random.below(2) as u32
    }
}

fn forge(random: &mut Random) -> [u8; LENGTH] {
    let mut record = [0; LENGTH];
    let (cpsr, scr) = speed(random);
    let cr0 = if random.percent(3) { random.word() } else { permitted_cr0(random, scr) };
    put(&mut record, at::CR0, cr0, 2);
    let cr1 = random.below(16) as u32 | if random.percent(70) { 2 } else { 0 };
    put(&mut record, at::CR1, cr1, 1);
    put(&mut record, at::CPSR, if random.percent(2) { random.below(256) as u32 } else { cpsr }, 1);
    put(&mut record, at::IMSC, up_to(random, 15), 1);
    put(&mut record, at::DMACR, up_to(random, 3), 1);
    for place in [at::ROR, at::RT, at::HELD] {
        put(&mut record, place, flag(random), 1);
    }
    for place in at::PINS..at::PINS + 3 {
        put(&mut record, place, random.below(8) as u32, 1);
    }
    put(&mut record, at::LINES, random.below(16) as u32, 1);
    put(&mut record, at::SENDING, random.word(), 2);
    put(&mut record, at::RECEIVING, random.word(), 2);
    let edition = if random.percent(98) { random.below(2) as u32 } else { other_edition(random) };
    put(&mut record, at::EDITION, edition, 1);
    forge_engine(random, &mut record);
    forge_queue(random, &mut record, at::TX_COUNT, at::TX);
    forge_queue(random, &mut record, at::RX_COUNT, at::RX);
    record
}

/// No edition's byte.
fn other_edition(random: &mut Random) -> u32 {
    random.pick(&[2, 2, 3, 128, 254, 255])
}

/// Often the frame is one that ends with SSE clear; now and then not quite so.
pub fn stop_some(random: &mut Random, record: &mut [u8]) {
    if random.percent(55) {
        return;
    }
    record[at::CR1] &= !2;
    put(record, at::FRAME, 1, 1);
    put(record, at::EDITION, 1, 1);
    put(record, at::RT_COUNT, 0, 4);
    match random.below(30) {
        0 => put(record, at::EDITION, 0, 1),
        1 => put(record, at::EDITION, other_edition(random), 1),
        2 => put(record, at::FRAME, 0, 1),
        3 => put(record, at::RT_COUNT, random.pick(&[1, 63, 256]), 4),
        4 => put(record, at::CPSR, 0, 1),
        5 => put(record, at::CR0, 0, 2),
        6 => put(record, at::SLOT, sizes(record).1 + 1, 1),
        7 => put(record, at::GONE, slot_cycles(record) as u32, 2),
        8 => put(record, at::CAPTURED, most_captured(record) + 1, 1),
        _ => {}
    }
}

/// An enabled device with short slots, its counts where something is decided.
pub fn forge_odd(random: &mut Random) -> [u8; LENGTH] {
    let mut record = forge(random);
    let h = 1 + random.below(3) as u32;
    put(&mut record, at::CR0, permitted_cr0(random, 0), 2);
    put(&mut record, at::CPSR, 2 * h, 1);
    put(&mut record, at::CR1, random.below(16) as u32 | 2, 1);
    put(&mut record, at::RT_COUNT, random.pick(&[0, 64 * h - 2, 64 * h - 1]), 4);
    for place in [at::FRAME, at::SELECTED, at::MARK] {
        put(&mut record, place, random.below(2) as u32, 1);
    }
    let (b, last) = sizes(&record);
    let most = most_captured(&record);
    let captured = random.below(u64::from(most)) as u32;
    put(&mut record, at::CAPTURED, random.pick(&[0, most - 1, most, captured]), 1);
    let slot = random.below(u64::from(last)) as u32;
    let mut slots = vec![0, 1, 2 * b, last - 1, last, slot];
    if is_microwire(&record) {
        // The wait, and where the last data bit ends.
        slots.extend([16, 17, 18, 2 * b + 16, 2 * b + 17, 2 * b + 18]);
    }
    put(&mut record, at::SLOT, random.pick(&slots), 1);
    put(&mut record, at::GONE, random.pick(&[0, 0, h - 1]), 2);
    if random.percent(75) {
        // A Motorola or Microwire slave acts with FSS LOW.
        record[at::PINS..at::PINS + 3].iter_mut().for_each(|pins| *pins &= !FSS);
    }
    record
}

/// A Microwire slave in this slot; bits of the flags: frame, selected, level.
fn forge_microwire(random: &mut Random, dss: u32, slot: u32, flags: u32) -> [u8; LENGTH] {
    let mut record = forge_odd(random);
    let settings = (random.below(4) as u32) << 6 | 0x20 | dss;
    put(&mut record, at::CR0, settings, 2);
    put(&mut record, at::CR1, random.pick(&[6, 6, 7, 14]), 1);
    put(&mut record, at::SLOT, slot, 1);
    for (i, place) in [at::FRAME, at::SELECTED, at::HELD].into_iter().enumerate() {
        put(&mut record, place, flags >> i & 1, 1);
    }
    let captured = random.below(8) as u32;
    put(&mut record, at::CAPTURED, random.pick(&[0, 7, 8, captured]), 1);
    if flags & 1 != 0 {
        stop_some(random, &mut record);
    }
    record
}

pub fn is_microwire(record: &[u8]) -> bool {
    record[at::CR0] & 0x30 == 0x20
}

/// The limit of captured bits: b, but eight in a Microwire slave.
pub fn most_captured(record: &[u8]) -> u32 {
    if is_microwire(record) && record[at::CR1] & 4 != 0 {
        8
    } else {
        sizes(record).0
    }
}

/// b and the format's last slot.
pub fn sizes(record: &[u8]) -> (u32, u32) {
    let b = u32::from(record[at::CR0] & 15) + 1;
    (b, 2 * b + [3, 1, 20, 3][usize::from(record[at::CR0] >> 4 & 3)])
}

/// Frame, slot and counts. With SSE clear mostly zero; otherwise most are of a frame that
/// ends, which is sound in edition 2.
fn forge_engine(random: &mut Random, record: &mut [u8]) {
    let enabled = record[at::CR1] & 2 != 0;
    if !enabled && random.percent(if record[at::EDITION] == 1 { 40 } else { 90 }) {
        return;
    }
    let h = slot_cycles(record) as u32;
    let (b, last) = sizes(record);
    for place in [at::FRAME, at::SELECTED, at::MARK] {
        put(record, place, flag(random), 1);
    }
    put(record, at::RT_COUNT, up_to(random, (64 * h).saturating_sub(1)), 4);
    // Now and then by the limit of other devices.
    let most = if random.percent(90) { most_captured(record) } else { random.pick(&[b, 8]) };
    put(record, at::CAPTURED, up_to(random, most), 1);
    put(record, at::SLOT, up_to(random, last), 1);
    put(record, at::GONE, up_to(random, h.saturating_sub(1)), 2);
    if !enabled && random.percent(80) {
        put(record, at::FRAME, 1, 1);
        put(record, at::RT_COUNT, 0, 4);
    }
}

fn forge_queue(random: &mut Random, record: &mut [u8], count_at: usize, words_at: usize) {
    let count = random.below(9) as u32;
    for i in 0..count as usize {
        put(record, words_at + 2 * i, random.word(), 2);
    }
    match random.below(60) {
        0 => put(record, count_at, 9, 1),
        1 => put(record, count_at, count.saturating_sub(1), 1),
        _ => put(record, count_at, count, 1),
    }
}
