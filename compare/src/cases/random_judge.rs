//! Recordings of random lists and settings, most of them right or wrong in one place only.

use super::difference::both_ways;
use super::judge::{accept, draw, idle_lines, judge, slot_cycles, Settings, LINES};
use super::settings::{factors, permitted_cr0};
use crate::bench::{Bench, Step};
use crate::device::PLACES;
use crate::judge::MOST_CYCLES;
use crate::random::Random;

/// Recordings of one case.
pub const RECORDINGS: u64 = 100;

pub fn recordings(bench: &mut Bench, random: &mut Random) -> Step<()> {
    at_the_limits(bench, random)?;
    for _ in 0..RECORDINGS {
        one(bench, random)?;
        bench.counts.verdicts.random += 1;
    }
    Ok(())
}

/// A recording with an idle slot too many and one with a ninth word; then by settings just
/// beyond those that can be enabled; then with idle lines up to the longest that is judged.
fn at_the_limits(bench: &mut Bench, random: &mut Random) -> Step<()> {
    let (cr0, cpsr) = right_settings(random);
    let mut lines = draw((cr0, cpsr), &list(random, PLACES), MOST_CYCLES - 1);
    let (h, idle) = (slot_cycles((cr0, cpsr)), idle_lines((cr0, cpsr)));
    judge(bench, (cr0, cpsr), &[&lines[..], &vec![idle; h]].concat())?;
    // At SPH 0 a word ends as the last one does.
    for cr0 in [cr0, cr0 & !0xB0] {
        let nine = draw((cr0, cpsr), &[random.word() as u16; 9], MOST_CYCLES);
        judge(bench, (cr0, cpsr), &nine)?;
    }
    let wrong_cr0 = [cr0 | 0x1_0000, cr0 & !15 | 2, cr0 | 0x30].map(|cr0| (cr0, cpsr));
    let wrong_cpsr = [0, 1, cpsr | 0x100].map(|cpsr| (cr0, cpsr));
    for wrong in wrong_cr0.into_iter().chain(wrong_cpsr) {
        judge(bench, wrong, &lines)?;
    }
    for length in [MOST_CYCLES - 1, MOST_CYCLES, MOST_CYCLES + 1, MOST_CYCLES + 2] {
        both_ways(bench, &lines, &[&lines[..], &[idle]].concat())?;
        lines.resize(length, idle);
        for cpsr in [cpsr, 1] {
            judge(bench, (cr0, cpsr), &lines)?;
        }
    }
    Ok(())
}

/// A list with settings: its recording, or one that is spoiled, or judged by other settings.
fn one(bench: &mut Bench, random: &mut Random) -> Step<()> {
    let settings = right_settings(random);
    let words = list(random, PLACES);
    let right = draw(settings, &words, MOST_CYCLES + 1);
    if random.percent(20) && right.len() <= MOST_CYCLES {
        return accept(bench, settings, &right, &words);
    }
    let mut lines = right.clone();
    if random.percent(85) {
        spoil(random, settings, &mut lines);
        both_ways(bench, &right, &lines)?;
    }
    let settings = if random.percent(20) { other_settings(random, settings) } else { settings };
    judge(bench, settings, &lines).map(drop)
}

/// Mostly short slots, so that there is time for many; a few of any length.
fn right_settings(random: &mut Random) -> Settings {
    let h = match random.below(2000) {
        0 => 1 + random.below(32_512) as u32,
        1..=20 => 1 + random.below(40) as u32,
        21..=400 => 1 + random.below(10) as u32,
        _ => 1 + random.below(3) as u32,
    };
    let (cpsr, scr) = factors(random, h);
    (permitted_cr0(random, scr), cpsr + random.below(2) as u32)
}

fn list(random: &mut Random, most: usize) -> Vec<u16> {
    let count = if random.percent(20) { most } else { 1 + random.size(most) };
    (0..count).map(|_| random.word() as u16).collect()
}

/// A change that may leave them right: then another list, or none, gives the recording.
fn other_settings(random: &mut Random, settings: Settings) -> Settings {
    let (cr0, cpsr) = settings;
    match random.below(12) {
        0 => (cr0 ^ 0x40, cpsr),
        1 => (cr0 ^ 0x80, cpsr),
        2 => (cr0 ^ 1 << random.below(32), cpsr),
        3 => (cr0 ^ 1 << (4 + random.below(2)), cpsr),
        4 => (cr0 & !15 | random.below(16) as u32, cpsr),
        5 => (cr0, cpsr ^ 1),
        6 => (cr0, cpsr ^ 1 << random.below(32)),
        7 => (cr0, random.below(4) as u32),
        8 => (cr0, cpsr + 2),
        9 => (cr0 ^ 0x100, cpsr),
        10 => (cr0 & !15 | random.below(4) as u32, random.below(3) as u32),
        _ => (random.number() as u32, random.number() as u32),
    }
}

fn spoil(random: &mut Random, settings: Settings, lines: &mut Vec<u8>) {
    let h = slot_cycles(settings);
    let at = random.size(lines.len());
    match random.below(16) {
        0 => lines.truncate(at),
        1 => lines.truncate(lines.len() - 1),
        2 => lines.truncate(lines.len() - h),
        3..=5 => flip(random, lines),
        6 => drop(lines.remove(at)),
        7 => lines.insert(at, lines[at]),
        8 => lines[at] ^= 16 << random.below(4),
        9 => spoil_slot(random, h, lines),
        10 => lines.extend(vec![idle_lines(settings); random.pick(&[1, h, 2 * h])]),
        11 => *lines = draw(settings, &list(random, PLACES + 4), MOST_CYCLES + 1),
        12 => lines.extend(draw(settings, &list(random, 2), MOST_CYCLES)),
        13 => splice(random, settings, lines),
        14 if random.percent(10) => {
            let length = random.pick(&[MOST_CYCLES - 1, MOST_CYCLES, MOST_CYCLES + 1, 70_000]);
            lines.resize(length, idle_lines(settings));
        }
        14 => noise(random, lines),
        _ => lines.clear(),
    }
}

/// One line, or more, in one to three cycles.
fn flip(random: &mut Random, lines: &mut [u8]) {
    for _ in 0..random.pick(&[1, 1, 2, 3]) {
        let at = random.size(lines.len());
        lines[at] ^= random.pick(&LINES);
    }
}

/// A whole slot is missing, doubled, or has a wrong line.
fn spoil_slot(random: &mut Random, h: usize, lines: &mut Vec<u8>) {
    let slots = lines.len() / h;
    let from = h * random.size(slots);
    let slot = from..(from + h).min(lines.len());
    match random.below(3) {
        0 => drop(lines.drain(slot)),
        1 => {
            let again = lines[slot].to_vec();
            lines.splice(from..from, again);
        }
        _ => {
            let line = random.pick(&LINES);
            lines[slot].iter_mut().for_each(|cycle| *cycle ^= line);
        }
    }
}

/// The rest is another list's.
fn splice(random: &mut Random, settings: Settings, lines: &mut Vec<u8>) {
    let other = draw(settings, &list(random, PLACES), MOST_CYCLES + 1);
    let place = random.size(lines.len().min(other.len()));
    lines.truncate(place);
    lines.extend(&other[place..]);
}

fn noise(random: &mut Random, lines: &mut [u8]) {
    let from = random.size(lines.len());
    lines[from..].iter_mut().for_each(|cycle| *cycle = random.below(16) as u8);
}
