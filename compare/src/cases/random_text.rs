//! Random recordings and texts, most of them right or wrong in one place only.

use super::text::{line_starts, read, round_trip, write, write_again, DIGITS};
use crate::bench::{Bench, Step};
use crate::random::Random;
use crate::text::MOST_CYCLES;

/// Texts of one case.
pub const TEXTS: u64 = 1000;

/// Just beside the digits and the line feed, and others that texts elsewhere have.
const OTHERS: &[u8] = b"/:@G`agf\x09\x0B\r\0 \x80\xFF-x";

pub fn texts(bench: &mut Bench, random: &mut Random) -> Step<()> {
    for _ in 0..TEXTS {
        one(bench, random)?;
        bench.counts.random_texts += 1;
    }
    Ok(())
}

/// A recording written, read back, and its text read with some characters changed.
fn one(bench: &mut Bench, random: &mut Random) -> Step<()> {
    let (cycles, places) = recording(random);
    let mut text = round_trip(bench, &cycles, &places)?;
    write_spoiled(bench, random, cycles, places)?;
    if random.percent(85) {
        spoil_text(random, &mut text);
    }
    let digits = text.iter().filter(|character| DIGITS.contains(character)).count();
    let lines = text.iter().filter(|character| **character == b'\n').count();
    let (cycles_len, starts_len) = (length_about(random, digits), length_about(random, lines));
    let back = read(bench, &text, cycles_len, starts_len)?;
    if back.refusal != 0 {
        return Ok(());
    }
    write_again(bench, &text, &back)
}

/// Mostly what is needed, or more.
fn length_about(random: &mut Random, needed: usize) -> usize {
    match random.below(20) {
        0 => needed.saturating_sub(1),
        1 => random.size(needed + 1),
        2 => 0,
        3..=5 => needed + 1,
        6..=8 => needed + random.size(40),
        _ => needed,
    }
}

fn cycle_count(random: &mut Random) -> usize {
    match random.below(100) {
        0..=2 => 0,
        3..=22 => 1 + random.size(6),
        23..=79 => random.size(60),
        80..=97 => random.size(300),
        _ => MOST_CYCLES - random.size(3),
    }
}

/// Cycles, and places that rise within them.
fn recording(random: &mut Random) -> (Vec<u8>, Vec<u32>) {
    let count = cycle_count(random);
    let cycles = (0..count).map(|_| random.below(16) as u8).collect();
    let often = random.pick(&[0, 1, 3, 10, 50, 100]);
    let frame = 1 + random.size(50);
    let regular = random.percent(40);
    let first = if random.percent(50) { 0 } else { random.size(count + 1) };
    let taken = |place: &usize, random: &mut Random| {
        let next = if regular { (place - first) % frame == 0 } else { random.percent(often) };
        *place == first || next
    };
    let places = (first..count).filter(|place| taken(place, random)).map(|place| place as u32);
    (cycles, places.collect())
}

/// The same with a cycle above 15, with places that do not rise, or too long.
fn write_spoiled(
    bench: &mut Bench,
    random: &mut Random,
    mut cycles: Vec<u8>,
    mut places: Vec<u32>,
) -> Step<()> {
    if random.below(60) == 0 {
        let more = random.pick(&[MOST_CYCLES + 1, MOST_CYCLES + 1, MOST_CYCLES, 5000]);
        cycles.resize(more, 7);
    }
    if random.percent(20) && !cycles.is_empty() {
        let at = random.size(cycles.len());
        cycles[at] = random.pick(&[16, 17, 32, 127, 128, 240, 255]);
    }
    if random.percent(40) {
        spoil_places(random, &mut places, cycles.len() as u32);
    }
    let needed = cycles.len() + line_starts(&cycles, &places).len();
    let text_len = length_about(random, needed);
    write(bench, &cycles, &places, text_len).map(drop)
}

fn spoil_places(random: &mut Random, places: &mut Vec<u32>, count: u32) {
    let past = [count, count, count + 1, count + 65_536, 1 << 31, u32::MAX];
    let at = random.size(places.len());
    match random.below(6) {
        0 => places.push(random.pick(&past)),
        1 => places.insert(at, random.pick(&past)),
        2 if !places.is_empty() => places.insert(at, places[at]),
        3 if places.len() > 1 => places.swap(at, 0),
        4 if places.len() > 1 => places.rotate_left(1),
        5 if !places.is_empty() => places[at] = random.below(u64::from(count) + 2) as u32,
        _ => places.push(count.saturating_sub(1)),
    }
}

fn character(random: &mut Random) -> u8 {
    match random.below(10) {
        0..=2 => b'\n',
        3..=5 => random.pick(DIGITS),
        6..=7 => random.pick(OTHERS),
        _ => random.below(256) as u8,
    }
}

/// Changes up to three places; a long text often gets too many digits besides.
fn spoil_text(random: &mut Random, text: &mut Vec<u8>) {
    if text.len() > MOST_CYCLES {
        for _ in 0..random.below(6) {
            text.insert(random.size(text.len()), random.pick(DIGITS));
        }
    }
    for _ in 0..1 + random.below(5) / 2 {
        let character = character(random);
        let at = random.size(text.len());
        match random.below(9) {
            0..=1 => text.insert(at, character),
            2 => text.push(character),
            3 => drop(text.pop()),
            4 => text.truncate(at),
            5 => text.extend_from_slice(&[character, b'\n']),
            6 if !text.is_empty() => drop(text.remove(at)),
            7 if !text.is_empty() => text[at] = text[at].to_ascii_lowercase(),
            _ if !text.is_empty() => text[at] = character,
            _ => text.push(character),
        }
    }
}
