//! Faults in texts.

use crate::model::{Model, Second};
use crate::text::{is_digit, MOST_CYCLES};

/// The second program's writing with one fault.
pub fn write_text(number: u32, cycles: &[u8], places: &[u32], text: &mut [u8]) -> (u64, u64) {
    if number == 36 && cycles.len() == MOST_CYCLES {
        return (13, 0);
    }
    let before = text.to_vec();
    match Second.write_text(cycles, &other_places(number, cycles, places), text) {
        (0, count) => write_more(number, places, count, &before, text),
        (refusal, _) => (refuse_writing(number, refusal, cycles, places, text), 0),
    }
}

/// Refused with 15 in as many cycles, which comes before the buffer.
fn bad_places(count: usize, places: &[u32]) -> bool {
    let cycles = vec![0; count.min(MOST_CYCLES)];
    Second.write_text(&cycles, places, &mut []).0 == 15
}

/// Places that are written in place of these.
fn other_places(number: u32, cycles: &[u8], places: &[u32]) -> Vec<u32> {
    let mut places = places.to_vec();
    let leading = places.first() > Some(&0) && !bad_places(cycles.len(), &places);
    match number {
        // Accepted: one past the last cycle; equal neighbours; a place cut to 16 bits.
        37 => places.retain(|place| *place as usize != cycles.len()),
        38 => places.dedup(),
        39 => places.iter_mut().for_each(|place| *place &= 0xFFFF),
        // Cycles before the first place get no line of their own.
        40 if leading => drop(places.remove(0)),
        _ => {}
    }
    places
}

/// Faults in a text that is written.
fn write_more(
    number: u32,
    places: &[u32],
    count: u64,
    before: &[u8],
    text: &mut [u8],
) -> (u64, u64) {
    let end = count as usize;
    match number {
        // An empty line before a place 0.
        41 if places.first() == Some(&0) && end < text.len() => {
            text.copy_within(0..end, 1);
            text[0] = b'\n';
            return (0, count + 1);
        }
        42 if end < text.len() => text[end] = 0,
        // The last line feed is missing.
        44 if end > 0 => {
            text[end - 1] = before[end - 1];
            return (0, count - 1);
        }
        45 => text[..end].make_ascii_lowercase(),
        _ => {}
    }
    (0, count)
}

/// Faults in a refusal, and in what it leaves.
fn refuse_writing(
    number: u32,
    refusal: u64,
    cycles: &[u8],
    places: &[u32],
    text: &mut [u8],
) -> u64 {
    match (number, refusal) {
        // Two refusals in the other order.
        (33, 13) if cycles.iter().any(|cycle| *cycle > 15) => 14,
        (34, 14) if bad_places(cycles.len(), places) => 15,
        (35, 15) if text.len() < cycles.len() => 16,
        // The digits that find room are written all the same.
        (43, 16) => {
            for (character, cycle) in text.iter_mut().zip(cycles) {
                *character = b"0123456789ABCDEF"[usize::from(*cycle)];
            }
            16
        }
        _ => refusal,
    }
}

/// The second program's reading with one fault.
pub fn read_text(
    number: u32,
    text: &[u8],
    cycles: &mut [u8],
    starts: &mut [u32],
) -> (u64, u64, u64) {
    match number {
        50 if text.iter().filter(|c| is_digit(**c)).count() == MOST_CYCLES => return (13, 0, 0),
        59 if text.is_empty() => return (19, 0, 0),
        _ => {}
    }
    match Second.read_text(&read_as(number, text), cycles, starts) {
        (0, count, lines) => read_more(number, (count, lines), cycles, starts),
        (16, ..) if number == 53 => read_starts_that_fit(text, cycles, starts),
        (refusal, ..) => (refuse_reading(number, refusal, text, cycles), 0, 0),
    }
}

/// Another text that is read in place of this one.
fn read_as(number: u32, text: &[u8]) -> Vec<u8> {
    let mut text = text.to_vec();
    match number {
        46 => text.make_ascii_uppercase(),
        47 => text.retain(|character| *character != b'\r'),
        // Empty lines are skipped.
        48 => {
            text.dedup_by(|a, b| *a == b'\n' && *b == b'\n');
            if text.first() == Some(&b'\n') {
                text.remove(0);
            }
        }
        49 if text.last().is_some_and(|last| *last != b'\n') => text.push(b'\n'),
        // The character behind 9 is A.
        58 => text.iter_mut().filter(|c| **c == b':').for_each(|c| *c = b'A'),
        // A zero byte ends the text.
        60 => text.truncate(text.iter().position(|c| *c == 0).unwrap_or(text.len())),
        _ => {}
    }
    text
}

/// Faults in what a text gives.
fn read_more(
    number: u32,
    counts: (u64, u64),
    cycles: &mut [u8],
    starts: &mut [u32],
) -> (u64, u64, u64) {
    let (count, lines) = (counts.0 as usize, counts.1 as usize);
    match number {
        // Line feeds are counted as cycles are.
        54 => starts[..lines].iter_mut().enumerate().for_each(|(i, start)| *start += i as u32),
        55 => cycles[count..].fill(0),
        _ => {}
    }
    (0, counts.0, counts.1)
}

/// Line starts without room are dropped.
fn read_starts_that_fit(text: &[u8], cycles: &mut [u8], starts: &mut [u32]) -> (u64, u64, u64) {
    let mut all = vec![0; text.len()];
    let (refusal, count, lines) = Second.read_text(text, cycles, &mut all);
    let fit = starts.len().min(lines as usize);
    starts[..fit].copy_from_slice(&all[..fit]);
    (refusal, count, fit as u64)
}

/// Faults in a refusal, and in what it leaves.
fn refuse_reading(number: u32, refusal: u64, text: &[u8], cycles: &mut [u8]) -> u64 {
    let digits = text.iter().filter(|c| is_digit(**c)).count();
    match number {
        // The whole text is looked through for one fault before another.
        51 if digits > MOST_CYCLES => 13,
        52 if digits > cycles.len() => 16,
        57 if refusal != 16 && text.last() != Some(&b'\n') => 19,
        61 if refusal != 16 && text.iter().any(|c| !is_digit(*c) && *c != b'\n') => 17,
        // The cycles before the fault are written.
        56 => {
            let before = text.iter().take_while(|c| is_digit(**c));
            cycles.iter_mut().zip(before).for_each(|(cycle, c)| *cycle = c & 15);
            refusal
        }
        _ => refusal,
    }
}
