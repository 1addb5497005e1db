//! Recordings as text: one frame a line, a capital hexadecimal digit a cycle.

use crate::device::refusal;

/// The most cycles of a text.
pub const MOST_CYCLES: usize = 4096;

const LINE_FEED: u8 = b'\n';

/// Refusal number and the number of bytes written. Places are the cycles in which words
/// were taken.
pub fn write_text(cycles: &[u8], places: &[u32], text: &mut [u8]) -> (u64, u64) {
    match try_write(cycles, places, text) {
        Ok(count) => (0, count as u64),
        Err(number) => (u64::from(number), 0),
    }
}

fn try_write(cycles: &[u8], places: &[u32], text: &mut [u8]) -> Result<usize, u32> {
    if cycles.len() > MOST_CYCLES {
        return Err(refusal::TOO_MANY_CYCLES);
    }
    if cycles.iter().copied().max() > Some(15) {
        return Err(refusal::BAD_CYCLE);
    }
    if !rise_below(places, cycles.len()) {
        return Err(refusal::BAD_PLACES);
    }
    let length = cycles.len() + count_lines(cycles, places);
    let text = text.get_mut(..length).ok_or(refusal::TOO_SHORT)?;
    fill_text(cycles, places, text);
    Ok(length)
}

/// Each is above the one before it and below the limit.
fn rise_below(places: &[u32], limit: usize) -> bool {
    let rise = places.windows(2).all(|pair| pair[0] < pair[1]);
    rise && places.iter().all(|place| (*place as usize) < limit)
}

/// A line for each place, and one for cycles before the first.
fn count_lines(cycles: &[u8], places: &[u32]) -> usize {
    let leading = !cycles.is_empty() && places.first() != Some(&0);
    places.len() + usize::from(leading)
}

fn fill_text(cycles: &[u8], places: &[u32], text: &mut [u8]) {
    let (mut start, mut at) = (0, 0);
    // A line ends where the next begins, the last with the cycles.
    for end in places.iter().map(|place| *place as usize).chain([cycles.len()]) {
        let line = &cycles[start..end];
        if line.is_empty() {
            // Before a place 0 and in a text of no cycles.
            continue;
        }
        let line_feed = at + line.len();
        for (character, cycle) in text[at..line_feed].iter_mut().zip(line) {
            *character = digit(*cycle);
        }
        text[line_feed] = LINE_FEED;
        (start, at) = (end, line_feed + 1);
    }
}

fn digit(cycle: u8) -> u8 {
    if cycle < 10 {
        b'0' + cycle
    } else {
        b'A' + (cycle - 10)
    }
}

pub fn is_digit(character: u8) -> bool {
    matches!(character, b'0'..=b'9' | b'A'..=b'F')
}

/// The cycle of a digit.
fn value(digit: u8) -> u8 {
    if digit <= b'9' {
        digit - b'0'
    } else {
        digit - b'A' + 10
    }
}

/// Refusal number, the number of cycles and that of line starts written.
pub fn read_text(text: &[u8], cycles: &mut [u8], starts: &mut [u32]) -> (u64, u64, u64) {
    match try_read(text, cycles, starts) {
        Ok((cycles, lines)) => (0, cycles as u64, lines as u64),
        Err(number) => (u64::from(number), 0, 0),
    }
}

fn try_read(text: &[u8], cycles: &mut [u8], starts: &mut [u32]) -> Result<(usize, usize), u32> {
    let (cycle_count, line_count) = check(text)?;
    let cycles = cycles.get_mut(..cycle_count).ok_or(refusal::TOO_SHORT)?;
    let starts = starts.get_mut(..line_count).ok_or(refusal::TOO_SHORT)?;
    fill_cycles(text, cycles, starts);
    Ok((cycle_count, line_count))
}

/// The number of cycles and of lines, or the refusal that comes first in the text.
fn check(text: &[u8]) -> Result<(usize, usize), u32> {
    let (mut cycles, mut lines) = (0, 0);
    let mut in_line = false;
    for character in text {
        if *character == LINE_FEED {
            if !in_line {
                return Err(refusal::EMPTY_LINE);
            }
            lines += 1;
            in_line = false;
        } else if !is_digit(*character) {
            return Err(refusal::BAD_CHARACTER);
        } else if cycles == MOST_CYCLES {
            return Err(refusal::TOO_MANY_CYCLES);
        } else {
            cycles += 1;
            in_line = true;
        }
    }
    if in_line {
        return Err(refusal::NO_LINE_FEED);
    }
    Ok((cycles, lines))
}

/// Of a text that was checked: each line is digits and a line feed.
fn fill_cycles(text: &[u8], cycles: &mut [u8], starts: &mut [u32]) {
    let mut start = 0;
    let lines = text.split_inclusive(|character| *character == LINE_FEED);
    for (line, line_start) in lines.zip(starts) {
        let digits = &line[..line.len() - 1];
        for (cycle, character) in cycles[start..].iter_mut().zip(digits) {
            *cycle = value(*character);
        }
        *line_start = start as u32;
        start += digits.len();
    }
}
