//! Faults of the difference of two recordings.

use crate::difference::Part;
use crate::model::{Model, Second};

/// The second program's answer with one fault.
pub fn difference(number: u32, first: &[u8], second: &[u8]) -> Part {
    let part = Second.difference(first, second);
    let longer = first.len().max(second.len()) as u64;
    let start = other_start(number, part, first, second);
    if start != part.start {
        return Part { start, length: longer - start.min(longer), ..part };
    }
    other_part(number, part, first.len() as u64, second.len() as u64)
}

/// Another recording, or another length, from the right place.
fn other_part(number: u32, part: Part, first: u64, second: u64) -> Part {
    let Part { second: of_second, start, length } = part;
    let (shorter, longer) = (first.min(second), first.max(second));
    match number {
        // Of the shorter one; of the first, or of the second, in any case.
        207 if first != second => Part { second: 1 - of_second, start, length: shorter - start },
        208 => Part { second: 0, start, length: first - start },
        209 => Part { second: 1, start, length: second - start },
        // Of the second if they are equally long: always, or if they are equal.
        210 if first == second => Part { second: 1, ..part },
        211 if first == second && length == 0 => Part { second: 1, ..part },
        // One cycle more does not make the second longer.
        212 if second == first + 1 => Part { second: 0, ..part },
        // The length of the whole; as far as the shorter goes; without the last cycle.
        213 => Part { length: longer, ..part },
        214 => Part { length: shorter - start, ..part },
        215 => Part { length: length.saturating_sub(1), ..part },
        // Of an empty recording nothing is said.
        216 if shorter == 0 => Part::default(),
        _ => part,
    }
}

fn other_start(number: u32, part: Part, first: &[u8], second: &[u8]) -> u64 {
    let (start, shorter) = (part.start, first.len().min(second.len()) as u64);
    let end = first.len().max(second.len()) as u64;
    match number {
        // Past the first difference, or before it.
        217 if start < end => start + 1,
        218 if start > 0 => start - 1,
        // Without a difference: all of it; with the last cycle that both have; nothing. Of equal
        // ones: all of it.
        219 if start == shorter => 0,
        220 if start == shorter && start > 0 => start - 1,
        221 if start == shorter => end,
        222 if first == second => 0,
        // Only some bits of a byte are compared.
        223 => masked_start(first, second, 0x0F),
        224 => masked_start(first, second, 0x7F),
        225 => masked_start(first, second, 0xFE),
        // Only so many cycles are compared; by fours, by eights.
        226 => start.min(4096),
        227 => start.min(65_536),
        228 => start / 4 * 4,
        229 => start / 8 * 8,
        // The last difference.
        230 => last_difference(first, second).unwrap_or(start),
        // A value above 15 is a difference; a zero byte ends a recording.
        231 => first_of(first, |byte| byte > 15).min(start),
        232 => first_of(first, |byte| byte == 0).min(start),
        _ => start,
    }
}

fn masked_start(first: &[u8], second: &[u8], mask: u8) -> u64 {
    let [first, second] = [first, second].map(|bytes| -> Vec<u8> {
        let cut = bytes.iter().map(|byte| byte & mask);
        cut.collect()
    });
    Second.difference(&first, &second).start
}

fn last_difference(first: &[u8], second: &[u8]) -> Option<u64> {
    first.iter().zip(second).rposition(|(a, b)| a != b).map(|place| place as u64)
}

/// The place of the first such byte, or the end.
fn first_of(bytes: &[u8], such: fn(u8) -> bool) -> u64 {
    bytes.iter().take_while(|byte| !such(**byte)).count() as u64
}
