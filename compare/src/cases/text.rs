//! Recordings written as text and texts read, none of them by chance: all short ones, and
//! those about the limits.

use crate::bench::{Bench, Step};
use crate::command::Command;
use crate::random::Random;
use crate::session::Outcome;
use crate::text::MOST_CYCLES;

/// A 16-bit word of Motorola's format at h 1.
const FRAME: usize = 36;

/// The characters of cycles 0 to 15.
pub const DIGITS: &[u8] = b"0123456789ABCDEF";

/// P4.
const TWO_WORDS: &[u8] = b"BA541054\n3210541054\n";

pub fn fixed(bench: &mut Bench, _: &mut Random) -> Step<()> {
    writing(bench)?;
    reading(bench)?;
    round_trips(bench)
}

fn writing(bench: &mut Bench) -> Step<()> {
    short_recordings(bench)?;
    limits_of_writing(bench)
}

fn reading(bench: &mut Bench) -> Step<()> {
    let mut parts =
        [short_texts, every_character, every_cut, limit_of_reading, past_the_limit].into_iter();
    parts.try_for_each(|part| part(bench))
}

/// A text call has no record, so a replay needs nothing before it.
pub fn write(bench: &mut Bench, cycles: &[u8], places: &[u32], text_len: usize) -> Step<Outcome> {
    bench.forget();
    let (cycles, places) = (cycles.to_vec(), places.to_vec());
    bench.step(Command::WriteText { cycles, places, text_len })
}

pub fn read(bench: &mut Bench, text: &[u8], cycles_len: usize, starts_len: usize) -> Step<Outcome> {
    bench.forget();
    bench.step(Command::ReadText { text: text.to_vec(), cycles_len, starts_len })
}

/// None, one short, just enough, one more.
fn lengths_about(needed: usize) -> Vec<usize> {
    let mut lengths = vec![0, needed.saturating_sub(1), needed, needed + 1];
    lengths.dedup();
    lengths
}

fn write_about(bench: &mut Bench, cycles: &[u8], places: &[u32]) -> Step<()> {
    // Longer than any text of these cycles.
    let written = write(bench, cycles, places, 2 * cycles.len() + 8)?;
    for needed in [written.value as usize, cycles.len()] {
        for text_len in lengths_about(needed) {
            write(bench, cycles, places, text_len)?;
        }
    }
    Ok(())
}

fn read_about(bench: &mut Bench, text: &[u8]) -> Step<()> {
    // Longer than what any text of this length gives.
    let back = read(bench, text, text.len() + 8, text.len() + 8)?;
    for cycles_len in lengths_about(back.value as usize) {
        for starts_len in lengths_about(back.lines as usize) {
            read(bench, text, cycles_len, starts_len)?;
        }
    }
    Ok(())
}

/// Every list of these items, up to a length.
pub fn every_list<T: Copy>(items: &[T], longest: usize) -> Vec<Vec<T>> {
    let mut lists = vec![Vec::new()];
    let mut from = 0;
    for _ in 0..longest {
        let to = lists.len();
        for i in from..to {
            for item in items {
                let mut longer = lists[i].clone();
                longer.push(*item);
                lists.push(longer);
            }
        }
        from = to;
    }
    lists
}

/// Up to three cycles and up to three places, in buffers of every length: each two refusals
/// meet.
fn short_recordings(bench: &mut Bench) -> Step<()> {
    for cycles in every_list(&[0, 15, 16, 255], 3) {
        for places in every_list(&[0, 1, 2, 3, u32::MAX], 3) {
            for text_len in 0..8 {
                write(bench, &cycles, &places, text_len)?;
            }
        }
    }
    Ok(())
}

/// Every cycle there is, again and again.
fn good_cycles(count: usize) -> Vec<u8> {
    (0..16).cycle().take(count).collect()
}

/// The same, and with one above 15 at either end and between.
fn spoiled_cycles(count: usize) -> Vec<Vec<u8>> {
    let mut all = vec![good_cycles(count)];
    for (at, cycle) in [(0, 16), (count / 2, 0x80), (count - 1, 255)] {
        let mut cycles = good_cycles(count);
        cycles[at] = cycle;
        all.push(cycles);
    }
    all
}

/// Places in as many cycles, in order and not.
fn many_places(count: u32) -> Vec<Vec<u32>> {
    let frames: Vec<u32> = (0..count).step_by(FRAME).collect();
    let mut all = vec![Vec::new(), vec![0], (0..count).collect(), (1..count).collect()];
    let last = count - 1;
    for place in [1, last, count, count + 1, 1 << 16, (1 << 16) + 1, 1 << 31, u32::MAX] {
        all.push(vec![place]);
        all.push(vec![0, place]);
        all.push(vec![place, 0]);
        all.push(vec![place, place]);
        all.push([frames.clone(), vec![place]].concat());
    }
    all.push(vec![last - 1, last]);
    all.push(vec![last, last - 1]);
    all.push(frames);
    all
}

fn limits_of_writing(bench: &mut Bench) -> Step<()> {
    for count in [37, MOST_CYCLES - 1, MOST_CYCLES, MOST_CYCLES + 1, 2 * MOST_CYCLES] {
        for cycles in spoiled_cycles(count) {
            for places in many_places(count as u32) {
                write_about(bench, &cycles, &places)?;
            }
        }
    }
    Ok(())
}

/// Up to five characters, in buffers of every length: faults in every order.
fn short_texts(bench: &mut Bench) -> Step<()> {
    for text in every_list(b"0F\na", 5) {
        for cycles_len in 0..7 {
            for starts_len in 0..4 {
                read(bench, &text, cycles_len, starts_len)?;
            }
        }
    }
    Ok(())
}

fn replaced(text: &[u8], at: usize, character: u8) -> Vec<u8> {
    let mut text = text.to_vec();
    text[at] = character;
    text
}

fn inserted(text: &[u8], at: usize, character: u8) -> Vec<u8> {
    let mut text = text.to_vec();
    text.insert(at, character);
    text
}

/// All 256, in place of each character, before and behind it.
fn every_character(bench: &mut Bench) -> Step<()> {
    for character in 0..=255 {
        read_about(bench, &[character])?;
        for at in 0..TWO_WORDS.len() {
            read_about(bench, &replaced(TWO_WORDS, at, character))?;
        }
        for at in 0..=TWO_WORDS.len() {
            read_about(bench, &inserted(TWO_WORDS, at, character))?;
        }
    }
    Ok(())
}

/// Each part of a text, and texts joined.
fn every_cut(bench: &mut Bench) -> Step<()> {
    for from in 0..=TWO_WORDS.len() {
        for to in from..=TWO_WORDS.len() {
            let part = &TWO_WORDS[from..to];
            read_about(bench, part)?;
            read_about(bench, &[TWO_WORDS, part].concat())?;
            read_about(bench, &part.repeat(2))?;
        }
    }
    Ok(())
}

/// So many digits in lines of this length, each with its line feed.
fn lines_of(length: usize, count: usize) -> Vec<u8> {
    let digits: Vec<u8> = DIGITS.iter().copied().cycle().take(count).collect();
    digits.chunks(length).flat_map(|line| [line, b"\n"].concat()).collect()
}

/// One digit less than fits, then all that may follow.
fn limit_of_reading(bench: &mut Bench) -> Step<()> {
    for length in [1, FRAME, MOST_CYCLES] {
        let before = lines_of(length, MOST_CYCLES - 1);
        let open = &before[..before.len() - 1];
        for end in every_list(b"0\n?", 4) {
            read_about(bench, &[&before, &end[..]].concat())?;
            read_about(bench, &[open, &end[..]].concat())?;
        }
    }
    Ok(())
}

/// Too many digits, and another fault before, at or behind the first of them.
fn past_the_limit(bench: &mut Bench) -> Step<()> {
    let text = lines_of(FRAME, MOST_CYCLES + 99);
    // Where the first of them stands.
    let first = MOST_CYCLES + MOST_CYCLES / FRAME;
    for at in [0, 1, FRAME, 2000, first - 2, first - 1, first, first + 1, first + 2, first + 60] {
        for character in *b"\n?a0\0" {
            read_about(bench, &replaced(&text, at, character))?;
            read_about(bench, &inserted(&text, at, character))?;
        }
        read_about(bench, &text[..at])?;
        read_about(bench, &text[at..])?;
    }
    read_about(bench, &text)
}

/// The starts of the lines that these places make.
pub fn line_starts(cycles: &[u8], places: &[u32]) -> Vec<u32> {
    let leading = !cycles.is_empty() && places.first() != Some(&0);
    let first: &[u32] = if leading { &[0] } else { &[] };
    [first, places].concat()
}

/// Written and read, then written from what was read. Both programs have written the same
/// bytes, so each reads what the other wrote.
pub fn round_trip(bench: &mut Bench, cycles: &[u8], places: &[u32]) -> Step<Vec<u8>> {
    let starts = line_starts(cycles, places);
    let text = write(bench, cycles, places, cycles.len() + starts.len())?.output;
    let back = read(bench, &text, cycles.len(), starts.len())?;
    let same = back.output == cycles && back.starts == starts;
    bench.require(same, "what was written is read back")?;
    write_again(bench, &text, &back)?;
    Ok(text)
}

/// The text, from what was read of it.
pub fn write_again(bench: &mut Bench, text: &[u8], back: &Outcome) -> Step<()> {
    let (count, lines) = (back.value as usize, back.lines as usize);
    let again = write(bench, &back.output[..count], &back.starts[..lines], text.len())?;
    bench.require(again.output == text, "what was read is written again")
}

fn round_trips(bench: &mut Bench) -> Step<()> {
    // Every set of places in six cycles.
    for set in 0..64 {
        let places: Vec<u32> = (0..6).filter(|place| set >> place & 1 != 0).collect();
        let text = round_trip(bench, &good_cycles(6), &places)?;
        read_about(bench, &text)?;
    }
    for count in [0, 1, FRAME, MOST_CYCLES - 1, MOST_CYCLES] {
        for step in [1, 2, FRAME, MOST_CYCLES] {
            for first in [0, 1, 5] {
                let places: Vec<u32> = (first..count as u32).step_by(step).collect();
                round_trip(bench, &good_cycles(count), &places)?;
            }
        }
    }
    Ok(())
}
