//! Recordings judged, none of them by chance: right ones of every setting, and those that are
//! wrong in one place.

use super::settings::run;
use super::stops::{has_phase, load, settings, FOUR_BITS};
use super::text::every_list;
use crate::bench::{Bench, Step};
use crate::command::Command;
use crate::device::offset::DR;
use crate::device::{refusal, CLK, DATA, FSS, NSSPOE, PLACES};
use crate::judge::{shown_bits, MOST_CYCLES};
use crate::random::Random;
use crate::recording::{enabled_master, is_over};
use crate::session::Outcome;

/// CR0 and CPSR, as written.
pub type Settings = (u32, u32);

pub const LINES: [u8; 4] = [CLK, FSS, DATA, NSSPOE];

/// With 0 among them and behind others; each bit differs from its neighbours somewhere.
const WORDS: [u16; 9] = [0xA5C6, 0x5A39, 0, 0xFFFF, 0x1234, 0, 0xC0DE, 0x0F0F, 0x9999];

pub fn fixed(bench: &mut Bench, _: &mut Random) -> Step<()> {
    // The quick ones first: they find most.
    let quick = [wrong_settings, some_settings, short_ones, every_word, splices];
    let slow = [every_setting, limits, every_cycle];
    quick.iter().chain(&slow).try_for_each(|part| part(bench))
}

/// The call has no record, so a replay needs nothing before it.
pub fn judge(bench: &mut Bench, settings: Settings, recording: &[u8]) -> Step<Outcome> {
    bench.forget();
    let (cr0, cpsr) = settings;
    bench.step(Command::Judge { cr0, cpsr, recording: recording.to_vec() })
}

/// What a master shows with these words, up to a length; more than eight follow as soon as its
/// queue has room. None of settings that cannot be enabled.
pub fn draw(settings: Settings, words: &[u16], longest: usize) -> Vec<u8> {
    let mut words = words.iter().map(|word| u32::from(*word));
    let preloaded: Vec<u32> = words.by_ref().take(PLACES).collect();
    let mut lines = Vec::new();
    let Ok(mut master) = enabled_master(settings.0, settings.1, &preloaded) else { return lines };
    while !is_over(&master) && lines.len() < longest {
        lines.push(master.cycle(0).lines);
        if let Some(word) = words.next() {
            // The first cycle has taken a word, so there is room for one.
            let _ = master.write(DR, word);
        }
    }
    lines
}

/// More cycles than nine words have at h 3, the largest h of most fixed cases.
const LONGEST: usize = 2000;

/// h, the cycles of a slot; 1 of settings that cannot be enabled.
pub fn slot_cycles(settings: Settings) -> usize {
    enabled_master(settings.0, settings.1, &[]).map_or(1, |master| master.slot_cycles() as usize)
}

/// The lines behind the last slot.
pub fn idle_lines(settings: Settings) -> u8 {
    enabled_master(settings.0, settings.1, &[]).map_or(0, |master| master.idle_lines())
}

/// These words as they come back.
fn cut(settings: Settings, words: &[u16]) -> [u16; PLACES] {
    let bits = enabled_master(settings.0, settings.1, &[]).map_or(0, |master| shown_bits(&master));
    let mut places = [0; PLACES];
    for (place, word) in places.iter_mut().zip(words) {
        *place = (u32::from(*word) % (1 << bits)) as u16;
    }
    places
}

/// Judged, and accepted with the words that it was drawn from.
pub fn accept(bench: &mut Bench, settings: Settings, lines: &[u8], words: &[u16]) -> Step<()> {
    let Outcome { refusal, value, words: places, .. } = judge(bench, settings, lines)?;
    let right = (refusal, value) == (0, words.len() as u64) && places == cut(settings, words);
    bench.require(right, "accepted with its words")
}

/// Judged, and refused with so many leading cycles or more, but not all.
pub fn refuse(bench: &mut Bench, settings: Settings, lines: &[u8], least: usize) -> Step<()> {
    let Outcome { refusal, value, .. } = judge(bench, settings, lines)?;
    let right = refusal == u64::from(refusal::NO_LIST)
        && value >= least as u64
        && value < lines.len() as u64;
    bench.require(right, "refused, with the cycles before the fault at least")
}

/// Judged, and refused with just so many leading cycles.
fn refuse_with(bench: &mut Bench, settings: Settings, lines: &[u8], count: usize) -> Step<()> {
    let Outcome { refusal, value, .. } = judge(bench, settings, lines)?;
    let right = (refusal, value) == (u64::from(refusal::NO_LIST), count as u64);
    bench.require(right, "refused, with the cycles that a list gives")
}

/// Judged, and refused with all cycles as leading ones.
fn refuse_beginning(bench: &mut Bench, settings: Settings, lines: &[u8]) -> Step<()> {
    refuse_with(bench, settings, lines, lines.len())
}

/// Settings at their limits and beyond, in CR0, in CPSR and in both, with right recordings and
/// with others: 6 comes first.
fn wrong_settings(bench: &mut Bench) -> Step<()> {
    let right = FOUR_BITS.into_iter().chain([0x0107, 0xFF0F]).map(u32::from);
    let wrong = [0x00, 0x01, 0x02, 0x82, 0x12, 0x22, 0x30, 0x33, 0x37, 0xFF3F];
    let high = (16..32).map(|bit| 1 << bit | 0x03).chain([0x1_0013, 0xFFFF_0003, u32::MAX]);
    let all: Vec<u32> = right.chain(wrong).chain(high).collect();
    let high = (8..32).map(|bit| 1 << bit | 2);
    let cpsr: Vec<u32> =
        [0, 1, 2, 3, 4, 5, 255, 0xFFFF_FF02, u32::MAX].into_iter().chain(high).collect();
    let long = vec![0; MOST_CYCLES + 1];
    for cr0 in &all {
        for cpsr in &cpsr {
            // Right if they were cut, or rounded up.
            let cut = draw((cr0 & 0xFF, cpsr & 0xFE), &WORDS[..2], LONGEST);
            let up = draw((cr0 & 0xFF, cpsr.wrapping_add(1) & 0xFE), &WORDS[..2], LONGEST);
            for recording in [&cut, &up, &vec![], &vec![16]] {
                judge(bench, (*cr0, *cpsr), recording)?;
            }
        }
        for cpsr in &cpsr[..5] {
            judge(bench, (*cr0, *cpsr), &long)?;
            judge(bench, (*cr0, *cpsr), &long[1..])?;
        }
    }
    Ok(())
}

/// Everything of up to three cycles, with values above 15 among them.
fn short_ones(bench: &mut Bench) -> Step<()> {
    let values: Vec<u8> = (0..=16).chain([0x84, 0xFF]).collect();
    for cr0 in FOUR_BITS {
        for recording in every_list(&values, 3) {
            judge(bench, (u32::from(cr0), 2), &recording)?;
        }
    }
    Ok(())
}

/// Each format and phase with the smallest words, and others with the largest.
fn some_settings(bench: &mut Bench) -> Step<()> {
    for cr0 in FOUR_BITS.map(u32::from) {
        for cpsr in [2, 4, 7] {
            every_cycle_of(bench, (cr0, cpsr), &WORDS[..2])?;
            every_end(bench, (cr0, cpsr))?;
        }
        every_end(bench, (cr0 | 0x0C, 2))?;
    }
    Ok(())
}

fn every_setting(bench: &mut Bench) -> Step<()> {
    for cr0 in settings().map(u32::from) {
        [2, 5, 6].into_iter().try_for_each(|cpsr| every_end(bench, (cr0, cpsr)))?;
    }
    Ok(())
}

/// Lists of each length: the right recording, as both programs run it with pins of any level; a
/// cycle or a slot less or more. Then nine words.
fn every_end(bench: &mut Bench, settings: Settings) -> Step<()> {
    for count in 1..=PLACES {
        // Not always the same words, some with 0 at the end.
        let from = (settings.0 as usize + count) % 3;
        let words: Vec<u16> = WORDS[from..].iter().cycle().copied().take(count).collect();
        one_end(bench, settings, &words)?;
    }
    let [nine, eight] = [&WORDS[..], &WORDS[..PLACES]].map(|list| draw(settings, list, LONGEST));
    // Up to where the eighth word would show that none follows.
    let shared = nine.iter().zip(&eight).take_while(|(one, other)| one == other).count();
    refuse_with(bench, settings, &nine, shared)
}

fn one_end(bench: &mut Bench, settings: Settings, words: &[u16]) -> Step<()> {
    let right = draw(settings, words, LONGEST);
    run_right(bench, settings, words, &right)?;
    accept(bench, settings, &right, words)?;
    let (length, h, idle) = (right.len(), slot_cycles(settings), idle_lines(settings));
    for less in [1, h, 2 * h] {
        refuse_beginning(bench, settings, &right[..length - less])?;
    }
    for more in [1, h] {
        refuse(bench, settings, &[&right[..], &vec![idle; more]].concat(), length)?;
    }
    Ok(())
}

/// What is judged is what the devices of both programs show.
fn run_right(bench: &mut Bench, settings: Settings, words: &[u16], right: &[u8]) -> Step<()> {
    let words: Vec<u32> = words.iter().map(|word| u32::from(*word)).collect();
    let Ok(master) = enabled_master(settings.0, settings.1, &words) else { return Ok(()) };
    load(bench, &master);
    let pins = (0..right.len()).map(|i| (i * i / 5 % 8) as u8).collect();
    let shown = run(bench, 0, pins)?.output;
    bench.require(shown == right, "a master shows the recording, whatever its pins")
}

/// All lists of one and of two words of four bits; every control byte.
fn every_word(bench: &mut Bench) -> Step<()> {
    for cr0 in FOUR_BITS.map(u32::from) {
        for pair in 0..=255u16 {
            let two = [pair >> 4, pair & 15];
            for words in [&two[..], &two[1..], &[pair]] {
                let right = draw((cr0, 2), words, LONGEST);
                accept(bench, (cr0, 2), &right, words)?;
            }
        }
    }
    Ok(())
}

/// The beginning of one list's recording, then the rest of another's, at each place.
fn splices(bench: &mut Bench) -> Step<()> {
    let lists: [&[u16]; 5] = [&[10], &[10, 5], &[10, 5, 0], &[10, 4, 15], &[2, 5, 0, 7]];
    for settings in FOUR_BITS.into_iter().flat_map(|cr0| [(cr0.into(), 2), (cr0.into(), 4)]) {
        let all = lists.map(|words| draw(settings, words, LONGEST));
        for (one, other) in all.iter().flat_map(|one| all.iter().map(move |other| (one, other))) {
            for place in 0..one.len().min(other.len()) {
                judge(bench, settings, &[&one[..place], &other[place..]].concat())?;
            }
        }
    }
    Ok(())
}

/// Settings and words with about as many cycles as are judged: just as many in three formats,
/// fewer or more in Microwire, whose slot total is odd, and far more.
const LONG: [(Settings, usize); 8] = [
    ((0xFF0D, 2), 8),
    ((0xFF85, 8), 5),
    ((0xFF18, 4), 7),
    ((0x012F, 162), 8),
    ((0xA22F, 2), 8),
    ((0xFF4F, 254), 1),
    ((0xFFD3, 255), 2),
    ((0x001F, 254), 8),
];

/// One cycle less than are judged, just as many and one more: right ones, or right so far.
fn limits(bench: &mut Bench) -> Step<()> {
    for (settings, count) in LONG {
        let words = &WORDS[..count];
        let mut lines = draw(settings, words, MOST_CYCLES + 1);
        if lines.len() <= MOST_CYCLES {
            accept(bench, settings, &lines, words)?;
        }
        lines.resize(MOST_CYCLES + 1, idle_lines(settings));
        for length in [MOST_CYCLES - 1, MOST_CYCLES, MOST_CYCLES + 1] {
            judge(bench, settings, &lines[..length])?;
            for (place, change) in [(0, CLK), (1, 0x80), (length - 1, DATA), (length - 1, 0x10)] {
                let mut wrong = lines[..length].to_vec();
                wrong[place] ^= change;
                judge(bench, settings, &wrong)?;
            }
        }
        // Settings that cannot be enabled come before the length.
        for wrong in [(settings.0 | 0x30, settings.1), (settings.0, 1)] {
            judge(bench, wrong, &lines)?;
        }
    }
    Ok(())
}

/// Each cycle of three words of every size and of eight of the smallest, at h 1 and 2.
fn every_cycle(bench: &mut Bench) -> Step<()> {
    for cr0 in settings().filter(|cr0| has_phase(*cr0)).map(u32::from) {
        for cpsr in [2, 4] {
            every_cycle_of(bench, (cr0, cpsr), &WORDS[..3])?;
            if cr0 & 15 == 3 {
                every_cycle_of(bench, (cr0, cpsr), &WORDS[..PLACES])?;
            }
        }
    }
    Ok(())
}

/// Cut at every place, and each cycle wrong in one line, above 15, left out or doubled.
fn every_cycle_of(bench: &mut Bench, settings: Settings, words: &[u16]) -> Step<()> {
    let right = draw(settings, words, LONGEST);
    for place in 0..right.len() {
        let fewer = fewer_words(settings, words, place);
        if fewer > 0 {
            accept(bench, settings, &right[..place], &words[..fewer])?;
        } else {
            refuse_beginning(bench, settings, &right[..place])?;
        }
        for change in LINES.into_iter().chain([0x10, 0x80]) {
            let mut wrong = right.clone();
            wrong[place] ^= change;
            refuse(bench, settings, &wrong, place)?;
        }
        let (before, behind) = right.split_at(place);
        judge(bench, settings, &[before, &behind[1..]].concat())?;
        judge(bench, settings, &[before, &behind[..1], behind].concat())?;
    }
    Ok(())
}

/// At SPH 0 a word ends as the last one does: so many whole ones are in these cycles.
fn fewer_words(settings: Settings, words: &[u16], cycles: usize) -> usize {
    if settings.0 & 0xB0 != 0 {
        return 0;
    }
    let one = draw(settings, &words[..1], LONGEST).len();
    if cycles % one == 0 {
        cycles / one
    } else {
        0
    }
}
