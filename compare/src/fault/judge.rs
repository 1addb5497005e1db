//! Faults of the judge of recordings.

use crate::device::{refusal, Device, Format, Queue, CLK, DATA, FSS, NSSPOE, PLACES};
use crate::judge::MOST_CYCLES;
use crate::model::{Model, Second};
use crate::recording::{enabled_master, lines_to_rest};

type Settings = (u32, u32);

/// A verdict: refusal number, count, and the places as an accepted recording leaves them.
type Verdict = (u32, u64, [u16; PLACES]);

fn right(settings: Settings, recording: &[u8]) -> Verdict {
    let mut words = [0; PLACES];
    let (refusal, count) = Second.judge(settings.0, settings.1, recording, &mut words);
    (refusal as u32, count, words)
}

/// The second program's judge with one fault.
pub fn judge(
    number: u32,
    settings: Settings,
    recording: &[u8],
    words: &mut [u16; PLACES],
) -> (u64, u64) {
    let verdict = by_settings(number, settings, recording)
        .or_else(|| by_length(number, settings, recording))
        .unwrap_or_else(|| {
            let recording = looked_at(number, settings, recording);
            let verdict = at_the_end(number, settings, &recording);
            let verdict = leading(number, settings, &recording, verdict);
            spell(number, settings, verdict)
        });
    let (refusal, count, found) = verdict;
    write_places(number, refusal, count, found, words);
    (u64::from(refusal), count)
}

/// Faults in what the settings mean.
fn by_settings(number: u32, settings: Settings, recording: &[u8]) -> Option<Verdict> {
    let (cr0, cpsr) = settings;
    let taken = match number {
        // Cut, not refused.
        149 => (cr0 & 0xFFFF, cpsr),
        150 => (cr0, cpsr & 0xFF),
        // An odd CPSR is refused; rounded up; 1 is 2.
        151 if cpsr % 2 == 1 => return Some((refusal::SETTING, 0, [0; PLACES])),
        152 if cpsr > 1 => (cr0, cpsr.saturating_add(cpsr % 2)),
        153 if cpsr == 1 => (cr0, 2),
        // A reserved DSS counts as the smallest, a reserved FRF as Motorola.
        154 if cr0 & 15 < 3 => (cr0 & !15 | 3, cpsr),
        155 if cr0 & 0x30 == 0x30 => (cr0 & !0x30, cpsr),
        // h is CPSR times (1 + SCR); SCR loses its lowest bit, as CPSR does.
        156 => (cr0, if cpsr < 128 { 2 * cpsr } else { cpsr }),
        157 => (cr0 & !0x100, cpsr),
        // SPO is not looked at.
        158 => (cr0 & !0x40, cpsr),
        // CPSR's lowest bit counts: half a cycle more for each step of SCR.
        206 if cpsr % 2 == 1 => with_h(settings, cpsr.min(255) * (1 + (cr0 >> 8 & 0xFF)) / 2),
        _ => return None,
    };
    Some(right(taken, recording))
}

/// The same settings with another h, as far as SCR alone can give it.
fn with_h(settings: Settings, h: u32) -> Settings {
    let (cr0, cpsr) = settings;
    match h {
        1..=256 if cpsr > 1 => (cr0 & !0xFF00 | (h - 1) << 8, 2),
        _ => settings,
    }
}

/// Faults about the longest recording, and about none.
fn by_length(number: u32, settings: Settings, recording: &[u8]) -> Option<Verdict> {
    let verdict = right(settings, recording);
    let length = recording.len();
    match (number, verdict.0) {
        // 22 before 6; with the length; for one cycle less.
        (148, refusal::SETTING) if length > MOST_CYCLES => Some((22, 0, [0; PLACES])),
        (159, refusal::TOO_LONG) => Some((22, length as u64, [0; PLACES])),
        (160, 0 | refusal::NO_LIST) if length == MOST_CYCLES => Some((22, 0, [0; PLACES])),
        // Only so much is looked at of any recording; or one cycle more is judged.
        (161, refusal::TOO_LONG) => Some(right(settings, &recording[..MOST_CYCLES])),
        (162, refusal::TOO_LONG) if length == MOST_CYCLES + 1 => {
            let (_, count, words) = right(settings, &recording[..MOST_CYCLES]);
            Some((refusal::NO_LIST, count, words))
        }
        // No cycles are no words.
        (163, refusal::NO_LIST) if length == 0 => Some((0, 0, [0; PLACES])),
        // Settings have the number of a wrong recording.
        (164, refusal::SETTING) => Some((refusal::NO_LIST, 0, [0; PLACES])),
        (_, refusal::SETTING | refusal::TOO_LONG) => Some(verdict),
        _ => None,
    }
}

/// A recording that is judged in place of this one.
fn looked_at(number: u32, settings: Settings, recording: &[u8]) -> Vec<u8> {
    let h = slot_cycles(settings);
    let slots = recording.chunks(h);
    match number {
        // Bytes above 15 are cut.
        165 => cut_to_lines(recording),
        // Of a slot only the first cycle is looked at, or the last.
        166 => slots.flat_map(|slot| vec![slot[0]; slot.len()]).collect(),
        167 => slots.flat_map(|slot| vec![slot[slot.len() - 1]; slot.len()]).collect(),
        // A line is not looked at.
        168..=171 => without_line(settings, recording, LINES[(number - 168) as usize]),
        _ => recording.to_vec(),
    }
}

const LINES: [u8; 4] = [CLK, FSS, DATA, NSSPOE];

fn master(settings: Settings) -> Device {
    enabled_master(settings.0, settings.1, &[]).unwrap_or(Device::reset())
}

fn slot_cycles(settings: Settings) -> usize {
    master(settings).slot_cycles().max(1) as usize
}

/// Where the line alone is wrong it is made right, in so many cycles.
fn without_line(settings: Settings, recording: &[u8], line: u8) -> Vec<u8> {
    let mut mended = recording.to_vec();
    let mut next = 0;
    for _ in 0..100 {
        let (refusal, count, _) = right(settings, &mended);
        let place = count as usize;
        if refusal == 0 || place < next || place == mended.len() {
            break;
        }
        mended[place] ^= line;
        next = place + 1;
    }
    mended
}

/// Faults at the end of a recording.
fn at_the_end(number: u32, settings: Settings, recording: &[u8]) -> Verdict {
    let verdict = right(settings, recording);
    let (refusal, count, _) = verdict;
    let (h, idle) = (slot_cycles(settings), master(settings).idle_lines());
    let length = recording.len() as u64;
    let with = |more: usize| right(settings, &[recording, &vec![idle; more]].concat());
    let ti = master(settings).format() == Format::Ti;
    let other = match number {
        // Not asked for: the last cycle, or the last idle slot.
        172 if count == length => with(1),
        173 if count == length && !ti => with(h),
        // An idle slot too many; anything behind the last slot.
        174 if recording.len() > h && recording.ends_with(&vec![idle; h]) => {
            right(settings, &recording[..recording.len() - h])
        }
        175 if count < length => right(settings, &recording[..count as usize]),
        176 => without_the_first(settings, recording),
        // No list of eight; only lists of eight.
        177 if refusal == 0 && count == 8 => return (refusal::NO_LIST, length, verdict.2),
        178 if refusal == 0 && count < 8 => return (refusal::NO_LIST, length, verdict.2),
        _ => return verdict,
    };
    if refusal == refusal::NO_LIST && other.0 == 0 {
        other
    } else {
        verdict
    }
}

/// A ninth word is accepted, at SPH 0, where a word ends as the last one does.
fn without_the_first(settings: Settings, recording: &[u8]) -> Verdict {
    let verdict = right(settings, recording);
    let one = one_word(settings);
    if settings.0 & 0xB0 == 0 && recording.len() == 9 * one {
        right(settings, &recording[one..])
    } else {
        verdict
    }
}

/// Cycles of one word with its idle slots.
fn one_word(settings: Settings) -> usize {
    let tx = Queue::from_words(&[0]).unwrap_or_default();
    lines_to_rest(&mut Device { tx, cpsr: 2, cr0: settings.0 as u16 & 0xFF, ..master(settings) })
        .len()
        * slot_cycles(settings)
}

/// Faults in the number of leading cycles.
fn leading(number: u32, settings: Settings, recording: &[u8], verdict: Verdict) -> Verdict {
    let (refusal::NO_LIST, count, words) = verdict else { return verdict };
    let (length, h) = (recording.len() as u64, slot_cycles(settings) as u64);
    let one = one_word(settings) as u64;
    let sph0 = settings.0 & 0xB0 == 0;
    let above = recording.iter().any(|lines| *lines > 15);
    let other = match number {
        // One too many or too few.
        179 if count < length => count + 1,
        180 => count.saturating_sub(1),
        // Whole slots alone; a slot in which a wrong cycle comes counts whole.
        181 => count / h * h,
        182 => count.div_ceil(h).saturating_mul(h).min(length),
        // Whole words alone; up to one word only.
        183 if sph0 => count / one * one,
        184 => count.min(one),
        // None of a beginning; one less of it.
        185 if count == length => 0,
        186 if count == length => count.saturating_sub(1),
        // None with a value above 15; as if such values were cut.
        187 if above => 0,
        188 if above => shared(settings, &cut_to_lines(recording)),
        // A list of nine counts.
        189 if sph0 && count == 8 * one => count + shared(settings, &recording[count as usize..]),
        // Not the cycle in which a list ends or goes on, if it is the last.
        190 if count > 0 && joins_at(settings, count - 1) => count - 1,
        _ => count,
    };
    (refusal::NO_LIST, other, words)
}

/// The leading cycles of a wrong recording, all of a right one.
fn shared(settings: Settings, recording: &[u8]) -> u64 {
    match right(settings, recording) {
        (0, ..) => recording.len() as u64,
        (_, count, _) => count,
    }
}

fn cut_to_lines(recording: &[u8]) -> Vec<u8> {
    recording.iter().map(|lines| lines & 15).collect()
}

/// The slot of this cycle is one in which a list ends or goes on.
fn joins_at(settings: Settings, cycle: u64) -> bool {
    let (b, slot) = (u64::from(master(settings).bits()), cycle / slot_cycles(settings) as u64);
    match settings.0 & 0xB0 {
        0x80 => slot > 1 && slot % (2 * b) == 1,
        0x10 | 0x90 => slot > 0 && slot % (2 * b) == 0,
        0x20 | 0xA0 => slot > 0 && slot % (2 * b + 18) == 0,
        _ => slot > 0 && slot % (2 * b + 4) == 0,
    }
}

/// Faults in the words of a right recording.
fn spell(number: u32, settings: Settings, verdict: Verdict) -> Verdict {
    let (0, count, mut words) = verdict else { return verdict };
    let (bits, last) = (master(settings).bits(), count.max(1) as usize - 1);
    let (format, sph) = (master(settings).format(), settings.0 & 0x80 != 0);
    match number {
        // Microwire's words are cut to b bits; or have the high ones of b.
        191 if format == Format::Microwire => cut(&mut words, bits),
        192 if format == Format::Microwire && bits > 8 => {
            words.iter_mut().for_each(|word| *word <<= bits - 8)
        }
        // Left-justified; the least significant bit first; the last word first.
        193 => words.iter_mut().for_each(|word| *word <<= 16 - bits),
        194 => words.iter_mut().for_each(|word| *word = word.reverse_bits() >> (16 - bits)),
        195 => words[..=last].reverse(),
        // The last bit of a word that another follows at once, and the first of that other.
        196 if format == Format::Ti => words[..last].iter_mut().for_each(|word| *word &= !1),
        197 if format == Format::Motorola && sph => {
            words[1..=last].iter_mut().for_each(|word| *word &= !(1 << (bits - 1)))
        }
        // Eight in any case; zeros at the end are no words.
        198 => return (0, 8, words),
        199 => {
            let some = words.iter().rposition(|word| *word != 0).unwrap_or(0) + 1;
            return (0, some as u64, words);
        }
        _ => {}
    }
    (0, count, words)
}

fn cut(words: &mut [u16], bits: u8) {
    words.iter_mut().for_each(|word| *word &= 0xFFFF >> (16 - bits));
}

/// Faults in what the places hold after the call.
fn write_places(
    number: u32,
    refusal: u32,
    count: u64,
    found: [u16; PLACES],
    words: &mut [u16; PLACES],
) {
    match (number, refusal) {
        // The rest stays as it was.
        (200, 0) => words[..count as usize].copy_from_slice(&found[..count as usize]),
        (_, 0) => *words = found,
        // Cleared by any refusal; by that of the recording, of the settings, of the length.
        (201, _) => words.fill(0),
        (202, refusal::NO_LIST) => words.fill(0),
        (203, refusal::SETTING) => words.fill(0),
        (204, refusal::TOO_LONG) => words.fill(0),
        // The first place has been written by the time that the recording goes wrong.
        (205, refusal::NO_LIST) if count > 40 => words[0] = 0,
        _ => {}
    }
}
