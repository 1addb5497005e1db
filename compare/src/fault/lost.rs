//! Faults of the words that runs hand up as lost. Records and outputs are right.

use crate::calls::wired;
use crate::device::{refusal, Device, Format};
use crate::ran::{Lost, PairRan, Ran};
use crate::record::sound_device;
use std::cell::Cell;

/// What a run was given: the record before it, the input, and the output's length.
pub type Given<'a> = (&'a [u8], &'a [u8], usize);

/// The word that one cycle hands up.
fn hand_up(number: u32, device: &mut Device, pins: u8) -> Option<u16> {
    let before = device.clone();
    let Some(word) = device.cycle(pins).lost else {
        // The word that is kept in the eighth place.
        let filled = device.rx.is_full() && !before.rx.is_full();
        return device.rx.words().last().copied().filter(|_| number == 109 && filled);
    };
    match number {
        // The oldest word held, or the newest, in place of the new one.
        107 => before.rx.words().first().copied(),
        108 => before.rx.words().last().copied(),
        // None while ROR is up, with SSE clear, or if the word is 0.
        110 if before.ror => None,
        111 if !before.enabled() => None,
        112 if word == 0 => None,
        // A Microwire slave's word is cut to b bits; the shift register is not cut at all.
        113 => Some(word & 0xFFFF >> (16 - before.bits())),
        114 => Some(before.receiving << 1 | word & 1),
        115..=121 if is_forgotten(number, &before) => None,
        _ => Some(word),
    }
}

/// Where this device adds a word to its receive queue, the answer is dropped.
fn is_forgotten(number: u32, device: &Device) -> bool {
    let kind = (device.format(), device.slave());
    match number {
        115 => kind == (Format::Motorola, false),
        116 => kind == (Format::Ti, false),
        // Only where the next word has begun.
        117 => kind == (Format::Ti, false) && device.slot < 2,
        118 => kind == (Format::Microwire, false),
        119 => kind == (Format::Motorola, true),
        120 => kind == (Format::Ti, true),
        _ => kind == (Format::Microwire, true),
    }
}

/// One more cycle of a call.
fn add(number: u32, sum: Lost, word: Option<u16>) -> Lost {
    let right = sum.then(Lost::in_cycle(word));
    let counted = |count: u64| Lost { count, ..right };
    match (number, word) {
        // The first word stays the last; so does one before a 0.
        (122, Some(_)) if sum.count > 0 => Lost { last: sum.last, ..right },
        (126, Some(0)) => Lost { last: sum.last, ..right },
        // Counted twice, once in all, not at all; up to a limit; in a byte.
        (123, Some(_)) => counted(right.count + 1),
        (124, _) => counted(right.count.min(1)),
        (125, _) => counted(0),
        (127, _) => counted(right.count.min(8)),
        (128, _) => counted(right.count.min(255)),
        (129, _) => counted(right.count % 256),
        _ => right,
    }
}

/// What these cycles of one device hand up.
fn alone(number: u32, record: &[u8], input: &[u8]) -> Lost {
    let Some(mut device) = sound_device(record) else { return Lost::default() };
    let add = |sum, pins: &u8| add(number, sum, hand_up(number, &mut device, *pins));
    input.iter().fold(Lost::default(), add)
}

/// The cycles whose losses are looked at: those of the last one are missing.
fn looked_at(number: u32, cycles: u64) -> u64 {
    if number == 130 {
        cycles.saturating_sub(1)
    } else {
        cycles
    }
}

fn spoil(number: u32, given: Given, ran: Ran) -> Ran {
    let (record, input, output_len) = given;
    let cycles = match (number, ran.refusal as u32) {
        (_, 0) => looked_at(number, ran.count) as usize,
        // Refused, with the words lost up to the wrong byte, or in the shorter buffer.
        (136, refusal::INPUT_BYTE) => input.iter().take_while(|pins| **pins <= 7).count(),
        (137, refusal::BUFFER_LENGTH) => input.len().min(output_len),
        // Refused, with the cycles counted.
        (138, _) => return Ran { count: input.len() as u64, ..ran },
        _ => return ran,
    };
    Ran { lost: alone(number, record, &input[..cycles]), ..ran }
}

/// Something is kept from the calls before.
fn recall(number: u32, refusal: u64, lost: Lost, memory: &Cell<Lost>) -> Lost {
    let kept = memory.take();
    let given = match number {
        // The last word of an earlier call, if none is lost in this one.
        134 if refusal == 0 && lost.count == 0 => Lost { last: kept.last, ..lost },
        // A refused call answers as the one before it.
        135 if refusal != 0 => kept,
        // Calls add up; or words that found the transmit queue full count.
        146 | 147 => kept.then(lost),
        _ => lost,
    };
    if number != 147 {
        memory.set(given);
    }
    given
}

pub fn run(number: u32, given: Given, ran: Ran, memory: &Cell<Lost>) -> Ran {
    let ran = match number {
        131 => Ran { lost: Lost::default(), ..ran },
        139 => Ran { count: 0, ..ran },
        _ => spoil(number, given, ran),
    };
    Ran { lost: recall(number, ran.refusal, ran.lost, memory), ..ran }
}

pub fn run_to_idle(number: u32, given: Given, ran: Ran, memory: &Cell<Lost>) -> Ran {
    let ran = match number {
        132 => Ran { lost: Lost::default(), ..ran },
        _ => spoil(number, given, ran),
    };
    Ran { lost: recall(number, ran.refusal, ran.lost, memory), ..ran }
}

/// What these cycles of a pair hand up.
fn wired_pair(number: u32, records: &[Vec<u8>; 2], cycles: u64) -> [Lost; 2] {
    let mut lost = [Lost::default(); 2];
    let (Some(one), Some(other)) = (sound_device(&records[0]), sound_device(&records[1])) else {
        return lost;
    };
    let mut pair = [one, other];
    for _ in 0..looked_at(number, cycles) {
        let pins = [wired(pair[1].lines), wired(pair[0].lines)];
        let mut words = [0, 1].map(|i| hand_up(number, &mut pair[i], pins[i]));
        if number == 145 && words[0].is_some() {
            // The second is looked at only if the first has lost none.
            words[1] = None;
        }
        lost = [0, 1].map(|i| add(number, lost[i], words[i]));
        if let (144, Some(word)) = (number, words[1].or(words[0])) {
            // One last word for both.
            lost = lost.map(|lost| Lost { last: u64::from(word), ..lost });
        }
    }
    lost
}

pub fn pair_run(
    number: u32,
    records: &[Vec<u8>; 2],
    cycles: u64,
    ran: PairRan,
    memory: &Cell<Lost>,
) -> PairRan {
    let done = ran.refusal == 0;
    let [one, other] = if done { wired_pair(number, records, cycles) } else { Default::default() };
    let lost = match number {
        133 => Default::default(),
        // The words of both for each, or of one for both; exchanged.
        140 => [one.then(other); 2],
        141 => [one; 2],
        142 => [other; 2],
        143 => [other, one],
        _ => [one, other],
    };
    let [first, second] = lost.map(|lost| recall(number, ran.refusal, lost, memory));
    PairRan { first, second, ..ran }
}

/// A word that is refused because the transmit queue is full.
pub fn write(number: u32, refusal: u32, value: u32, memory: &Cell<Lost>) {
    if number == 147 && refusal == refusal::FULL {
        memory.set(memory.get().then(Lost { count: 1, last: u64::from(value) }));
    }
}
