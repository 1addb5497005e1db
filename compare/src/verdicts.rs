//! Verdicts on recordings, and what differs in two: how many a comparison has met, and what
//! must hold of them in the answers of any one program.

use crate::command::Command;
use crate::device::{refusal, Device, Queue};
use crate::difference::Part;
use crate::judge::{shown_bits, MOST_CYCLES};
use crate::recording::{enabled_master, is_over};
use crate::session::Outcome;
use crate::tally::Tally;
use std::fmt;

#[derive(Clone, Copy, Default)]
pub struct Verdicts {
    formats: [Tally; 4],
    /// Settings that cannot be enabled.
    pub settings: u64,
    /// Recordings drawn by chance; settings too.
    pub random: u64,
    pub differences: u64,
}

const FORMATS: [&str; 4] = ["Motorola SPH 0", "Motorola SPH 1", "TI", "Microwire"];

/// Of a CR0 that can be enabled.
fn format_of(cr0: u32) -> usize {
    match cr0 >> 4 & 3 {
        0 => usize::from(cr0 & 0x80 != 0),
        1 => 2,
        _ => 3,
    }
}

impl Verdicts {
    pub fn add(&mut self, cr0: u32, refusal: u64) {
        if refusal == u64::from(refusal::SETTING) {
            self.settings += 1;
        } else {
            self.formats[format_of(cr0)].add(refusal);
        }
    }

    /// By format and phase, as they are named.
    pub fn of(&self, format: usize) -> &Tally {
        &self.formats[format]
    }

    pub fn total(&self) -> u64 {
        self.settings + self.formats.iter().map(Tally::total).sum::<u64>()
    }
}

impl fmt::Display for Verdicts {
    fn fmt(&self, f: &mut fmt::Formatter) -> fmt::Result {
        let Verdicts { formats, settings, random, differences } = self;
        write!(f, "judged: {} recordings, {random} random (", self.total())?;
        for (name, tally) in FORMATS.iter().zip(formats) {
            write!(f, "{name} {tally}, ")?;
        }
        write!(f, "6: {settings}); {differences} differences of two")
    }
}

type Rule = (bool, &'static str);

/// What a program's own answer says against itself, by change request 7.
pub fn contradicts_itself(command: &Command, outcome: &Outcome) -> Option<String> {
    let rules = match command {
        Command::Judge { cr0, cpsr, recording } => verdict(*cr0, *cpsr, recording, outcome),
        Command::Difference { first, second } => part(first, second, outcome.part),
        _ => return None,
    };
    rules.iter().find(|(kept, _)| !kept).map(|(_, rule)| format!("not so: {rule}"))
}

/// A list that is found gives the recording, on this program's device. Whether there is one for
/// a recording that is refused, only a judge can say.
fn verdict(cr0: u32, cpsr: u32, recording: &[u8], outcome: &Outcome) -> Vec<Rule> {
    let (number, count) = (outcome.refusal as u32, outcome.value as usize);
    let master = enabled_master(cr0, cpsr, &[]);
    let too_long = master.is_ok() && recording.len() > MOST_CYCLES;
    let lines = recording.iter().take_while(|lines| **lines <= 15).count();
    let mut rules = vec![
        ((number == refusal::SETTING) == master.is_err(), "6: settings that cannot be enabled"),
        ((number == refusal::TOO_LONG) == too_long, "22: too many cycles"),
        (number != refusal::NO_LIST || count <= lines, "21: all cycles at most, none above 15"),
        (matches!(number, 0 | refusal::SETTING | refusal::NO_LIST | refusal::TOO_LONG), "a number"),
    ];
    if let (0, Ok(master)) = (number, master) {
        rules.extend(accepted(&master, recording, &outcome.words, count));
    }
    rules
}

fn accepted(master: &Device, recording: &[u8], words: &[u16], count: usize) -> Vec<Rule> {
    let (words, rest) = words.split_at(count.min(words.len()));
    let most = shown_bits(master);
    vec![
        (matches!(count, 1..=8), "one to eight words"),
        (rest.iter().all(|word| *word == 0), "the rest 0"),
        (words.iter().all(|word| u32::from(*word) >> most == 0), "words cut to size"),
        (gives(master, words, recording), "the words give the recording"),
    ]
}

/// Whether a master loaded with these words shows this and no more.
pub fn gives(master: &Device, words: &[u16], recording: &[u8]) -> bool {
    let Some(tx) = Queue::from_words(words) else { return false };
    let mut master = Device { tx, ..master.clone() };
    let mut shows = |lines: &u8| !is_over(&master) && master.cycle(0).lines == *lines;
    recording.iter().all(&mut shows) && is_over(&master)
}

fn part(first: &[u8], second: &[u8], part: Part) -> Vec<Rule> {
    let Part { second: of_second, start, length } = part;
    let (longer, shorter) =
        if second.len() > first.len() { (second, first) } else { (first, second) };
    let from = start as usize;
    let same = longer.get(..from).is_some_and(|before| shorter.starts_with(before));
    vec![
        (of_second == u64::from(second.len() > first.len()), "a part of the longer one"),
        (start.checked_add(length) == Some(longer.len() as u64), "a part up to the end"),
        (same, "no difference before it"),
        (from >= shorter.len() || longer.get(from) != shorter.get(from), "a difference at first"),
    ]
}
