//! Words lost to overrun: how many a comparison has met, and what must hold of them in the
//! answers of any one program.

use crate::command::Command;
use crate::kinds::Kinds;
use crate::ran::Lost;
use crate::record::{at, sound_device};
use crate::session::Outcome;
use crate::stopped::stopped;
use std::fmt;

/// Of one format and role.
#[derive(Clone, Copy, Default, PartialEq, Eq, Debug)]
pub struct Tally {
    pub words: u64,
    /// Calls in which such a device lost words.
    pub calls: u64,
    /// Of these: more than one; the last one was 0; SSE was clear in a frame before the call.
    pub several: u64,
    pub zero: u64,
    pub stopped: u64,
}

impl Tally {
    fn add(&mut self, lost: Lost, stopped: bool) {
        self.words += lost.count;
        self.calls += 1;
        self.several += u64::from(lost.count > 1);
        self.zero += u64::from(lost.last == 0);
        self.stopped += u64::from(stopped);
    }
}

/// Calls that lost words.
#[derive(Clone, Copy, Default)]
pub struct Overruns {
    pub run: u64,
    pub idle: u64,
    /// Pair runs in which only the first device, only the second, or both lost words.
    pub pair: [u64; 3],
    /// Of all these: a device lost more than one.
    pub several: u64,
    kinds: Kinds<Tally>,
}

impl Overruns {
    /// Looks at a call that was made on these records.
    pub fn add(&mut self, before: &[Vec<u8>; 2], command: &Command, lost: &[Lost; 2]) {
        let losing = lost.map(|lost| lost.count > 0);
        match (losing, command) {
            ([false, false], _) => return,
            (_, Command::Run { .. }) => self.run += 1,
            (_, Command::Idle { .. }) => self.idle += 1,
            ([true, false], _) => self.pair[0] += 1,
            ([false, true], _) => self.pair[1] += 1,
            ([true, true], _) => self.pair[2] += 1,
        }
        self.several += u64::from(lost.iter().any(|lost| lost.count > 1));
        for (record, lost) in before.iter().zip(lost).filter(|(_, lost)| lost.count > 0) {
            if let Some(device) = sound_device(record) {
                self.kinds.of_device(&device).add(*lost, stopped(record).is_some());
            }
        }
    }

    pub fn of(&self, format: usize, slave: bool) -> &Tally {
        self.kinds.of(format, slave)
    }

    pub fn words(&self) -> u64 {
        self.kinds.iter().map(|tally| tally.words).sum()
    }

    fn calls(&self) -> u64 {
        self.run + self.idle + self.pair.iter().sum::<u64>()
    }
}

impl fmt::Display for Tally {
    fn fmt(&self, f: &mut fmt::Formatter) -> fmt::Result {
        let Tally { words, calls, several, zero, stopped } = self;
        write!(f, "{words} in {calls} ({several} several, {zero} last 0, {stopped} SSE clear)")
    }
}

impl fmt::Display for Overruns {
    fn fmt(&self, f: &mut fmt::Formatter) -> fmt::Result {
        let Overruns { run, idle, pair: [first, second, both], several, kinds } = self;
        write!(f, "lost words: {} in {} calls (run {run}, ", self.words(), self.calls())?;
        write!(f, "run to idle {idle}, pair run {first} first, {second} second, {both} both; ")?;
        write!(f, "{several} several): {kinds}")
    }
}

/// The receive queue's bytes.
pub fn held(record: &[u8]) -> &[u8] {
    &record[at::RX..at::RX + 2 * usize::from(record[at::RX_COUNT])]
}

/// What a program's own answer to a run says against itself, by change request 6; these
/// records are the device's before and after it.
fn contradiction(before: &[u8], after: &[u8], lost: Lost) -> Option<&'static str> {
    let some = lost.count > 0;
    let most = sound_device(before).map_or(0, |device| device.incoming_bits());
    let rules = [
        (after[at::ROR] == before[at::ROR] | u8::from(some), "ROR: as before, or a word lost"),
        (held(after).starts_with(held(before)), "words held before stay, new ones follow"),
        (!some || after[at::RX_COUNT] == 8, "a word lost: eight held"),
        (some || lost.last == 0, "none lost: last 0"),
        (lost.last >> most == 0, "last: as many bits as a received word"),
    ];
    rules.iter().find(|(kept, _)| !kept).map(|(_, rule)| *rule)
}

/// The same of both devices after any call that was done.
pub fn contradicts_itself(
    command: &Command,
    before: &[Vec<u8>; 2],
    after: &[Vec<u8>; 2],
    outcome: &Outcome,
) -> Option<String> {
    let devices = match command {
        _ if outcome.refusal != 0 => return None,
        Command::Run { device, input, .. } if outcome.value != input.len() as u64 => {
            return Some(format!("not a cycle for each input byte of device {device}"));
        }
        Command::Run { device, .. } | Command::Idle { device, .. } => *device..device + 1,
        Command::PairRun { .. } | Command::Pair { .. } => 0..2,
        _ => return None,
    };
    devices
        .filter_map(|i| contradiction(&before[i], &after[i], outcome.lost[i]).map(|rule| (i, rule)))
        .map(|(device, rule)| format!("not so in device {device}: {rule}"))
        .next()
}
