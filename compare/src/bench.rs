//! Two programs side by side: each call goes to both and all it gave is compared.

use crate::command::{hex, numbers, Command};
use crate::device::refusal;
use crate::difference::Part;
use crate::model::Model;
use crate::overruns::{self, Overruns};
use crate::ran::Lost;
use crate::record::LENGTH;
use crate::session::{Outcome, Session, PREFILL, PREFILL_NUMBER, PREFILL_WORD};
use crate::stopped::Stopped;
use crate::tally::Tally;
use crate::verdicts::{self, Verdicts};
use std::fmt;
use std::fs::File;
use std::io::{Seek, Write};

/// The first difference, with scripts that replay it.
#[derive(Debug)]
pub struct Difference(pub String);

pub type Step<T> = Result<T, Difference>;

#[derive(Clone, Copy, Default)]
pub struct Counts {
    pub reset: u64,
    pub read: u64,
    pub write: u64,
    pub run: u64,
    pub idle: u64,
    pub pair: u64,
    pub refused: u64,
    pub cycles: u64,
    /// Of edition 2: frames that SSE was cleared in.
    pub stopped: Stopped,
    pub overruns: Overruns,
    pub write_text: Tally,
    pub read_text: Tally,
    /// Texts drawn by chance; each takes several calls.
    pub random_texts: u64,
    pub verdicts: Verdicts,
}

impl Counts {
    fn add(&mut self, command: &Command, outcome: &Outcome) {
        match command {
            Command::WriteText { .. } => self.write_text.add(outcome.refusal),
            Command::ReadText { .. } => self.read_text.add(outcome.refusal),
            Command::Judge { cr0, .. } => self.verdicts.add(*cr0, outcome.refusal),
            Command::Difference { .. } => self.verdicts.differences += 1,
            _ => self.add_to_devices(command, outcome),
        }
    }

    fn add_to_devices(&mut self, command: &Command, outcome: &Outcome) {
        let done = outcome.refusal == 0;
        self.refused += u64::from(!done);
        match command {
            Command::Reset { .. } | Command::ResetEdition { .. } => self.reset += 1,
            Command::Read { .. } => self.read += 1,
            Command::Write { .. } => self.write += 1,
            Command::Run { .. } => {
                self.run += 1;
                self.cycles += outcome.value;
            }
            Command::Idle { .. } => {
                self.idle += 1;
                self.cycles += outcome.value;
            }
            Command::PairRun { cycles } | Command::Pair { cycles } => {
                self.pair += 1;
                self.cycles += if done { 2 * cycles } else { 0 };
            }
            _ => {}
        }
    }

    /// The calls with texts, and how many texts were random.
    pub fn texts(&self) -> String {
        let Counts { write_text, read_text, random_texts, .. } = self;
        format!("texts: {write_text} written, {read_text} read; {random_texts} random texts")
    }

    /// Of devices; those of texts and recordings are counted for themselves.
    pub fn calls(&self) -> u64 {
        self.reset + self.read + self.write + self.run + self.idle + self.pair
    }
}

impl fmt::Display for Counts {
    fn fmt(&self, f: &mut fmt::Formatter) -> fmt::Result {
        write!(
            f,
            "{} calls (reset {}, read {}, write {}, run {}, run to idle {}, pair run {}; refused {}), {} cycles",
            self.calls(),
            self.reset,
            self.read,
            self.write,
            self.run,
            self.idle,
            self.pair,
            self.refused,
            self.cycles
        )
    }
}

pub struct Bench<'m> {
    second: Session<'m>,
    other: Session<'m>,
    title: String,
    log: Vec<Command>,
    /// Holds each call before it is made, for a program that does not return.
    pub trace: Option<File>,
    pub counts: Counts,
}

impl<'m> Bench<'m> {
    pub fn new(second: &'m dyn Model, other: &'m dyn Model) -> Bench<'m> {
        Bench {
            second: Session::new(second),
            other: Session::new(other),
            title: String::new(),
            log: Vec::new(),
            trace: None,
            counts: Counts::default(),
        }
    }

    /// A new case: both devices reset to their editions, nothing to replay before it.
    pub fn begin(&mut self, title: String, editions: [u32; 2]) -> Step<()> {
        self.title = title;
        self.log.clear();
        for (device, edition) in editions.into_iter().enumerate() {
            self.load(device, &[0; LENGTH]);
            self.step(Command::ResetEdition { device, edition })?;
        }
        Ok(())
    }

    pub fn record(&self, device: usize) -> &[u8] {
        &self.second.records[device]
    }

    pub fn load(&mut self, device: usize, bytes: &[u8]) {
        for session in [&mut self.second, &mut self.other] {
            session.records[device] = bytes.to_vec();
        }
        self.log.push(Command::Load { device, bytes: bytes.to_vec() });
    }

    /// Replays need nothing that came before the records as they are now.
    pub fn forget(&mut self) {
        self.log.clear();
        for device in 0..2 {
            let bytes = self.record(device).to_vec();
            self.log.push(Command::Load { device, bytes });
        }
    }

    pub fn step(&mut self, command: Command) -> Step<Outcome> {
        // The same in both programs.
        let before = self.second.records.clone();
        self.write_trace(&command);
        let one = self.second.call(&command);
        let other = self.other.call(&command);
        self.counts.add(&command, &one);
        self.counts.stopped.add(&before, &command, one.refusal);
        self.counts.overruns.add(&before, &command, &one.lost);
        let found = self
            .compare(&one, &other)
            .or_else(|| self.refused_unchanged(&before, &one))
            .or_else(|| {
                overruns::contradicts_itself(&command, &before, &self.other.records, &other)
            })
            .or_else(|| verdicts::contradicts_itself(&command, &other));
        self.log.push(command);
        if let Some(what) = found {
            return Err(self.difference(&what, &before, &one, &other));
        }
        Ok(one)
    }

    /// What the newest call must have done, whatever the programs agree on.
    pub fn require(&self, kept: bool, what: &str) -> Step<()> {
        if kept {
            return Ok(());
        }
        let mut text = format!("# {}\n# not so: {what}\n", self.title);
        for command in &self.log {
            text += &format!("{command}\n");
        }
        Err(Difference(text))
    }

    fn write_trace(&mut self, command: &Command) {
        let Some(file) = &mut self.trace else { return };
        let mut text = format!("# {}\n", self.title);
        for (device, record) in self.second.records.iter().enumerate() {
            text += &format!("load {device} {}\n", hex(record));
        }
        text += &format!("{command}\n");
        // Only the newest call matters.
        let written = file.set_len(0).and_then(|_| file.rewind());
        if let Err(error) = written.and_then(|_| file.write_all(text.as_bytes())) {
            eprintln!("trace: {error}");
        }
    }

    fn compare(&self, one: &Outcome, other: &Outcome) -> Option<String> {
        let answers = [one, other].map(|outcome| (outcome.refusal, outcome.value, outcome.lines));
        if answers[0] != answers[1] {
            return Some("answers differ".to_string());
        }
        if one.lost != other.lost {
            return Some("lost words differ".to_string());
        }
        if !one.intact || !other.intact {
            return Some("bytes outside the lent buffers, or the input, were written".to_string());
        }
        if let Some(at) = first_difference(&one.output, &other.output) {
            return Some(format!("output differs at byte {at}"));
        }
        if let Some(at) = first_difference(&one.starts, &other.starts) {
            return Some(format!("line start {at} differs"));
        }
        if let Some(at) = first_difference(&one.words, &other.words) {
            return Some(format!("place {at} for a word differs"));
        }
        if one.part != other.part {
            return Some("parts differ".to_string());
        }
        for (device, (a, b)) in self.second.records.iter().zip(&self.other.records).enumerate() {
            if let Some(at) = first_difference(a, b) {
                return Some(format!("record {device} differs at byte {at}"));
            }
        }
        None
    }

    /// Whatever the programs agree on, a refusal must leave all as it was. Only a recording that
    /// no list gives is refused with a count.
    fn refused_unchanged(&self, before: &[Vec<u8>; 2], outcome: &Outcome) -> Option<String> {
        let untouched = (outcome.value == 0 || outcome.refusal == u64::from(refusal::NO_LIST))
            && outcome.lines == 0
            && outcome.lost == [Lost::default(); 2]
            && outcome.output.iter().all(|byte| *byte == PREFILL)
            && outcome.starts.iter().all(|number| *number == PREFILL_NUMBER)
            && outcome.words.iter().all(|word| *word == PREFILL_WORD)
            && *before == self.second.records;
        (outcome.refusal != 0 && !untouched).then(|| "a refused call changed something".to_string())
    }

    fn difference(
        &self,
        what: &str,
        before: &[Vec<u8>; 2],
        one: &Outcome,
        other: &Outcome,
    ) -> Difference {
        let mut text = format!("# {}\n# {what}\n", self.title);
        for (name, outcome, session) in
            [("second", one, &self.second), ("other ", other, &self.other)]
        {
            text += &format!("# {name} refusal {} value {}", outcome.refusal, outcome.value);
            text += &format!(" output {}\n", hex(&outcome.output));
            for (device, Lost { count, last }) in outcome.lost.iter().enumerate() {
                text += &format!("# {name} lost {device} {count} {last:x}\n");
            }
            if outcome.lines != 0 || !outcome.starts.is_empty() {
                text += &format!("# {name} lines {}", outcome.lines);
                text += &format!(" starts {}\n", numbers(&outcome.starts));
            }
            if !outcome.words.is_empty() || outcome.part != Part::default() {
                text += &format!("# {name} words {:x?} {:?}\n", outcome.words, outcome.part);
            }
            for record in &session.records {
                text += &format!("# {name} record after {}\n", hex(record));
            }
        }
        text += "# the failing call alone:\n";
        for (device, record) in before.iter().enumerate() {
            text += &format!("load {device} {}\n", hex(record));
        }
        text += &self.log.last().map_or(String::new(), |command| format!("{command}\n"));
        text += "# the whole case:\n";
        for command in &self.log {
            text += &format!("{command}\n");
        }
        Difference(text)
    }
}

/// The first place at which they differ or that only one has.
fn first_difference<T: PartialEq>(a: &[T], b: &[T]) -> Option<usize> {
    (0..a.len().max(b.len())).find(|at| a.get(*at) != b.get(*at))
}
