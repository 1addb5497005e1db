//! The command language: one answer line for each command, and lines of lost words.

use crate::command::{digits, hex, is_short, numbers, Command};
use crate::device::Device;
use crate::difference::Part;
use crate::ran::Lost;
use crate::record::{at, sound_device};
use crate::session::{Outcome, Session, PREFILL_WORD};

/// The answer to a command.
#[derive(Clone, PartialEq, Eq, Debug)]
pub struct Answer {
    pub line: String,
    /// What each device lost in it.
    pub lost: [Lost; 2],
}

impl Answer {
    fn plain(line: String) -> Answer {
        Answer { line, lost: [Lost::default(); 2] }
    }

    /// The line, then one for each device that lost words.
    pub fn with_lost(&self) -> String {
        let mut text = self.line.clone();
        for (device, Lost { count, last }) in self.lost.iter().enumerate() {
            if *count > 0 {
                text += &format!("\n  lost {device} {count} {last:x}");
            }
        }
        text
    }
}

/// The answer to one line; None for blank lines and comments.
pub fn answer_line(session: &mut Session, line: &str) -> Option<Answer> {
    let line = line.trim();
    if line.is_empty() || line.starts_with('#') {
        return None;
    }
    Some(match Command::parse(line) {
        Some(command) => answer(session, &command),
        None => Answer::plain(format!("not a command: {line}")),
    })
}

pub fn answer(session: &mut Session, command: &Command) -> Answer {
    match command {
        Command::Pair { cycles } => show_pair(session, *cycles),
        Command::Save { device } => Answer::plain(hex(&session.records[*device])),
        Command::Dump { device } => Answer::plain(show_dump(&session.records[*device])),
        _ => {
            let outcome = session.call(command);
            Answer { line: show_outcome(command, &outcome), lost: outcome.lost }
        }
    }
}

fn show_outcome(command: &Command, outcome: &Outcome) -> String {
    match command {
        Command::Read { .. } => format!("{} {:x}", outcome.refusal, outcome.value),
        Command::Run { input, output_len, .. } => {
            let shown = show_output(outcome, is_short(input, *output_len), outcome.output.len());
            format!("{} {shown}", outcome.refusal)
        }
        Command::Idle { input, output_len, .. } => {
            let count = outcome.value as usize;
            let shown = show_output(outcome, is_short(input, *output_len), count);
            format!("{} {} {shown}", outcome.refusal, outcome.value)
        }
        Command::WriteText { .. } => {
            format!("{} {} {}", outcome.refusal, outcome.value, hex(&outcome.output))
        }
        Command::ReadText { .. } => {
            let counts = format!("{} {} {}", outcome.refusal, outcome.value, outcome.lines);
            format!("{counts} {} {}", hex(&outcome.output), numbers(&outcome.starts))
        }
        Command::Judge { .. } => {
            format!("{} {} {}", outcome.refusal, outcome.value, show_places(outcome))
        }
        Command::Difference { .. } => {
            let Part { second, start, length } = outcome.part;
            format!("{second} {start} {length}")
        }
        _ => outcome.refusal.to_string(),
    }
}

/// Nothing after a refusal that has left them as they were.
fn show_places(outcome: &Outcome) -> String {
    if outcome.refusal != 0 && outcome.words.iter().all(|word| *word == PREFILL_WORD) {
        return "-".to_string();
    }
    show_words(&outcome.words)
}

/// Digits in the short form, all bytes with two digits each in the long one.
fn show_output(outcome: &Outcome, short: bool, shown: usize) -> String {
    if !short {
        hex(&outcome.output)
    } else if outcome.refusal != 0 {
        "-".to_string()
    } else {
        digits(&outcome.output[..shown])
    }
}

fn show_pair(session: &mut Session, cycles: u64) -> Answer {
    let mut lines = [Vec::new(), Vec::new()];
    let mut lost = [Lost::default(); 2];
    for _ in 0..cycles {
        let outcome = session.call(&Command::PairRun { cycles: 1 });
        if outcome.refusal != 0 {
            return Answer::plain(outcome.refusal.to_string());
        }
        for device in 0..2 {
            lines[device].push(session.records[device][at::LINES]);
            lost[device] = lost[device].then(outcome.lost[device]);
        }
    }
    Answer { line: format!("{} {}", digits(&lines[0]), digits(&lines[1])), lost }
}

fn show_words(words: &[u16]) -> String {
    let words: Vec<String> = words.iter().map(|word| format!("{word:x}")).collect();
    words.join(",")
}

fn show_dump(record: &[u8]) -> String {
    sound_device(record).map_or("unsound".to_string(), |device| show_device(&device))
}

fn show_device(device: &Device) -> String {
    format!(
        "cr0={:x} cr1={:x} cpsr={:x} imsc={:x} dmacr={:x} tx={} rx={} ror={} rt={} rtcount={} frame={} lines={:x}",
        device.cr0,
        device.cr1,
        device.cpsr,
        device.imsc,
        device.dmacr,
        show_words(device.tx.words()),
        show_words(device.rx.words()),
        u8::from(device.ror),
        u8::from(device.rt),
        device.rt_count,
        u8::from(device.frame),
        device.lines,
    )
}
