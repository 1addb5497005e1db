//! Reads commands from standard input and prints an answer line for each. With --lost a line
//! follows for each device that lost words; with --text the master's cycles are written to a
//! file, a frame a line.

use compare::command::Command;
use compare::frames::Frames;
use compare::model::Second;
use compare::script::answer_line;
use compare::session::Session;
use std::fs;
use std::io::{self, BufRead, BufWriter, Write};
use std::process::ExitCode;

const USAGE: &str = "usage: script [--lost] [--text FILE] < commands";

#[derive(Default)]
struct Arguments {
    lost: bool,
    text: Option<String>,
}

fn parse(words: &[String]) -> Option<Arguments> {
    let mut arguments = Arguments::default();
    let mut words = words.iter();
    while let Some(word) = words.next() {
        match word.as_str() {
            "--lost" => arguments.lost = true,
            "--text" => arguments.text = Some(words.next()?.clone()),
            _ => return None,
        }
    }
    Some(arguments)
}

/// Answers every line, and records the cycles of each command if frames are given.
fn answer_all(lost: bool, mut frames: Option<&mut Frames>) -> io::Result<()> {
    let mut session = Session::new(&Second);
    let mut out = BufWriter::new(io::stdout().lock());
    for line in io::stdin().lock().lines() {
        let line = line?;
        if let (Some(frames), Some(command)) = (&mut frames, Command::parse(&line)) {
            frames.follow(&session.records, &command);
        }
        if let Some(answer) = answer_line(&mut session, &line) {
            writeln!(out, "{}", if lost { answer.with_lost() } else { answer.line })?;
        }
    }
    out.flush()
}

/// A text that is refused leaves the file as it is.
fn write_frames(frames: &Frames, path: &str) -> Result<(), String> {
    let text = frames.text().map_err(|number| format!("the text is refused with {number}"))?;
    fs::write(path, text).map_err(|error| format!("{path}: {error}"))
}

fn run(arguments: &Arguments) -> Result<(), String> {
    let mut frames = arguments.text.as_ref().map(|_| Frames::default());
    answer_all(arguments.lost, frames.as_mut()).map_err(|error| error.to_string())?;
    match (frames, &arguments.text) {
        (Some(frames), Some(path)) => write_frames(&frames, path),
        _ => Ok(()),
    }
}

fn main() -> ExitCode {
    let words: Vec<String> = std::env::args().skip(1).collect();
    let Some(arguments) = parse(&words) else {
        eprintln!("{USAGE}");
        return ExitCode::from(2);
    };
    match run(&arguments) {
        Ok(()) => ExitCode::SUCCESS,
        Err(message) => {
            eprintln!("script: {message}");
            ExitCode::FAILURE
        }
    }
}
