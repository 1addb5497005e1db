//! Compares the second program with the proved one, call by call.

use compare::bench::{Bench, Counts, Step};
use compare::cases::random_judge::RECORDINGS;
use compare::cases::random_text::TEXTS;
use compare::cases::{self, Plan};
use compare::command::Command;
use compare::fault::Faulty;
use compare::model::{Model, Second};
use compare::script::answer;
use compare::session::Session;
use std::fs::File;
use std::io::{self, BufRead};
use std::process::ExitCode;
use std::time::Duration;

const USAGE: &str = "usage: compare [--self | --fault N]
               [--rounds N | --texts N | --judged N] [--least N] [--least-texts N]
               [--least-lost N] [--least-judged N] [--seconds N] [--seed HEX] [--trace FILE]
       compare [--self | --fault N] --replay < script";

const SEED: u64 = 0x0022_5EED;

type Run = fn(&mut Bench, &Plan) -> Step<u64>;

struct Arguments {
    fault: Option<u32>,
    itself: bool,
    replay: bool,
    /// All cases, or those of texts or of recordings alone.
    run: Run,
    trace: Option<String>,
    /// Calls on devices that must have been compared.
    least: u64,
    /// Random texts that must have been compared.
    least_texts: u64,
    /// Words that must have been lost in the calls.
    least_lost: u64,
    /// Random recordings that must have been judged.
    least_judged: u64,
    plan: Plan,
}

impl Arguments {
    /// If none are given.
    fn none() -> Arguments {
        Arguments {
            fault: None,
            itself: false,
            replay: false,
            run: cases::run,
            trace: None,
            least: 0,
            least_texts: 0,
            least_lost: 0,
            least_judged: 0,
            plan: Plan { seed: SEED, rounds: 400, limit: None },
        }
    }
}

fn parse(words: &[String]) -> Option<Arguments> {
    let mut arguments = Arguments::none();
    let mut words = words.iter();
    while let Some(word) = words.next() {
        match word.as_str() {
            "--self" => arguments.itself = true,
            "--replay" => arguments.replay = true,
            "--trace" => arguments.trace = Some(words.next()?.clone()),
            "--fault" => arguments.fault = Some(words.next()?.parse().ok()?),
            "--least" => arguments.least = words.next()?.parse().ok()?,
            "--least-texts" => arguments.least_texts = words.next()?.parse().ok()?,
            "--least-lost" => arguments.least_lost = words.next()?.parse().ok()?,
            "--least-judged" => arguments.least_judged = words.next()?.parse().ok()?,
            "--rounds" => arguments.plan.rounds = words.next()?.parse().ok()?,
            "--texts" => {
                arguments.run = cases::run_texts;
                arguments.plan.rounds = words.next()?.parse::<u64>().ok()?.div_ceil(TEXTS);
            }
            "--judged" => {
                arguments.run = cases::run_judge_alone;
                arguments.plan.rounds = words.next()?.parse::<u64>().ok()?.div_ceil(RECORDINGS);
            }
            "--seconds" => {
                let seconds = words.next()?.parse().ok()?;
                arguments.plan.limit = Some(Duration::from_secs(seconds));
            }
            "--seed" => arguments.plan.seed = u64::from_str_radix(words.next()?, 16).ok()?,
            _ => return None,
        }
    }
    Some(arguments)
}

#[cfg(feature = "library")]
fn library() -> Option<Box<dyn Model>> {
    Some(Box::new(compare::library::Library))
}

#[cfg(not(feature = "library"))]
fn library() -> Option<Box<dyn Model>> {
    None
}

fn other_model(arguments: &Arguments) -> Option<Box<dyn Model>> {
    match arguments.fault {
        Some(number) => Some(Box::new(Faulty::new(number))),
        None if arguments.itself => Some(Box::new(Second)),
        None => library(),
    }
}

/// Runs a script on both and shows where the answers or records part.
fn replay(other: &dyn Model) -> ExitCode {
    let (mut left, mut right) = (Session::new(&Second), Session::new(other));
    let mut differences = 0;
    for line in io::stdin().lock().lines().map_while(Result::ok) {
        let Some(command) = Command::parse(&line) else {
            continue;
        };
        let answers = [answer(&mut left, &command), answer(&mut right, &command)];
        if answers[0] != answers[1] || left.records != right.records {
            differences += 1;
            let [second, other] = answers.map(|answer| answer.with_lost());
            println!("{line}\n  second: {second}\n  other:  {other}");
            for (device, record) in left.records.iter().enumerate() {
                show_bytes(device, record, &right.records[device]);
            }
        }
    }
    println!("replay: {differences} commands differ");
    ExitCode::from(u8::from(differences > 0))
}

fn show_bytes(device: usize, left: &[u8], right: &[u8]) {
    for (at, (a, b)) in left.iter().zip(right).enumerate() {
        if a != b {
            println!("  record {device} byte {at}: second {a:02x}, other {b:02x}");
        }
    }
}

fn main() -> ExitCode {
    let words: Vec<String> = std::env::args().skip(1).collect();
    let Some(arguments) = parse(&words) else {
        eprintln!("{USAGE}");
        return ExitCode::from(2);
    };
    let Some(other) = other_model(&arguments) else {
        eprintln!("compare: built without the feature `library`; only --self and --fault work");
        return ExitCode::from(2);
    };
    if arguments.replay {
        return replay(other.as_ref());
    }
    let plan = arguments.plan;
    println!("compare: seed {:x}, {} rounds", plan.seed, plan.rounds);
    let mut bench = Bench::new(&Second, other.as_ref());
    if let Some(path) = &arguments.trace {
        bench.trace = File::create(path).ok();
    }
    let outcome = (arguments.run)(&mut bench, &plan);
    report(outcome, &bench.counts, &arguments)
}

fn report(outcome: Step<u64>, counts: &Counts, arguments: &Arguments) -> ExitCode {
    let texts = counts.texts();
    match outcome {
        Ok(done) => {
            println!("compare: {}", counts.verdicts);
            println!("compare: {}", counts.overruns);
            println!("compare: {}", counts.stopped);
            println!("compare: {texts}");
            println!("compare: {done} cases, {counts}, no difference");
            ExitCode::from(u8::from(!is_enough(counts, arguments)))
        }
        Err(difference) => {
            print!("{}", difference.0);
            println!("# compare: {texts}");
            println!("# compare: a difference after {counts}");
            ExitCode::FAILURE
        }
    }
}

/// Whether as much was compared as must be; false after a message.
fn is_enough(counts: &Counts, arguments: &Arguments) -> bool {
    let limits = [
        ("calls on devices", counts.calls(), arguments.least),
        ("random texts", counts.random_texts, arguments.least_texts),
        ("lost words", counts.overruns.words(), arguments.least_lost),
        ("random recordings judged", counts.verdicts.random, arguments.least_judged),
    ];
    let mut enough = true;
    for (what, count, least) in limits {
        if count < least {
            println!("compare: fewer than {least} {what}");
            enough = false;
        }
    }
    enough
}
