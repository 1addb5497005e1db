//! Commands of the script language, as values, read and printed.

use std::fmt;

#[derive(Clone, PartialEq, Eq, Debug)]
pub enum Command {
    Reset {
        device: usize,
    },
    ResetEdition {
        device: usize,
        edition: u32,
    },
    Read {
        device: usize,
        offset: u32,
    },
    Write {
        device: usize,
        offset: u32,
        value: u32,
    },
    Run {
        device: usize,
        input: Vec<u8>,
        output_len: usize,
    },
    Idle {
        device: usize,
        input: Vec<u8>,
        output_len: usize,
    },
    /// One call for all cycles.
    PairRun {
        cycles: u64,
    },
    /// One call for each cycle, to show the lines.
    Pair {
        cycles: u64,
    },
    Load {
        device: usize,
        bytes: Vec<u8>,
    },
    Save {
        device: usize,
    },
    Dump {
        device: usize,
    },
    WriteText {
        cycles: Vec<u8>,
        places: Vec<u32>,
        text_len: usize,
    },
    ReadText {
        text: Vec<u8>,
        cycles_len: usize,
        starts_len: usize,
    },
    Judge {
        cr0: u32,
        cpsr: u32,
        recording: Vec<u8>,
    },
    Difference {
        first: Vec<u8>,
        second: Vec<u8>,
    },
}

pub fn hex(bytes: &[u8]) -> String {
    if bytes.is_empty() {
        return "-".to_string();
    }
    bytes.iter().map(|byte| format!("{byte:02x}")).collect()
}

/// One digit for each byte, `-` for none.
pub fn digits(bytes: &[u8]) -> String {
    if bytes.is_empty() {
        return "-".to_string();
    }
    bytes.iter().map(|byte| format!("{byte:x}")).collect()
}

/// Hexadecimal, `-` for none.
pub fn numbers(numbers: &[u32]) -> String {
    if numbers.is_empty() {
        return "-".to_string();
    }
    let shown: Vec<String> = numbers.iter().map(|number| format!("{number:x}")).collect();
    shown.join(",")
}

fn parse_numbers(text: &str) -> Option<Vec<u32>> {
    if text == "-" {
        return Some(Vec::new());
    }
    text.split(',').map(parse_number).collect()
}

fn parse_digits(text: &str) -> Option<Vec<u8>> {
    if text == "-" {
        return Some(Vec::new());
    }
    text.chars().map(|c| c.to_digit(16).map(|digit| digit as u8)).collect()
}

fn parse_hex(text: &str) -> Option<Vec<u8>> {
    let halves = parse_digits(text)?;
    if halves.len() % 2 != 0 {
        return None;
    }
    Some(halves.chunks(2).map(|pair| pair[0] << 4 | pair[1]).collect())
}

fn parse_device(text: &str) -> Option<usize> {
    text.parse().ok().filter(|device| *device < 2)
}

fn parse_number(text: &str) -> Option<u32> {
    u32::from_str_radix(text, 16).ok()
}

impl Command {
    pub fn parse(line: &str) -> Option<Command> {
        let words: Vec<&str> = line.split_whitespace().collect();
        match words[..] {
            ["pair", cycles] => Some(Command::Pair { cycles: cycles.parse().ok()? }),
            ["pairrun", cycles] => Some(Command::PairRun { cycles: cycles.parse().ok()? }),
            ["writetext", cycles, places, text_len] => Some(Command::WriteText {
                cycles: parse_hex(cycles)?,
                places: parse_numbers(places)?,
                text_len: text_len.parse().ok()?,
            }),
            ["readtext", text, cycles_len, starts_len] => Some(Command::ReadText {
                text: parse_hex(text)?,
                cycles_len: cycles_len.parse().ok()?,
                starts_len: starts_len.parse().ok()?,
            }),
            ["judge", cr0, cpsr, cycles] => parse_judge(cr0, cpsr, parse_digits(cycles)?),
            ["lendjudge", cr0, cpsr, cycles] => parse_judge(cr0, cpsr, parse_hex(cycles)?),
            ["difference", first, second] => {
                Some(Command::Difference { first: parse_hex(first)?, second: parse_hex(second)? })
            }
            [name, device, ref rest @ ..] => parse_for(name, parse_device(device)?, rest),
            _ => None,
        }
    }
}

fn parse_judge(cr0: &str, cpsr: &str, recording: Vec<u8>) -> Option<Command> {
    Some(Command::Judge { cr0: parse_number(cr0)?, cpsr: parse_number(cpsr)?, recording })
}

fn parse_for(name: &str, device: usize, rest: &[&str]) -> Option<Command> {
    match (name, rest) {
        ("reset", []) => Some(Command::Reset { device }),
        ("reset", [edition]) => {
            Some(Command::ResetEdition { device, edition: parse_number(edition)? })
        }
        ("dump", []) => Some(Command::Dump { device }),
        ("save", []) => Some(Command::Save { device }),
        ("load", [bytes]) => Some(Command::Load { device, bytes: parse_hex(bytes)? }),
        ("r", [offset]) => Some(Command::Read { device, offset: parse_number(offset)? }),
        ("w", [offset, value]) => {
            let (offset, value) = (parse_number(offset)?, parse_number(value)?);
            Some(Command::Write { device, offset, value })
        }
        _ => parse_run(name, device, rest),
    }
}

/// The short forms lend an output as long as the input.
fn parse_run(name: &str, device: usize, rest: &[&str]) -> Option<Command> {
    let (input, output_len) = match rest {
        [input] => {
            let input = parse_digits(input)?;
            let output_len = input.len();
            (input, output_len)
        }
        [input, output_len] => (parse_hex(input)?, output_len.parse().ok()?),
        _ => return None,
    };
    match (name, rest.len()) {
        ("run", 1) | ("lend", 2) => Some(Command::Run { device, input, output_len }),
        ("idle", 1) | ("lendidle", 2) => Some(Command::Idle { device, input, output_len }),
        _ => None,
    }
}

/// The short form of a run says neither bytes above 15 nor another length.
fn write_run(
    f: &mut fmt::Formatter,
    names: (&str, &str),
    device: usize,
    input: &[u8],
    output_len: usize,
) -> fmt::Result {
    if is_short(input, output_len) {
        write!(f, "{} {device} {}", names.0, digits(input))
    } else {
        write!(f, "{} {device} {} {output_len}", names.1, hex(input))
    }
}

pub fn is_short(input: &[u8], output_len: usize) -> bool {
    input.len() == output_len && input.iter().all(|byte| *byte <= 15)
}

impl fmt::Display for Command {
    fn fmt(&self, f: &mut fmt::Formatter) -> fmt::Result {
        match self {
            Command::Reset { device } => write!(f, "reset {device}"),
            Command::ResetEdition { device, edition } => write!(f, "reset {device} {edition:x}"),
            Command::Read { device, offset } => write!(f, "r {device} {offset:x}"),
            Command::Write { device, offset, value } => {
                write!(f, "w {device} {offset:x} {value:x}")
            }
            Command::Run { device, input, output_len } => {
                write_run(f, ("run", "lend"), *device, input, *output_len)
            }
            Command::Idle { device, input, output_len } => {
                write_run(f, ("idle", "lendidle"), *device, input, *output_len)
            }
            Command::PairRun { cycles } => write!(f, "pairrun {cycles}"),
            Command::Pair { cycles } => write!(f, "pair {cycles}"),
            Command::Load { device, bytes } => write!(f, "load {device} {}", hex(bytes)),
            Command::Save { device } => write!(f, "save {device}"),
            Command::Dump { device } => write!(f, "dump {device}"),
            Command::WriteText { cycles, places, text_len } => {
                write!(f, "writetext {} {} {text_len}", hex(cycles), numbers(places))
            }
            Command::ReadText { text, cycles_len, starts_len } => {
                write!(f, "readtext {} {cycles_len} {starts_len}", hex(text))
            }
            Command::Judge { cr0, cpsr, recording } if is_short(recording, recording.len()) => {
                write!(f, "judge {cr0:x} {cpsr:x} {}", digits(recording))
            }
            Command::Judge { cr0, cpsr, recording } => {
                write!(f, "lendjudge {cr0:x} {cpsr:x} {}", hex(recording))
            }
            Command::Difference { first, second } => {
                write!(f, "difference {} {}", hex(first), hex(second))
            }
        }
    }
}
