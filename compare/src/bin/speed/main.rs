//! Cycles, register accesses, bytes of text and cycles judged a second: the library and the
//! second program at the same work in turn, and a plain fill, copy or comparison of the same
//! bytes beside them.

mod judges;
mod table;
mod texts;

use compare::calls::run_device;
use compare::device::offset::{CPSR, CR0, CR1, DR, IMSC, SR};
use compare::device::{refusal, Device};
use compare::library::Library;
use compare::model::{Model, Second};
use compare::ran::Ran;
use compare::random::Random;
use compare::record::{encode, LENGTH};
use std::hint::black_box;
use std::process::ExitCode;
use std::time::{Duration, Instant};
use table::Row;

const USAGE: &str = "usage: speed [CYCLES]";

const CYCLES: u64 = 300_000_000;
/// Shares of the work; the programs take turns, so that all meet the same noise.
const LAPS: u64 = 10;
/// A fill is short, so it is done more often.
const FILLS: u64 = 16;
/// Cycles for which one access is made.
const CYCLES_AN_ACCESS: u64 = 75;
const QUEUE: u32 = 8;
const SEED: u64 = 0x0022_5EED;

const SIXTEEN_BITS: u32 = 15;
const SSE: u32 = 2;

/// One program with one device.
trait Port {
    fn read(&mut self, offset: u32) -> (u32, u32);
    fn write(&mut self, offset: u32, value: u32) -> u32;
    fn run(&mut self, input: &[u8], output: &mut [u8]) -> Ran;
    fn record(&self) -> [u8; LENGTH];
}

/// The calls on a record of 128 bytes.
struct OnRecord<M> {
    model: M,
    record: [u8; LENGTH],
}

impl<M: Model> OnRecord<M> {
    fn new(model: M) -> OnRecord<M> {
        let mut record = [0; LENGTH];
        model.reset(&mut record);
        OnRecord { model, record }
    }
}

impl<M: Model> Port for OnRecord<M> {
    fn read(&mut self, offset: u32) -> (u32, u32) {
        self.model.read(&mut self.record, offset)
    }

    fn write(&mut self, offset: u32, value: u32) -> u32 {
        self.model.write(&mut self.record, offset, value)
    }

    fn run(&mut self, input: &[u8], output: &mut [u8]) -> Ran {
        self.model.run(&mut self.record, input, output)
    }

    fn record(&self) -> [u8; LENGTH] {
        self.record
    }
}

/// The second program on its own state: no record, no check of the input.
struct OwnState(Device);

impl Port for OwnState {
    fn read(&mut self, offset: u32) -> (u32, u32) {
        self.0.read(offset).map_or_else(|number| (number, 0), |word| (0, word))
    }

    fn write(&mut self, offset: u32, value: u32) -> u32 {
        self.0.write(offset, value).err().unwrap_or(0)
    }

    fn run(&mut self, input: &[u8], output: &mut [u8]) -> Ran {
        run_device(&mut self.0, input, output, |_| true)
    }

    fn record(&self) -> [u8; LENGTH] {
        encode(&self.0)
    }
}

/// Settings of a master and the length of its runs.
struct Work {
    title: &'static str,
    scr: u32,
    cpsr: u32,
    run: usize,
}

const WORKS: [Work; 3] = [
    Work { title: "h 6, runs of 1,728 cycles, always busy", scr: 0, cpsr: 12, run: 1_728 },
    Work {
        title: "h 1,778, runs of 512,064 cycles, always busy",
        scr: 13,
        cpsr: 254,
        run: 512_064,
    },
    Work {
        title: "h 6, runs of 1,000,000 cycles, idle after the first 1,728",
        scr: 0,
        cpsr: 12,
        run: 1_000_000,
    },
];

/// Everything that a program gave, in one number.
#[derive(Clone, Copy, PartialEq, Eq)]
struct Sum(u64);

impl Sum {
    fn add(&mut self, number: u64) {
        let mixed = (self.0 ^ number).wrapping_mul(0x9E37_79B9_7F4A_7C15);
        self.0 = mixed ^ mixed >> 29;
    }

    fn add_bytes(&mut self, bytes: &[u8]) {
        let (chunks, rest) = bytes.as_chunks::<8>();
        for chunk in chunks {
            self.add(u64::from_le_bytes(*chunk));
        }
        for byte in rest {
            self.add(u64::from(*byte));
        }
    }
}

/// A program at work, with what it gave and how long each lap took.
struct Runner {
    name: &'static str,
    port: Box<dyn Port>,
    output: Vec<u8>,
    next_word: u32,
    /// Calls refused that should not be.
    refused: u64,
    sum: Sum,
    laps: Vec<Duration>,
}

impl Runner {
    fn new(name: &'static str, port: Box<dyn Port>, work: &Work) -> Runner {
        let output = vec![0; work.run];
        let laps = Vec::new();
        let mut runner = Runner { name, port, output, next_word: 0, refused: 0, sum: Sum(0), laps };
        runner.write(CPSR, work.cpsr);
        runner.write(CR0, work.scr << 8 | SIXTEEN_BITS);
        runner.write(CR1, SSE);
        runner
    }

    fn write(&mut self, offset: u32, value: u32) {
        let refusal = self.port.write(offset, value);
        self.refused += u64::from(refusal != 0);
    }

    /// Fills the transmit queue and reads the receive queue empty.
    fn exchange_words(&mut self) {
        for _ in 0..QUEUE {
            // Steps through all words, neighbours far apart.
            self.next_word = (self.next_word + 40_503) & 0xFFFF;
            self.write(DR, self.next_word);
        }
        loop {
            let (refusal, word) = self.port.read(DR);
            if refusal != 0 {
                self.refused += u64::from(refusal != refusal::EMPTY);
                break;
            }
            self.sum.add(u64::from(word));
        }
    }

    /// The clock stands while the output is summed up.
    fn run_lap(&mut self, rounds: u64, input: &[u8]) {
        let mut time = Duration::ZERO;
        for _ in 0..rounds {
            let start = Instant::now();
            self.exchange_words();
            let ran = self.port.run(input, &mut self.output);
            time += start.elapsed();
            self.refused += u64::from(ran.refusal != 0);
            for number in [ran.count, ran.lost.count, ran.lost.last] {
                self.sum.add(number);
            }
            self.sum.add_bytes(&self.output);
        }
        self.laps.push(time);
    }

    fn access_lap(&mut self, rounds: u64) {
        let start = Instant::now();
        for round in 0..rounds {
            self.write(IMSC, round as u32 & 0xF);
            let (refusal, word) = self.port.read(SR);
            self.refused += u64::from(refusal != 0);
            self.sum.add(u64::from(word));
        }
        self.laps.push(start.elapsed());
    }

    /// All that two programs must agree in.
    fn result(&self) -> (Sum, &[u8], [u8; LENGTH]) {
        (self.sum, &self.output, self.port.record())
    }
}

fn runners(work: &Work) -> Vec<Runner> {
    vec![
        Runner::new("library", Box::new(OnRecord::new(Library)), work),
        Runner::new("second program, records", Box::new(OnRecord::new(Second)), work),
        Runner::new("second program, own state", Box::new(OwnState(Device::reset())), work),
    ]
}

fn fill_lap(output: &mut [u8], rounds: u64) -> Duration {
    let start = Instant::now();
    for round in 0..rounds * FILLS {
        output.fill(black_box(round as u8));
        black_box(&mut *output);
    }
    start.elapsed()
}

/// Prints the table of one piece of work; false if the programs disagree.
fn report(what: &str, runners: &[Runner], things: u64, fill: Option<Row>) -> bool {
    let row = |runner: &Runner| Row::new(runner.name, &runner.laps, things);
    let rows: Vec<Row> = runners.iter().map(row).chain(fill).collect();
    table::print(what, &rows);
    agree(runners)
}

/// No call was refused, and all programs gave the same.
fn agree(runners: &[Runner]) -> bool {
    let result = runners[0].result();
    for other in runners {
        if other.refused != 0 {
            println!("  REFUSED: {} calls of {}", other.refused, other.name);
            return false;
        }
        if other.result() != result {
            println!("  DIFFERENT: {} and {}", runners[0].name, other.name);
            return false;
        }
    }
    println!("  answers, outputs, last records: equal       checksum {:016x}", result.0 .0);
    true
}

fn measure_runs(work: &Work, cycles: u64) -> bool {
    let mut random = Random::new(SEED);
    let input: Vec<u8> = (0..work.run).map(|_| random.below(8) as u8).collect();
    let total = cycles.div_ceil(work.run as u64);
    let laps = total.min(LAPS);
    let rounds = total.div_ceil(laps);
    let cycles_a_lap = rounds * work.run as u64;

    let mut runners = runners(work);
    let mut filled = vec![0; work.run];
    let mut fills = Vec::new();
    for _ in 0..laps {
        for runner in &mut runners {
            runner.run_lap(rounds, &input);
        }
        fills.push(fill_lap(&mut filled, rounds));
    }
    println!("\n{}: {} cycles each", work.title, cycles_a_lap * laps);
    let fill = Row::new("memset of the output", &fills, cycles_a_lap * FILLS);
    report("million cycles a second", &runners, cycles_a_lap, Some(fill))
}

fn measure_accesses(cycles: u64) -> bool {
    let rounds = (cycles / CYCLES_AN_ACCESS / 2).div_ceil(LAPS).max(1);
    let mut runners = runners(&WORKS[0]);
    for _ in 0..LAPS {
        for runner in &mut runners {
            runner.access_lap(rounds);
        }
    }
    println!("\nIMSC written and SR read in turn: {} accesses each", 2 * rounds * LAPS);
    report("million accesses a second", &runners, 2 * rounds, None)
}

fn parse(words: &[String]) -> Option<u64> {
    match words {
        [] => Some(CYCLES),
        [cycles] => cycles.parse().ok().filter(|cycles| *cycles > 0),
        _ => None,
    }
}

fn main() -> ExitCode {
    let words: Vec<String> = std::env::args().skip(1).collect();
    let Some(cycles) = parse(&words) else {
        eprintln!("{USAGE}");
        return ExitCode::from(2);
    };
    println!("speed: a Motorola master of 16 bits, eight words before each run");
    println!(
        "outputs cleared before the clock starts, those of texts before each lap; \
         all of each is overwritten"
    );
    println!("input the same random levels for all");
    println!("clock stopped while outputs are summed up, not while answers are");
    println!("up to {LAPS} laps, the programs in turn: mean of all, slowest and fastest lap");
    let mut good = true;
    for work in &WORKS {
        good &= measure_runs(work, cycles);
    }
    good &= measure_accesses(cycles);
    good &= texts::measure(cycles);
    good &= judges::measure(cycles);
    ExitCode::from(u8::from(!good))
}
