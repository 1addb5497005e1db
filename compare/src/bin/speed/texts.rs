//! Bytes of text a second, written and read, beside a plain copy of the text.

use crate::table::{self, Row};
use crate::{FILLS, LAPS, SEED, SIXTEEN_BITS, SSE};
use compare::device::offset::{CPSR, CR0, CR1, DR};
use compare::device::Device;
use compare::library::Library;
use compare::model::{Model, Second};
use compare::random::Random;
use compare::text::MOST_CYCLES;
use std::hint::black_box;
use std::time::{Duration, Instant};

/// Cycles of the other work for which a byte of text is written, and one is read.
const CYCLES_A_BYTE: u64 = 4;

/// A recording and its text, and the same again as a program gives them.
#[derive(PartialEq, Eq)]
struct Sample {
    cycles: Vec<u8>,
    places: Vec<u32>,
    text: Vec<u8>,
}

/// A master of 16 bits that always has a word to send: Motorola at SPH 0 and h 1, so each
/// line has 36 cycles but the last.
fn sample() -> Sample {
    let mut random = Random::new(SEED);
    let mut master = Device::reset();
    let settings = [(CR0, SIXTEEN_BITS), (CPSR, 2), (CR1, SSE)];
    assert!(settings.iter().all(|(offset, value)| master.write(*offset, *value).is_ok()));
    let (mut cycles, mut places) = (Vec::new(), Vec::new());
    for place in 0..MOST_CYCLES as u32 {
        if master.tx.is_empty() {
            assert!(master.write(DR, random.word()).is_ok());
        }
        if master.master_takes_word() {
            places.push(place);
        }
        cycles.push(master.cycle(0).lines);
    }
    let mut text = vec![0; MOST_CYCLES + places.len()];
    assert_eq!(Second.write_text(&cycles, &places, &mut text).0, 0);
    Sample { cycles, places, text }
}

/// A program at work on its own buffers.
struct Runner {
    name: &'static str,
    model: Box<dyn Model>,
    given: Sample,
    /// All calls were done and gave what they should.
    right: bool,
    laps: Vec<Duration>,
}

impl Runner {
    fn new(name: &'static str, model: Box<dyn Model>, sample: &Sample) -> Runner {
        let cycles = vec![0; sample.cycles.len()];
        let places = vec![0; sample.places.len()];
        let given = Sample { cycles, places, text: vec![0; sample.text.len()] };
        Runner { name, model, given, right: true, laps: Vec::new() }
    }

    /// The clock stands while outputs are cleared and compared.
    fn write_lap(&mut self, sample: &Sample, rounds: u64) {
        self.given.text.fill(0);
        let start = Instant::now();
        for _ in 0..rounds {
            let Sample { cycles, places, .. } = black_box(sample);
            let answer = self.model.write_text(cycles, places, &mut self.given.text);
            self.right &= answer == (0, sample.text.len() as u64);
            black_box(&mut self.given);
        }
        self.laps.push(start.elapsed());
        self.right &= self.given.text == sample.text;
    }

    fn read_lap(&mut self, sample: &Sample, rounds: u64) {
        self.given.cycles.fill(0);
        self.given.places.fill(0);
        let counts = (sample.cycles.len() as u64, sample.places.len() as u64);
        let start = Instant::now();
        for _ in 0..rounds {
            let Sample { cycles, places, .. } = &mut self.given;
            let answer = self.model.read_text(&black_box(sample).text, cycles, places);
            self.right &= answer == (0, counts.0, counts.1);
            black_box(&mut self.given);
        }
        self.laps.push(start.elapsed());
        self.right &= (&self.given.cycles, &self.given.places) == (&sample.cycles, &sample.places);
    }
}

fn copy_lap(text: &[u8], copy: &mut [u8], rounds: u64) -> Duration {
    copy.fill(0);
    let start = Instant::now();
    for _ in 0..rounds * FILLS {
        copy.copy_from_slice(black_box(text));
        black_box(&mut *copy);
    }
    start.elapsed()
}

type Lap = fn(&mut Runner, &Sample, u64);

fn measure_one(title: &str, lap: Lap, sample: &Sample, rounds: u64) -> bool {
    let mut runners = [
        Runner::new("library", Box::new(Library), sample),
        Runner::new("second program", Box::new(Second), sample),
    ];
    let mut copy = vec![0; sample.text.len()];
    let mut copies = Vec::new();
    for _ in 0..LAPS {
        for runner in &mut runners {
            lap(runner, sample, rounds);
        }
        copies.push(copy_lap(&sample.text, &mut copy, rounds));
    }
    let bytes = rounds * sample.text.len() as u64;
    println!("\n{title}: {} bytes each", bytes * LAPS);
    let rows = runners.each_ref().map(|runner| Row::new(runner.name, &runner.laps, bytes));
    let [library, second] = rows;
    let copy = Row::new("memcpy of the text", &copies, bytes * FILLS);
    table::print("million bytes a second", &[library, second, copy]);
    agree(&runners)
}

fn agree(runners: &[Runner]) -> bool {
    for runner in runners.iter().filter(|runner| !runner.right) {
        println!("  WRONG: {}", runner.name);
    }
    let good = runners.iter().all(|runner| runner.right);
    if good {
        println!("  answers, outputs: equal");
    }
    good
}

pub fn measure(cycles: u64) -> bool {
    let sample = sample();
    let bytes = sample.text.len();
    let rounds = (cycles / CYCLES_A_BYTE).div_ceil(LAPS * bytes as u64).max(1);
    let title = format!("a text of 4,096 cycles in lines of 36, {bytes} bytes");
    let written = measure_one(&format!("{title}, written"), Runner::write_lap, &sample, rounds);
    measure_one(&format!("{title}, read"), Runner::read_lap, &sample, rounds) && written
}
