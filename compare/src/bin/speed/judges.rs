//! Cycles of recordings judged in a second, beside the library's own run of as many and a plain
//! comparison of the recording with a copy.

use crate::table::{self, Row};
use crate::{FILLS, LAPS, SEED};
use compare::device::{refusal, PLACES};
use compare::judge::MOST_CYCLES;
use compare::library::Library;
use compare::model::{Model, Second};
use compare::random::Random;
use compare::record::{encode, LENGTH};
use compare::recording::enabled_master;
use std::hint::black_box;
use std::time::{Duration, Instant};

/// Cycles of the other work for which one is judged.
const CYCLES_A_CYCLE: u64 = 32;

/// Settings of a master, the number of its words, and how long it is recorded.
struct Work {
    title: &'static str,
    settings: (u32, u32),
    words: usize,
    cycles: usize,
    /// Accepted, or with so many leading cycles.
    leading: Option<u64>,
}

const WORKS: [Work; 6] = [
    Work {
        title: "Motorola SPH 0, 14 bits, h 256, eight words",
        settings: (0xFF0D, 2),
        words: 8,
        cycles: MOST_CYCLES,
        leading: None,
    },
    Work {
        title: "Motorola SPH 1, 6 bits, h 1,024, five words",
        settings: (0xFF85, 8),
        words: 5,
        cycles: MOST_CYCLES,
        leading: None,
    },
    Work {
        title: "TI, 9 bits, h 512, seven words",
        settings: (0xFF18, 4),
        words: 7,
        cycles: MOST_CYCLES,
        leading: None,
    },
    Work {
        title: "Microwire, 16 bits, h 163, eight words, a beginning",
        settings: (0xA22F, 2),
        words: 8,
        cycles: MOST_CYCLES,
        leading: Some(MOST_CYCLES as u64),
    },
    Work {
        title: "Microwire, 16 bits, h 1, eight words, then idle lines",
        settings: (0x002F, 2),
        words: 8,
        cycles: MOST_CYCLES,
        leading: Some(403),
    },
    Work {
        title: "Microwire, 16 bits, h 1, eight words, in calls of 403 cycles",
        settings: (0x002F, 2),
        words: 8,
        cycles: 403,
        leading: None,
    },
];

/// A master before its first cycle, what it shows, and what a judge must say of that.
struct Sample {
    settings: (u32, u32),
    record: [u8; LENGTH],
    pins: Vec<u8>,
    recording: Vec<u8>,
    verdict: (u64, u64),
    words: [u16; PLACES],
}

/// The words are of eight bits where a master shows no more; places stay at 0 if it is refused.
fn sample(work: &Work) -> Sample {
    let mut random = Random::new(SEED);
    let (cr0, cpsr) = work.settings;
    let bits = if cr0 & 0x30 == 0x20 { 8 } else { (cr0 & 15) + 1 };
    let list: Vec<u32> = (0..work.words).map(|_| random.word() % (1 << bits)).collect();
    let mut master = enabled_master(cr0, cpsr, &list).expect("settings that can be enabled");
    let record = encode(&master);
    let pins: Vec<u8> = (0..work.cycles).map(|_| random.below(8) as u8).collect();
    let recording = pins.iter().map(|pins| master.cycle(*pins).lines).collect();
    let mut words = [0; PLACES];
    let verdict = match work.leading {
        Some(count) => (u64::from(refusal::NO_LIST), count),
        None => {
            words.iter_mut().zip(&list).for_each(|(place, word)| *place = *word as u16);
            (0, work.words as u64)
        }
    };
    Sample { settings: work.settings, record, pins, recording, verdict, words }
}

fn judge_lap(model: &dyn Model, sample: &Sample, rounds: u64, right: &mut bool) -> Duration {
    let (cr0, cpsr) = sample.settings;
    let mut words = [0; PLACES];
    let start = Instant::now();
    for _ in 0..rounds {
        let recording = &black_box(sample).recording;
        *right &= model.judge(cr0, cpsr, recording, &mut words) == sample.verdict;
        *right &= words == sample.words;
    }
    start.elapsed()
}

/// From the same record each time; the clock does not stand while it is copied.
fn run_lap(sample: &Sample, output: &mut [u8], rounds: u64, right: &mut bool) -> Duration {
    let start = Instant::now();
    for _ in 0..rounds {
        let Sample { record, pins, .. } = black_box(sample);
        let ran = Library.run(&mut record.clone(), pins, output);
        *right &= (ran.refusal, ran.count) == (0, pins.len() as u64);
        black_box(&mut *output);
    }
    let time = start.elapsed();
    *right &= output == sample.recording;
    time
}

fn compare_lap(recording: &[u8], copy: &[u8], rounds: u64, right: &mut bool) -> Duration {
    let start = Instant::now();
    for _ in 0..rounds * FILLS {
        *right &= black_box(recording) == black_box(copy);
    }
    start.elapsed()
}

fn measure_one(work: &Work, cycles: u64) -> bool {
    let sample = sample(work);
    let mut output = vec![0; work.cycles];
    let copy = sample.recording.clone();
    let rounds = (cycles / CYCLES_A_CYCLE).div_ceil(LAPS * work.cycles as u64).max(1);
    let mut laps = [const { Vec::new() }; 4];
    let mut right = [true; 4];
    for _ in 0..LAPS {
        laps[0].push(judge_lap(&Library, &sample, rounds, &mut right[0]));
        laps[1].push(run_lap(&sample, &mut output, rounds, &mut right[1]));
        laps[2].push(judge_lap(&Second, &sample, rounds, &mut right[2]));
        laps[3].push(compare_lap(&sample.recording, &copy, rounds, &mut right[3]));
    }
    let judged = rounds * work.cycles as u64;
    println!("\n{}: {} cycles each, {} a call", work.title, judged * LAPS, work.cycles);
    let names = ["library", "library's run", "second program", "memcmp of the recording"];
    let things = [judged, judged, judged, judged * FILLS];
    let rows = [0, 1, 2, 3].map(|i| Row::new(names[i], &laps[i], things[i]));
    table::print("million cycles a second, judged", &rows);
    for (name, _) in names.iter().zip(right).filter(|(_, right)| !right) {
        println!("  WRONG: {name}");
    }
    right.iter().all(|right| *right)
}

pub fn measure(cycles: u64) -> bool {
    let good: Vec<bool> = WORKS.iter().map(|work| measure_one(work, cycles)).collect();
    good.into_iter().all(|good| good)
}
