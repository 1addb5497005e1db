//! The cases of the comparison. Each draws all that it leaves to chance from its own seed.

mod accesses;
pub mod bits;
mod buffers;
mod damage;
pub mod difference;
mod editions;
mod engine;
mod forged;
pub mod full;
pub mod judge;
mod lost;
mod pairs;
pub mod random_judge;
pub mod random_text;
mod settings;
mod slow;
pub mod stops;
pub mod text;
mod timeout;
mod waves;

use crate::bench::{Bench, Step};
use crate::random::Random;
use std::time::{Duration, Instant};

#[derive(Clone, Copy)]
pub struct Plan {
    pub seed: u64,
    pub rounds: u64,
    /// No new case begins after this time.
    pub limit: Option<Duration>,
}

type Case = fn(&mut Bench, &mut Random) -> Step<()>;

/// Name, the case, and in which rounds it runs: each n-th.
type Entry = (&'static str, Case, u64);

/// In the first round only, for a case that draws nothing.
const ONCE: u64 = u64::MAX;

const CASES: [Entry; 17] = [
    ("accesses", accesses::sequence, 1),
    ("offsets", accesses::every_offset, 16),
    ("master", engine::master, 1),
    ("slave", engine::slave, 1),
    ("timeout", timeout::limit, 1),
    ("change of role", engine::change_of_role, 1),
    ("buffers", buffers::wrong, 1),
    ("bit flips", damage::every_bit, 4),
    ("random bytes", damage::random_bytes, 4),
    ("slow", slow::large_slots, 8),
    ("pair", pairs::pair, 1),
    ("pair refusals", pairs::refusals, 4),
    ("microwire slave", engine::microwire_slave, 1),
    ("microwire slots", forged::microwire_slots, 16),
    ("captured bits", forged::captured_bits, 16),
    ("late words", timeout::late_words, 1),
    ("late words in a pair", timeout::late_pair, 1),
];

/// Those that draw nothing; last, since they take long.
const FIXED_CASES: [Entry; 3] = [
    ("single bits", bits::one_by_one, ONCE),
    ("full queues", full::fixed, ONCE),
    ("fixed stops", stops::fixed, ONCE),
];

/// Records in which the next cycle completes a word, with SSE set and clear.
const ARRIVALS: Entry = ("arrivals", timeout::arrivals, 1);

/// Those with many frames in which SSE is clear, reached and forged.
const EDITION_CASES: [Entry; 7] = [
    ("stops", editions::stops, 1),
    ("stopped pair", editions::stopped_pair, 1),
    ("resets", editions::resets, 1),
    ("forged records", forged::near_the_limits, 1),
    ("odd records", forged::odd, 1),
    ("forged pair", forged::pair, 1),
    ARRIVALS,
];

/// Those with many words lost.
const LOST_CASES: [Entry; 2] =
    [("lost words", lost::alone, 1), ("lost words in a pair", lost::pairs, 1)];

/// Recordings that are judged, and pairs of them.
const JUDGE_CASES: [Entry; 2] =
    [("verdicts", random_judge::recordings, 1), ("differences", difference::random, 1)];
const FIXED_JUDGE_CASES: [Entry; 2] =
    [("fixed differences", difference::fixed, ONCE), ("fixed verdicts", judge::fixed, ONCE)];

/// They need no device.
const TEXT_CASES: [Entry; 2] =
    [("fixed texts", text::fixed, ONCE), ("random texts", random_text::texts, 1)];

pub fn run(bench: &mut Bench, plan: &Plan) -> Step<u64> {
    let random = [&EDITION_CASES[..], &LOST_CASES, &JUDGE_CASES, &CASES, &TEXT_CASES];
    let fixed = [&FIXED_CASES[..], &FIXED_JUDGE_CASES];
    run_cases(bench, plan, &[random.concat(), fixed.concat()].concat())
}

/// The random cases that find most frames with SSE clear.
pub fn run_editions(bench: &mut Bench, plan: &Plan) -> Step<u64> {
    run_cases(bench, plan, &EDITION_CASES)
}

/// The random cases that lose most words.
pub fn run_lost(bench: &mut Bench, plan: &Plan) -> Step<u64> {
    run_cases(bench, plan, &[&LOST_CASES[..], &[ARRIVALS]].concat())
}

/// The random recordings that are judged.
pub fn run_judge(bench: &mut Bench, plan: &Plan) -> Step<u64> {
    run_cases(bench, plan, &JUDGE_CASES)
}

/// All recordings that are judged, and no other case.
pub fn run_judge_alone(bench: &mut Bench, plan: &Plan) -> Step<u64> {
    run_cases(bench, plan, &[JUDGE_CASES, FIXED_JUDGE_CASES].concat())
}

/// The cases of texts alone.
pub fn run_texts(bench: &mut Bench, plan: &Plan) -> Step<u64> {
    run_cases(bench, plan, &TEXT_CASES)
}

fn run_cases(bench: &mut Bench, plan: &Plan, cases: &[Entry]) -> Step<u64> {
    let start = Instant::now();
    let in_time = || plan.limit.is_none_or(|limit| start.elapsed() < limit);
    let mut done = 0;
    for round in 0..plan.rounds {
        for (i, (name, case, every)) in cases.iter().enumerate() {
            if round % every != 0 {
                continue;
            }
            if !in_time() {
                return Ok(done);
            }
            let seed = plan.seed.wrapping_add(round * 64 + i as u64);
            let mut random = Random::new(seed);
            let editions = [(); 2].map(|_| random.pick(&[1, 2]));
            bench.begin(format!("case {name}, round {round}, seed {seed:x}"), editions)?;
            case(bench, &mut random)?;
            done += 1;
        }
    }
    Ok(done)
}
