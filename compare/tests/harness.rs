//! The harness itself: it agrees with itself and finds faults.

use compare::bench::Bench;
use compare::cases::{bits, difference, full, judge, random_judge, random_text, stops, text};
use compare::cases::{run, run_editions, run_judge, run_lost, run_texts, Plan};
use compare::fault::{Faulty, BIT_FAULTS, DIFFERENCE_FAULTS, EDITION_FAULTS, FAULTS};
use compare::fault::{JUDGE_FAULTS, LOST_FAULTS, MICROWIRE_FAULTS, TEXT_FAULTS, TIMEOUT_FAULTS};
use compare::model::Second;
use compare::random::Random;

const PLAN: Plan = Plan { seed: 77, rounds: 16, limit: None };

#[test]
fn no_difference_from_itself() {
    let mut bench = Bench::new(&Second, &Second);
    assert!(run(&mut bench, &PLAN).is_ok());
    assert!(bench.counts.calls() > 10_000);
}

#[test]
fn each_fault_is_found() {
    for number in 0..FAULTS {
        let faulty = Faulty::new(number);
        let mut bench = Bench::new(&Second, &faulty);
        assert!(run(&mut bench, &PLAN).is_err(), "fault {number}");
    }
}

/// A Microwire slave gets far enough, and words arrive with RT up and with the count at its
/// limit, in a few rounds, whatever the seed.
#[test]
fn these_faults_are_found_soon() {
    for number in MICROWIRE_FAULTS.chain(TIMEOUT_FAULTS) {
        for seed in 1..=10 {
            let faulty = Faulty::new(number);
            let mut bench = Bench::new(&Second, &faulty);
            let plan = Plan { seed: seed << 32, rounds: 4, limit: None };
            assert!(run(&mut bench, &plan).is_err(), "fault {number}, seed {seed}");
        }
    }
}

/// Nothing of it is left to chance, so one seed is enough.
#[test]
fn single_bits_find_their_faults_alone() {
    for number in BIT_FAULTS {
        let faulty = Faulty::new(number);
        let mut bench = Bench::new(&Second, &faulty);
        assert!(bits::one_by_one(&mut bench, &mut Random::new(0)).is_err(), "fault {number}");
    }
}

/// The fixed stops find each fault, and random ones do in some rounds, whatever the seed.
#[test]
fn stops_find_their_faults_alone() {
    for number in EDITION_FAULTS {
        let faulty = Faulty::new(number);
        let mut bench = Bench::new(&Second, &faulty);
        assert!(stops::fixed(&mut bench, &mut Random::new(0)).is_err(), "fault {number}");
        for seed in 1..=10 {
            let plan = Plan { seed: seed << 32, rounds: 24, limit: None };
            assert!(run_editions(&mut bench, &plan).is_err(), "fault {number}, seed {seed}");
        }
    }
}

/// Cycles with SSE clear in a frame, and all that can happen there, in each format and role,
/// without the fixed stops.
#[test]
fn frames_go_on_with_sse_clear() {
    let mut bench = Bench::new(&Second, &Second);
    let plan = Plan { rounds: 50, ..PLAN };
    assert!(run_editions(&mut bench, &plan).is_ok());
    for (format, slave) in (0..3).flat_map(|format| [(format, false), (format, true)]) {
        let tally = bench.counts.stopped.of(format, slave);
        let what = format!("format {format}, slave {slave}: {tally:?}");
        assert!(tally.cycles > 5000, "{what}");
        assert!(tally.ended > 400 && tally.passed > 20, "{what}");
        assert!(tally.resumed >= 5 && tally.resumed_with_words > 50, "{what}");
        assert!(tally.refused > 100, "{what}");
    }
}

/// The full queues find each fault, and random overruns do in some rounds, whatever the seed.
#[test]
fn overruns_find_their_faults_alone() {
    for number in LOST_FAULTS {
        let faulty = Faulty::new(number);
        let mut bench = Bench::new(&Second, &faulty);
        assert!(full::fixed(&mut bench, &mut Random::new(0)).is_err(), "fault {number}");
        for seed in 1..=10 {
            let plan = Plan { seed: seed << 32, rounds: 24, limit: None };
            assert!(run_lost(&mut bench, &plan).is_err(), "fault {number}, seed {seed}");
        }
    }
}

/// Both programs have the fault, so that they agree; what each says against itself shows it.
/// Not so the wrong word, or one that ROR hides, wherever a run is cut.
#[test]
fn one_program_contradicts_itself() {
    for number in LOST_FAULTS.filter(|number| ![107, 108, 110, 113].contains(number)) {
        let faulty = [Faulty::new(number), Faulty::new(number)];
        let mut bench = Bench::new(&faulty[0], &faulty[1]);
        let plan = Plan { rounds: 50, ..PLAN };
        assert!(run_lost(&mut bench, &plan).is_err(), "fault {number}");
    }
}

/// Words are lost in each format and role: several in a call, 0 as the last, with SSE clear;
/// and in every call, by either device of a pair and by both.
#[test]
fn words_are_lost() {
    let mut bench = Bench::new(&Second, &Second);
    let plan = Plan { rounds: 50, ..PLAN };
    assert!(run_lost(&mut bench, &plan).is_ok());
    let overruns = bench.counts.overruns;
    for (format, slave) in (0..3).flat_map(|format| [(format, false), (format, true)]) {
        let tally = overruns.of(format, slave);
        let what = format!("format {format}, slave {slave}: {tally:?}");
        assert!(tally.words > 500 && tally.calls > 150 && tally.several > 50, "{what}");
        assert!(tally.zero > 20 && tally.stopped > 10, "{what}");
    }
    assert!(overruns.run > 500 && overruns.idle > 100, "{overruns}");
    assert!(overruns.pair.iter().all(|count| *count > 50), "{overruns}");
}

/// The fixed texts find each fault, and random ones do in a few rounds, whatever the seed.
#[test]
fn texts_find_their_faults_alone() {
    for number in TEXT_FAULTS {
        let faulty = Faulty::new(number);
        let mut bench = Bench::new(&Second, &faulty);
        assert!(text::fixed(&mut bench, &mut Random::new(0)).is_err(), "fault {number}");
        for seed in 1..=10 {
            let mut random = Random::new(seed << 32);
            let found = (0..8).any(|_| random_text::texts(&mut bench, &mut random).is_err());
            assert!(found, "fault {number}, seed {seed}");
        }
    }
}

#[test]
fn random_texts_are_counted() {
    let mut bench = Bench::new(&Second, &Second);
    assert!(run_texts(&mut bench, &Plan { rounds: 2, ..PLAN }).is_ok());
    assert_eq!(bench.counts.random_texts, 2 * random_text::TEXTS);
}

#[test]
fn texts_meet_every_refusal() {
    let mut bench = Bench::new(&Second, &Second);
    assert!(run_texts(&mut bench, &Plan { rounds: 8, ..PLAN }).is_ok());
    for number in [0, 13, 14, 15, 16] {
        assert!(bench.counts.write_text.of(number) > 0, "writing, {number}");
    }
    for number in [0, 13, 16, 17, 18, 19] {
        assert!(bench.counts.read_text.of(number) > 0, "reading, {number}");
    }
}

/// The fixed recordings find each fault, and random ones do in some rounds, whatever the seed.
#[test]
fn verdicts_find_their_faults_alone() {
    for number in JUDGE_FAULTS {
        let faulty = Faulty::new(number);
        let mut bench = Bench::new(&Second, &faulty);
        assert!(judge::fixed(&mut bench, &mut Random::new(0)).is_err(), "fault {number}");
        for seed in 1..=10 {
            let plan = Plan { seed: seed << 32, rounds: 24, limit: None };
            assert!(run_judge(&mut bench, &plan).is_err(), "fault {number}, seed {seed}");
        }
    }
}

/// The same of two recordings.
#[test]
fn differences_find_their_faults_alone() {
    for number in DIFFERENCE_FAULTS {
        let faulty = Faulty::new(number);
        let mut bench = Bench::new(&Second, &faulty);
        assert!(difference::fixed(&mut bench, &mut Random::new(0)).is_err(), "fault {number}");
        for seed in 1..=10 {
            let mut random = Random::new(seed << 32);
            let found = (0..24).any(|_| difference::random(&mut bench, &mut random).is_err());
            assert!(found, "fault {number}, seed {seed}");
        }
    }
}

/// Both programs have the fault, so that they agree; what must hold of a verdict or a part,
/// and of recordings whose list is known, shows it.
#[test]
fn verdicts_contradict_what_is_known() {
    for number in JUDGE_FAULTS {
        let faulty = [Faulty::new(number), Faulty::new(number)];
        let mut bench = Bench::new(&faulty[0], &faulty[1]);
        assert!(judge::fixed(&mut bench, &mut Random::new(0)).is_err(), "fault {number}");
    }
    for number in DIFFERENCE_FAULTS {
        let faulty = [Faulty::new(number), Faulty::new(number)];
        let mut bench = Bench::new(&faulty[0], &faulty[1]);
        assert!(difference::fixed(&mut bench, &mut Random::new(0)).is_err(), "fault {number}");
    }
}

/// Random recordings alone are accepted and refused in each format and phase, and refused for
/// their settings and their length.
#[test]
fn recordings_meet_every_verdict() {
    let mut bench = Bench::new(&Second, &Second);
    assert!(run_judge(&mut bench, &Plan { rounds: 24, ..PLAN }).is_ok());
    let verdicts = bench.counts.verdicts;
    assert_eq!(verdicts.random, 24 * random_judge::RECORDINGS);
    for format in 0..4 {
        let tally = verdicts.of(format);
        let what = format!("format {format}: {tally}");
        assert!(tally.of(0) > 50 && tally.of(21) > 200 && tally.of(22) > 2, "{what}");
    }
    assert!(verdicts.settings > 200 && verdicts.differences > 3000, "{verdicts}");
}
