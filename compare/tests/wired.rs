//! A master and a slave wired together, of any editions, bring every word across, to be kept
//! or lost.

use compare::calls::{pair_run, read, reset_edition, write};
use compare::ran::{Lost, PairRan};
use compare::random::Random;
use compare::record::{at, LENGTH};

const CR0: u32 = 0x00;
const CR1: u32 = 0x04;
const DR: u32 = 0x08;
const CPSR: u32 = 0x10;

fn set_up(random: &mut Random, cr0: u32, cpsr: u32, cr1: u32, words: &[u32]) -> [u8; LENGTH] {
    let mut record = [0; LENGTH];
    reset_edition(&mut record, random.pick(&[1, 2]));
    // Words held from earlier, received in loopback.
    write(&mut record, CR0, 0x0F);
    write(&mut record, CPSR, 2);
    write(&mut record, CR1, 3);
    for _ in 0..random.below(9) {
        write(&mut record, DR, random.word());
        let mut output = [0; 36];
        compare::calls::run(&mut record, &[2; 36], &mut output);
    }
    write(&mut record, CR1, 1);
    write(&mut record, CR1, cr1);
    write(&mut record, CR0, cr0);
    write(&mut record, CPSR, cpsr);
    for word in words {
        assert_eq!(write(&mut record, DR, *word), 0);
    }
    record
}

fn held(record: &[u8; LENGTH]) -> Vec<u32> {
    let mut copy = *record;
    let count = copy[at::RX_COUNT];
    (0..count).map(|_| read(&mut copy, DR).1).collect()
}

fn random_words(random: &mut Random) -> Vec<u32> {
    (0..random.below(9)).map(|_| random.word()).collect()
}

fn busy(record: &mut [u8; LENGTH]) -> bool {
    read(record, 0x0C).1 & 0x10 != 0
}

/// The words held, ROR and what was lost: of all words the first eight stay.
type Received = (Vec<u32>, u8, Lost);

fn expected(before: &[u32], words: &[u32], b: u32) -> Received {
    let mut all = before.to_vec();
    all.extend(words.iter().map(|word| word & (0xFFFF >> (16 - b))));
    let gone = all.split_off(all.len().min(8));
    let last = gone.last().map_or(0, |word| u64::from(*word));
    (all, u8::from(!gone.is_empty()), Lost { count: gone.len() as u64, last })
}

fn received(record: &[u8; LENGTH], lost: Lost) -> Received {
    (held(record), record[at::ROR], lost)
}

fn slot_total(format: u32, b: u64, n: u64) -> u64 {
    match format & 0xB0 {
        _ if n == 0 => 0,
        0x00 => n * (2 * b + 4),
        0x80 => 2 * b * n + 4,
        0x10 => 2 * b * n + 2,
        _ => n * (2 * b + 18) + 3,
    }
}

/// CR0 of master and slave: the same but for SPO and SPH in Microwire, where these mean
/// nothing.
fn formats(random: &mut Random, microwire: bool, b: u32) -> (u32, u32) {
    if microwire {
        let mut any = || (random.below(4) as u32) << 6 | 0x20 | (b - 1);
        return (any(), any());
    }
    let format = random.pick(&[0x00, 0x40, 0x80, 0xC0, 0x10]) | (b - 1);
    (format, format)
}

fn one_pair(random: &mut Random, microwire: bool) {
    let b = 4 + random.below(13) as u32;
    let (format, other) = formats(random, microwire, b);
    let h = 6 + random.below(5) as u32;
    let (master_words, slave_words) = (random_words(random), random_words(random));
    let mut master = set_up(random, format, 2 * h, 0, &master_words);
    let speed = 2 + 2 * random.below(9) as u32;
    let mut slave = set_up(random, other, speed, 4, &slave_words);
    pair_run(&mut master, &mut slave, 4 + random.below(5));
    assert_eq!(write(&mut slave, CR1, 6), 0);
    pair_run(&mut master, &mut slave, random.pick(&[0, 0, 1, 2, 7, 50]));
    let before = [held(&master), held(&slave)];
    assert_eq!(write(&mut master, CR1, 2), 0);
    let mut cycles = 0;
    let mut lost = [Lost::default(); 2];
    while busy(&mut master) {
        let ran = pair_run(&mut master, &mut slave, 1);
        lost = [lost[0].then(ran.first), lost[1].then(ran.second)];
        cycles += 1;
    }
    let n = master_words.len();
    assert!(cycles <= slot_total(format, u64::from(b), n as u64) * u64::from(h));
    let mut answers = slave_words;
    answers.resize(8, 0);
    // A Microwire master sends control bytes.
    let sent = if microwire { 8 } else { b };
    for _ in 0..3 {
        let words = expected(&before[1], &master_words, sent);
        assert_eq!(received(&slave, lost[1]), words, "slave, cr0 {format:x} h {h}");
        let words = expected(&before[0], &answers[..n], b);
        assert_eq!(received(&master, lost[0]), words, "master, cr0 {format:x} h {h}");
        assert_eq!(pair_run(&mut master, &mut slave, 97), PairRan::default());
    }
}

#[test]
fn every_word_comes_across() {
    let mut random = Random::new(0x0301);
    for _ in 0..600 {
        one_pair(&mut random, false);
    }
}

#[test]
fn every_word_comes_across_in_microwire() {
    let mut random = Random::new(0x0302);
    for _ in 0..600 {
        one_pair(&mut random, true);
    }
}
