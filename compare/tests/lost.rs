//! Words lost to overrun, as runs hand them up. All by hand from the slot tables, b 4 and h 1
//! unless a test says otherwise: with h 1 a master's slot is a cycle.

use compare::calls::{pair_run, read, reset_edition, run, run_to_idle, write};
use compare::model::Second;
use compare::ran::{Lost, PairRan, Ran};
use compare::record::{at, LENGTH};
use compare::script::answer_line;
use compare::session::Session;

const CR0: u32 = 0x00;
const CR1: u32 = 0x04;
const DR: u32 = 0x08;
const CPSR: u32 = 0x10;
const RIS: u32 = 0x18;
const ICR: u32 = 0x20;

const SPH0: u32 = 0x03;
const SPH1: u32 = 0x83;
const TI: u32 = 0x13;
const MICROWIRE: u32 = 0x23;

const MASTER: u32 = 2;
const LOOPBACK: u32 = 3;
const SLAVE: u32 = 6;
/// The same with SSE clear.
const MASTER_OFF: u32 = 0;
const SLAVE_OFF: u32 = 4;

const EIGHT: [u32; 8] = [1, 2, 3, 4, 5, 6, 7, 8];

type Record = [u8; LENGTH];

fn send(record: &mut Record, words: &[u32]) {
    for word in words {
        assert_eq!(write(record, DR, *word), 0);
    }
}

/// Enabled, with these words held.
fn holding(edition: u32, settings: (u32, u32, u32), words: &[u32]) -> Record {
    let (cr0, cpsr, cr1) = settings;
    let mut record = [0; LENGTH];
    assert_eq!(reset_edition(&mut record, edition), 0);
    for (offset, value) in [(CR0, cr0), (CPSR, cpsr), (CR1, cr1)] {
        assert_eq!(write(&mut record, offset, value), 0);
    }
    record[at::RX_COUNT] = words.len() as u8;
    for (place, word) in words.iter().enumerate() {
        record[at::RX + 2 * place] = *word as u8;
    }
    record
}

fn enabled(cr0: u32, cr1: u32, words: &[u32]) -> Record {
    holding(1, (cr0, 2, cr1), words)
}

fn held(record: &Record) -> Vec<u32> {
    let mut copy = *record;
    (0..record[at::RX_COUNT]).map(|_| read(&mut copy, DR).1).collect()
}

fn lost(count: u64, last: u64) -> Lost {
    Lost { count, last }
}

const NONE: Lost = Lost { count: 0, last: 0 };

/// What one run of these cycles loses; it counts them all.
fn lose(record: &mut Record, input: &[u8]) -> Lost {
    let mut output = vec![0; input.len()];
    let ran = run(record, input, &mut output);
    assert_eq!((ran.refusal, ran.count), (0, input.len() as u64));
    ran.lost
}

/// Cycle by cycle: the cycles that lose a word, counted from 0, and the word.
fn lose_singly(record: &mut Record, input: &[u8]) -> Vec<(usize, u64)> {
    let cycles = input.iter().enumerate().map(|(i, pins)| (i, lose(record, &[*pins])));
    let losing: Vec<(usize, Lost)> = cycles.filter(|(_, lost)| *lost != NONE).collect();
    assert!(losing.iter().all(|(_, lost)| lost.count == 1));
    losing.into_iter().map(|(i, lost)| (i, lost.last)).collect()
}

/// Of a master with words that follow each other: CR0; the cycles from a word to the next; the
/// slot of the first capture, two slots before the second; the cycles of three words, idle
/// slots included.
const MASTERS: [(u32, usize, usize, usize); 4] = [
    // Twelve slots a word; bit i is captured in 2 + 2i.
    (SPH0, 12, 2, 36),
    // The next word's slot 1 is slot 9, and slots 9 to 11 end the last: 2bn + 4.
    (SPH1, 8, 2, 28),
    // Captured in 3 + 2i; the next word's slot 0 is slot 8: 2bn + 2.
    (TI, 8, 3, 26),
    // Captured in 19 + 2j; the next word's slot 0 is slot 26: n(2b + 18) + 3.
    (MICROWIRE, 26, 19, 81),
];

/// RXD HIGH in the cycles alone that capture a one of these words.
fn rxd(period: usize, first: usize, cycles: usize, words: &[u8]) -> Vec<u8> {
    let mut input = vec![0; cycles];
    for (k, word) in words.iter().enumerate() {
        for i in 0..4 {
            input[k * period + first + 2 * i] = (word >> (3 - i) & 1) * 4;
        }
    }
    input
}

/// Three words for a full queue. Each is lost in the cycle of its fourth capture.
#[test]
fn words_of_a_master() {
    for (cr0, period, first, cycles) in MASTERS {
        let input = rxd(period, first, cycles, &[0xA, 0x5, 0x3]);
        let mut start = enabled(cr0, MASTER, &EIGHT);
        // What is sent has nothing to do with it.
        send(&mut start, &[0xF, 0x0, 0xF]);
        let mut record = start;
        assert_eq!(lose(&mut record, &input), lost(3, 0x3), "cr0 {cr0:x}");
        assert_eq!((held(&record), record[at::ROR]), (EIGHT.to_vec(), 1));
        let last = first + 6;
        let expected = [(last, 0xA), (last + period, 0x5), (last + 2 * period, 0x3)];
        assert_eq!(lose_singly(&mut start, &input), expected, "cr0 {cr0:x}");
        assert_eq!(start, record);
    }
}

/// Nine words from an empty queue: one more is written when the first has been taken. Then,
/// with the queue refilled, two more. In loopback the device gets its own words.
#[test]
fn eleven_words_in_loopback() {
    for (cr0, period, _, three) in MASTERS {
        // In Microwire TXD is LOW while the data bits come.
        let own = |word: u32| if cr0 == MICROWIRE { 0 } else { word };
        let mut record = enabled(cr0, LOOPBACK, &[]);
        send(&mut record, &EIGHT);
        assert_eq!(lose(&mut record, &[0]), NONE);
        send(&mut record, &[0x9]);
        let nine = three + 6 * period;
        assert_eq!(lose(&mut record, &vec![0; nine - 1]), lost(1, own(0x9).into()), "cr0 {cr0:x}");
        assert_eq!(held(&record), EIGHT.map(own), "cr0 {cr0:x}");
        send(&mut record, &[0xA, 0xB]);
        assert_eq!(lose(&mut record, &vec![0; three]), lost(2, own(0xB).into()), "cr0 {cr0:x}");
        assert_eq!(held(&record), EIGHT.map(own), "cr0 {cr0:x}");
    }
}

/// The eighth place is a place: its word is kept and not handed up.
#[test]
fn kept_then_lost() {
    for (cr0, period, first, cycles) in MASTERS {
        let input = rxd(period, first, cycles, &[0xA, 0x5, 0x3]);
        for (places, kept, expected) in [
            (1, vec![0xA], lost(2, 0x3)),
            (2, vec![0xA, 0x5], lost(1, 0x3)),
            (3, vec![0xA, 0x5, 0x3], NONE),
        ] {
            let before = &EIGHT[..8 - places];
            let mut record = enabled(cr0, MASTER, before);
            send(&mut record, &[0; 3]);
            assert_eq!(lose(&mut record, &input), expected, "cr0 {cr0:x}");
            assert_eq!(held(&record), [before, &kept].concat());
            assert_eq!(record[at::ROR], u8::from(expected != NONE));
        }
    }
}

fn pins(digits: &str) -> Vec<u8> {
    digits.chars().map(|digit| digit.to_digit(16).unwrap() as u8).collect()
}

/// Pins for a slave, a digit a cycle: 0, 1 are CLK LOW and HIGH, 4, 5 the same with RXD HIGH,
/// 2, 3 with FSS HIGH. Of each frame also the place of the last capture's pins.
fn frame(cr0: u32, word: u32) -> (String, usize) {
    let bits = |count: u32| (0..count).rev().map(move |i| word >> i & 1 != 0);
    match cr0 {
        // FSS falls; a rise captures, RXD with it.
        SPH0 => {
            let clocks: String = bits(4).map(|one| if one { "50" } else { "10" }).collect();
            (format!("220{clocks}"), 3 + 6)
        }
        // The rise takes a word, or goes on to the next bit; the fall captures.
        SPH1 => {
            let clocks: String = bits(4).map(|one| if one { "14" } else { "10" }).collect();
            (format!("220{clocks}"), 3 + 7)
        }
        // FSS HIGH at a fall is the mark; bits as in SPH 1.
        TI => {
            let clocks: String = bits(4).map(|one| if one { "14" } else { "10" }).collect();
            (format!("32{clocks}"), 2 + 7)
        }
        // Eight control bits at rises; the wait; four data bits.
        _ => {
            let control: String = bits(8).map(|one| if one { "45" } else { "01" }).collect();
            (format!("22{control}01{}", "01".repeat(4)), 2 + 15)
        }
    }
}

/// Eight bits for Microwire, of which b 4 would keep the last four.
fn slave_words(cr0: u32) -> [u32; 3] {
    if cr0 == MICROWIRE {
        [0xA5, 0x5A, 0xC3]
    } else {
        [0xA, 0x5, 0x3]
    }
}

/// A slave sees its pins two cycles after they came, so the input goes on for two more.
#[test]
fn words_of_a_slave() {
    for cr0 in [SPH0, SPH1, TI, MICROWIRE] {
        let words = slave_words(cr0);
        let (mut digits, mut expected) = (String::new(), Vec::new());
        for word in words {
            let (frame, capture) = frame(cr0, word);
            expected.push((digits.len() + capture + 2, u64::from(word)));
            digits += &frame;
        }
        let input = pins(&(digits + "22"));
        let mut start = enabled(cr0, SLAVE, &EIGHT);
        let mut record = start;
        assert_eq!(lose(&mut record, &input), lost(3, words[2].into()), "cr0 {cr0:x}");
        assert_eq!((held(&record), record[at::ROR]), (EIGHT.to_vec(), 1));
        assert_eq!(lose_singly(&mut start, &input), expected, "cr0 {cr0:x}");
        assert_eq!(start, record);
        // With a place left the first is kept.
        let mut record = enabled(cr0, SLAVE, &EIGHT[..7]);
        assert_eq!(lose(&mut record, &input), lost(2, words[2].into()), "cr0 {cr0:x}");
        assert_eq!(held(&record), [&EIGHT[..7], &[words[0]]].concat());
    }
}

/// A part word is dropped, not lost: FSS HIGH, or in TI a mark, before its last bit.
#[test]
fn not_a_part_word() {
    for (cr0, dropped) in
        [(SPH0, "22050505022"), (SPH1, "22014141422"), (TI, "3214141212"), (MICROWIRE, "22")]
    {
        let mut digits = dropped.to_string();
        if cr0 == MICROWIRE {
            // Seven of eight bits.
            digits += &("45".repeat(7) + "22");
        }
        let mut record = enabled(cr0, SLAVE, &EIGHT);
        assert_eq!(lose(&mut record, &pins(&(digits + "22"))), NONE, "cr0 {cr0:x}");
        assert_eq!(record[at::ROR], 0);
    }
}

/// Each overrun is handed up, ROR up or not; ROR stays until ICR clears it.
#[test]
fn ror_before_and_after() {
    let mut record = enabled(SPH0, LOOPBACK, &EIGHT);
    for word in [0xA, 0x5, 0x5, 0xC] {
        send(&mut record, &[word]);
        assert_eq!(lose(&mut record, &[0; 12]), lost(1, word.into()));
        assert_eq!(record[at::ROR], 1);
        // Nothing of it is left for the next run.
        assert_eq!(lose(&mut record, &[0; 12]), NONE);
        assert_eq!(lose(&mut record, &[]), NONE);
        if word == 0x5 {
            assert_eq!(write(&mut record, ICR, 1), 0);
            assert_eq!(read(&mut record, RIS).1 & 1, 0);
        }
    }
}

/// A read makes room for one word.
#[test]
fn reads_in_between() {
    let mut record = enabled(SPH0, LOOPBACK, &EIGHT);
    assert_eq!(read(&mut record, DR), (0, 1));
    send(&mut record, &[0xA, 0xB]);
    assert_eq!(lose(&mut record, &[0; 24]), lost(1, 0xB));
    assert_eq!(held(&record), [2, 3, 4, 5, 6, 7, 8, 0xA]);
    assert_eq!((read(&mut record, DR), read(&mut record, DR)), ((0, 2), (0, 3)));
    send(&mut record, &[0xC, 0xD, 0xE, 0xF]);
    assert_eq!(lose(&mut record, &[0; 48]), lost(2, 0xF));
    assert_eq!(held(&record), [4, 5, 6, 7, 8, 0xA, 0xC, 0xD]);
}

/// The count tells a lost 0 from none.
#[test]
fn the_word_0() {
    for (words, expected) in [
        (&[0x0][..], lost(1, 0)),
        (&[0xA, 0x0], lost(2, 0)),
        (&[0x0, 0xA], lost(2, 0xA)),
        (&[0xA, 0x0, 0x0], lost(3, 0)),
    ] {
        let mut record = enabled(SPH0, LOOPBACK, &EIGHT);
        send(&mut record, words);
        assert_eq!(lose(&mut record, &vec![0; 12 * words.len()]), expected);
        assert_eq!((held(&record), record[at::ROR]), (EIGHT.to_vec(), 1));
    }
}

/// Words of 16 bits are lost whole, and words of five cut to five.
#[test]
fn sizes() {
    for (b, word, expected) in [(16, 0xBEEF, 0xBEEF), (5, 0xBEEF, 0xF), (5, 0xFFF0, 0x10)] {
        let mut record = enabled(b - 1, LOOPBACK, &EIGHT);
        send(&mut record, &[word]);
        // 2b + 4 slots.
        assert_eq!(lose(&mut record, &vec![0; 2 * b as usize + 4]), lost(1, expected));
    }
}

/// More bits than b in the shift register, as only a made-up record has them, are not handed
/// up: three ones are captured and the fourth comes in slot 8.
#[test]
fn cut_to_size() {
    let mut record = enabled(SPH0, MASTER, &EIGHT);
    (record[at::FRAME], record[at::CAPTURED], record[at::SLOT]) = (1, 3, 8);
    record[at::RECEIVING..at::RECEIVING + 2].copy_from_slice(&[0xFF, 0xFF]);
    assert_eq!(lose(&mut record, &[4]), lost(1, 0xF));
}

/// A frame that goes on with SSE clear loses its word: edition 2. In edition 1 it is dropped.
#[test]
fn with_sse_clear() {
    for (cr0, _, first, _) in MASTERS {
        let input = rxd(0, first, 40, &[0xA]);
        // TI takes the second word in slot 8.
        for stop in 1..=8.max(first + 5) {
            for (edition, expected) in [(1, NONE), (2, lost(1, 0xA))] {
                let mut record = holding(edition, (cr0, 2, MASTER), &EIGHT);
                // The second one is not taken.
                send(&mut record, &[0x5, 0x5]);
                assert_eq!(lose(&mut record, &input[..stop]), NONE);
                assert_eq!(write(&mut record, CR1, MASTER_OFF), 0);
                let rest = lose(&mut record, &input[stop..]);
                assert_eq!(rest, expected, "cr0 {cr0:x}, edition {edition}, after {stop}");
                assert_eq!(u64::from(record[at::ROR]), expected.count);
                assert_eq!((record[at::TX_COUNT], held(&record)), (1, EIGHT.to_vec()));
            }
        }
    }
}

/// The same in a slave, SSE cleared two captures before its last.
#[test]
fn with_sse_clear_in_a_slave() {
    for cr0 in [SPH0, SPH1, TI, MICROWIRE] {
        let word = slave_words(cr0)[0];
        let (digits, capture) = frame(cr0, word);
        let input = pins(&(digits + "2222"));
        let stop = capture + 2 - 3;
        for (edition, expected) in [(1, NONE), (2, lost(1, word.into()))] {
            let mut record = holding(edition, (cr0, 2, SLAVE), &EIGHT);
            assert_eq!(lose(&mut record, &input[..stop]), NONE);
            assert_eq!(write(&mut record, CR1, SLAVE_OFF), 0);
            let rest = lose(&mut record, &input[stop..]);
            assert_eq!(rest, expected, "cr0 {cr0:x}, edition {edition}");
        }
    }
}

/// Up to the first cycle that ends with BSY 0, that cycle included.
#[test]
fn to_idle() {
    for (cr0, count) in [
        // Twelve cycles, then slots 0 to 10.
        (SPH0, 12 + 11),
        // Slots 0 to 8, then 1 to 10.
        (SPH1, 9 + 10),
        // The second word's slot 9 is the last one: its loss comes with the last cycle.
        (TI, 8 + 10),
        // Slots 0 to 25, then 0 to 27.
        (MICROWIRE, 26 + 28),
    ] {
        let mut record = enabled(cr0, LOOPBACK, &EIGHT);
        send(&mut record, &[0xA, 0x5]);
        let mut output = [0; 80];
        let last = if cr0 == MICROWIRE { 0 } else { 0x5 };
        let expected = Ran { refusal: 0, count, lost: lost(2, last) };
        assert_eq!(run_to_idle(&mut record, &[0; 80], &mut output), expected, "cr0 {cr0:x}");
        // At once, and nothing is handed up twice.
        assert_eq!(run_to_idle(&mut record, &[0; 80], &mut output), Ran::default());
        assert_eq!(held(&record), EIGHT);
    }
}

/// A Motorola or TI slave is idle in the cycle of its last capture.
#[test]
fn a_slave_to_idle() {
    for cr0 in [SPH0, SPH1, TI] {
        let (digits, capture) = frame(cr0, 0xA);
        let mut record = enabled(cr0, SLAVE, &EIGHT);
        // Busy from the start, until this word is sent.
        send(&mut record, &[0xF]);
        let input = pins(&(digits + "222"));
        let mut output = vec![0; input.len()];
        let expected = Ran { refusal: 0, count: capture as u64 + 3, lost: lost(1, 0xA) };
        assert_eq!(run_to_idle(&mut record, &input, &mut output), expected, "cr0 {cr0:x}");
    }
}

/// A master and a slave, h 6, off; each holds these words. Four cycles pass, then both are on.
fn pair(held: [&[u32]; 2]) -> [Record; 2] {
    let [mut master, mut slave] =
        [(MASTER_OFF, held[0], 0xA), (SLAVE_OFF, held[1], 0x5)].map(|(cr1, held, word)| {
            let mut record = holding(1, (SPH0, 12, cr1), held);
            send(&mut record, &[word]);
            record
        });
    assert_eq!(pair_run(&mut master, &mut slave, 4), PairRan::default());
    assert_eq!(write(&mut slave, CR1, SLAVE), 0);
    assert_eq!(write(&mut master, CR1, MASTER), 0);
    [master, slave]
}

fn pair_lost(first: Lost, second: Lost) -> PairRan {
    PairRan { refusal: 0, first, second }
}

/// The master's slot 8 begins in its cycle 49. What it shows there is on the slave's pins a
/// cycle later and seen two cycles after that. The master gets 5, the slave A.
#[test]
fn in_a_pair() {
    let [mut master, mut slave] = pair([&EIGHT, &EIGHT]);
    for (cycles, expected) in [
        (48, PairRan::default()),
        (1, pair_lost(lost(1, 0x5), NONE)),
        (2, PairRan::default()),
        (1, pair_lost(NONE, lost(1, 0xA))),
        (0, PairRan::default()),
        (40, PairRan::default()),
    ] {
        assert_eq!(pair_run(&mut master, &mut slave, cycles), expected);
    }
    assert_eq!((held(&master), held(&slave)), (EIGHT.to_vec(), EIGHT.to_vec()));
}

/// In one run, either device first, with a full queue in both or in one.
#[test]
fn both_of_a_pair_or_one() {
    let (to_master, to_slave) = (lost(1, 0x5), lost(1, 0xA));
    for (places, expected) in [
        ([0, 0], [to_master, to_slave]),
        ([0, 1], [to_master, NONE]),
        ([1, 0], [NONE, to_slave]),
        ([1, 1], [NONE, NONE]),
    ] {
        let start = pair(places.map(|places| &EIGHT[..8 - places]));
        let [mut master, mut slave] = start;
        let ran = pair_run(&mut master, &mut slave, 52);
        assert_eq!(ran, pair_lost(expected[0], expected[1]));
        let [mut master, mut slave] = start;
        let ran = pair_run(&mut slave, &mut master, 52);
        assert_eq!(ran, pair_lost(expected[1], expected[0]));
        assert_eq!((master[at::ROR], slave[at::ROR]), (1 - places[0] as u8, 1 - places[1] as u8));
    }
}

/// Each reads the other's TXD, a cycle late: the bit is there since the slot before. Both lose
/// two words, in the same cycles.
#[test]
fn two_masters() {
    let [mut first, mut second] = [[0xA, 0x5], [0xC, 0x6]].map(|words| {
        let mut record = holding(1, (SPH0, 4, MASTER), &EIGHT);
        send(&mut record, &words);
        record
    });
    // Slot 8 begins in cycle 17, that of the second word 24 cycles later.
    for (cycles, expected) in [
        (16, PairRan::default()),
        (1, pair_lost(lost(1, 0xC), lost(1, 0xA))),
        (23, PairRan::default()),
        (1, pair_lost(lost(1, 0x6), lost(1, 0x5))),
    ] {
        assert_eq!(pair_run(&mut first, &mut second, cycles), expected);
    }
}

/// In the middle of a frame that would lose its word: zeros beside the number, and the record
/// as it was.
#[test]
fn refused() {
    let mut start = enabled(SPH0, LOOPBACK, &EIGHT);
    send(&mut start, &[0xA, 0x5]);
    assert_eq!(lose(&mut start, &[0; 14]), lost(1, 0xA));
    let mut unsound = start;
    unsound[at::RX_COUNT] = 9;
    let long = [&start[..], &[0]].concat();
    let right = [0; 20];
    let mut wrong = right;
    wrong[19] = 8;
    for (record, input, room, number) in [
        (&long[..], right, 20, 10),
        (&start, right, 19, 11),
        (&start, wrong, 20, 12),
        (&unsound, right, 20, 9),
    ] {
        for call in [run, run_to_idle] {
            let (mut copy, mut output) = (record.to_vec(), vec![0xEE; room]);
            assert_eq!(call(&mut copy, &input, &mut output), Ran::refused(number));
            assert_eq!((&copy[..], output), (record, vec![0xEE; room]));
        }
    }
    for (record, number) in [(&long[..], 10), (&unsound, 9)] {
        let (mut copy, mut other) = (record.to_vec(), start);
        assert_eq!(pair_run(&mut copy, &mut other, 20), PairRan::refused(number));
        assert_eq!(pair_run(&mut other, &mut copy, 20), PairRan::refused(number));
        assert_eq!((&copy[..], other), (record, start));
    }
    assert_eq!(lose(&mut start, &right), lost(1, 0x5));
}

/// A word that finds the transmit queue full is the host's own.
#[test]
fn not_a_word_to_send() {
    let mut record = enabled(SPH0, MASTER_OFF, &EIGHT);
    send(&mut record, &EIGHT);
    assert_eq!(write(&mut record, DR, 0x9), 7);
    assert_eq!(lose(&mut record, &[0; 30]), NONE);
}

/// `script --lost`: a line for each device that lost words, device 0 first, after the answer.
#[test]
fn in_scripts() {
    let mut session = Session::new(&Second);
    let mut answers = |script: &str| -> Vec<String> {
        let answers = script.lines().filter_map(|line| answer_line(&mut session, line));
        answers.map(|answer| answer.with_lost()).collect()
    };
    let eight = "w 1 8 1\n".repeat(8);
    answers(&format!("w 1 0 f\nw 1 10 2\n{eight}w 1 4 3"));
    // 8 words of 36 cycles are kept.
    assert_eq!(answers(&format!("run 1 {}", "0".repeat(288)))[0].lines().count(), 1);
    answers("w 1 8 beef\nw 1 8 a");
    let frames = format!("run 1 {}", "0".repeat(72));
    assert!(answers(&frames)[0].ends_with("\n  lost 1 2 a"));
    answers("w 1 8 beef\nw 1 8 0");
    assert!(answers(&format!("idle 1 {}", "0".repeat(36)))[0].ends_with("\n  lost 1 1 beef"));
    // Cycle 36 begins the second frame.
    assert!(answers("pair 36")[0].ends_with("\n  lost 1 1 0"));
    assert_eq!(answers("run 1 8\nrun 1 -"), ["12 -", "0 -"]);
}

/// Two masters in one script; each line has what all cycles of the command lost.
#[test]
fn both_in_scripts() {
    let mut session = Session::new(&Second);
    for device in 0..2 {
        let settings = [(CR0, SPH0), (CPSR, 4), (CR1, MASTER)];
        for (offset, value) in settings {
            assert_eq!(write(&mut session.records[device], offset, value), 0);
        }
        for word in EIGHT {
            assert_eq!(write(&mut session.records[device], DR, word), 0);
        }
    }
    // Eight frames of 24 cycles each.
    let first = answer_line(&mut session, "pair 192").unwrap();
    assert_eq!(first.with_lost(), first.line);
    for (device, words) in [[0xA, 0x5], [0xC, 0x6]].into_iter().enumerate() {
        for word in words {
            assert_eq!(write(&mut session.records[device], DR, word), 0);
        }
    }
    let second = answer_line(&mut session, "pair 48").unwrap();
    assert_eq!(second.with_lost(), second.line.clone() + "\n  lost 0 2 6\n  lost 1 2 5");
}
