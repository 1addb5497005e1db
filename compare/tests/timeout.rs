//! The receive timeout, by D113 and D114: what clears RT and what does not.
//!
//! Four bits and, where nothing else is said, h 1: RT is set by the 64th cycle in a row
//! that ends without a frame. Strings have a digit for each cycle, pins as in
//! `microwire.rs`.

use compare::calls::{pair_run, read, reset, run, run_to_idle, write};
use compare::record::{at, LENGTH};

const CR0: u32 = 0x00;
const CR1: u32 = 0x04;
const DR: u32 = 0x08;
const CPSR: u32 = 0x10;
const IMSC: u32 = 0x14;
const RIS: u32 = 0x18;
const MIS: u32 = 0x1C;
const ICR: u32 = 0x20;

const SPH0: u32 = 0x03;
const SPH1: u32 = 0x83;
const TI: u32 = 0x13;
const MICROWIRE: u32 = 0x23;

const MASTER: u32 = 2;
const LOOPBACK: u32 = 3;
const SLAVE: u32 = 6;

type Record = [u8; LENGTH];

fn enabled(cr0: u32, cr1: u32) -> Record {
    let mut record = [0; LENGTH];
    reset(&mut record);
    for (offset, value) in [(CR0, cr0), (CPSR, 2), (CR1, cr1)] {
        assert_eq!(write(&mut record, offset, value), 0);
    }
    record
}

fn cycles(record: &mut Record, input: &[u8]) {
    let mut output = vec![0; input.len()];
    assert_eq!(run(record, input, &mut output).refusal, 0);
}

/// Flag and count.
fn timeout(record: &Record) -> (u8, u32) {
    let count = record[at::RT_COUNT..at::RT_COUNT + 4].try_into().unwrap();
    (record[at::RT], u32::from_le_bytes(count))
}

/// RT after each of these cycles.
fn flags(record: &mut Record, input: &[u8]) -> String {
    let mut shown = String::new();
    for pins in input {
        cycles(record, &[*pins]);
        shown += &record[at::RT].to_string();
    }
    shown
}

/// Set for so many cycles, then clear for so many.
fn steps(set: usize, clear: usize) -> String {
    "1".repeat(set) + &"0".repeat(clear)
}

fn held(record: &Record) -> Vec<u32> {
    let mut copy = *record;
    (0..record[at::RX_COUNT]).map(|_| read(&mut copy, DR).1).collect()
}

/// Runs idle until RT is set by the last cycle; so many have counted already.
fn time_out(record: &mut Record, counted: usize, pins: u8) {
    assert_eq!(timeout(record).1, counted as u32);
    cycles(record, &vec![pins; 63 - counted]);
    assert_eq!(timeout(record).1, 63);
    cycles(record, &[pins]);
    assert_eq!(timeout(record), (1, 0));
}

/// Motorola in loopback with these words held and RT set. Each frame has slots 0 to 11
/// and is over in 10, so that the last two cycles count.
fn timed_out(words: &[u32]) -> Record {
    let mut record = enabled(SPH0, LOOPBACK);
    for word in words {
        assert_eq!(write(&mut record, DR, *word), 0);
        cycles(&mut record, &[0; 12]);
    }
    time_out(&mut record, 2, 0);
    record
}

#[test]
fn a_word_that_enters() {
    let mut record = timed_out(&[0x5]);
    assert_eq!(write(&mut record, DR, 0xA), 0);
    // The last capture is in slot 8, after eight cycles.
    assert_eq!(flags(&mut record, &[0; 8]), steps(8, 0));
    assert_eq!((timeout(&record), held(&record)), ((1, 0), vec![0x5]));
    assert_eq!(flags(&mut record, &[0]), steps(0, 1));
    assert_eq!((timeout(&record), held(&record)), ((0, 0), vec![0x5, 0xA]));
    // Slot 9 is in the frame; 10 and 11 count, and 62 more set it again.
    cycles(&mut record, &[0]);
    assert_eq!(timeout(&record), (0, 0));
    cycles(&mut record, &[0; 2]);
    time_out(&mut record, 2, 0);
}

#[test]
fn a_word_that_overruns() {
    let eight = [1, 2, 3, 4, 5, 6, 7, 8];
    let mut record = timed_out(&eight);
    // Once with ROR down, once with ROR up already.
    for ror in [0, 1] {
        assert_eq!(write(&mut record, DR, 9), 0);
        assert_eq!(flags(&mut record, &[0; 8]), steps(8, 0));
        assert_eq!(read(&mut record, RIS), (0, 0xE | ror), "TX, RX, RT");
        assert_eq!(flags(&mut record, &[0]), steps(0, 1));
        assert_eq!(read(&mut record, RIS), (0, 0xD), "TX, RX, ROR");
        assert_eq!((timeout(&record), held(&record)), ((0, 0), eight.to_vec()));
        cycles(&mut record, &[0; 3]);
        time_out(&mut record, 2, 0);
    }
}

#[test]
fn raw_and_masked() {
    // IMSC, then MIS before and after the word: TX and RT, then TX.
    for (imsc, before, after) in
        [(0x0, 0x0, 0x0), (0x2, 0x2, 0x0), (0xD, 0x8, 0x8), (0xF, 0xA, 0x8)]
    {
        let mut record = timed_out(&[0x5]);
        assert_eq!(write(&mut record, IMSC, imsc), 0);
        assert_eq!(write(&mut record, DR, 0xA), 0);
        cycles(&mut record, &[0; 8]);
        assert_eq!((read(&mut record, RIS), read(&mut record, MIS)), ((0, 0xA), (0, before)));
        cycles(&mut record, &[0]);
        assert_eq!((read(&mut record, RIS), read(&mut record, MIS)), ((0, 0x8), (0, after)));
    }
}

#[test]
fn icr_and_the_emptying_read() {
    let mut record = timed_out(&[0x5, 0xA]);
    cycles(&mut record, &[0; 7]);
    assert_eq!(write(&mut record, ICR, 1), 0);
    assert_eq!(timeout(&record), (1, 7), "ROR's bit alone");
    assert_eq!(write(&mut record, ICR, 2), 0);
    assert_eq!(timeout(&record), (0, 0));
    time_out(&mut record, 0, 0);
    cycles(&mut record, &[0; 7]);
    assert_eq!(read(&mut record, DR), (0, 0x5));
    assert_eq!(timeout(&record), (1, 0), "a word is left");
    cycles(&mut record, &[0; 7]);
    assert_eq!(read(&mut record, DR), (0, 0xA));
    assert_eq!(timeout(&record), (0, 0), "none is left");
    assert_eq!(flags(&mut record, &[0; 70]), steps(0, 70));
}

#[test]
fn not_a_word_to_send() {
    let mut record = timed_out(&[0x5]);
    cycles(&mut record, &[0; 7]);
    for word in 0..8 {
        assert_eq!(write(&mut record, DR, word), 0);
        assert_eq!(timeout(&record), (1, 7));
    }
    assert_eq!(write(&mut record, DR, 8), 7);
    assert_eq!(timeout(&record), (1, 7));
}

/// A cycle before the word would be there, SSE is cleared.
#[test]
fn not_the_clearing_of_sse() {
    let mut record = timed_out(&[0x5]);
    assert_eq!(write(&mut record, DR, 0xA), 0);
    cycles(&mut record, &[0; 8]);
    assert_eq!(write(&mut record, CR1, 1), 0);
    assert_eq!(timeout(&record), (1, 0));
    assert_eq!(flags(&mut record, &[0; 70]), steps(70, 0));
    assert_eq!(write(&mut record, CR1, LOOPBACK), 0);
    assert_eq!(flags(&mut record, &[0; 63]), steps(63, 0));
    assert_eq!((timeout(&record), held(&record)), ((1, 63), vec![0x5]));
}

/// CR0; of one word: its cycles, idle slots included, and how many of them count; of two
/// words: the cycles with which they arrive.
const MASTERS: [(u32, usize, usize, usize, usize); 4] = [
    // Slot 8, and 8 of a second frame; over in 10.
    (SPH0, 12, 2, 9, 12 + 9),
    // Slot 8; the second word's slot 1 is 9.
    (SPH1, 12, 2, 9, 8 + 9),
    // Slot 9, the last one; the second word's slot 0 is 8.
    (TI, 10, 1, 10, 8 + 10),
    // Slot 25; the second word's slot 0 is 26; over in 27.
    (MICROWIRE, 29, 2, 26, 26 + 26),
];

#[test]
fn each_word_of_a_master() {
    for (cr0, total, counted, first, second) in MASTERS {
        for cr1 in [MASTER, LOOPBACK] {
            let mut record = enabled(cr0, cr1);
            assert_eq!(write(&mut record, DR, 0x5), 0);
            cycles(&mut record, &vec![4; total]);
            time_out(&mut record, counted, 4);
            for word in [0xA, 0x3] {
                assert_eq!(write(&mut record, DR, word), 0);
            }
            assert_eq!(flags(&mut record, &vec![4; first]), steps(first - 1, 1), "cr0 {cr0:x}");
            assert_eq!(record[at::RX_COUNT], 2);
            // No frame is over between joined words, so RT is set by hand.
            record[at::RT] = 1;
            let rest = second - first;
            assert_eq!(flags(&mut record, &vec![4; rest]), steps(rest - 1, 1), "cr0 {cr0:x}");
            assert_eq!(record[at::RX_COUNT], 3);
        }
    }
}

fn pins(digits: &str) -> Vec<u8> {
    digits.chars().map(|digit| digit.to_digit(16).unwrap() as u8).collect()
}

/// RT after each cycle that sees these pins, two cycles after they came.
fn see(record: &mut Record, digits: &str) -> String {
    let mut input = pins(digits);
    input.extend([input[input.len() - 1]; 2]);
    flags(record, &input).split_off(2)
}

/// The pins of a frame, of which the last ends it. A Motorola slave captures at rises if
/// SPH is 0, at falls if it is 1.
fn frame(cr0: u32) -> String {
    match cr0 {
        SPH0 => "22".to_string() + "0" + "1010101",
        SPH1 => "22".to_string() + "0" + "10101010",
        TI => "32".to_string() + "10101010",
        // Control byte, wait, four data bits.
        _ => "22".to_string() + &"01".repeat(8 + 1 + 4),
    }
}

/// A slave that has received one word by these pins and idled on the last of them. The
/// cycle in which its frame ends counts.
fn timed_out_slave(cr0: u32, digits: &str) -> Record {
    let mut record = enabled(cr0, SLAVE);
    see(&mut record, digits);
    assert_eq!(record[at::RX_COUNT], 1);
    time_out(&mut record, 1, pins(digits)[digits.len() - 1]);
    record
}

#[test]
fn a_word_of_a_slave() {
    // The cycle in which the word arrives: the last, but the eighth rise in Microwire.
    for (cr0, arrival) in [(SPH0, 10), (SPH1, 11), (TI, 10), (MICROWIRE, 18)] {
        let digits = frame(cr0);
        let mut record = timed_out_slave(cr0, &digits);
        let after = digits.len() - arrival;
        assert_eq!(see(&mut record, &digits), steps(arrival - 1, after + 1), "cr0 {cr0:x}");
        assert_eq!((record[at::RX_COUNT], timeout(&record)), (2, (0, 1)), "cr0 {cr0:x}");
    }
}

/// RT comes up between two words without FSS HIGH between them.
#[test]
fn a_joined_word_of_a_slave() {
    for (cr0, first, next) in [
        (SPH1, frame(SPH1), "10101010".to_string()),
        // The last capture's FSS HIGH is the mark of the next word.
        (TI, "3210101012".to_string(), "10101010".to_string()),
        (MICROWIRE, frame(MICROWIRE), "01".repeat(8)),
    ] {
        let mut record = timed_out_slave(cr0, &first);
        assert_eq!(see(&mut record, &next), steps(next.len() - 1, 1), "cr0 {cr0:x}");
        assert_eq!(record[at::RX_COUNT], 2);
        // A Microwire slave's frame goes on.
        let count = if cr0 == MICROWIRE { 0 } else { 1 };
        assert_eq!(timeout(&record), (0, count), "cr0 {cr0:x}");
    }
}

#[test]
fn a_slave_that_overruns() {
    for cr0 in [SPH0, SPH1, TI, MICROWIRE] {
        let digits = frame(cr0);
        let mut record = enabled(cr0, SLAVE);
        for _ in 0..8 {
            see(&mut record, &digits);
        }
        time_out(&mut record, 1, pins(&digits)[digits.len() - 1]);
        // All eight are 0, the ninth is F or FF.
        let ones: String = pins(&digits).iter().map(|pins| (pins | 4).to_string()).collect();
        see(&mut record, &ones);
        assert_eq!((timeout(&record), record[at::ROR]), ((0, 1), 1), "cr0 {cr0:x}");
        assert_eq!(held(&record), [0; 8]);
    }
}

/// Cut by FSS HIGH at every place up to the arrival, with either level of CLK; in TI by a
/// mark before the last bit.
#[test]
fn not_a_part_frame() {
    for (cr0, arrival) in [(SPH0, 10), (SPH1, 11), (MICROWIRE, 18)] {
        let digits = frame(cr0);
        for cut in 3..arrival {
            for high in ["2", "3"] {
                let mut record = timed_out_slave(cr0, &digits);
                let dropped = digits[..cut].to_string() + high;
                assert_eq!(see(&mut record, &dropped), steps(cut + 1, 0), "cr0 {cr0:x} {dropped}");
                assert_eq!(record[at::RX_COUNT], 1);
            }
        }
    }
    for part in ["12", "1012", "101012"] {
        let mut record = timed_out_slave(TI, &frame(TI));
        let dropped = "32".to_string() + part;
        assert_eq!(see(&mut record, &dropped), steps(dropped.len(), 0), "{dropped}");
        assert_eq!((record[at::RX_COUNT], timeout(&record)), (1, (1, 1)));
    }
}

#[test]
fn not_the_clearing_of_sse_in_a_slave() {
    for (cr0, arrival) in [(SPH0, 10), (SPH1, 11), (TI, 10), (MICROWIRE, 18)] {
        let digits = frame(cr0);
        let mut record = timed_out_slave(cr0, &digits);
        see(&mut record, &digits[..arrival - 1]);
        assert_eq!((record[at::FRAME], timeout(&record)), (1, (1, 0)));
        assert_eq!(write(&mut record, CR1, 4), 0);
        assert_eq!(write(&mut record, CR1, SLAVE), 0);
        see(&mut record, &digits[arrival - 1..]);
        assert_eq!((record[at::RX_COUNT], record[at::RT]), (1, 1), "cr0 {cr0:x}");
    }
}

#[test]
fn in_a_run_to_idle() {
    let mut record = timed_out(&[0x5]);
    assert_eq!(write(&mut record, DR, 0xA), 0);
    let mut output = [0; 40];
    // Slots 0 to 10.
    let ran = run_to_idle(&mut record, &[0; 40], &mut output);
    assert_eq!((ran.refusal, ran.count), (0, 11));
    assert_eq!(timeout(&record), (0, 1));
}

/// h 6: the master's slot 8 begins in its cycle 49. What it shows there is on the slave's
/// pins a cycle later and seen two cycles after that.
#[test]
fn in_a_pair() {
    let mut records = [(0, 0xA), (4, 0x5)].map(|(cr1, word)| {
        let mut record = [0; LENGTH];
        reset(&mut record);
        for (offset, value) in [(CR0, SPH0), (CPSR, 12), (CR1, cr1), (DR, word)] {
            assert_eq!(write(&mut record, offset, value), 0);
        }
        // A word held, RT set.
        (record[at::RX_COUNT], record[at::RX], record[at::RT]) = (1, 7, 1);
        record
    });
    let [master, slave] = &mut records;
    pair_run(master, slave, 4);
    assert_eq!(write(slave, CR1, SLAVE), 0);
    assert_eq!(write(master, CR1, MASTER), 0);
    let mut shown = [String::new(), String::new()];
    for _ in 0..52 {
        assert_eq!(pair_run(master, slave, 1).refusal, 0);
        shown[0] += &master[at::RT].to_string();
        shown[1] += &slave[at::RT].to_string();
    }
    assert_eq!(shown, [steps(48, 4), steps(51, 1)]);
    assert_eq!((held(master), held(slave)), (vec![7, 0x5], vec![7, 0xA]));
}

/// Sound records that no run from reset leads to: a count in a frame. The next cycle has
/// a one for the last bit of a word, whose others are ones too.
mod made_by_hand {
    use super::*;

    /// CR0, CR1, captured bits, slot, pins seen in the next cycle and in the one before.
    type Place = (u32, u32, u8, u8, [u8; 2]);

    /// The frame is over with the word.
    const OVER: [Place; 4] = [
        // h 1: the slot's first cycle is its last.
        (TI, MASTER, 3, 9, [0, 0]),
        (SPH0, SLAVE, 3, 0, [5, 0]),
        (SPH1, SLAVE, 3, 0, [4, 1]),
        (TI, SLAVE, 3, 0, [4, 1]),
    ];

    /// The frame goes on. TI's slot 1 is a joined one.
    const ON: [Place; 6] = [
        (SPH0, MASTER, 3, 8, [0, 0]),
        (SPH1, MASTER, 3, 8, [0, 0]),
        (TI, MASTER, 3, 1, [0, 0]),
        (TI, MASTER, 3, 3, [0, 0]),
        (MICROWIRE, MASTER, 3, 25, [0, 0]),
        (MICROWIRE, SLAVE, 7, 0, [5, 0]),
    ];

    fn made(place: Place, rt: u8, count: u32, words: u8) -> Record {
        let (cr0, cr1, captured, slot, seen) = place;
        let mut record = enabled(cr0, cr1);
        record[at::FRAME] = 1;
        record[at::SELECTED] = u8::from(cr1 == SLAVE && cr0 != TI);
        record[at::CAPTURED] = captured;
        record[at::SLOT] = slot;
        record[at::RECEIVING] = 0xFF;
        record[at::PINS + 1..at::PINS + 3].copy_from_slice(&seen);
        record[at::RT] = rt;
        record[at::RT_COUNT..at::RT_COUNT + 4].copy_from_slice(&count.to_le_bytes());
        record[at::RX_COUNT] = words;
        for word in 0..usize::from(words) {
            record[at::RX + 2 * word] = 2;
        }
        record
    }

    /// The word has arrived: kept, or lost with eight held.
    fn arrived(record: &Record, words: u8) -> bool {
        let byte = record[at::CR0] & 0x30 == 0x20 && record[at::CR1] & 4 != 0;
        let word = if byte { 0xFF } else { 0xF };
        let (mut all, lost) = (vec![2; usize::from(words)], words == 8);
        if !lost {
            all.push(word);
        }
        held(record) == all && record[at::ROR] == u8::from(lost)
    }

    /// Flag, count and frame after the cycle of the arrival, however many words are held.
    fn after(place: Place, rt: u8, count: u32) -> (u8, u32, u8) {
        let results = [0, 1, 7, 8].map(|words| {
            let mut record = made(place, rt, count, words);
            cycles(&mut record, &[4]);
            assert!(arrived(&record, words), "{place:x?}");
            let (rt, count) = timeout(&record);
            (rt, count, record[at::FRAME])
        });
        assert_eq!(results, [results[0]; 4], "{place:x?}");
        results[0]
    }

    #[test]
    fn cleared_then_set() {
        for place in OVER {
            for rt in [0, 1] {
                assert_eq!(after(place, rt, 63), (1, 0, 0), "{place:x?}");
            }
        }
    }

    /// One cycle short of the limit, and far from it: the arrival leaves the count.
    #[test]
    fn cleared_and_counted() {
        for place in OVER {
            for rt in [0, 1] {
                for count in [0, 1, 17, 62] {
                    assert_eq!(after(place, rt, count), (0, count + 1, 0), "{place:x?}");
                }
            }
        }
    }

    /// A frame at the end of the cycle holds the count at zero.
    #[test]
    fn cleared_in_a_frame() {
        for place in ON {
            for (rt, count) in [(0, 62), (0, 63), (1, 0), (1, 62), (1, 63)] {
                assert_eq!(after(place, rt, count), (0, 0, 1), "{place:x?}");
            }
        }
    }

    /// h 2: a TI master's frame has one more cycle, a slave's is over as before.
    #[test]
    fn with_longer_slots() {
        for place in OVER {
            for (count, after) in [(127, (1, 0)), (126, (0, 127)), (63, (0, 64))] {
                let mut record = made(place, 1, count, 1);
                record[at::CPSR] = 4;
                cycles(&mut record, &[4]);
                assert!(arrived(&record, 1), "{place:x?}");
                let master = place.1 == MASTER;
                assert_eq!(timeout(&record), if master { (0, 0) } else { after }, "{place:x?}");
                if master {
                    cycles(&mut record, &[4]);
                    assert_eq!((timeout(&record), record[at::FRAME]), ((0, 1), 0));
                }
            }
        }
    }

    /// Neither a bit before the last completes a word, nor one more with all captured (D79).
    #[test]
    fn not_a_capture_without_a_word() {
        for place in OVER.into_iter().chain(ON) {
            let last = place.2 + 1;
            for captured in [last, last - 2] {
                let mut record = made((place.0, place.1, captured, place.3, place.4), 1, 0, 1);
                cycles(&mut record, &[4]);
                assert_eq!((held(&record), record[at::RT]), (vec![2], 1), "{place:x?} {captured}");
            }
        }
    }
}
