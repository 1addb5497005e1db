//! The Microwire slave on its pins, with recordings made by hand from the slots of its
//! master: control bits at rises of 0 to 15, wait 16 and 17, data bits from 18 on.
//!
//! All strings have a digit for each cycle that sees a pin byte, two cycles after it came.
//! Pins: 0, 1 are CLK LOW and HIGH, 4, 5 the same with RXD HIGH, 2, 3 with FSS HIGH.
//! Lines: A is a slave that drives nothing, 2 and 6 are TXD LOW and HIGH, driven.

use compare::calls::{read, reset, run, run_to_idle, write};
use compare::record::{at, LENGTH};

const CR0: u32 = 0x00;
const CR1: u32 = 0x04;
const DR: u32 = 0x08;
const SR: u32 = 0x0C;
const CPSR: u32 = 0x10;
const RIS: u32 = 0x18;

const SLAVE: u32 = 6;
const LOOPBACK: u32 = 7;
const SILENT: u32 = 14;

/// FSS HIGH for two cycles, CLK LOW.
const HIGH: &str = "22";
/// The control byte A5, bits 10100101, each with CLK LOW and then HIGH.
const A5: &str = "4501450101450145";
/// The wait, and the clocks of four data bits.
const WAIT: &str = "01";
const FOUR: &str = "01010101";
/// CLK falls after the last data bit, FSS rises later.
const END: &str = "022";

type Record = [u8; LENGTH];

/// An enabled slave of b bits, h 1, these words waiting.
fn slave(b: u32, cr1: u32, words: &[u32]) -> Record {
    let mut record = [0; LENGTH];
    reset(&mut record);
    assert_eq!(write(&mut record, CR0, 0x20 | (b - 1)), 0);
    assert_eq!(write(&mut record, CPSR, 2), 0);
    for word in words {
        assert_eq!(write(&mut record, DR, *word), 0);
    }
    assert_eq!(write(&mut record, CR1, cr1), 0);
    record
}

/// What a slave does, a digit for each cycle.
#[derive(Default)]
struct Seen {
    lines: String,
    /// A frame is in progress after the cycle.
    frame: String,
    /// Words received and words still to send after the cycle.
    received: String,
    waiting: String,
}

fn pins(digits: &str) -> Vec<u8> {
    digits.chars().map(|digit| digit.to_digit(16).unwrap() as u8).collect()
}

/// Runs until all these pins were seen; the last stay for the two cycles of the delay.
fn see(record: &mut Record, digits: &str) -> Seen {
    let mut input = pins(digits);
    input.extend([input[input.len() - 1]; 2]);
    let mut seen = Seen::default();
    for (i, byte) in input.iter().enumerate() {
        let mut lines = [0];
        assert_eq!(run(record, &[*byte], &mut lines).refusal, 0);
        if i < 2 {
            // Still sees what came before.
            continue;
        }
        seen.lines += &format!("{:X}", lines[0]);
        seen.frame += &record[at::FRAME].to_string();
        seen.received += &record[at::RX_COUNT].to_string();
        seen.waiting += &record[at::TX_COUNT].to_string();
    }
    seen
}

fn received(record: &Record) -> Vec<u32> {
    let mut copy = *record;
    (0..record[at::RX_COUNT]).map(|_| read(&mut copy, DR).1).collect()
}

/// Each digit n times: the same at a slower clock.
fn slowed(digits: &str, n: usize) -> String {
    digits.chars().flat_map(|digit| std::iter::repeat_n(digit, n)).collect()
}

/// Pins of a control byte, most significant bit first.
fn control(byte: u32) -> String {
    (0..8).map(|i| if byte >> (7 - i) & 1 != 0 { "45" } else { "01" }).collect()
}

/// Lines of b data bits, most significant of the low b first.
fn data(word: u32, b: u32) -> String {
    (0..b).map(|j| if word >> (b - 1 - j) & 1 != 0 { "66" } else { "22" }).collect()
}

#[test]
fn one_frame() {
    let mut record = slave(4, SLAVE, &[0x9]);
    let seen = see(&mut record, &[HIGH, A5, WAIT, FOUR, END].concat());
    // Data 1001, each bit from its fall to the next.
    assert_eq!(seen.lines, ["AA", "AAAAAAAAAAAAAAAA", "AA", "66222266", "AAA"].concat());
    // From the rise of slot 1 to that of slot 25.
    assert_eq!(seen.frame, ["00", "0111111111111111", "11", "11111110", "000"].concat());
    // The control byte enters at the rise of slot 15.
    assert_eq!(seen.received, ["00", "0000000000000001", "11", "11111111", "111"].concat());
    // The word is taken at the rise of slot 17.
    assert_eq!(seen.waiting, ["11", "1111111111111111", "10", "00000000", "000"].concat());
    assert_eq!(received(&record), [0xA5]);
}

#[test]
fn two_frames_under_one_fss_low() {
    let mut record = slave(4, SLAVE, &[0x9, 0x6]);
    // 3C is 00111100: its first bit's CLK LOW ends the last data bit of the first frame.
    let second = "0101454545450101";
    let input = [HIGH, A5, WAIT, FOUR, second, WAIT, FOUR, END].concat();
    let seen = see(&mut record, &input);
    let (first, next) = ("AAAAAAAAAAAAAAAAAA66222266", "AAAAAAAAAAAAAAAAAA22666622");
    assert_eq!(seen.lines, ["AA", first, next, "AAA"].concat());
    let frame = "01111111111111111111111110";
    assert_eq!(seen.frame, ["00", frame, frame, "000"].concat());
    assert_eq!(received(&record), [0xA5, 0x3C]);
}

#[test]
fn two_frames_with_fss_high_between() {
    let mut record = slave(4, SLAVE, &[0x9, 0x6]);
    let input = [HIGH, A5, WAIT, FOUR, END, A5, WAIT, FOUR, END].concat();
    let lines = see(&mut record, &input).lines;
    let (first, next) = ("AAAAAAAAAAAAAAAAAA66222266", "AAAAAAAAAAAAAAAAAA22666622");
    assert_eq!(lines, ["AA", first, "AAA", next, "AAA"].concat());
    assert_eq!(received(&record), [0xA5, 0xA5]);
}

#[test]
fn every_size() {
    for b in 4..=16 {
        for word in [0x9A5C, 0x5A35, 0xFFFF, 0x8001] {
            // Whatever b is, a control byte has eight bits.
            for byte in [0xA5, 0xFF, 0x01, 0x80] {
                let mut record = slave(b, SLAVE, &[word]);
                let clocks = "01".repeat(b as usize);
                let input = [HIGH, &control(byte), WAIT, &clocks, END].concat();
                let seen = see(&mut record, &input);
                let idle = "A".repeat(18);
                assert_eq!(seen.lines, ["AA", &idle, &data(word, b), "AAA"].concat(), "b {b}");
                // Rises of slots 1 to 17+2b, without the last of these.
                let frame = "1".repeat(16 + 2 * b as usize);
                assert_eq!(seen.frame, ["000", &frame, "0", "000"].concat(), "b {b}");
                assert_eq!(received(&record), [byte], "b {b}");
            }
        }
    }
}

/// A level that lasts for more cycles changes nothing: edges count.
#[test]
fn any_clock() {
    let input = [HIGH, A5, WAIT, FOUR, END].concat();
    let lines = ["AA", "AAAAAAAAAAAAAAAA", "AA", "66222266", "AAA"].concat();
    for n in 1..=9 {
        let mut record = slave(4, SLAVE, &[0x9]);
        assert_eq!(see(&mut record, &slowed(&input, n)).lines, slowed(&lines, n));
        assert_eq!(received(&record), [0xA5]);
    }
}

#[test]
fn polarity_and_phase_mean_nothing() {
    for setting in [0x00, 0x40, 0x80, 0xC0] {
        let mut record = slave(4, SLAVE, &[0x9]);
        record[at::CR0] |= setting;
        let lines = see(&mut record, &[HIGH, A5, WAIT, FOUR, END].concat()).lines;
        assert_eq!(lines, ["AA", "AAAAAAAAAAAAAAAA", "AA", "66222266", "AAA"].concat());
        assert_eq!(received(&record), [0xA5]);
    }
}

/// RXD counts in the sample of the rise alone, not in the ones beside it.
#[test]
fn rxd_of_the_rising_sample() {
    // Bits 10100101, each with three cycles LOW and three HIGH; RXD is wrong in all but
    // the first of the three HIGH.
    let (one, zero) = ("000511", "444155");
    let byte = [one, zero, one, zero, zero, one, zero, one].concat();
    let mut record = slave(4, SLAVE, &[]);
    see(&mut record, &[HIGH, &byte].concat());
    assert_eq!(received(&record), [0xA5]);
}

#[test]
fn fss_falls_with_a_rise_of_the_clock() {
    let mut record = slave(4, SLAVE, &[0x9]);
    // Without the CLK LOW of the first bit: it is latched in the cycle of the fall.
    let input = [HIGH, &A5[1..], WAIT, FOUR, END].concat();
    let seen = see(&mut record, &input);
    assert_eq!(seen.lines, ["AA", "AAAAAAAAAAAAAAA", "AA", "66222266", "AAA"].concat());
    assert_eq!(seen.frame, ["00", "111111111111111", "11", "11111110", "000"].concat());
    assert_eq!(received(&record), [0xA5]);
}

#[test]
fn fss_falls_with_a_fall_of_the_clock() {
    let mut record = slave(4, SLAVE, &[0x9]);
    let lines = see(&mut record, &["33", A5, WAIT, FOUR, END].concat()).lines;
    assert_eq!(lines, ["AA", "AAAAAAAAAAAAAAAA", "AA", "66222266", "AAA"].concat());
    assert_eq!(received(&record), [0xA5]);
}

/// The rise that comes with FSS HIGH is no latch: FSS comes first.
#[test]
fn fss_rises_with_the_eighth_rise() {
    let mut record = slave(4, SLAVE, &[0x9]);
    let seen = see(&mut record, &[HIGH, &A5[..15], "7", "2"].concat());
    assert_eq!(seen.frame, ["00", "011111111111111", "0", "0"].concat());
    assert!(received(&record).is_empty());
}

#[test]
fn fss_high_in_the_control_byte() {
    let mut record = slave(4, SLAVE, &[0x9]);
    // Seven bits, then FSS HIGH: dropped, and the byte after it starts anew.
    let seen = see(&mut record, &[HIGH, &A5[..14], "2", A5, WAIT, FOUR, END].concat());
    assert_eq!(&seen.frame[..17], ["00", "01111111111111", "0"].concat());
    assert_eq!(&seen.lines[17..], ["AAAAAAAAAAAAAAAA", "AA", "66222266", "AAA"].concat());
    assert_eq!(received(&record), [0xA5]);
    assert_eq!(record[at::TX_COUNT], 0, "the word waited");
}

#[test]
fn fss_high_in_the_data_bits() {
    let mut record = slave(4, SLAVE, &[0xF, 0x6]);
    // In the middle of data bit 1: lines idle and frame over in that cycle.
    let seen = see(&mut record, &[HIGH, A5, WAIT, "010", "2"].concat());
    assert_eq!(seen.lines, ["AA", "AAAAAAAAAAAAAAAA", "AA", "666", "A"].concat());
    assert_eq!(seen.frame, ["00", "0111111111111111", "11", "111", "0"].concat());
    assert_eq!(received(&record), [0xA5], "the control byte stays");
    assert_eq!(record[at::TX_COUNT], 1, "the word taken is gone");
    let lines = see(&mut record, &[A5, WAIT, FOUR, END].concat()).lines;
    assert_eq!(lines, ["AAAAAAAAAAAAAAAA", "AA", "22666622", "AAA"].concat());
}

/// Cut at every place of a frame, with FSS HIGH for one cycle, the next frame is whole.
#[test]
fn fss_high_at_every_place() {
    let frame = [A5, WAIT, FOUR].concat();
    let lines = ["AAAAAAAAAAAAAAAA", "AA", "66222266"].concat();
    for cut in 0..=frame.len() {
        let mut record = slave(4, SLAVE, &[0x9, 0x9]);
        let seen = see(&mut record, &[HIGH, &frame[..cut], "2", &frame, END].concat());
        assert_eq!(seen.lines, ["AA", &lines[..cut], "A", &lines, "AAA"].concat(), "cut {cut}");
        // A byte is complete with slot 15, the word is taken with slot 17.
        let bytes = if cut > 15 { 2 } else { 1 };
        assert_eq!(received(&record), vec![0xA5; bytes], "cut {cut}");
        assert_eq!(record[at::TX_COUNT], u8::from(cut <= 17), "cut {cut}");
    }
}

/// The last data bit stays until its fall, or FSS HIGH if that comes first.
#[test]
fn last_bit_until_its_fall() {
    let mut record = slave(4, SLAVE, &[0x9]);
    let seen = see(&mut record, &[HIGH, A5, WAIT, FOUR, "1111", "0", "000"].concat());
    assert_eq!(&seen.lines[20..], ["66222266", "6666", "A", "AAA"].concat());
    assert_eq!(&seen.frame[20..], ["11111110", "0000", "0", "000"].concat());
    let mut record = slave(4, SLAVE, &[0x9]);
    let seen = see(&mut record, &[HIGH, A5, WAIT, FOUR, "1111", "3", "333"].concat());
    assert_eq!(&seen.lines[20..], ["66222266", "6666", "A", "AAA"].concat());
}

#[test]
fn zeros_without_a_word() {
    let mut record = slave(4, SLAVE, &[]);
    let seen = see(&mut record, &[HIGH, A5, WAIT, FOUR, END].concat());
    assert_eq!(seen.lines, ["AA", "AAAAAAAAAAAAAAAA", "AA", "22222222", "AAA"].concat());
    assert_eq!(seen.frame, ["00", "0111111111111111", "11", "11111110", "000"].concat());
    assert_eq!(received(&record), [0xA5]);
}

/// A word that comes after the ninth rise waits for the next frame.
#[test]
fn word_taken_at_the_ninth_rise() {
    for (before, lines) in [("", "66666666"), (WAIT, "22222222")] {
        let mut record = slave(4, SLAVE, &[]);
        see(&mut record, &[HIGH, A5, before].concat());
        assert_eq!(write(&mut record, DR, 0xF), 0);
        let after = &WAIT[before.len()..];
        let seen = see(&mut record, &[after, FOUR, END].concat());
        assert_eq!(seen.lines[after.len()..], [lines, "AAA"].concat());
    }
}

/// SOD releases the line and changes nothing else.
#[test]
fn output_disabled() {
    let mut record = slave(4, SILENT, &[0x9]);
    let seen = see(&mut record, &[HIGH, A5, WAIT, FOUR, END].concat());
    assert_eq!(seen.lines, ["AA", "AAAAAAAAAAAAAAAA", "AA", "EEAAAAEE", "AAA"].concat());
    assert_eq!(received(&record), [0xA5]);
}

/// In loopback the control bits are the own TXD, LOW at every latch.
#[test]
fn loopback() {
    let mut record = slave(4, LOOPBACK, &[0x9, 0xF]);
    let input = [HIGH, A5, WAIT, FOUR, A5, WAIT, FOUR, END].concat();
    let (first, next) = ("AAAAAAAAAAAAAAAAAA66222266", "AAAAAAAAAAAAAAAAAA66666666");
    assert_eq!(see(&mut record, &input).lines, ["AA", first, next, "AAA"].concat());
    assert_eq!(received(&record), [0, 0]);
}

/// Selection is by a fall: FSS LOW from the start, or HIGH with a clock, does nothing.
#[test]
fn not_selected() {
    let frame = [A5, WAIT, FOUR, "0"].concat();
    // The same with FSS HIGH.
    let high: String = pins(&frame).iter().map(|pins| (pins | 2).to_string()).collect();
    for input in [frame, high] {
        let mut record = slave(4, SLAVE, &[0x9]);
        let seen = see(&mut record, &input);
        assert_eq!(seen.lines, "A".repeat(27));
        assert_eq!(seen.frame, "0".repeat(27));
        assert!(received(&record).is_empty());
    }
}

/// SSE cleared within the data bits: all is gone, and FSS still LOW selects no more.
#[test]
fn disabled_and_enabled_again() {
    let mut record = slave(4, SLAVE, &[0x9, 0xF]);
    see(&mut record, &[HIGH, A5, WAIT, "010"].concat());
    assert_eq!(write(&mut record, CR1, 4), 0);
    assert_eq!(record[at::FRAME..at::PINS], [0; 12]);
    assert_eq!(write(&mut record, CR1, SLAVE), 0);
    assert_eq!(see(&mut record, &[WAIT, A5, WAIT, FOUR].concat()).lines, "A".repeat(28));
    let lines = see(&mut record, &[HIGH, A5, WAIT, FOUR, END].concat()).lines;
    assert_eq!(lines, ["AA", "AAAAAAAAAAAAAAAA", "AA", "66666666", "AAA"].concat());
}

/// BSY is a frame or a waiting word: it falls with the rise of the last data bit.
#[test]
fn busy_until_the_last_rise() {
    let mut record = slave(4, SLAVE, &[0x9]);
    let input = pins(&[HIGH, A5, WAIT, FOUR, END, HIGH].concat());
    let mut output = vec![0xEE; input.len()];
    // Two cycles HIGH, slots 0 to 25, seen two cycles later.
    let ran = run_to_idle(&mut record, &input, &mut output);
    assert_eq!((ran.refusal, ran.count), (0, 2 + 26 + 2));
    assert_eq!(output[29..31], [6, 0xEE], "the last bit, then nothing");
    // From the first latch on also without a word.
    let mut record = slave(4, SLAVE, &[]);
    assert_eq!(read(&mut record, SR).1 & 0x10, 0);
    see(&mut record, &[HIGH, "01"].concat());
    assert_eq!(read(&mut record, SR).1 & 0x10, 0x10);
}

/// Eight bytes are held, the ninth is lost at its eighth latch.
#[test]
fn overrun() {
    let mut record = slave(4, SLAVE, &[]);
    let clocks = [WAIT, FOUR].concat();
    let frames: String = (1..=8).map(|byte| control(byte) + &clocks).collect();
    see(&mut record, &[HIGH, &frames].concat());
    see(&mut record, &control(9)[..15]);
    assert_eq!(read(&mut record, RIS).1 & 1, 0);
    see(&mut record, &control(9)[15..]);
    assert_eq!(read(&mut record, RIS).1 & 1, 1);
    assert_eq!(received(&record), [1, 2, 3, 4, 5, 6, 7, 8]);
}

/// 64 cycles without a frame, the cycle of the last rise being the first, set RT.
#[test]
fn timeout_counts_from_the_last_rise() {
    let mut record = slave(4, SLAVE, &[]);
    see(&mut record, &[HIGH, A5, WAIT, &FOUR[..7]].concat());
    // The rise comes now and is seen in the third cycle.
    let input = vec![1; 2 + 63];
    let mut output = vec![0; input.len()];
    assert_eq!(run(&mut record, &input, &mut output).refusal, 0);
    assert_eq!((record[at::RT_COUNT], record[at::RT]), (63, 0));
    assert_eq!(run(&mut record, &[1], &mut [0]).refusal, 0);
    assert_eq!((record[at::RT_COUNT], record[at::RT]), (0, 1));
}

/// At most eight captured bits whatever b is; every other device has its b.
#[test]
fn soundness_of_captured_bits() {
    for b in 4..=16 {
        for (format, role, limit) in [(0x20, 4, 8), (0x20, 0, b), (0x00, 4, b), (0x10, 4, b)] {
            let mut record = slave(b, SLAVE, &[]);
            record[at::CR0] = format | (b as u8 - 1);
            record[at::CR1] = role | 2;
            for captured in 0..=17 {
                record[at::CAPTURED] = captured as u8;
                let refusal = if captured <= limit { 0 } else { 9 };
                assert_eq!(read(&mut record, SR).0, refusal, "b {b}, captured {captured}");
            }
        }
        let mut off = slave(b, SLAVE, &[]);
        assert_eq!(write(&mut off, CR1, 4), 0);
        off[at::CAPTURED] = 1;
        assert_eq!(read(&mut off, SR).0, 9);
    }
}
