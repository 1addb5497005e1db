//! The ten recordings and limits P1 to P10, and the totals of slots.

use compare::calls::{read, reset, run, write};
use compare::record::{at, LENGTH};
use compare::recording::record_master;

const CR0: u32 = 0x00;
const CR1: u32 = 0x04;
const DR: u32 = 0x08;
const CPSR: u32 = 0x10;
const RIS: u32 = 0x18;

fn fresh() -> [u8; LENGTH] {
    let mut record = [0xFF; LENGTH];
    assert_eq!(reset(&mut record), 0);
    record
}

fn recorded(cr0: u32, words: &[u32]) -> String {
    record_master(cr0, 2, words).unwrap()
}

/// Bit 0 of every digit turned over.
fn turned(digits: &str) -> String {
    let turn = |c: char| char::from_digit(c.to_digit(16).unwrap() ^ 1, 16).unwrap();
    digits.chars().map(turn).collect::<String>().to_uppercase()
}

#[test]
fn p1_motorola_phase_0() {
    assert_eq!(recorded(0x03, &[0xA]), "0450145010AA");
    assert_eq!(recorded(0x43, &[0xA]), turned("0450145010AA"));
}

#[test]
fn p2_motorola_phase_1() {
    assert_eq!(recorded(0x83, &[0xA]), "0541054100AA");
    assert_eq!(recorded(0xC3, &[0xA]), turned("0541054100AA"));
}

#[test]
fn p3_ti_one_word() {
    assert_eq!(recorded(0x13, &[0xA]), "BA54105410");
}

#[test]
fn p4_ti_two_words() {
    assert_eq!(recorded(0x13, &[0xA, 0x5]), "BA5410543210541054");
}

#[test]
fn p5_microwire() {
    assert_eq!(recorded(0x23, &[0xA5]), "450145010145014589898989898AA");
}

#[test]
fn p6_nine_words_written() {
    let mut record = fresh();
    for word in 0..8 {
        assert_eq!(write(&mut record, DR, word), 0);
    }
    let full = record;
    assert_eq!(write(&mut record, DR, 8), 7);
    assert_eq!(record, full);
}

/// In loopback so many words come back as were written.
fn receive(record: &mut [u8], words: u32) {
    for word in 0..words {
        assert_eq!(write(record, DR, word & 15), 0);
        let mut output = [0; 12];
        assert_eq!(run(record, &[0; 12], &mut output).refusal, 0);
    }
}

#[test]
fn p7_the_ninth_word_received() {
    let mut record = fresh();
    assert_eq!(write(&mut record, CR0, 0x03), 0);
    assert_eq!(write(&mut record, CPSR, 2), 0);
    assert_eq!(write(&mut record, CR1, 3), 0);
    receive(&mut record, 8);
    assert_eq!((record[at::RX_COUNT], record[at::ROR]), (8, 0));
    receive(&mut record, 1);
    assert_eq!((record[at::RX_COUNT], record[at::ROR]), (8, 1));
    assert_eq!(read(&mut record, DR), (0, 0), "the oldest word stays");
}

#[test]
fn p8_smallest_settings() {
    let mut record = fresh();
    assert_eq!(write(&mut record, CR0, 2), 6);
    assert_eq!(write(&mut record, CR0, 3), 0);
    assert_eq!(write(&mut record, CPSR, 3), 0);
    assert_eq!(read(&mut record, CPSR), (0, 2));
    assert_eq!(write(&mut record, CPSR, 1), 0);
    assert_eq!(read(&mut record, CPSR), (0, 0));
}

#[test]
fn p9_raw_transmit_interrupt() {
    let mut record = fresh();
    for word in 0..4 {
        write(&mut record, DR, word);
    }
    assert_eq!(read(&mut record, RIS), (0, 8));
    write(&mut record, DR, 4);
    assert_eq!(read(&mut record, RIS), (0, 0));
}

#[test]
fn p10_offsets() {
    let mut record = fresh();
    assert_eq!(write(&mut record, 0x24, 3), 0);
    assert_eq!(read(&mut record, 0x24), (0, 3));
    for (offset, refusal) in [(0x28, 2), (0x1000, 1)] {
        assert_eq!(write(&mut record, offset, 0), refusal);
        assert_eq!(read(&mut record, offset), (refusal, 0));
    }
}

#[test]
fn totals_of_slots() {
    for b in 4..=16u32 {
        for n in 1..=8u32 {
            let words: Vec<u32> = (0..n).map(|i| (i * 0x1357) & 0xFFFF).collect();
            for h in [1, 3] {
                let totals =
                    [(0x00, n * (2 * b + 4)), (0x80, 2 * b * n + 4), (0x10, 2 * b * n + 2)];
                let microwire = (0x20, n * (2 * b + 18) + 3);
                for (format, slots) in totals.into_iter().chain([microwire]) {
                    let digits = record_master(format | (b - 1), 2 * h, &words).unwrap();
                    assert_eq!(digits.len() as u32, slots * h, "b {b} n {n} cr0 {format:x}");
                }
            }
        }
    }
    assert_eq!(recorded(0x03, &[]), "-");
}
