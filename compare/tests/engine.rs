//! Bytes 12 to 23 of the record, row by row as docs/RECORD.md fixes them.

use compare::calls::{reset, run, write};
use compare::record::{at, LENGTH};

const CR0: u32 = 0x00;
const CR1: u32 = 0x04;
const DR: u32 = 0x08;
const CPSR: u32 = 0x10;

type Record = [u8; LENGTH];

/// The engine's fields in the order of the record.
#[derive(Clone, Copy, PartialEq, Eq, Debug, Default)]
struct Engine {
    frame: u8,
    selected: u8,
    mark: u8,
    captured: u8,
    slot: u8,
    held: u8,
    gone: u16,
    sending: u16,
    receiving: u16,
}

const CLEAR: Engine = Engine {
    frame: 0,
    selected: 0,
    mark: 0,
    captured: 0,
    slot: 0,
    held: 0,
    gone: 0,
    sending: 0,
    receiving: 0,
};

fn engine(record: &Record) -> Engine {
    let two = |place: usize| u16::from_le_bytes([record[place], record[place + 1]]);
    Engine {
        frame: record[at::FRAME],
        selected: record[at::SELECTED],
        mark: record[at::MARK],
        captured: record[at::CAPTURED],
        slot: record[at::SLOT],
        held: record[at::HELD],
        gone: two(at::GONE),
        sending: two(at::SENDING),
        receiving: two(at::RECEIVING),
    }
}

/// Four bits, h cycles in a slot, these words waiting.
fn enabled(format: u32, cr1: u32, h: u32, words: &[u32]) -> Record {
    let mut record = [0; LENGTH];
    assert_eq!(reset(&mut record), 0);
    assert_eq!(write(&mut record, CR0, format | 3), 0);
    assert_eq!(write(&mut record, CPSR, 2 * h), 0);
    for word in words {
        assert_eq!(write(&mut record, DR, *word), 0);
    }
    assert_eq!(write(&mut record, CR1, cr1), 0);
    record
}

fn cycles(record: &mut Record, input: &[u8]) -> Engine {
    let mut output = vec![0; input.len()];
    assert_eq!(run(record, input, &mut output).refusal, 0);
    engine(record)
}

/// The pins of these cycles, seen two cycles later.
fn seen(record: &mut Record, input: &[u8]) -> Engine {
    let last = input[input.len() - 1];
    let mut late = input.to_vec();
    late.extend([last, last]);
    cycles(record, &late)
}

#[test]
fn motorola_master() {
    let mut record = enabled(0x00, 2, 2, &[0xFFFA]);
    let taken = Engine { frame: 1, gone: 1, sending: 0xFFFA, ..CLEAR };
    assert_eq!(cycles(&mut record, &[4]), taken, "not cut, slot 0");
    assert_eq!(cycles(&mut record, &[4]), Engine { slot: 1, gone: 0, ..taken }, "next slot");
    assert_eq!(cycles(&mut record, &[4]), Engine { slot: 1, gone: 1, held: 1, ..taken });
    let caught = Engine { slot: 2, gone: 1, held: 1, captured: 1, receiving: 1, ..taken };
    assert_eq!(cycles(&mut record, &[4, 4]), caught);
    let whole = Engine { slot: 10, gone: 0, captured: 4, receiving: 15, ..taken };
    assert_eq!(cycles(&mut record, &[4; 15]), whole, "kept until the frame is over");
    assert_eq!(cycles(&mut record, &[4]), Engine { slot: 10, gone: 1, ..CLEAR }, "frame over");
    assert_eq!(cycles(&mut record, &[4; 3]), CLEAR, "after the last slot");
}

#[test]
fn motorola_master_goes_on_at_phase_1() {
    let mut record = enabled(0x80, 2, 1, &[0x1, 0xE]);
    cycles(&mut record, &[0; 9]);
    let joined = Engine { frame: 1, slot: 2, held: 1, sending: 0xE, ..CLEAR };
    assert_eq!(cycles(&mut record, &[0]), joined);
}

#[test]
fn ti_master_joins() {
    let mut record = enabled(0x10, 2, 2, &[0x5, 0x8]);
    let before = Engine { frame: 1, slot: 8, captured: 3, sending: 5, receiving: 7, ..CLEAR };
    assert_eq!(cycles(&mut record, &[4; 16]), before);
    let joined = Engine { slot: 0, gone: 1, held: 1, sending: 8, ..before };
    assert_eq!(cycles(&mut record, &[4]), joined);
    let complete = Engine { slot: 1, captured: 4, receiving: 15, ..joined };
    assert_eq!(cycles(&mut record, &[4; 2]), complete);
    let fresh = Engine { slot: 2, captured: 0, receiving: 0, ..complete };
    assert_eq!(cycles(&mut record, &[4; 2]), fresh);
    assert_eq!(cycles(&mut record, &[4; 15]), CLEAR);
}

#[test]
fn microwire_master() {
    let mut record = enabled(0x20, 2, 2, &[0x180, 0x1]);
    let taken = Engine { frame: 1, gone: 1, held: 1, sending: 0x180, ..CLEAR };
    assert_eq!(cycles(&mut record, &[4]), taken);
    let control = cycles(&mut record, &[4; 28]);
    assert_eq!(control, Engine { slot: 14, held: 0, ..taken });
    let last = cycles(&mut record, &[4; 23]);
    assert_eq!(last, Engine { slot: 26, gone: 0, held: 0, captured: 4, receiving: 15, ..taken });
    let joined = Engine { frame: 1, gone: 1, held: 0, sending: 1, ..CLEAR };
    assert_eq!(cycles(&mut record, &[4]), joined);
    assert_eq!(cycles(&mut record, &[4; 29]).held, 1);
    assert_eq!(cycles(&mut record, &[4; 3]).held, 0, "slot 16");
    assert_eq!(cycles(&mut record, &[4; 22]), Engine { slot: 27, gone: 1, ..CLEAR });
    assert_eq!(cycles(&mut record, &[4; 3]), CLEAR);
}

#[test]
fn motorola_slave() {
    let mut record = enabled(0x00, 6, 1, &[0xFFF9]);
    assert_eq!(seen(&mut record, &[2, 2]), CLEAR);
    let taken = Engine { frame: 1, selected: 1, held: 1, sending: 0xFFF9, ..CLEAR };
    assert_eq!(seen(&mut record, &[0]), taken);
    let caught = seen(&mut record, &[5]);
    assert_eq!(caught, Engine { captured: 1, receiving: 1, ..taken });
    let out = seen(&mut record, &[0]);
    assert_eq!(out, Engine { held: 0, ..caught });
    let whole = seen(&mut record, &[5, 0, 5, 0, 5]);
    assert_eq!(whole, Engine { frame: 0, captured: 4, receiving: 15, held: 1, ..out });
    assert_eq!(seen(&mut record, &[0, 5, 0]), whole, "edges after b bits");
    assert_eq!(seen(&mut record, &[2]), CLEAR);
}

#[test]
fn motorola_slave_dropped_and_selected_again() {
    let mut record = enabled(0x80, 6, 1, &[0x9]);
    seen(&mut record, &[2, 0]);
    assert_eq!(engine(&record), Engine { selected: 1, ..CLEAR });
    let taken = Engine { frame: 1, selected: 1, held: 1, sending: 9, ..CLEAR };
    assert_eq!(seen(&mut record, &[1]), taken);
    assert_eq!(seen(&mut record, &[2, 2]), CLEAR);
    assert_eq!(seen(&mut record, &[0]), Engine { selected: 1, ..CLEAR });
    assert_eq!(seen(&mut record, &[1]), Engine { held: 0, sending: 0, ..taken }, "zeros");
}

#[test]
fn ti_slave() {
    let mut record = enabled(0x10, 6, 1, &[0x8, 0x3]);
    assert_eq!(seen(&mut record, &[3, 2]), Engine { mark: 1, ..CLEAR });
    assert_eq!(seen(&mut record, &[2, 0]), Engine { mark: 1, ..CLEAR }, "no edge");
    let taken = Engine { frame: 1, held: 1, sending: 8, ..CLEAR };
    assert_eq!(seen(&mut record, &[1]), taken);
    let three = seen(&mut record, &[4, 1, 4, 1, 4, 1]);
    assert_eq!(three, Engine { held: 0, captured: 3, receiving: 7, ..taken });
    assert_eq!(seen(&mut record, &[2]), Engine { mark: 1, ..CLEAR }, "last capture with a mark");
    assert_eq!(seen(&mut record, &[1, 0]).captured, 1);
    assert_eq!(seen(&mut record, &[1, 2]), Engine { mark: 1, ..CLEAR }, "early mark");
    seen(&mut record, &[1, 0, 1, 0, 1, 0, 1, 0]);
    assert_eq!(engine(&record), CLEAR, "last capture");
}

/// A Microwire slave's engine row by row: selection, each kind of edge, the end.
#[test]
fn microwire_slave() {
    let mut record = enabled(0x20, 6, 1, &[0xFFF9, 0x5]);
    assert_eq!(seen(&mut record, &[2, 2]), CLEAR);
    let selected = Engine { selected: 1, ..CLEAR };
    assert_eq!(seen(&mut record, &[0]), selected, "FSS fall");
    let first = Engine { frame: 1, captured: 1, receiving: 1, ..selected };
    assert_eq!(seen(&mut record, &[5]), first, "control bit");
    assert_eq!(seen(&mut record, &[0]), first, "fall");
    // 1 is there, 101010 comes now and then 1: 11010101 or D5.
    let seven = seen(&mut record, &[5, 0, 1, 0, 5, 0, 1, 0, 5, 0, 1]);
    assert_eq!(seven, Engine { captured: 7, receiving: 0b1101010, ..first });
    let eight = Engine { captured: 8, receiving: 0b11010101, ..first };
    assert_eq!(seen(&mut record, &[0, 5]), eight, "the eighth, the frame goes on");
    assert_eq!((record[at::RX_COUNT], record[at::RX]), (1, 0xD5));
    assert_eq!(seen(&mut record, &[0]), eight, "fall");
    // 9 is 1001, slots as the master has them.
    let taken = Engine { frame: 1, slot: 17, held: 1, sending: 0xFFF9, ..selected };
    assert_eq!(seen(&mut record, &[5]), taken, "not cut, RXD means nothing");
    for (slot, held) in [(18, 1), (20, 0), (22, 0)] {
        assert_eq!(seen(&mut record, &[0]), Engine { slot, held, ..taken }, "a data bit's fall");
        let after = Engine { slot: slot + 1, held, ..taken };
        assert_eq!(seen(&mut record, &[5]), after, "its rise");
    }
    assert_eq!(seen(&mut record, &[0]), Engine { slot: 24, ..taken }, "the last one's fall");
    let over = Engine { frame: 0, slot: 25, ..taken };
    assert_eq!(seen(&mut record, &[5]), over, "the last one's rise");
    assert_eq!(seen(&mut record, &[0]), selected, "and it ends");
    assert_eq!(seen(&mut record, &[5]), first, "next frame");
    assert_eq!(seen(&mut record, &[2]), CLEAR, "FSS HIGH");
}

#[test]
fn microwire_slave_with_other_edges() {
    let mut record = enabled(0x20, 6, 1, &[]);
    assert_eq!(seen(&mut record, &[0, 1, 0, 1]), CLEAR, "clocks before a selection");
    assert_eq!(seen(&mut record, &[3, 2, 3]), CLEAR, "clocks with FSS HIGH");
    let selected = Engine { selected: 1, ..CLEAR };
    assert_eq!(seen(&mut record, &[0]), selected, "FSS and CLK fall");
    seen(&mut record, &[2]);
    let first = Engine { frame: 1, captured: 1, receiving: 1, ..selected };
    assert_eq!(seen(&mut record, &[5]), first, "FSS falls, CLK rises");
    assert_eq!(seen(&mut record, &[2, 0]), selected, "and starts anew");
    let mut loopback = enabled(0x20, 7, 1, &[]);
    let low = Engine { receiving: 0, ..first };
    assert_eq!(seen(&mut loopback, &[2, 0, 5]), low, "its own TXD");
    assert_eq!(seen(&mut loopback, &[0, 5]), Engine { captured: 2, ..low });
}

/// The longest word ends in slot 49, and zeros are a word like any other.
#[test]
fn microwire_slave_of_sixteen_bits() {
    // DSS 15.
    let mut record = enabled(0x2C, 6, 1, &[]);
    let clock = |n: usize| [0, 1].repeat(n);
    seen(&mut record, &[2, 2]);
    let eight = Engine { frame: 1, selected: 1, captured: 8, ..CLEAR };
    assert_eq!(seen(&mut record, &clock(8)), eight);
    assert_eq!(seen(&mut record, &clock(1)), Engine { slot: 17, captured: 0, ..eight });
    assert_eq!(seen(&mut record, &clock(15)), Engine { slot: 47, captured: 0, ..eight });
    let over = Engine { frame: 0, slot: 49, captured: 0, ..eight };
    assert_eq!(seen(&mut record, &clock(1)), over);
    assert_eq!(seen(&mut record, &clock(1)), Engine { captured: 1, ..eight }, "next frame");
}

/// Bytes 12 to 23 that fit nothing.
fn odd(mut record: Record) -> Record {
    let bytes = [0, 1, 1, 3, 0, 1, 0, 0, 0x34, 0x12, 0x78, 0x56];
    record[at::FRAME..at::PINS].copy_from_slice(&bytes);
    record
}

#[test]
fn odd_records() {
    let mut idle = odd(enabled(0x00, 2, 1, &[]));
    let before = engine(&idle);
    assert_eq!(cycles(&mut idle, &[7; 9]), before, "an idle master has no event");
    assert_eq!(write(&mut idle, DR, 0xF), 0);
    let taken = Engine { frame: 1, slot: 1, captured: 0, held: 0, sending: 15, ..before };
    assert_eq!(cycles(&mut idle, &[0]), Engine { receiving: 0, ..taken });
    let over = Engine { selected: 1, mark: 1, slot: 11, ..CLEAR };
    assert_eq!(cycles(&mut idle, &[0; 10]), over, "a frame's end leaves what a slave uses");
    assert_eq!(cycles(&mut idle, &[0]), CLEAR);

    let mut slot = odd(enabled(0x00, 2, 4, &[0xF]));
    slot[at::GONE] = 1;
    let before = engine(&slot);
    let later = Engine { slot: 11, gone: 3, ..before };
    assert_eq!(cycles(&mut slot, &[0; 46]), later, "slots without a frame run out");
    assert_eq!(cycles(&mut slot, &[0]), CLEAR);
    assert_eq!(cycles(&mut slot, &[0]).frame, 1, "then the word starts");

    let mut microwire = odd(enabled(0x20, 6, 1, &[0xF]));
    let before = engine(&microwire);
    assert_eq!(cycles(&mut microwire, &[0; 9]), before, "no edge, no change");
    microwire[at::PINS + 1] = 2;
    assert_eq!(cycles(&mut microwire, &[0]), CLEAR);
    let mut high = odd(enabled(0x00, 6, 1, &[0xF]));
    high[at::SLOT] = 5;
    high[at::PINS + 1] = 2;
    assert_eq!(cycles(&mut high, &[0]), CLEAR);
}

#[test]
fn clearing_and_disabled_cycles() {
    let mut record = enabled(0x00, 2, 2, &[0xF]);
    cycles(&mut record, &[0; 7]);
    assert_eq!(write(&mut record, CR1, 0), 0);
    assert_eq!(engine(&record), CLEAR);
    record[at::HELD] = 1;
    record[at::SENDING] = 7;
    let before = engine(&record);
    assert_eq!(write(&mut record, CR1, 5), 0);
    assert_eq!(engine(&record), before, "SSE 0 before and after");
    assert_eq!(cycles(&mut record, &[0]), CLEAR);
}
