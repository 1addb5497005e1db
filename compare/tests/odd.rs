//! Sound records whose engine does not fit itself, as D95 to D105 have them, and D110
//! for a Microwire slave.

use compare::device::{Device, Queue, CLK, DATA, FSS};

/// CR0 of four bits.
const SPH0: u16 = 0x03;
const SPH1: u16 = 0x83;
const TI: u16 = 0x13;
const MICROWIRE: u16 = 0x23;

/// CR1, enabled.
const MASTER: u8 = 2;
const LOOPBACK: u8 = 3;
const SLAVE: u8 = 6;

/// In a frame, h 1.
fn frame(cr0: u16, cr1: u8) -> Device {
    Device { cr0, cr1, cpsr: 2, frame: true, ..Device::reset() }
}

/// In a frame, h 2, past the slot's first cycle, the level HIGH.
fn later(cr0: u16, slot: u8) -> Device {
    Device { cpsr: 4, slot, gone: 1, held: true, ..frame(cr0, MASTER) }
}

/// The next cycle sees CLK change to this level.
fn edge(clk: u8, fss: u8) -> [u8; 3] {
    [0, clk | fss, (CLK - clk) | fss]
}

fn queue(words: &[u16]) -> Queue {
    Queue::from_words(words).unwrap()
}

/// Frame, captured bits, held level and both words.
fn engine(device: &Device) -> (bool, u8, bool, u16, u16) {
    (device.frame, device.captured, device.held, device.sending, device.receiving)
}

const CLEAR: (bool, u8, bool, u16, u16) = (false, 0, false, 0, 0);

#[test]
fn d95_a_word_is_cut() {
    let mut master = Device { slot: 8, captured: 3, receiving: 0xFFF8, ..frame(SPH0, MASTER) };
    master.cycle(DATA);
    assert_eq!((master.rx.words(), master.receiving), (&[1][..], 0xFFF1));
}

#[test]
fn d96_txd_low_by_the_slot_table() {
    let mut motorola = later(SPH0, 0);
    assert_eq!((motorola.cycle(0).lines, motorola.held), (0x0, true));
    let mut ti = later(TI, 1);
    assert_eq!((ti.cycle(0).lines, ti.held), (0xA, true));
    let mut microwire = Device { slot: 19, held: true, ..frame(MICROWIRE, LOOPBACK) };
    assert_eq!(microwire.cycle(DATA).lines, 0x9);
    assert_eq!(engine(&microwire), (true, 1, true, 0, 0), "captures LOW");
}

#[test]
fn d97_slots_without_a_frame() {
    for (cr0, last, idle) in [(SPH0, 11, 0xA), (SPH1, 11, 0xA), (TI, 9, 8), (MICROWIRE, 28, 0xA)] {
        let tx = queue(&[0xF]);
        let mut master = Device { frame: false, slot: 3, held: true, tx, ..frame(cr0, MASTER) };
        for slot in 3..=last {
            assert_eq!((master.slot, master.held, master.cycle(0).lines), (slot, true, idle));
        }
        assert_eq!((engine(&master), master.slot), (CLEAR, 0));
        master.cycle(0);
        assert!(master.frame, "then the word starts");
    }
}

#[test]
fn d98_a_frame_in_an_idle_slot() {
    for (cr0, slot, lines) in
        [(SPH0, 10, 4), (SPH1, 11, 4), (0x43, 11, 5), (MICROWIRE, 27, 9), (MICROWIRE, 28, 8)]
    {
        let mut master = later(cr0, slot);
        assert_eq!(master.cycle(0).lines, lines, "slot {slot}");
        master.cycle(0);
        master.cycle(0);
        assert_eq!(engine(&master), CLEAR);
    }
}

#[test]
fn d99_a_frame_before_its_slot_0() {
    for (cr0, lines) in [(SPH0, 0), (SPH1, 0), (TI, 0xB), (MICROWIRE, 0)] {
        for words in [&[][..], &[5]] {
            let odd = Device { captured: 2, held: true, ..frame(cr0, MASTER) };
            let tx = queue(words);
            let mut master = Device { sending: 0xFF, receiving: 3, tx, ..odd };
            assert_eq!((master.cycle(0).lines, master.slot), (lines, 1));
            let taken = words.first().copied().unwrap_or(0);
            assert_eq!(engine(&master), (true, 0, false, taken, 0));
        }
    }
}

#[test]
fn d100_ti_not_joined() {
    let tx = queue(&[5]);
    let mut master = Device { slot: 8, sending: 1, receiving: 7, tx, ..frame(TI, MASTER) };
    assert_eq!(master.cycle(DATA).lines, 0xB);
    assert_eq!(engine(&master), (true, 0, true, 5, 7));
    assert_eq!(master.cycle(DATA).lines, 0xA);
    assert_eq!(engine(&master), (true, 0, true, 5, 7), "no capture");
    assert_eq!(master.cycle(DATA).lines, 0x1);
    assert_eq!(engine(&master), (true, 0, false, 5, 0));
}

#[test]
fn d101_a_selected_slave_shows_its_level() {
    for captured in [0, 2, 4] {
        let selected = Device { selected: true, captured, held: true, ..frame(SPH0, SLAVE) };
        let mut slave = Device { frame: false, ..selected };
        assert_eq!(slave.cycle(0).lines, 0x6);
    }
}

#[test]
fn d102_d103_edges_without_selection_or_frame() {
    for clk in [0, CLK] {
        for (frame_up, selected) in [(true, false), (false, true)] {
            let odd = Device { captured: 2, sending: 5, receiving: 3, ..frame(SPH0, SLAVE) };
            let mut slave = Device { frame: frame_up, selected, pins: edge(clk, 0), ..odd };
            let before = engine(&slave);
            assert_eq!(slave.cycle(0).lines, if selected { 0x2 } else { 0xA });
            assert_eq!((engine(&slave), slave.selected), (before, selected));
        }
    }
}

#[test]
fn d104_motorola_all_bits_captured() {
    for (cr0, pins, held) in [
        (SPH0, [0; 3], false),
        (SPH0, edge(CLK, 0), false),
        (SPH0, edge(0, 0), true),
        (SPH1, edge(CLK, 0), true),
        (SPH1, edge(0, 0), false),
    ] {
        let odd = Device { selected: true, captured: 4, sending: 1, ..frame(cr0, SLAVE) };
        let mut slave = Device { receiving: 7, pins, ..odd };
        assert_eq!(slave.cycle(0).lines, if held { 0x6 } else { 0x2 });
        assert_eq!(engine(&slave), (false, 4, held, 1, 7));
        assert!(slave.rx.is_empty());
    }
    let mut unselected = Device { captured: 4, pins: edge(CLK, 0), ..frame(SPH1, SLAVE) };
    assert_eq!((unselected.cycle(0).lines, engine(&unselected)), (0xA, (false, 4, false, 0, 0)));
}

#[test]
fn d104_ti_all_bits_captured() {
    let full = Device { captured: 4, sending: 1, receiving: 7, ..frame(TI, SLAVE) };
    for (pins, lines, mark) in [
        ([0; 3], 0x2, false),
        (edge(CLK, 0), 0x6, false),
        (edge(0, 0), 0x2, false),
        (edge(0, FSS), 0x2, true),
    ] {
        let mut slave = Device { pins, ..full.clone() };
        assert_eq!(slave.cycle(0).lines, lines);
        assert_eq!((engine(&slave), slave.mark), (CLEAR, mark));
        assert!(slave.rx.is_empty());
    }
    let mut marked = Device { mark: true, tx: queue(&[9]), pins: edge(CLK, 0), ..full };
    assert_eq!(marked.cycle(0).lines, 0x6);
    assert_eq!((engine(&marked), marked.mark), ((true, 0, true, 9, 0), false));
}

#[test]
fn d105_a_mark_within_a_word() {
    let marked = Device { mark: true, sending: 1, receiving: 7, ..frame(TI, SLAVE) };
    let tx = queue(&[9]);
    let mut rising = Device { captured: 3, tx, pins: edge(CLK, 0), ..marked.clone() };
    assert_eq!(rising.cycle(0).lines, 0x6);
    assert_eq!((engine(&rising), rising.mark), ((true, 0, true, 9, 0), false));
    assert!(rising.rx.is_empty());

    let mut capture = Device { captured: 2, pins: edge(0, 0), ..marked.clone() };
    capture.cycle(0);
    assert_eq!((engine(&capture), capture.mark), ((true, 3, false, 1, 14), true));

    let mut last = Device { captured: 3, pins: edge(0, 0), ..marked };
    last.cycle(0);
    assert_eq!((engine(&last), last.mark), (CLEAR, true));
    assert_eq!(last.rx.words(), [14]);
}

/// A selected Microwire slave in a frame, its word 1001; the next cycle sees this edge.
fn microwire(slot: u8, clk: u8) -> Device {
    let selected = Device { selected: true, ..frame(MICROWIRE, SLAVE) };
    Device { slot, sending: 9, pins: edge(clk, 0), ..selected }
}

/// The four levels that 1001 has, by the slot from which each is out.
fn microwire_bit(slot: u8) -> bool {
    slot == 18 || slot == 24
}

/// Frame, captured bits and slot mean what they mean alone, whatever the others are.
#[test]
fn microwire_slots_from_the_word_on() {
    // For slots 17 to 28, b 4: where a rise and a fall lead; 0 is the end.
    let rises = [17, 19, 19, 21, 21, 23, 23, 25, 25, 26, 27, 28];
    let falls = [18, 18, 20, 20, 22, 22, 24, 24, 0, 0, 0, 0];
    for slot in 17..=28 {
        for (frame, captured, held) in
            [(true, 0, false), (false, 0, true), (true, 5, true), (false, 8, false)]
        {
            let odd = Device { frame, captured, held, receiving: 0xF0, ..microwire(slot, CLK) };
            let mut rising = odd.clone();
            let lines = rising.cycle(0).lines;
            let next = rises[usize::from(slot) - 17];
            assert_eq!(rising.slot, next, "rise in {slot}");
            let ended = slot == 24;
            assert_eq!(engine(&rising), (frame && !ended, captured, held, 9, 0xF0));
            let shown = if held { 0x6 } else { 0x2 };
            assert_eq!(lines, if slot == 17 { 0xA } else { shown }, "rise in {slot}");

            let mut falling = Device { pins: edge(0, 0), ..odd };
            let lines = falling.cycle(0).lines;
            let next = falls[usize::from(slot) - 17];
            assert_eq!((falling.slot, falling.selected), (next, true), "fall in {slot}");
            let held = if next == slot { held } else { microwire_bit(next) };
            let kept = (frame, captured, held, 9, 0xF0);
            assert_eq!(engine(&falling), if next == 0 { CLEAR } else { kept });
            let shown = if held { 0x6 } else { 0x2 };
            assert_eq!(lines, if next == 0 { 0xA } else { shown }, "fall in {slot}");
            assert!(rising.rx.is_empty() && falling.rx.is_empty());
        }
    }
}

/// Slots 1 to 16 act as 0, and stay until the word is taken.
#[test]
fn microwire_slots_before_the_word() {
    for slot in 0..=16 {
        // An odd level is not shown, and not captured in loopback.
        for (cr1, bit) in [(SLAVE, 1), (SLAVE | 1, 0)] {
            let odd = Device { cr1, slot, held: true, receiving: 2, ..microwire(slot, CLK) };
            let pins = [0, CLK | DATA, 0];
            let mut latch = Device { frame: false, captured: 3, pins, ..odd.clone() };
            assert_eq!((latch.cycle(0).lines, latch.slot), (0xA, slot));
            assert_eq!(engine(&latch), (true, 4, true, 9, 4 | bit));
        }
        let tx = queue(&[5]);
        let mut taken =
            Device { frame: false, captured: 8, held: true, tx, ..microwire(slot, CLK) };
        assert_eq!((taken.cycle(0).lines, taken.slot), (0xA, 17));
        assert_eq!(engine(&taken), (true, 0, false, 5, 0));
        assert!(taken.rx.is_empty() && taken.tx.is_empty());
        let mut fall = Device { captured: 8, held: true, receiving: 2, ..microwire(slot, 0) };
        assert_eq!((fall.cycle(0).lines, fall.slot), (0xA, slot));
        assert_eq!(engine(&fall), (true, 8, true, 9, 2));
    }
}

#[test]
fn microwire_control_byte_is_cut() {
    for dss in [3, 7, 15] {
        let odd = Device { cr0: 0x20 | dss, captured: 7, receiving: 0xFFC1, ..microwire(0, CLK) };
        let mut slave = Device { pins: [0, CLK | DATA, 0], ..odd };
        slave.cycle(0);
        // FFC1 shifted, with a one behind it.
        assert_eq!((slave.rx.words(), slave.receiving), (&[0x83][..], 0xFF83));
        assert_eq!((slave.captured, slave.frame), (8, true));
    }
}

/// What is not selected neither acts nor shows, until a fall of FSS.
#[test]
fn microwire_without_a_selection() {
    for slot in [0, 16, 17, 18, 24, 25, 28] {
        for clk in [0, CLK] {
            let odd = Device { captured: 8, held: true, receiving: 3, ..microwire(slot, clk) };
            let mut slave = Device { selected: false, ..odd };
            assert_eq!((slave.cycle(0).lines, slave.slot, slave.selected), (0xA, slot, false));
            assert_eq!(engine(&slave), (true, 8, true, 9, 3));
        }
    }
}

/// Elapsed cycles and mark stay as they are, but not when all starts anew.
#[test]
fn microwire_unused_fields() {
    for (slot, captured, clk, kept) in [
        (0, 2, CLK, true),
        (0, 8, CLK, true),
        (0, 8, 0, true),
        (17, 0, 0, true),
        (18, 0, CLK, true),
        (24, 0, CLK, true),
        (25, 0, 0, false),
        (28, 0, 0, false),
    ] {
        let odd = Device { cpsr: 8, gone: 3, mark: true, captured, ..microwire(slot, clk) };
        let mut slave = odd.clone();
        slave.cycle(0);
        assert_eq!((slave.mark, slave.gone), if kept { (true, 3) } else { (false, 0) });
        for (pins, selected) in [([0, 0, FSS], true), ([0, FSS, 0], false), ([0, FSS, FSS], false)]
        {
            let mut slave = Device { pins, ..odd.clone() };
            assert_eq!((slave.cycle(0).lines, slave.selected), (0xA, selected));
            assert_eq!((slave.mark, slave.gone, slave.slot), (false, 0, 0));
            assert_eq!(engine(&slave), CLEAR);
        }
        // A fall of FSS, then the edge of the same cycle: the first control bit.
        let mut slave = Device { pins: [0, CLK | DATA, FSS], ..odd };
        assert_eq!((slave.cycle(0).lines, slave.slot, slave.gone), (0xA, 0, 0));
        assert_eq!(engine(&slave), (true, 1, false, 0, 1));
    }
}
