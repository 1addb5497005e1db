//! The two editions: what becomes of a frame when SSE is cleared. All recordings are made by
//! hand from the slot tables, b 4 and h 1 unless a test says otherwise.

use compare::calls::{pair_run, read, reset, reset_edition, run, run_to_idle, write};
use compare::command::Command;
use compare::device::{Device, Edition, Queue, CLK, FSS};
use compare::model::Second;
use compare::record::{at, encode, LENGTH};
use compare::script::answer_line;
use compare::session::Session;

const CR0: u32 = 0x00;
const CR1: u32 = 0x04;
const DR: u32 = 0x08;
const SR: u32 = 0x0C;
const CPSR: u32 = 0x10;
const RIS: u32 = 0x18;

const BSY: u32 = 0x10;

const SPH0: u32 = 0x03;
const SPH1: u32 = 0x83;
const TI: u32 = 0x13;
const MICROWIRE: u32 = 0x23;

/// CR1 with SSE set and clear.
const MASTER: u32 = 2;
const MASTER_OFF: u32 = 0;
const SLAVE: u32 = 6;
const SLAVE_OFF: u32 = 4;

type Record = [u8; LENGTH];

/// Enabled, with these words waiting.
fn enabled(edition: u32, cr0: u32, h: u32, cr1: u32, words: &[u32]) -> Record {
    let mut record = [0; LENGTH];
    assert_eq!(reset_edition(&mut record, edition), 0);
    let settings = [(CR0, cr0), (CPSR, 2 * h)];
    let loads = words.iter().map(|word| (DR, *word));
    for (offset, value) in settings.into_iter().chain(loads).chain([(CR1, cr1)]) {
        assert_eq!(write(&mut record, offset, value), 0);
    }
    record
}

fn master(edition: u32, cr0: u32, words: &[u32]) -> Record {
    enabled(edition, cr0, 1, MASTER, words)
}

fn slave(edition: u32, cr0: u32, words: &[u32]) -> Record {
    enabled(edition, cr0, 1, SLAVE, words)
}

fn set_cr1(record: &mut Record, value: u32) {
    assert_eq!(write(record, CR1, value), 0);
}

/// A digit for each cycle, the pins LOW.
fn lines(record: &mut Record, cycles: usize) -> String {
    let mut output = vec![0; cycles];
    assert_eq!(run(record, &vec![0; cycles], &mut output).refusal, 0);
    output.iter().map(|lines| format!("{lines:X}")).collect()
}

/// A run of so many cycles in all, SSE cleared after the first of them.
fn stopped_after(record: &mut Record, stop: usize, cycles: usize) -> String {
    let before = lines(record, stop);
    set_cr1(record, MASTER_OFF);
    before + &lines(record, cycles - stop)
}

/// Bytes 12 to 23.
fn engine_is_clear(record: &Record) -> bool {
    record[at::FRAME..at::PINS].iter().all(|byte| *byte == 0)
}

fn received(record: &Record) -> Vec<u32> {
    let mut copy = *record;
    (0..record[at::RX_COUNT]).map(|_| read(&mut copy, DR).1).collect()
}

/// The digits, then as many of the idle one as are missing.
fn then_idle(digits: &str, idle: &str, cycles: usize) -> String {
    digits.to_string() + &idle.repeat(cycles - digits.len())
}

/// Each digit n times.
fn slowed(digits: &str, n: usize) -> String {
    digits.chars().flat_map(|digit| std::iter::repeat_n(digit, n)).collect()
}

/// SSE cleared after each number of cycles from `first` to `last` gives these digits, then
/// idle lines and a clear engine, with so many words left.
fn check_stops(cr0: u32, stops: (usize, usize), digits: &str, left: u8) {
    let idle = if cr0 == TI { "8" } else { "A" };
    for stop in stops.0..=stops.1 {
        let mut record = master(2, cr0, &[0xA, 0x5]);
        let shown = stopped_after(&mut record, stop, 60);
        assert_eq!(shown, then_idle(digits, idle, 60), "cr0 {cr0:x}, after {stop}");
        assert!(engine_is_clear(&record));
        assert_eq!((record[at::TX_COUNT], record[at::RX_COUNT]), (left, 2 - left));
    }
}

#[test]
fn motorola_phase_0() {
    // P1 up to slot 10; the word 5 stays.
    check_stops(SPH0, (1, 10), "0450145010A", 1);
    // In idle slots there is no frame: they end at once.
    check_stops(SPH0, (11, 12), "0450145010AA", 1);
    // The word 5 is taken in cycle 12.
    check_stops(SPH0, (13, 22), "0450145010AA0014501454A", 0);
}

#[test]
fn motorola_phase_1() {
    // P2 up to slot 10: at slot 9 the word 5 would be taken.
    check_stops(SPH1, (1, 9), "0541054100A", 1);
    check_stops(SPH1, (10, 18), "054105410105410544A", 0);
}

#[test]
fn ti() {
    check_stops(TI, (1, 8), "BA54105410", 1);
    // P4: in the joined slots both words end.
    check_stops(TI, (9, 17), "BA5410543210541054", 0);
}

#[test]
fn microwire() {
    let control = ["0101010145014501", "0101010101450145"];
    let data = "8989898989";
    check_stops(MICROWIRE, (1, 26), &[control[0], data, "8A"].concat(), 1);
    let both = [control[0], data, control[1], data, "8A"].concat();
    check_stops(MICROWIRE, (27, 52), &both, 0);
}

#[test]
fn the_first_edition_cuts_the_frame() {
    for (cr0, whole, idle) in [(SPH0, "0450145010AA", "A"), (TI, "BA54105410", "8")] {
        // Before the last capture.
        for stop in 0..9 {
            let mut record = master(1, cr0, &[0xA]);
            let shown = stopped_after(&mut record, stop, 20);
            assert_eq!(shown, then_idle(&whole[..stop], idle, 20), "after {stop}");
            let left = u8::from(stop == 0);
            assert_eq!((record[at::TX_COUNT], record[at::RX_COUNT]), (left, 0));
        }
    }
}

#[test]
fn no_frame_no_difference() {
    let mut record = master(2, SPH0, &[0xA]);
    assert_eq!(stopped_after(&mut record, 0, 20), "A".repeat(20));
    assert_eq!(record[at::TX_COUNT], 1);
}

#[test]
fn the_frame_is_over_in_its_own_cycle() {
    for (cr0, cycles) in [(SPH0, 11), (SPH1, 11), (TI, 10), (MICROWIRE, 28)] {
        let mut record = master(2, cr0, &[0xA]);
        stopped_after(&mut record, 3, cycles - 1);
        assert_eq!((record[at::FRAME], read(&mut record, SR).1 & BSY), (1, BSY));
        lines(&mut record, 1);
        assert_eq!((record[at::FRAME], engine_is_clear(&record)), (0, true));
        assert_eq!(read(&mut record, SR), (0, 0x07), "a word received, none to send");
    }
}

#[test]
fn idle_slots_are_skipped() {
    let mut record = master(2, SPH0, &[0xA, 0x5]);
    assert_eq!(stopped_after(&mut record, 1, 11), "0450145010A");
    set_cr1(&mut record, MASTER);
    assert_eq!(lines(&mut record, 12), "0014501454AA");
}

#[test]
fn set_again_the_idle_slots_run() {
    for again in 2..=10 {
        let mut record = master(2, SPH0, &[0xA, 0x5]);
        let mut shown = stopped_after(&mut record, 1, again);
        set_cr1(&mut record, MASTER);
        shown += &lines(&mut record, 24 - again);
        assert_eq!(shown, "0450145010AA0014501454AA");
        assert_eq!(received(&record), [0, 0]);
    }
}

/// At h 2: SSE is clear in the first cycle of the slot that would take the word.
#[test]
fn a_chance_that_passed_is_not_made_up() {
    let microwire = ["0101010145014501", "8989898989", "8AA"].concat();
    for (cr0, slots, first, next) in [
        (SPH1, 9, "0541054100AA", "0105410544AA"),
        (TI, 8, "BA54105410", "BA10541054"),
        (MICROWIRE, 26, &microwire, "0101010101450145"),
    ] {
        for again in [2 * slots + 1, 2 * slots + 2] {
            let mut record = enabled(2, cr0, 2, MASTER, &[0xA, 0x5]);
            let mut shown = stopped_after(&mut record, 7, again);
            set_cr1(&mut record, MASTER);
            let cycles = 2 * (first.len() + next.len());
            shown += &lines(&mut record, cycles - again);
            assert_eq!(shown, slowed(&[first, next].concat(), 2), "cr0 {cr0:x}");
        }
    }
}

/// Set again before that slot's first cycle, SSE lets the word be taken.
#[test]
fn a_chance_that_did_not_pass_is_taken() {
    for (cr0, slots, whole) in [(SPH1, 9, "054105410105410544AA"), (TI, 8, "BA5410543210541054")] {
        let mut record = enabled(2, cr0, 2, MASTER, &[0xA, 0x5]);
        let mut shown = stopped_after(&mut record, 7, 2 * slots);
        set_cr1(&mut record, MASTER);
        shown += &lines(&mut record, 2 * whole.len() - 2 * slots);
        assert_eq!(shown, slowed(whole, 2), "cr0 {cr0:x}");
    }
}

#[test]
fn captures_go_on() {
    for (cr0, word) in [(SPH0, 0xA), (SPH1, 0xA), (TI, 0xA), (MICROWIRE, 0)] {
        // In loopback; Microwire's data bits have TXD LOW.
        let mut record = enabled(2, cr0, 3, 3, &[0xA, 0x5]);
        lines(&mut record, 5);
        set_cr1(&mut record, 1);
        lines(&mut record, 200);
        assert_eq!((received(&record), record[at::TX_COUNT]), (vec![word], 1));
    }
}

#[test]
fn run_to_idle_waits_for_the_frame() {
    for (words, count) in [(&[0xA][..], 8), (&[0xA, 0x5], 20)] {
        let mut record = master(2, SPH0, words);
        stopped_after(&mut record, 1, 3);
        let mut output = [0xEE; 20];
        // With a word waiting BSY stays.
        let ran = run_to_idle(&mut record, &[0; 20], &mut output);
        assert_eq!((ran.refusal, ran.count), (0, count));
        assert_eq!(output[..8], [0, 1, 4, 5, 0, 1, 0, 0xA]);
        assert_eq!(output[8], if count == 8 { 0xEE } else { 0xA });
    }
}

#[test]
fn settings_are_refused_until_the_frame_is_over() {
    let cases = [
        (CR0, SPH0, 5, 0),
        (CR0, 2, 5, 6),
        (CR0, 0x1_0000, 4, 4),
        (CPSR, 4, 5, 0),
        (CPSR, 0, 5, 0),
        (CR1, 4, 5, 0),
        (CR1, 1, 5, 0),
        (CR1, 6, 5, 0),
        (CR1, 3, 5, 0),
        (CR1, 0, 0, 0),
        (CR1, 8, 0, 0),
        (CR1, 2, 0, 0),
        (0x14, 15, 0, 0),
        (0x24, 3, 0, 0),
        (DR, 7, 0, 0),
    ];
    let mut record = master(2, SPH0, &[0xA]);
    stopped_after(&mut record, 1, 10);
    let frame = record;
    lines(&mut record, 1);
    for (offset, value, in_frame, after) in cases {
        let mut copy = frame;
        assert_eq!(write(&mut copy, offset, value), in_frame, "{offset:x} {value:x}");
        assert!(in_frame == 0 || copy == frame);
        assert_eq!(write(&mut record.clone(), offset, value), after, "{offset:x} {value:x}");
    }
}

/// Runs until all these pins were seen, two cycles after they came; before the cycle that
/// sees a digit CR1 is written, where a value stands for its place.
fn see(record: &mut Record, digits: &str, writes: &[(usize, u32)]) -> String {
    let mut input: Vec<u8> = digits.bytes().map(|digit| digit - b'0').collect();
    input.extend([input[input.len() - 1]; 2]);
    let mut shown = String::new();
    for (i, pins) in input.iter().enumerate() {
        for (_, value) in writes.iter().filter(|(place, _)| place + 2 == i) {
            set_cr1(record, *value);
        }
        let mut output = [0];
        assert_eq!(run(record, &[*pins], &mut output).refusal, 0);
        if i >= 2 {
            shown += &format!("{:X}", output[0]);
        }
    }
    shown
}

/// A slave's pins for the word A, what it shows for its own word 9 with SSE set, and the
/// same if SSE is cleared within the frame, from after the first place to before the last.
const SLAVES: [(u32, &str, &str, &str, usize, usize); 3] = [
    (SPH0, "22045014501022", "AA6662222666AA", "AA666222266AAA", 3, 10),
    (SPH1, "22054105410022", "AA2662222666AA", "AA266222266AAA", 4, 10),
    (TI, "00325410541000", "AAAA66222266AA", "AAAA66222266AA", 5, 11),
];

#[test]
fn slaves_end_their_frame() {
    for (cr0, pins, enabled, stopped, first, last) in SLAVES {
        let mut record = slave(2, cr0, &[0x9, 0x6]);
        assert_eq!(see(&mut record, pins, &[]), enabled);
        for stop in first..=last {
            let mut record = slave(2, cr0, &[0x9, 0x6]);
            assert_eq!(see(&mut record, pins, &[(stop, SLAVE_OFF)]), stopped, "at {stop}");
            assert_eq!((received(&record), record[at::TX_COUNT]), (vec![0xA], 1));
            assert!(engine_is_clear(&record));

            let mut record = slave(1, cr0, &[0x9, 0x6]);
            let cut = then_idle(&stopped[..stop], "A", pins.len());
            assert_eq!(see(&mut record, pins, &[(stop, SLAVE_OFF)]), cut, "at {stop}");
            assert_eq!((received(&record), record[at::TX_COUNT]), (vec![], 1));
        }
    }
}

/// Selected or marked, but no word is taken yet.
#[test]
fn slaves_without_a_frame() {
    for (cr0, pins, enabled, _, first, _) in SLAVES {
        let mut record = slave(2, cr0, &[0x9, 0x6]);
        let cut = then_idle(&enabled[..first - 1], "A", pins.len());
        let writes = [(first - 1, SLAVE_OFF), (first, SLAVE)];
        assert_eq!(see(&mut record, pins, &writes), cut, "cr0 {cr0:x}");
        assert_eq!((received(&record), record[at::TX_COUNT]), (vec![], 2));
    }
}

/// The next word's edge, or the mark, comes at the end of the frame.
#[test]
fn slaves_do_not_make_up_for_a_chance() {
    for (cr0, pins, first, second, end, at) in [
        (SPH1, "2205410541010541054422", "AA266222266", "22666622", "2AA", 11),
        (TI, "0032541054321054105400", "AAAA66222266", "22666622", "AA", 12),
    ] {
        let enabled = [first, second, end].concat();
        for (again, all) in [(at - 1, true), (at, false)] {
            let mut record = slave(2, cr0, &[0x9, 0x6]);
            let shown = see(&mut record, pins, &[(6, SLAVE_OFF), (again, SLAVE)]);
            if all {
                assert_eq!(shown, enabled);
                assert_eq!(received(&record), [0xA, 0x5]);
            } else {
                assert_eq!(shown, then_idle(first, "A", pins.len()));
                assert_eq!((received(&record), record[at::TX_COUNT]), (vec![0xA], 1));
            }
        }
    }
}

#[test]
fn a_part_word_is_dropped() {
    // FSS HIGH, and TI's mark, before the third bit.
    for (cr0, pins, shown) in
        [(SPH0, "22045022222", "AA6662AAAAA"), (TI, "003254103210", "AAAA66222AAA")]
    {
        let mut record = slave(2, cr0, &[0x9, 0x6]);
        assert_eq!(see(&mut record, pins, &[(5, SLAVE_OFF)]), shown, "cr0 {cr0:x}");
        assert_eq!((received(&record), record[at::TX_COUNT]), (vec![], 1));
        assert!(engine_is_clear(&record));
    }
}

#[test]
fn sod_may_change_in_the_frame() {
    let mut record = slave(2, SPH0, &[0x9]);
    let writes = [(4, SLAVE_OFF), (7, SLAVE_OFF | 8)];
    assert_eq!(see(&mut record, "22045014501022", &writes), "AA66622AAEEAAA");
}

/// FSS HIGH, control byte A5, the wait, four data bits, the end; see tests/microwire.rs.
const FRAME: [&str; 5] = ["22", "4501450101450145", "01", "01010101", "022"];

#[test]
fn a_microwire_slave_ends_its_frame() {
    let pins = FRAME.concat();
    let silent = "A".repeat(20);
    // The first control bit is latched at 3, the word taken at 19.
    for (stop, data, left) in
        [(4, "22222222", 1), (18, "22222222", 1), (19, "22222222", 1), (20, "66222266", 0)]
    {
        let mut record = slave(2, MICROWIRE, &[0x9]);
        let shown = see(&mut record, &pins, &[(stop, SLAVE_OFF)]);
        assert_eq!(shown, [&silent, data, "AAA"].concat(), "at {stop}");
        assert_eq!((received(&record), record[at::TX_COUNT]), (vec![0xA5], left));
        assert!(engine_is_clear(&record));
    }
    let mut record = slave(2, MICROWIRE, &[0x9]);
    assert_eq!(see(&mut record, &pins, &[(3, SLAVE_OFF)]), "A".repeat(31), "no bit latched");
    assert_eq!((received(&record), record[at::TX_COUNT]), (vec![], 1));
}

/// Two cycles a slot: the frame is over at the last bit's rise, and with it the bit.
#[test]
fn a_microwire_slaves_last_bit_is_cut_short() {
    let pins = slowed(&FRAME.concat(), 2);
    for (writes, data) in [
        (&[][..], "6666222222226666AAAAAA"),
        (&[(50, SLAVE_OFF)], "666622222222666AAAAAAA"),
        (&[(10, SLAVE_OFF)], "222222222222222AAAAAAA"),
        // The chance to take a word passed.
        (&[(10, SLAVE_OFF), (42, SLAVE)], "2222222222222222AAAAAA"),
        (&[(10, SLAVE_OFF), (38, SLAVE)], "6666222222226666AAAAAA"),
    ] {
        let mut record = slave(2, MICROWIRE, &[0x9]);
        assert_eq!(see(&mut record, &pins, writes), "A".repeat(40) + data);
        assert_eq!(received(&record), [0xA5]);
    }
}

/// A second control byte follows with FSS still LOW: after SSE was cleared it is not received.
#[test]
fn a_microwire_slave_starts_no_further_frame() {
    let pins = [FRAME[0], FRAME[1], FRAME[2], FRAME[3], FRAME[1], "022"].concat();
    for (writes, bytes) in [(&[][..], &[0xA5, 0xA5][..]), (&[(8, SLAVE_OFF)], &[0xA5])] {
        let mut record = slave(2, MICROWIRE, &[0x9]);
        see(&mut record, &pins, writes);
        assert_eq!(received(&record), bytes);
    }
}

/// A wired pair of four bits at h 6, master first; SSE of both is cleared after 30 cycles.
fn stopped_pair(editions: [u32; 2]) -> [Record; 2] {
    let mut first = enabled(editions[0], SPH0, 6, MASTER_OFF, &[0xA]);
    let mut second = enabled(editions[1], SPH0, 1, SLAVE, &[0x9]);
    assert_eq!(pair_run(&mut first, &mut second, 4).refusal, 0);
    set_cr1(&mut first, MASTER);
    assert_eq!(pair_run(&mut first, &mut second, 30).refusal, 0);
    set_cr1(&mut first, MASTER_OFF);
    set_cr1(&mut second, SLAVE_OFF);
    assert_eq!(pair_run(&mut first, &mut second, 60).refusal, 0);
    [first, second]
}

#[test]
fn pairs_of_all_editions() {
    for (editions, by_master, by_slave) in [
        ([1, 1], &[][..], &[][..]),
        // FSS HIGH drops the slave's word.
        ([1, 2], &[], &[]),
        // Two bits of 9, captured in cycles 12 and 24, then a released line.
        ([2, 1], &[0x8], &[]),
        ([2, 2], &[0x9], &[0xA]),
    ] {
        let [first, second] = stopped_pair(editions);
        assert_eq!(received(&first), by_master, "{editions:?}");
        assert_eq!(received(&second), by_slave, "{editions:?}");
        assert!(engine_is_clear(&first) && engine_is_clear(&second));
    }
}

fn queue(words: &[u16]) -> Queue {
    Queue::from_words(words).unwrap()
}

/// In a frame with SSE clear, h 1.
fn frame(cr0: u32, cr1: u32) -> Device {
    let device = Device { cr0: cr0 as u16, cr1: cr1 as u8, cpsr: 2, ..Device::reset() };
    Device { edition: Edition::Second, frame: true, ..device }
}

#[test]
fn the_timeout_waits_for_sse() {
    let mut record = master(2, SPH0, &[0xA]);
    for cycle in 0..30 {
        if cycle == 1 {
            set_cr1(&mut record, MASTER_OFF);
        }
        lines(&mut record, 1);
        assert_eq!(record[at::RT_COUNT..at::FRAME], [0; 4], "cycle {cycle}");
    }
    set_cr1(&mut record, MASTER);
    lines(&mut record, 63);
    assert_eq!((record[at::RT_COUNT], read(&mut record, RIS)), (63, (0, 8)));
    lines(&mut record, 1);
    assert_eq!((record[at::RT_COUNT], read(&mut record, RIS)), (0, (0, 10)));
}

/// The count of an odd record goes with SSE, its frame stays.
#[test]
fn clearing_sse_clears_the_count() {
    let odd = Device { slot: 5, rt_count: 7, held: true, ..frame(SPH0, MASTER) };
    let mut stopped = odd.clone();
    assert_eq!(stopped.write(CR1, MASTER_OFF), Ok(()));
    assert_eq!(stopped, Device { cr1: 0, rt_count: 0, ..odd });
}

#[test]
fn a_word_clears_the_timeout_or_overruns() {
    for (held, ror) in [(1, false), (8, true)] {
        let rx = queue(&[3; 8][..held]);
        let start = Device { slot: 8, captured: 3, rt: true, rx, ..frame(SPH0, MASTER_OFF) };
        let mut device = start;
        device.cycle(4);
        assert_eq!((device.rt, device.ror, device.rx.len()), (false, ror, 8.min(held + 1)));
        assert!(device.frame);
    }
}

#[test]
fn reset_chooses_the_edition() {
    let mut fresh = [0; LENGTH];
    fresh[at::LINES] = 0x0A;
    let mut second = fresh;
    second[30] = 1;
    let mut record = [0xFF; LENGTH];
    assert_eq!((reset_edition(&mut record, 2), record), (0, second));
    assert_eq!((reset(&mut record), record), (0, fresh));
    assert_eq!((reset_edition(&mut record, 2), record), (0, second));
    assert_eq!((reset_edition(&mut record, 1), record), (0, fresh));
    for edition in [0, 3, 4, 255, 256, 257, 258, 0x1_0001, 0x8000_0001, u32::MAX] {
        let mut record = [0x5A; LENGTH];
        assert_eq!((reset_edition(&mut record, edition), record), (20, [0x5A; LENGTH]));
    }
}

#[test]
fn the_length_comes_before_the_edition() {
    for length in [0, 1, 127, 129, 256] {
        for edition in [0, 1, 2, 3, u32::MAX] {
            let mut record = vec![0x5A; length];
            assert_eq!(reset_edition(&mut record, edition), 10);
            assert_eq!(record, vec![0x5A; length]);
        }
    }
}

#[test]
fn reset_in_a_script() {
    let mut session = Session::new(&Second);
    for (line, number, byte) in [
        ("reset 1 2", "0", 1),
        // Hexadecimal; refused, nothing changes.
        ("reset 1 3", "20", 1),
        ("reset 1 102", "20", 1),
        ("reset 1 ffffffff", "20", 1),
        ("reset 1 01", "0", 0),
        ("reset 1 2", "0", 1),
        ("reset 1", "0", 0),
    ] {
        let answer = answer_line(&mut session, line).map(|answer| answer.line);
        assert_eq!(answer, Some(number.to_string()), "{line}");
        assert_eq!(session.records[1][at::EDITION], byte, "{line}");
    }
    assert_eq!(session.records[0][at::EDITION], 0, "the other device");
    for line in ["reset 1 100000002", "reset 1 0x2", "reset 1 2 2", "reset 2 2"] {
        assert_eq!(Command::parse(line), None, "{line}");
    }
    let command = Command::ResetEdition { device: 1, edition: 0x1FF };
    assert_eq!(Command::parse(&command.to_string()), Some(command));
}

#[test]
fn nothing_but_reset_changes_the_edition() {
    for (edition, byte) in [(1, 0), (2, 1)] {
        let mut record = master(edition, SPH0, &[0xA, 0x5]);
        stopped_after(&mut record, 5, 20);
        for offset in (0..0x28).step_by(4) {
            read(&mut record, offset);
            write(&mut record, offset, 3);
        }
        assert_eq!(record[at::EDITION], byte);
    }
}

/// The answer to a read of the device with some bytes changed.
fn answer(device: &Device, changes: &[(usize, u8)]) -> u32 {
    let mut record = encode(device);
    for (place, value) in changes {
        record[*place] = *value;
    }
    read(&mut record, SR).0
}

#[test]
fn a_frame_with_sse_clear_is_sound_in_edition_2() {
    let device = Device { cpsr: 4, slot: 5, gone: 1, ..frame(SPH0, MASTER_OFF) };
    assert_eq!(answer(&device, &[]), 0);
    for (place, value, refusal) in [
        (at::EDITION, 0, 9),
        (at::EDITION, 2, 9),
        (at::EDITION, 255, 9),
        (31, 1, 9),
        (at::FRAME, 0, 9),
        (at::RT_COUNT, 1, 9),
        (at::RT_COUNT + 3, 1, 9),
        (at::SLOT, 11, 0),
        (at::SLOT, 12, 9),
        (at::GONE, 2, 9),
        (at::CAPTURED, 4, 0),
        (at::CAPTURED, 5, 9),
        (at::SELECTED, 1, 0),
        (at::MARK, 1, 0),
        (at::CPSR, 0, 9),
        (at::CR0, 0, 9),
        // With SSE set the count is free, and the edition.
        (at::CR1, 2, 0),
    ] {
        assert_eq!(answer(&device, &[(place, value)]), refusal, "byte {place} {value}");
    }
    let counting = [(at::CR1, 2), (at::RT_COUNT, 1)];
    assert_eq!(answer(&device, &counting), 0);
    assert_eq!(answer(&device, &[counting[0], counting[1], (at::EDITION, 0)]), 0);
}

#[test]
fn bounds_of_the_other_formats() {
    for (cr0, cr1, slot, captured) in [
        (TI, MASTER_OFF, 9, 4),
        (MICROWIRE, MASTER_OFF, 28, 4),
        (MICROWIRE, SLAVE_OFF, 28, 8),
        (0x1F, SLAVE_OFF, 33, 16),
    ] {
        let device = Device { slot, captured, ..frame(cr0, cr1) };
        assert_eq!(answer(&device, &[]), 0);
        assert_eq!(answer(&device, &[(at::SLOT, slot + 1)]), 9);
        assert_eq!(answer(&device, &[(at::CAPTURED, captured + 1)]), 9);
    }
}

/// Without a frame edition 2 has the rules of edition 1.
#[test]
fn soundness_without_a_frame() {
    for byte in [0, 1] {
        let rest = [(at::EDITION, byte)];
        assert_eq!(answer(&Device::reset(), &rest), 0);
        for place in [at::SELECTED, at::MARK, at::SLOT, at::GONE, at::CAPTURED, at::RT_COUNT] {
            assert_eq!(answer(&Device::reset(), &[rest[0], (place, 1)]), 9, "byte {place}");
        }
        // Level and words are free.
        for place in [at::HELD, at::SENDING, at::RECEIVING] {
            assert_eq!(answer(&Device::reset(), &[rest[0], (place, 1)]), 0, "byte {place}");
        }
    }
}

/// An odd frame before its slot 0 passes it with zeros.
#[test]
fn odd_slot_0_takes_no_word() {
    for (cr0, digits, idle) in [
        (SPH0, "0010101010A", 0xA),
        (SPH1, "0101010100A", 0xA),
        (TI, "BA10101010", 0x8),
        (MICROWIRE, "010101010101010189898989898A", 0xA),
    ] {
        let mut device = Device { tx: queue(&[0xF]), sending: 0xF, ..frame(cr0, MASTER_OFF) };
        let shown: String =
            digits.chars().map(|_| format!("{:X}", device.cycle(0).lines)).collect();
        assert_eq!(shown, digits);
        assert_eq!((device.frame, device.tx.len(), device.cycle(0).lines), (false, 1, idle));
    }
}

/// Frame, selection, mark, captured bits, word sent.
fn parts(device: &Device) -> (bool, bool, bool, u8, u16) {
    (device.frame, device.selected, device.mark, device.captured, device.sending)
}

const CLEAR: (bool, bool, bool, u8, u16) = (false, false, false, 0, 0);

#[test]
fn odd_slaves_send_zeros() {
    let (fall, fall_and_edge) = ([0, 0, FSS], [0, CLK, FSS]);
    let rise = [0, CLK, 0];
    let zeros = (true, true, false, 0, 0);
    for (cr0, pins, lines, after) in [
        (SPH0, fall, 0x2, zeros),
        // The edge captures the first bit.
        (SPH0, fall_and_edge, 0x2, (true, true, false, 1, 0)),
        // SPH 1 has no word before its edge: dropped, and shown as selected.
        (SPH1, fall, 0x2, CLEAR),
        (SPH1, fall_and_edge, 0x2, zeros),
        // A fall of FSS alone ends a Microwire frame; a first control bit begins one.
        (MICROWIRE, fall, 0xA, CLEAR),
        (MICROWIRE, fall_and_edge, 0xA, (true, true, false, 1, 0)),
    ] {
        let odd = Device { captured: 2, sending: 0xF, selected: true, ..frame(cr0, SLAVE_OFF) };
        let mut slave = Device { pins, tx: queue(&[0xF]), ..odd };
        assert_eq!((slave.cycle(0).lines, parts(&slave)), (lines, after), "cr0 {cr0:x} {pins:?}");
        assert_eq!(slave.tx.len(), 1);
    }
    let odd = Device { captured: 2, sending: 0xF, mark: true, ..frame(TI, SLAVE_OFF) };
    let mut slave = Device { pins: rise, tx: queue(&[0xF]), ..odd };
    assert_eq!((slave.cycle(0).lines, parts(&slave)), (0x2, (true, false, false, 0, 0)));
    assert_eq!(slave.tx.len(), 1);
}

#[test]
fn a_cycle_without_sse_and_frame_clears_the_engine() {
    for edition in [Edition::First, Edition::Second] {
        let odd = Device { held: true, sending: 7, receiving: 9, ..Device::reset() };
        let mut device = Device { edition, ..odd };
        // A write to CR1 leaves level and words.
        assert_eq!(device.write(CR1, 8), Ok(()));
        assert_eq!((device.held, device.sending, device.receiving), (true, 7, 9));
        device.cycle(0);
        assert_eq!((device.held, device.sending, device.receiving), (false, 0, 0));
    }
}
