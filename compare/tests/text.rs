//! Recordings as text, by hand from the change request, and the tool's way to the places.

use compare::device::Device;
use compare::random::Random;
use compare::text::{read_text, write_text, MOST_CYCLES};
use std::fs;
use std::io::Write;
use std::process::{Command, Output, Stdio};

/// What a lent buffer holds before a call.
const OLD: u8 = 0xEE;
const OLD_START: u32 = 0xEEEE_EEEE;

fn cycles_of(digits: &str) -> Vec<u8> {
    digits.chars().map(|c| c.to_digit(16).unwrap() as u8).collect()
}

/// The text, in a buffer with room to spare, which must stay as it was.
fn written(cycles: &[u8], places: &[u32]) -> Result<String, u64> {
    let mut text = vec![OLD; 2 * cycles.len() + 5];
    let (refusal, count) = write_text(cycles, places, &mut text);
    assert!(text[count as usize..].iter().all(|byte| *byte == OLD));
    text.truncate(count as usize);
    if refusal == 0 {
        Ok(String::from_utf8(text).unwrap())
    } else {
        assert_eq!(count, 0);
        Err(refusal)
    }
}

/// Cycles and line starts, the same way.
fn read(text: &[u8]) -> Result<(Vec<u8>, Vec<u32>), u64> {
    let mut cycles = vec![OLD; text.len() + 5];
    let mut starts = vec![OLD_START; text.len() + 5];
    let (refusal, count, lines) = read_text(text, &mut cycles, &mut starts);
    let (count, lines) = (count as usize, lines as usize);
    assert!(cycles[count..].iter().all(|byte| *byte == OLD));
    assert!(starts[lines..].iter().all(|start| *start == OLD_START));
    cycles.truncate(count);
    starts.truncate(lines);
    if refusal == 0 {
        Ok((cycles, starts))
    } else {
        assert_eq!((count, lines), (0, 0));
        Err(refusal)
    }
}

#[test]
fn p4_reads_as_two_lines() {
    let cycles = cycles_of("BA5410543210541054");
    let text = "BA541054\n3210541054\n";
    assert_eq!(written(&cycles, &[0, 8]), Ok(text.to_string()));
    assert_eq!(read(text.as_bytes()), Ok((cycles, vec![0, 8])));
}

#[test]
fn no_cycles_is_an_empty_text() {
    assert_eq!(written(&[], &[]), Ok(String::new()));
    assert_eq!(read(b""), Ok((vec![], vec![])));
    assert_eq!(written(&[], &[0]), Err(15));
    assert_eq!(write_text(&[], &[], &mut []), (0, 0));
    assert_eq!(read_text(b"", &mut [], &mut []), (0, 0, 0));
}

#[test]
fn cycles_before_the_first_place_make_a_line() {
    let cycles = cycles_of("AA04501");
    assert_eq!(written(&cycles, &[2]), Ok("AA\n04501\n".to_string()));
    assert_eq!(written(&cycles, &[0, 2]), Ok("AA\n04501\n".to_string()));
    assert_eq!(written(&cycles, &[]), Ok("AA04501\n".to_string()));
    assert_eq!(written(&cycles, &[0]), Ok("AA04501\n".to_string()));
    assert_eq!(written(&cycles, &[6]), Ok("AA0450\n1\n".to_string()));
    assert_eq!(read(b"AA\n04501\n"), Ok((cycles, vec![0, 2])));
}

#[test]
fn every_digit_is_a_capital() {
    let cycles: Vec<u8> = (0..16).collect();
    assert_eq!(written(&cycles, &[]), Ok("0123456789ABCDEF\n".to_string()));
    assert_eq!(read(b"0123456789ABCDEF\n"), Ok((cycles, vec![0])));
}

#[test]
fn each_cycle_a_line() {
    assert_eq!(written(&[1, 2, 3], &[0, 1, 2]), Ok("1\n2\n3\n".to_string()));
    assert_eq!(written(&[1, 2, 3], &[1, 2]), Ok("1\n2\n3\n".to_string()));
    assert_eq!(read(b"1\n2\n3\n"), Ok((vec![1, 2, 3], vec![0, 1, 2])));
}

#[test]
fn places_must_rise_within_the_cycles() {
    for places in [&[3][..], &[0, 3], &[u32::MAX], &[1, 1], &[0, 0], &[2, 1], &[0, 2, 1], &[4, 0]] {
        assert_eq!(written(&[1, 2, 3], places), Err(15), "{places:?}");
    }
    assert_eq!(written(&[1, 2, 3], &[0, 1 << 16]), Err(15));
    assert!(written(&[1, 2, 3], &[0, 2]).is_ok());
}

#[test]
fn writing_refuses_in_order() {
    let long = |cycle: u8| vec![cycle; MOST_CYCLES + 1];
    assert_eq!(write_text(&long(16), &[9, 9], &mut []), (13, 0));
    assert_eq!(write_text(&long(16)[1..], &[9, 9], &mut []), (14, 0));
    assert_eq!(write_text(&long(15)[1..], &[9, 9], &mut []), (15, 0));
    assert_eq!(write_text(&long(15)[1..], &[9], &mut []), (16, 0));
    assert_eq!(written(&[0, 255], &[]), Err(14));
    let mut text = [OLD; 6];
    assert_eq!(write_text(&[1, 2, 3, 4], &[0, 1, 2], &mut text), (16, 0));
    assert_eq!(text, [OLD; 6]);
    assert_eq!(write_text(&[1, 2, 3, 4], &[0, 1], &mut text), (0, 6));
    assert_eq!(&text, b"1\n234\n");
}

#[test]
fn limit_of_cycles() {
    let all: Vec<u32> = (0..MOST_CYCLES as u32).collect();
    assert_eq!(written(&[5; MOST_CYCLES], &[]), Ok("5".repeat(MOST_CYCLES) + "\n"));
    assert_eq!(written(&[5; MOST_CYCLES], &all), Ok("5\n".repeat(MOST_CYCLES)));
    assert_eq!(written(&[5; MOST_CYCLES + 1], &[]), Err(13));
    assert_eq!(read("5\n".repeat(MOST_CYCLES).as_bytes()), Ok((vec![5; MOST_CYCLES], all)));
    assert_eq!(read("5\n".repeat(MOST_CYCLES + 1).as_bytes()), Err(13));
    let line = "5".repeat(MOST_CYCLES);
    assert_eq!(read((line.clone() + "\n").as_bytes()), Ok((vec![5; MOST_CYCLES], vec![0])));
    assert_eq!(read((line.clone() + "5\n").as_bytes()), Err(13));
    assert_eq!(read(line.as_bytes()), Err(19));
}

#[test]
fn other_characters() {
    let good = b"0123456789ABCDEF\n";
    for character in (0..=255u8).filter(|c| !good.contains(c)) {
        assert_eq!(read(&[character]), Err(17), "{character:02x}");
        assert_eq!(read(&[b'A', character, b'\n']), Err(17), "{character:02x}");
        assert_eq!(read(&[b'A', b'\n', character]), Err(17), "{character:02x}");
    }
    assert_eq!(read(b"BA541054\r\n"), Err(17));
    assert_eq!(read(b"ba541054\n"), Err(17));
    assert_eq!(read(b"BA541054\n\0"), Err(17));
}

#[test]
fn lines_must_hold_cycles_and_end() {
    for text in [&b"\n"[..], b"\n\n", b"\nA\n", b"A\n\n", b"A\n\nB\n", b"A\n\nB"] {
        assert_eq!(read(text), Err(18), "{text:?}");
    }
    for text in [&b"A"[..], b"A\nB", b"A\nB\nCD"] {
        assert_eq!(read(text), Err(19), "{text:?}");
    }
}

#[test]
fn the_first_place_decides() {
    let full = "5".repeat(MOST_CYCLES);
    let cases = [
        ("\n?".to_string(), 18),
        ("?\n\n".to_string(), 17),
        ("A\n\n?".to_string(), 18),
        ("A?".to_string(), 17),
        ("A\nB?\n\nC".to_string(), 17),
        (full.clone() + "5?", 13),
        (full.clone() + "?5", 17),
        (full.clone() + "\n\n5", 18),
        (full.clone() + "\n5\n\n", 13),
        (full.clone() + "\n5", 13),
        ("?".to_string() + &full + "5", 17),
        ("\n".to_string() + &full + "5", 18),
    ];
    for (text, refusal) in cases {
        assert_eq!(read(text.as_bytes()), Err(refusal), "...{:?}", &text[text.len() - 2..]);
        // Buffers come last.
        assert_eq!(read_text(text.as_bytes(), &mut [], &mut []), (refusal, 0, 0));
    }
}

#[test]
fn either_buffer_may_be_too_short() {
    let text = b"12\n3\n";
    for (cycles_len, starts_len) in [(2, 2), (3, 1), (0, 2), (3, 0), (0, 0)] {
        let (mut cycles, mut starts) = (vec![OLD; cycles_len], vec![OLD_START; starts_len]);
        assert_eq!(read_text(text, &mut cycles, &mut starts), (16, 0, 0));
        assert_eq!((cycles, starts), (vec![OLD; cycles_len], vec![OLD_START; starts_len]));
    }
    let (mut cycles, mut starts) = ([OLD; 3], [OLD_START; 2]);
    assert_eq!(read_text(text, &mut cycles, &mut starts), (0, 3, 2));
    assert_eq!((cycles, starts), ([1, 2, 3], [0, 2]));
}

/// Which cycle takes a word is known before it, in every format and with words at any time.
#[test]
fn a_master_knows_when_it_takes_a_word() {
    let mut random = Random::new(4);
    for cr0 in (0..0x100).filter(|cr0| cr0 >> 4 & 3 < 3 && cr0 & 15 >= 3) {
        let mut master = Device::reset();
        assert_eq!(master.write(0x00, cr0), Ok(()));
        assert_eq!(master.write(0x10, 2 + 2 * random.below(3) as u32), Ok(()));
        assert_eq!(master.write(0x08, 1), Ok(()));
        assert!(!master.master_takes_word(), "disabled");
        assert_eq!(master.write(0x04, 2), Ok(()));
        let mut taken = 0;
        for _ in 0..2000 {
            if random.percent(3) {
                let _ = master.write(0x08, random.word());
            }
            let (waiting, takes) = (master.tx.len(), master.master_takes_word());
            master.cycle(random.below(8) as u8);
            assert_eq!(waiting - master.tx.len(), usize::from(takes), "cr0 {cr0:x}");
            taken += usize::from(takes);
        }
        assert!(taken > 5);
    }
}

/// The program `script` with this file for the text.
fn run_script(name: &str, commands: &str) -> (Output, Option<String>) {
    let file = format!("{}/{name}", env!("CARGO_TARGET_TMPDIR"));
    let _ = fs::remove_file(&file);
    let mut script = Command::new(env!("CARGO_BIN_EXE_script"))
        .args(["--text", &file])
        .stdin(Stdio::piped())
        .stdout(Stdio::piped())
        .stderr(Stdio::piped())
        .spawn()
        .unwrap();
    script.stdin.take().unwrap().write_all(commands.as_bytes()).unwrap();
    let output = script.wait_with_output().unwrap();
    (output, fs::read_to_string(&file).ok())
}

fn text_of(name: &str, commands: &str) -> String {
    let (output, text) = run_script(name, commands);
    assert!(output.status.success());
    text.unwrap()
}

/// P4's words and settings for a device, four bits at h 1.
fn two_words(device: usize) -> String {
    let accesses = ["10 2", "0 13", "8 a", "8 5", "4 2"];
    accesses.map(|access| format!("w {device} {access}\n")).concat()
}

#[test]
fn a_script_as_text() {
    let frames = "BA541054\n3210541054\n";
    let run = format!("run 0 {}\n", "0".repeat(18));
    assert_eq!(text_of("p4", &(two_words(0) + &run)), frames);
    assert_eq!(text_of("idle", &(two_words(0) + "idle 0 000000000000000000000000\n")), frames);
    assert_eq!(text_of("pair", &(two_words(1) + "pair 18\n")), frames);
    // Before it is enabled, and after the last word.
    let around = format!("run 0 00\n{}{run}run 0 8\nrun 0 0\n", two_words(0));
    assert_eq!(text_of("around", &around), "AA\nBA541054\n32105410548\n");
}

/// SSE is clear in slot 8, which would take the second word.
#[test]
fn no_line_for_a_word_that_is_not_taken() {
    let stopped = "run 0 00000000\nw 0 4 0\nrun 0 00\nw 0 4 2\nrun 0 00\n";
    let commands = format!("reset 0 2\n{}{stopped}", two_words(0));
    assert_eq!(text_of("stopped", &commands), "BA54105410\nBA\n");
}

#[test]
fn the_first_master_of_a_script() {
    // Device 0 runs disabled at first; device 1 is the first that is enabled. Its last line
    // goes on while it is idle.
    let late = format!("run 0 00\n{}pair 18\n{}pair 18\n", two_words(1), two_words(0));
    assert_eq!(text_of("late", &late), format!("BA541054\n3210541054{}\n", "8".repeat(18)));
    // Both in one pair cycle: device 0, whose lines have another format.
    let accesses = ["10 2", "0 3", "8 a", "4 2"].map(|access| format!("w 0 {access}\n")).concat();
    let both = format!("{accesses}{}pair 12\n", two_words(1));
    assert_eq!(text_of("both", &both), "0450145010AA\n");
    // As a slave it runs cycles that are not written.
    let role = format!("{}run 0 {}\n", two_words(0), "0".repeat(18));
    let slave = format!("{role}w 0 4 0\nw 0 4 4\nrun 0 000\nw 0 4 0\nrun 0 0\n");
    assert_eq!(text_of("slave", &slave), "BA541054\n32105410548\n");
}

#[test]
fn scripts_without_a_text() {
    assert_eq!(text_of("none", "r 0 0\nrun 0 00\n"), "");
    let long = format!("{}run 0 {}\n", two_words(0), "0".repeat(MOST_CYCLES + 1));
    let (output, text) = run_script("long", &long);
    assert_eq!((output.status.code(), text), (Some(1), None));
    assert!(String::from_utf8(output.stderr).unwrap().contains("13"));
}
