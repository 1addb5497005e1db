//! The judge of recordings and the difference of two. All by hand from the slot tables and the
//! paper's recordings P1 to P5, b 4 and h 1 unless a test says otherwise. Only the last test takes
//! what it expects from devices: it goes through all short lists.

use compare::difference::{difference, Part};
use compare::judge::{judge, MOST_CYCLES};
use compare::model::Second;
use compare::random::Random;
use compare::recording::{enabled_master, lines_to_rest};
use compare::script::answer_line;
use compare::session::Session;

const SPH0: u32 = 0x03;
const SPH1: u32 = 0x83;
const TI: u32 = 0x13;
const MICROWIRE: u32 = 0x23;
const SPO: u32 = 0x40;

/// CPSR for h 1.
const FAST: u32 = 2;

const P1: &str = "0450145010AA";
const P2: &str = "0541054100AA";
const P3: &str = "BA54105410";
const P4: &str = "BA5410543210541054";
const P5: &str = "450145010145014589898989898AA";

/// What the places hold before a call.
const OLD: [u16; 8] = [0x1111, 0x2222, 0x3333, 0x4444, 0x5555, 0x6666, 0x7777, 0x8888];

fn cycles_of(digits: &str) -> Vec<u8> {
    digits.chars().map(|c| c.to_digit(16).unwrap() as u8).collect()
}

/// Each digit as many times.
fn slower(digits: &str, h: usize) -> Vec<u8> {
    cycles_of(digits).into_iter().flat_map(|cycle| vec![cycle; h]).collect()
}

/// The words, or refusal number and count; refused, the places stay, accepted, the rest is 0.
fn verdict(cr0: u32, cpsr: u32, recording: &[u8]) -> Result<Vec<u16>, (u64, u64)> {
    let mut words = OLD;
    let (refusal, count) = judge(cr0, cpsr, recording, &mut words);
    if refusal != 0 {
        assert_eq!(words, OLD);
        return Err((refusal, count));
    }
    assert!(words[count as usize..].iter().all(|word| *word == 0));
    Ok(words[..count as usize].to_vec())
}

fn judged(cr0: u32, digits: &str) -> Result<Vec<u16>, (u64, u64)> {
    verdict(cr0, FAST, &cycles_of(digits))
}

#[test]
fn the_papers_recordings() {
    assert_eq!(judged(SPH0, P1), Ok(vec![0xA]));
    assert_eq!(judged(SPH1, P2), Ok(vec![0xA]));
    assert_eq!(judged(TI, P3), Ok(vec![0xA]));
    assert_eq!(judged(TI, P4), Ok(vec![0xA, 0x5]));
    assert_eq!(judged(MICROWIRE, P5), Ok(vec![0xA5]));
}

/// SPO 1 flips bit 0 in P1 and P2; elsewhere SPO and SPH mean nothing.
#[test]
fn polarity() {
    assert_eq!(judged(SPH0 | SPO, "1541054101BB"), Ok(vec![0xA]));
    assert_eq!(judged(SPH1 | SPO, "1450145011BB"), Ok(vec![0xA]));
    assert_eq!(judged(SPH0 | SPO, P1), Err((21, 0)));
    assert_eq!(judged(SPH0, "1541054101BB"), Err((21, 0)));
    for phase in [0x00, 0x40, 0x80, 0xC0] {
        assert_eq!(judged(TI | phase, P4), Ok(vec![0xA, 0x5]));
        assert_eq!(judged(MICROWIRE | phase, P5), Ok(vec![0xA5]));
    }
}

/// The other phase: slot 0 is the same, and the first bit of P1 is shown a slot before the
/// clock, which at SPH 1 comes with it.
#[test]
fn the_other_phase() {
    assert_eq!(judged(SPH1, P1), Err((21, 1)));
    assert_eq!(judged(SPH0, P2), Err((21, 1)));
}

/// Words follow with both idle slots at SPH 0, at once in the others. A word of zeros counts.
#[test]
fn several_words() {
    let zero = "0010101010AA";
    assert_eq!(judged(SPH0, &[P1, P1].concat()), Ok(vec![0xA, 0xA]));
    assert_eq!(judged(SPH0, &[P1, zero].concat()), Ok(vec![0xA, 0]));
    assert_eq!(judged(SPH0, &[zero, P1, zero].concat()), Ok(vec![0, 0xA, 0]));
    assert_eq!(judged(SPH0, &zero.repeat(8)), Ok(vec![0; 8]));
    assert_eq!(judged(SPH1, "054105410105410544AA"), Ok(vec![0xA, 0x5]));
    let control = ["4501450101450145", "0101454545450101"];
    let data = "8989898989";
    let two = [control[0], data, control[1], data, "8AA"].concat();
    assert_eq!(judged(MICROWIRE, &two), Ok(vec![0xA5, 0x3C]));
}

/// The old word's last bit stays in the two slots in which the next word's FSS is HIGH.
#[test]
fn a_joined_word_of_ti() {
    assert_eq!(judged(TI, "BA5410547610541054"), Ok(vec![0xB, 0x5]));
    // Bit 1 in the first of them, 0 in the second.
    assert_eq!(judged(TI, "BA5410547210541054"), Err((21, 9)));
    // As if no word followed, but then FSS is HIGH.
    assert_eq!(judged(TI, "BA5410541210541054"), Err((21, 9)));
    // Released, as before a first word.
    assert_eq!(judged(TI, "BA541054BA10541054"), Err((21, 8)));
}

/// CLK active in slot 2b+1 is the next word's first bit; then FSS cannot be HIGH.
#[test]
fn a_joined_word_of_sph1() {
    assert_eq!(judged(SPH1, "0541054101AA"), Err((21, 10)));
    assert_eq!(judged(SPH1, "0541054105AA"), Err((21, 10)));
    // The last bit, 0, does not hold.
    assert_eq!(judged(SPH1, "0541054104AA"), Err((21, 9)));
}

/// A Microwire word has eight bits whatever b is: the data of b 5 are a clock longer.
#[test]
fn eight_control_bits() {
    let control = "4545454501010145";
    assert_eq!(judged(MICROWIRE, &[control, "8989898989", "8AA"].concat()), Ok(vec![0xF1]));
    assert_eq!(judged(0x24, &[control, "898989898989", "8AA"].concat()), Ok(vec![0xF1]));
    let long = [control, &"89".repeat(17), "8AA"].concat();
    assert_eq!(judged(0x2F, &long), Ok(vec![0xF1]));
    // With b 4 slot 26 ends the data; nothing has a clock there.
    assert_eq!(judged(MICROWIRE, &long), Err((21, 27)));
}

#[test]
fn no_cycles() {
    for cr0 in [SPH0, SPH1, TI, MICROWIRE] {
        assert_eq!(verdict(cr0, FAST, &[]), Err((21, 0)));
    }
}

/// A proper beginning has all its cycles as leading ones; at SPH 0 some are right.
#[test]
fn beginnings() {
    for (cr0, digits) in [(SPH0, P1), (SPH1, P2), (TI, P3), (TI, P4), (MICROWIRE, P5)] {
        for length in 0..digits.len() {
            assert_eq!(judged(cr0, &digits[..length]), Err((21, length as u64)), "{digits}");
        }
    }
    let two = [P1, P1].concat();
    assert_eq!(judged(SPH0, &two[..12]), Ok(vec![0xA]));
    assert_eq!(judged(SPH0, &two[..13]), Err((21, 13)));
}

/// One idle slot is missing, or one is too many, or a cycle of it is, at h 1 and 3.
#[test]
fn idle_slots() {
    for (cr0, digits, idle) in [(SPH0, P1, "A"), (SPH1, P2, "A"), (MICROWIRE, P5, "A")] {
        let length = digits.len() as u64;
        assert_eq!(judged(cr0, &digits[..digits.len() - 1]), Err((21, length - 1)));
        assert_eq!(judged(cr0, &[digits, idle].concat()), Err((21, length)));
        let right = slower(digits, 3);
        assert!(verdict(cr0, 6, &right).is_ok());
        for less in 1..=3 {
            let short = &right[..right.len() - less];
            assert_eq!(verdict(cr0, 6, short), Err((21, 3 * length - less as u64)));
        }
        for more in 1..=3 {
            let long = [&right[..], &vec![0xA; more]].concat();
            assert_eq!(verdict(cr0, 6, &long), Err((21, 3 * length)));
        }
    }
    // TI has none: idle lines behind the last slot are too many.
    assert_eq!(judged(TI, &[P3, "8"].concat()), Err((21, 10)));
    assert_eq!(judged(TI, &[P4, "8"].concat()), Err((21, 18)));
    // At SPH 0 another word may begin.
    assert_eq!(judged(SPH0, &[P1, "0"].concat()), Err((21, 13)));
    assert_eq!(judged(SPH0, &[P1, "4"].concat()), Err((21, 12)));
}

/// One wrong digit of P1: its cycle, or the next one if the digit is the other bit's.
#[test]
fn wrong_digits() {
    let cases = [
        ("1450145010AA", 0),
        ("0050145010AA", 2),
        ("0440145010AA", 2),
        ("0454145010AA", 4),
        ("0450045010AA", 4),
        ("0450145011AA", 9),
        ("0450145014AA", 9),
        ("04501450108A", 10),
        ("0450145010A0", 11),
        ("0450145010AB", 11),
    ];
    for (digits, leading) in cases {
        assert_eq!(judged(SPH0, digits), Err((21, leading)), "{digits}");
    }
}

/// In a slot of three cycles each has to be right.
#[test]
fn wrong_cycles_in_a_slot() {
    let right = slower(P1, 3);
    for place in 0..right.len() {
        let mut wrong = right.clone();
        // FSS or nSSPOE, which no other list has otherwise here.
        wrong[place] ^= 2;
        assert_eq!(verdict(SPH0, 6, &wrong), Err((21, place as u64)));
        wrong[place] ^= 2 + 8;
        assert_eq!(verdict(SPH0, 6, &wrong), Err((21, place as u64)));
    }
}

#[test]
fn values_above_15() {
    for value in [16, 0x14, 0x80, 255] {
        let mut recording = cycles_of(P1);
        recording[5] = value;
        assert_eq!(verdict(SPH0, FAST, &recording), Err((21, 5)));
        assert_eq!(verdict(SPH0, FAST, &[value]), Err((21, 0)));
        let behind = [cycles_of(P1), vec![value]].concat();
        assert_eq!(verdict(SPH0, FAST, &behind), Err((21, 12)));
    }
}

/// Nine words of zeros: the longest beginning that eight share.
#[test]
fn a_ninth_word() {
    let sph0 = |count| "0010101010AA".repeat(count);
    assert_eq!(judged(SPH0, &sph0(8)), Ok(vec![0; 8]));
    assert_eq!(judged(SPH0, &sph0(9)), Err((21, 96)));
    let sph1 = |count| ["0", &"10101010".repeat(count), "0AA"].concat();
    assert_eq!(judged(SPH1, &sph1(8)), Ok(vec![0; 8]));
    assert_eq!(judged(SPH1, &sph1(9)), Err((21, 65)));
    let ti = |count: usize| ["BA101010", &"32101010".repeat(count - 1), "10"].concat();
    assert_eq!(judged(TI, &ti(8)), Ok(vec![0; 8]));
    assert_eq!(judged(TI, &ti(9)), Err((21, 64)));
    let microwire = |count| [&"01010101010101018989898989".repeat(count), "8AA"].concat();
    assert_eq!(judged(MICROWIRE, &microwire(8)), Ok(vec![0; 8]));
    assert_eq!(judged(MICROWIRE, &microwire(9)), Err((21, 208)));
}

/// h is (CPSR / 2) × (1 + SCR), and bit 0 of CPSR is dropped.
#[test]
fn slots_of_several_cycles() {
    let three = slower(P1, 3);
    for (cr0, cpsr) in [(SPH0, 6), (SPH0, 7), (SPH0 | 0x200, 2), (SPH0 | 0x200, 3)] {
        assert_eq!(verdict(cr0, cpsr, &three), Ok(vec![0xA]));
    }
    // At h 2 cycles 2 and 3 are slot 1: LOW, then HIGH.
    assert_eq!(verdict(SPH0, 4, &three), Err((21, 3)));
    assert_eq!(verdict(SPH0 | 0x100, 3, &three), Err((21, 3)));
    // At h 4 cycle 3 still belongs to slot 0.
    assert_eq!(verdict(SPH0, 8, &three), Err((21, 3)));
    assert_eq!(verdict(SPH0, 3, &cycles_of(P1)), Ok(vec![0xA]));
}

/// Settings that a write would refuse, or that cannot be enabled; whatever is recorded.
#[test]
fn settings_that_cannot_be_enabled() {
    let wrong_cr0 = [0, 0x02, 0x33, 0x3F, 0x1_0003, 0x8000_0003];
    let wrong = wrong_cr0.map(|cr0| (cr0, FAST)).into_iter();
    for (cr0, cpsr) in wrong.chain([0, 1, 0x100, 0x102, 0x8000_0002].map(|cpsr| (SPH0, cpsr))) {
        for recording in [cycles_of(P1), vec![], vec![16], vec![0; MOST_CYCLES + 1]] {
            assert_eq!(verdict(cr0, cpsr, &recording), Err((6, 0)), "{cr0:x} {cpsr:x}");
        }
    }
}

/// Fourteen zeros at SPH 0 are 32 slots; eight such words at h 256 are 65,536 cycles.
#[test]
fn the_longest_recording() {
    let word = ["0", &"01".repeat(14), "0AA"].concat();
    let mut recording = slower(&word.repeat(8), 256);
    assert_eq!(recording.len(), 65_536);
    let cr0 = 0xFF0D;
    assert_eq!(verdict(cr0, 2, &recording), Ok(vec![0; 8]));
    assert_eq!(verdict(cr0, 2, &recording[..65_535]), Err((21, 65_535)));
    assert_eq!(verdict(cr0, 0, &recording), Err((6, 0)));
    recording.push(0xA);
    assert_eq!(verdict(cr0, 2, &recording), Err((22, 0)));
    assert_eq!(verdict(cr0, 1, &recording), Err((6, 0)));
    // The length comes before the cycles.
    recording[0] = 16;
    assert_eq!(verdict(cr0, 2, &recording), Err((22, 0)));
    assert_eq!(verdict(cr0, 2, &recording[..65_536]), Err((21, 0)));
    assert_eq!(verdict(SPH0, 2, &slower("A", 65_536)), Err((21, 0)));
}

/// At the largest h, 32,512, the longest recording is two slots and a little of the third.
#[test]
fn the_longest_slots() {
    let mut recording = slower("045", 32_512)[..65_536].to_vec();
    assert_eq!(verdict(0xFF03, 254, &recording), Err((21, 65_536)));
    recording[65_535] = 4;
    assert_eq!(verdict(0xFF03, 254, &recording), Err((21, 65_535)));
}

fn part(second: u64, start: u64, length: u64) -> Part {
    Part { second, start, length }
}

/// Of the longer one from the first difference on; of the first if they are equally long.
#[test]
fn the_first_difference() {
    assert_eq!(difference(&[1, 2, 3, 4], &[1, 2, 9]), part(0, 2, 2));
    assert_eq!(difference(&[1, 2, 9], &[1, 2, 3, 4]), part(1, 2, 2));
    assert_eq!(difference(&[1, 2, 3], &[1, 5, 3]), part(0, 1, 2));
    assert_eq!(difference(&[1, 5, 3], &[1, 2, 3]), part(0, 1, 2));
    assert_eq!(difference(&[1], &[2]), part(0, 0, 1));
    assert_eq!(difference(&[7, 7, 7], &[8]), part(0, 0, 3));
    // TI with one word and with two: the second line of P4's text.
    assert_eq!(difference(&cycles_of(P3), &cycles_of(P4)), part(1, 8, 10));
    assert_eq!(difference(&cycles_of(P4), &cycles_of(P3)), part(0, 8, 10));
}

/// Without one the rest past the shorter: of equal ones the empty end of the first.
#[test]
fn no_difference() {
    assert_eq!(difference(&[1, 2, 3], &[1, 2]), part(0, 2, 1));
    assert_eq!(difference(&[1, 2], &[1, 2, 3]), part(1, 2, 1));
    assert_eq!(difference(&[1, 2, 3], &[1, 2, 3]), part(0, 3, 0));
    assert_eq!(difference(&[], &[]), part(0, 0, 0));
    assert_eq!(difference(&[], &[7, 8]), part(1, 0, 2));
    assert_eq!(difference(&[7, 8], &[]), part(0, 0, 2));
}

/// Any bytes and lengths.
#[test]
fn any_two_recordings() {
    assert_eq!(difference(&[0x14], &[0x04]), part(0, 0, 1));
    assert_eq!(difference(&[255, 128], &[255, 0, 0]), part(1, 1, 2));
    let long = vec![255; 200_000];
    let mut other = long.clone();
    assert_eq!(difference(&long, &other), part(0, 200_000, 0));
    other[199_999] = 254;
    assert_eq!(difference(&long, &other), part(0, 199_999, 1));
    other.push(0);
    assert_eq!(difference(&long, &other), part(1, 199_999, 2));
}

#[test]
fn commands() {
    let mut session = Session::new(&Second);
    let mut answer = |line: &str| answer_line(&mut session, line).unwrap().line;
    assert_eq!(answer("judge 3 2 0450145010AA"), "0 1 a,0,0,0,0,0,0,0");
    assert_eq!(answer("judge 13 2 ba5410543210541054"), "0 2 a,5,0,0,0,0,0,0");
    assert_eq!(answer("judge 23 3 450145010145014589898989898aa"), "0 1 a5,0,0,0,0,0,0,0");
    assert_eq!(answer("judge 3 2 -"), "21 0 -");
    assert_eq!(answer("judge 3 2 04501"), "21 5 -");
    assert_eq!(answer("judge 3 1 04501"), "6 0 -");
    assert_eq!(answer(&format!("judge 3 2 {}", "0".repeat(65_537))), "22 0 -");
    assert_eq!(answer("lendjudge 3 2 0004150f"), "21 2 -");
    assert_eq!(answer("difference 010203 0102"), "0 2 1");
    assert_eq!(answer("difference - ff"), "1 0 1");
    for line in ["judge 3 2", "judge 3 2 0g", "judge 3 x 0", "lendjudge 3 2 0", "difference 01"] {
        assert_eq!(answer(line), format!("not a command: {line}"));
    }
}

fn drawn(cr0: u32, cpsr: u32, words: &[u32]) -> Vec<u8> {
    lines_to_rest(&mut enabled_master(cr0, cpsr, words).unwrap())
}

/// All lists of one word, and with `two` of two, of so many bits. Of one word more only the top
/// three bits differ: no more show in the cycles that are judged.
fn every_list(bits: u32, two: bool) -> Vec<Vec<u32>> {
    let ones: Vec<Vec<u32>> = (0..1 << bits).map(|word| vec![word]).collect();
    let follow = |lists: &[Vec<u32>], step: usize| -> Vec<Vec<u32>> {
        let next = |list: &Vec<u32>, word| [&list[..], &[word]].concat();
        lists.iter().flat_map(|list| (0..1 << bits).step_by(step).map(|w| next(list, w))).collect()
    };
    let longest = if two { follow(&ones, 1) } else { ones.clone() };
    let more = follow(&longest, 1 << (bits - 3));
    if two {
        [ones, longest, more].concat()
    } else {
        [ones, more].concat()
    }
}

fn shared(one: &[u8], other: &[u8]) -> usize {
    one.iter().zip(other).take_while(|(a, b)| a == b).count()
}

/// A recording with up to two cycles wrong, left out or doubled, or cut.
fn spoil(random: &mut Random, lines: &mut Vec<u8>) {
    for _ in 0..random.below(3) {
        let at = random.size(lines.len());
        match random.below(4) {
            0 => lines.insert(at, lines[at]),
            1 => drop(lines.remove(at)),
            2 => lines.truncate(at + 1),
            _ => lines[at] ^= random.pick(&[1, 2, 4, 8]),
        }
    }
}

/// What the search finds is what is found by going through all lists, each run from its start.
#[test]
fn as_by_all_lists() {
    let mut random = Random::new(7);
    for (cr0, bits, two) in [SPH0, SPH1, TI, SPH0 | SPO, SPH1 | SPO]
        .map(|cr0| (cr0, 4, true))
        .into_iter()
        .chain([(MICROWIRE, 8, false), (0x05, 6, false), (0x85, 6, false), (0x15, 6, false)])
    {
        for cpsr in [2, 4] {
            let lists = every_list(bits, two);
            let all: Vec<Vec<u8>> = lists.iter().map(|list| drawn(cr0, cpsr, list)).collect();
            let whole = if two { (1 << bits) + (1 << (2 * bits)) } else { 1 << bits };
            for _ in 0..400 {
                let mut lines = all[random.size(whole)].clone();
                spoil(&mut random, &mut lines);
                let expected = match all.iter().position(|other| *other == lines) {
                    Some(place) => Ok(lists[place].iter().map(|word| *word as u16).collect()),
                    None => Err((21, all.iter().map(|a| shared(a, &lines)).max().unwrap() as u64)),
                };
                assert_eq!(verdict(cr0, cpsr, &lines), expected, "{cr0:x} {lines:?}");
            }
        }
    }
}
