//! The calls on byte records; a refusal leaves record and buffers as they were.

use crate::device::{refusal, Device, Edition, CLK, DATA, FSS, NSSPOE};
use crate::ran::{Lost, PairRan, Ran};
use crate::record::{decode, encode, LENGTH};

/// To the first edition.
pub fn reset(record: &mut [u8]) -> u32 {
    reset_edition(record, 1)
}

pub fn reset_edition(record: &mut [u8], edition: u32) -> u32 {
    if record.len() != LENGTH {
        return refusal::RECORD_LENGTH;
    }
    let Some(edition) = Edition::numbered(edition) else {
        return refusal::EDITION;
    };
    store(record, &Device { edition, ..Device::reset() });
    0
}

/// Refusal number and word, one of them 0.
pub fn read(record: &mut [u8], offset: u32) -> (u32, u32) {
    match try_read(record, offset) {
        Ok(word) => (0, word),
        Err(number) => (number, 0),
    }
}

fn try_read(record: &mut [u8], offset: u32) -> Result<u32, u32> {
    let mut device = load(record)?;
    let word = device.read(offset)?;
    store(record, &device);
    Ok(word)
}

pub fn write(record: &mut [u8], offset: u32, value: u32) -> u32 {
    try_write(record, offset, value).err().unwrap_or(0)
}

fn try_write(record: &mut [u8], offset: u32, value: u32) -> Result<(), u32> {
    let mut device = load(record)?;
    device.write(offset, value)?;
    store(record, &device);
    Ok(())
}

pub fn run(record: &mut [u8], input: &[u8], output: &mut [u8]) -> Ran {
    try_run(record, input, output, |_| true).unwrap_or_else(Ran::refused)
}

pub fn run_to_idle(record: &mut [u8], input: &[u8], output: &mut [u8]) -> Ran {
    try_run(record, input, output, Device::busy).unwrap_or_else(Ran::refused)
}

fn try_run(
    record: &mut [u8],
    input: &[u8],
    output: &mut [u8],
    goes_on: impl Fn(&Device) -> bool,
) -> Result<Ran, u32> {
    check_buffers(record, input, output)?;
    let mut device = load(record)?;
    let ran = run_device(&mut device, input, output, goes_on);
    store(record, &device);
    Ok(ran)
}

/// A cycle for each input byte, as long as the device goes on.
pub fn run_device(
    device: &mut Device,
    input: &[u8],
    output: &mut [u8],
    goes_on: impl Fn(&Device) -> bool,
) -> Ran {
    let mut ran = Ran::default();
    for (pins, lines) in input.iter().zip(output) {
        if !goes_on(device) {
            break;
        }
        let cycle = device.cycle(*pins);
        *lines = cycle.lines;
        ran.lost = ran.lost.then(Lost::in_cycle(cycle.lost));
        ran.count += 1;
    }
    ran
}

pub fn pair_run(first: &mut [u8], second: &mut [u8], cycles: u64) -> PairRan {
    try_pair_run(first, second, cycles).unwrap_or_else(PairRan::refused)
}

fn try_pair_run(first: &mut [u8], second: &mut [u8], cycles: u64) -> Result<PairRan, u32> {
    if first.len() != LENGTH || second.len() != LENGTH {
        return Err(refusal::RECORD_LENGTH);
    }
    let mut one = load(first)?;
    let mut other = load(second)?;
    let mut ran = PairRan::default();
    for _ in 0..cycles {
        let lost = pair_cycle(&mut one, &mut other);
        ran.first = ran.first.then(lost[0]);
        ran.second = ran.second.then(lost[1]);
    }
    store(first, &one);
    store(second, &other);
    Ok(ran)
}

/// One cycle of two wired devices, and what each lost: both step from the lines of the cycle
/// before.
pub fn pair_cycle(one: &mut Device, other: &mut Device) -> [Lost; 2] {
    let (to_one, to_other) = (wired(other.lines), wired(one.lines));
    [one.cycle(to_one), other.cycle(to_other)].map(|cycle| Lost::in_cycle(cycle.lost))
}

/// Pins that a partner's lines give; released data reads LOW.
pub fn wired(lines: u8) -> u8 {
    let driven = if lines & NSSPOE == 0 { lines & DATA } else { 0 };
    lines & (CLK | FSS) | driven
}

/// All that a run checks before it looks into the record.
fn check_buffers(record: &[u8], input: &[u8], output: &[u8]) -> Result<(), u32> {
    if record.len() != LENGTH {
        return Err(refusal::RECORD_LENGTH);
    }
    if input.len() != output.len() {
        return Err(refusal::BUFFER_LENGTH);
    }
    if input.iter().any(|pins| *pins > 7) {
        return Err(refusal::INPUT_BYTE);
    }
    Ok(())
}

fn load(record: &[u8]) -> Result<Device, u32> {
    let bytes = record.try_into().map_err(|_| refusal::RECORD_LENGTH)?;
    decode(bytes).ok_or(refusal::UNSOUND)
}

fn store(record: &mut [u8], device: &Device) {
    record.copy_from_slice(&encode(device));
}
