//! Overruns by chance: devices kept in words of which few are read, alone and wired, and
//! calls that are refused after them.

use super::pairs::pair_run;
use super::settings::{idle, load_words, permitted_cr0, read, run, write, CR1, DR, ICR, MS, SSE};
use super::waves::{many_words, noise, Source};
use crate::bench::{Bench, Step};
use crate::command::Command;
use crate::device::{Device, Edition, Queue, PLACES};
use crate::overruns::held;
use crate::ran::Lost;
use crate::random::Random;
use crate::record::{at, encode};

/// CR1 of an enabled device.
fn role(random: &mut Random, slave: bool) -> u8 {
    let loopback = u8::from(random.percent(30));
    (if slave { MS } else { 0 } | SSE) as u8 | loopback
}

fn words(random: &mut Random, count: usize) -> Queue {
    let words: Vec<u16> = (0..count).map(|_| random.word() as u16).collect();
    Queue::from_words(&words).unwrap_or_default()
}

/// Enabled, with short slots and a receive queue that is full or nearly so.
fn start(random: &mut Random, cr0: u16, cr1: u8) -> Device {
    let held = random.pick(&[6, 7, 8, 8, 8]);
    let waiting = random.pick(&[0, 1, 8, 8]);
    let (rx, tx) = (words(random, held), words(random, waiting));
    let cpsr = random.pick(&[2, 2, 2, 4]);
    let edition = random.pick(&[Edition::First, Edition::Second]);
    let (ror, rt) = (random.percent(30), random.percent(30));
    Device { edition, cr0, cr1, cpsr, rx, tx, ror, rt, ..Device::reset() }
}

/// Cycles of about so many words of this device.
fn cycles_of(device: &Device, words: usize) -> usize {
    words * (usize::from(device.last_slot()) + 1) * device.slot_cycles() as usize
}

/// Refills the transmit queue of a master, reads a few words, now and then clears ROR.
fn serve(bench: &mut Bench, random: &mut Random, device: usize, reads: u64) -> Step<()> {
    if bench.record(device)[at::CR1] & MS as u8 == 0 && random.percent(80) {
        let room = PLACES as u64 - u64::from(bench.record(device)[at::TX_COUNT]);
        // Often one too many: the host's own word is refused, not lost.
        let count = room + random.below(2);
        load_words(bench, random, device, count)?;
    }
    if random.percent(reads) {
        for _ in 0..1 + random.below(3) {
            read(bench, device, DR)?;
        }
    }
    if random.percent(20) {
        write(bench, device, ICR, random.pick(&[1, 1, 2, 3]))?;
    }
    Ok(())
}

/// Clears SSE in a frame, or sets it again.
fn switch(bench: &mut Bench, random: &mut Random, device: usize) -> Step<()> {
    let record = bench.record(device);
    let (cr1, frame) = (u32::from(record[at::CR1]), record[at::FRAME] != 0);
    let often = if cr1 & SSE == 0 { 60 } else { 25 };
    if (cr1 & SSE == 0 || frame) && random.percent(often) {
        write(bench, device, CR1, cr1 ^ SSE)?;
    }
    Ok(())
}

/// What this device is fed with: a master by noise on RXD, a slave by a master's words.
fn feed(random: &mut Random, device: &Device) -> Vec<u8> {
    if !device.slave() {
        return noise(random, 2000);
    }
    let count = 6 + random.below(20);
    many_words(random, u32::from(device.cr0), count)
}

pub fn alone(bench: &mut Bench, random: &mut Random) -> Step<()> {
    for _ in 0..8 {
        let slave = random.percent(60);
        let (cr0, cr1) = (permitted_cr0(random, 0) as u16, role(random, slave));
        let device = start(random, cr0, cr1);
        bench.load(0, &encode(&device));
        bench.forget();
        if slave && random.percent(15) {
            // More than a byte counts.
            let wave = many_words(random, u32::from(cr0), 300);
            cut(bench, random, wave)?;
        }
        let wave = feed(random, &device);
        let reads = random.pick(&[0, 0, 20, 60]);
        overrun(bench, random, &device, Source::new(wave), reads)?;
    }
    Ok(())
}

fn overrun(
    bench: &mut Bench,
    random: &mut Random,
    device: &Device,
    mut source: Source,
    reads: u64,
) -> Step<()> {
    for _ in 0..8 {
        serve(bench, random, 0, reads)?;
        let most = random.pick(&[1, 2, 4, 9]);
        let longest = cycles_of(device, most);
        // Now and then the whole wave in one run.
        let cycles = if random.percent(10) { source.left() } else { 1 + random.size(longest) };
        let input = source.take(random, cycles);
        match random.below(8) {
            0 | 1 => cut(bench, random, input)?,
            2 => one_by_one(bench, input)?,
            3 | 4 => {
                let outcome = idle(bench, 0, input)?;
                source.put_back(cycles - outcome.value as usize);
            }
            5 => refused(bench, input)?,
            _ => drop(run(bench, 0, input)?),
        }
        switch(bench, random, 0)?;
    }
    Ok(())
}

/// The whole run, then from the same record in two parts.
fn cut(bench: &mut Bench, random: &mut Random, mut input: Vec<u8>) -> Step<()> {
    let before = bench.record(0).to_vec();
    let whole = run(bench, 0, input.clone())?;
    let after = bench.record(0).to_vec();
    bench.load(0, &before);
    let second = input.split_off(random.size(input.len() + 1));
    let parts = [run(bench, 0, input)?, run(bench, 0, second)?];
    let lost = parts[0].lost[0].then(parts[1].lost[0]);
    bench.require(lost == whole.lost[0], "what two parts lost is what the whole lost")?;
    let output = [&parts[0].output[..], &parts[1].output].concat();
    let same = output == whole.output && bench.record(0) == after;
    bench.require(same, "two parts give the output and the record of the whole")
}

/// The whole run, then cycle by cycle: a word is lost with eight held, one in a cycle at
/// most, and the others are those that the whole run has kept.
fn one_by_one(bench: &mut Bench, mut input: Vec<u8>) -> Step<()> {
    input.truncate(100);
    let before = bench.record(0).to_vec();
    let whole = run(bench, 0, input.clone())?;
    let after = held(bench.record(0)).to_vec();
    bench.load(0, &before);
    let (mut lost, mut kept) = (Lost::default(), held(&before).to_vec());
    for pins in input {
        let full = kept.len() == 2 * PLACES;
        let cycle = run(bench, 0, vec![pins])?.lost[0];
        let now = held(bench.record(0)).to_vec();
        let new = now.len() - kept.len();
        let right = cycle.count == 0 || full && cycle.count == 1;
        bench.require(right && (new == 0 || new == 2 && !full), "a word, kept or lost")?;
        kept = now;
        lost = lost.then(cycle);
    }
    let same = lost == whole.lost[0] && kept == after;
    bench.require(same, "single cycles keep and lose the words of the whole run")
}

/// The same run refused, with 12, 11, 9 or 10; nothing is lost in it. Then it is done.
pub fn refused(bench: &mut Bench, input: Vec<u8>) -> Step<()> {
    let kept = bench.record(0).to_vec();
    for kind in 0..4 {
        let (mut pins, mut record, mut output_len) = (input.clone(), kept.clone(), input.len());
        match kind {
            0 => {
                pins.push(8);
                output_len += 1;
            }
            1 => output_len += 1,
            2 => record[at::EDITION] = 2,
            _ => record.push(0),
        }
        bench.load(0, &record);
        let again = Command::Idle { device: 0, input: pins.clone(), output_len };
        for command in [Command::Run { device: 0, input: pins, output_len }, again] {
            let outcome = bench.step(command)?;
            let zeros = outcome.value == 0 && outcome.lost == [Lost::default(); 2];
            bench.require(outcome.refusal != 0 && zeros, "refused with zeros")?;
        }
    }
    bench.load(0, &kept);
    run(bench, 0, input).map(drop)
}

/// A master and a slave with one format, or two masters, which complete words in the same
/// cycles if their settings are the same.
pub fn pairs(bench: &mut Bench, random: &mut Random) -> Step<()> {
    for _ in 0..6 {
        let cr0 = permitted_cr0(random, 0) as u16;
        let slave = random.pick(&[0, 1, 2]);
        let mut pair = [0, 1].map(|i| {
            let cr1 = role(random, i == slave);
            start(random, cr0, cr1)
        });
        if slave == 2 && random.percent(70) {
            pair[1].cpsr = pair[0].cpsr;
        }
        if random.percent(30) {
            // Of the two only one loses words, for a while.
            pair[random.size(2)].rx = Queue::default();
        }
        for (i, device) in pair.iter().enumerate() {
            bench.load(i, &encode(device));
        }
        bench.forget();
        let reads = random.pick(&[0, 0, 20, 60]);
        overrun_pair(bench, random, &pair, reads)?;
    }
    Ok(())
}

fn overrun_pair(
    bench: &mut Bench,
    random: &mut Random,
    pair: &[Device; 2],
    reads: u64,
) -> Step<()> {
    for _ in 0..6 {
        for device in 0..2 {
            serve(bench, random, device, reads)?;
        }
        let most = random.pick(&[1, 3, 9]);
        let longest = pair.iter().map(|device| cycles_of(device, most)).max().unwrap_or(0);
        let cycles = 1 + random.size(longest) as u64;
        match random.below(6) {
            0 => cut_pair(bench, random, cycles)?,
            1 => refused_pair(bench, cycles)?,
            _ => pair_run(bench, cycles)?,
        }
        let device = random.size(2);
        switch(bench, random, device)?;
    }
    Ok(())
}

fn load_both(bench: &mut Bench, records: &[Vec<u8>; 2]) {
    for (device, record) in records.iter().enumerate() {
        bench.load(device, record);
    }
}

fn cut_pair(bench: &mut Bench, random: &mut Random, cycles: u64) -> Step<()> {
    let before = [0, 1].map(|device| bench.record(device).to_vec());
    let whole = bench.step(Command::PairRun { cycles })?;
    let after = [0, 1].map(|device| bench.record(device).to_vec());
    load_both(bench, &before);
    let first = random.below(cycles + 1);
    let parts = [first, cycles - first].map(|cycles| bench.step(Command::PairRun { cycles }));
    let [one, other] = parts;
    let (one, other) = (one?, other?);
    let lost = [0, 1].map(|device| one.lost[device].then(other.lost[device]));
    bench.require(lost == whole.lost, "what two parts lost is what the whole lost")?;
    let left = [0, 1].map(|device| bench.record(device).to_vec());
    bench.require(left == after, "two parts leave what the whole leaves")
}

/// Either record too long or not sound; then the run is done.
pub fn refused_pair(bench: &mut Bench, cycles: u64) -> Step<()> {
    let kept = [0, 1].map(|device| bench.record(device).to_vec());
    for device in 0..2 {
        for unsound in [false, true] {
            let mut records = kept.clone();
            if unsound {
                records[device][at::LINES] = 16;
            } else {
                records[device].push(0);
            }
            load_both(bench, &records);
            let outcome = bench.step(Command::PairRun { cycles })?;
            let zeros = outcome.lost == [Lost::default(); 2];
            bench.require(outcome.refusal != 0 && zeros, "refused with zeros")?;
        }
    }
    load_both(bench, &kept);
    pair_run(bench, cycles)
}
