//! Pin levels for runs: noise, waveforms of a real master, and clocks without one.

use crate::device::{Device, CLK, DATA, FSS};
use crate::random::Random;

/// Levels of one kind of noise.
pub fn noise(random: &mut Random, cycles: usize) -> Vec<u8> {
    let level = random.below(8) as u8;
    match random.below(6) {
        0 => vec![level; cycles],
        1 => (0..cycles).map(|_| random.below(8) as u8).collect(),
        2 => (0..cycles).map(|_| level & (CLK | FSS) | random.pick(&[0, DATA])).collect(),
        3 => sticky(random, cycles, 60),
        4 => sticky(random, cycles, 15),
        _ => clocked(random, cycles),
    }
}

/// A clock with FSS LOW, so that a slave gets far; FSS is HIGH at first and in between.
fn clocked(random: &mut Random, cycles: usize) -> Vec<u8> {
    let often = random.pick(&[20, 50, 100]);
    let high = random.size(3);
    let mut clk = 0;
    (0..cycles)
        .map(|i| {
            if random.percent(often) {
                clk ^= CLK;
            }
            let fss = if i < high || random.below(300) == 0 { FSS } else { 0 };
            clk | fss | random.pick(&[0, DATA])
        })
        .collect()
}

/// One pin changes this often in a hundred cycles.
fn sticky(random: &mut Random, cycles: usize, often: u64) -> Vec<u8> {
    let mut pins = random.below(8) as u8;
    (0..cycles)
        .map(|_| {
            if random.percent(often) {
                // FSS changes rarely, so that words can be whole.
                pins ^= if random.percent(12) { FSS } else { random.pick(&[CLK, CLK, DATA]) };
            }
            pins
        })
        .collect()
}

/// An enabled master with the format of this CR0 and h; None if there is none.
fn enabled_master(cr0: u32, h: u64) -> Option<Device> {
    let mut master = Device::reset();
    let ready = master.write(0x00, cr0 & 0xFF).and(master.write(0x10, 2 * h as u32));
    ready.and(master.write(0x04, 2)).ok()?;
    Some(master)
}

/// What it shows from these words on until it is not busy.
fn send(random: &mut Random, master: &mut Device, words: u64, wave: &mut Vec<u8>) {
    for _ in 0..words {
        // A full queue drops the word, which is as good.
        let _ = master.write(0x08, random.word());
    }
    while master.busy() {
        wave.push(master.cycle(0).lines & 7);
    }
}

/// What a master with these settings shows: words, pauses, idle time.
pub fn master_wave(random: &mut Random, cr0: u32) -> Vec<u8> {
    let h = if random.percent(80) { 6 + random.below(3) } else { 1 + random.below(6) };
    let Some(mut master) = enabled_master(cr0, h) else {
        return noise(random, 100);
    };
    let mut wave = Vec::new();
    for _ in 0..1 + random.below(4) {
        for _ in 0..random.below(30) {
            wave.push(master.cycle(0).lines & 7);
        }
        let words = 1 + random.below(5);
        send(random, &mut master, words, &mut wave);
    }
    wave
}

/// A master with the format of this CR0: idle lines for two cycles, then one to three words
/// at a high speed. Now and then without the last cycles, so that FSS stays as it is in the
/// frame.
pub fn few_words(random: &mut Random, cr0: u32) -> Vec<u8> {
    let Some(mut master) = enabled_master(cr0, 1 + random.below(2)) else {
        return noise(random, 100);
    };
    let mut wave = vec![master.idle_lines() & 7; 2];
    let words = 1 + random.below(3);
    send(random, &mut master, words, &mut wave);
    if random.percent(30) {
        wave.truncate(wave.len() - 1 - random.size(4));
    }
    wave
}

/// A master with the format of this CR0: idle lines for two cycles, then so many words at a
/// high speed, up to eight of them without a pause.
pub fn many_words(random: &mut Random, cr0: u32, words: u64) -> Vec<u8> {
    let Some(mut master) = enabled_master(cr0, 1 + random.below(2)) else {
        return noise(random, 100);
    };
    let mut wave = vec![master.idle_lines() & 7; 2];
    let mut left = words;
    while left > 0 {
        let count = left.min(1 + random.below(8));
        send(random, &mut master, count, &mut wave);
        left -= count;
    }
    wave
}

/// A waveform that a slave with this CR0 may meet, delayed and perhaps damaged.
pub fn wave_for(random: &mut Random, cr0: u32) -> Vec<u8> {
    let other = match random.below(10) {
        0 => cr0 ^ 0x40,
        1 => cr0 ^ 0x80,
        2 => (cr0 & !0x3F) | random.pick(&[0x00, 0x10, 0x20]) | (3 + random.below(13) as u32),
        _ => cr0,
    };
    let delay = random.size(20);
    let mut wave = noise(random, delay);
    wave.extend(master_wave(random, other));
    if random.percent(20) {
        for _ in 0..1 + random.below(4) {
            let at = random.size(wave.len());
            wave[at] ^= random.pick(&[CLK, FSS, DATA]);
        }
    }
    wave
}

/// Microwire frames of b data bits with an uneven clock: some whole and joined, some that
/// FSS cuts short, RXD random throughout.
pub fn bursts(random: &mut Random, b: usize) -> Vec<u8> {
    let longest = random.pick(&[1, 1, 2, 5]);
    let glitches = random.percent(20);
    let frame = 18 + 2 * b;
    let mut wave = Vec::new();
    for _ in 0..1 + random.below(4) {
        // FSS falls with CLK at rest, or with either edge of it.
        let mut clk = random.pick(&[0, CLK]);
        hold(random, &mut wave, FSS | clk, longest);
        clk ^= random.pick(&[0, CLK]);
        let slots = match random.below(5) {
            0 => random.size(18),
            1 => 18 + random.size(2 * b),
            _ => frame * (1 + random.size(3)) + random.size(4),
        };
        for _ in 0..slots {
            if glitches && random.below(60) == 0 {
                hold(random, &mut wave, FSS | clk, 1);
            }
            hold(random, &mut wave, clk, longest);
            clk ^= CLK;
        }
    }
    wave
}

/// These levels for one or more cycles, each with any RXD.
fn hold(random: &mut Random, wave: &mut Vec<u8>, pins: u8, longest: usize) {
    for _ in 0..1 + random.size(longest) {
        wave.push(pins | random.pick(&[0, DATA]));
    }
}

/// Hands out a waveform piece by piece, and noise after its end.
pub struct Source {
    wave: Vec<u8>,
    at: usize,
}

impl Source {
    pub fn new(wave: Vec<u8>) -> Source {
        Source { wave, at: 0 }
    }

    pub fn take(&mut self, random: &mut Random, cycles: usize) -> Vec<u8> {
        let end = self.wave.len().min(self.at + cycles);
        let mut piece = self.wave[self.at..end].to_vec();
        self.at = end;
        let missing = cycles - piece.len();
        if missing > 0 {
            piece.extend(noise(random, missing));
        }
        piece
    }

    /// Gives back what a run to idle did not reach.
    pub fn put_back(&mut self, cycles: usize) {
        self.at = self.at.saturating_sub(cycles);
    }

    /// Cycles of the waveform still to come.
    pub fn left(&self) -> usize {
        self.wave.len() - self.at
    }

    pub fn is_over(&self) -> bool {
        self.left() == 0
    }
}
