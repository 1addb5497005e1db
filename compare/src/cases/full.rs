//! Receive queues that are full or nearly so, and more words that come; none of it by chance.

use super::bits::wave;
use super::lost::{refused, refused_pair};
use super::pairs::pair_run;
use super::settings::{disable, idle, run, write, DR};
use super::stops::{has_phase, load, settings, start, states, FOUR_BITS, MASTER, SLAVE};
use crate::bench::{Bench, Step};
use crate::device::{Device, Edition, Queue, CLK, DATA, FSS, PLACES};
use crate::random::Random;
use crate::record::encode;

/// With 0 among them and behind the others.
const WORDS: [u16; PLACES] = [0xA5C6, 0x5A39, 0xFFFF, 0x1234, 0, 0xC0DE, 0x0F0F, 0];

pub fn fixed(bench: &mut Bench, _: &mut Random) -> Step<()> {
    let parts = [every_setting, many, many_to_idle, every_pair, stopped, uncut, refusals];
    parts.iter().try_for_each(|part| part(bench))
}

fn queue(count: usize) -> Queue {
    Queue::from_words(&WORDS[..count]).unwrap_or_default()
}

/// With eight words to send and so many held, in slots of one cycle.
fn device(cr0: u16, cr1: u8, held: usize) -> Device {
    Device { tx: queue(PLACES), rx: queue(held), rt: false, ..start(cr0, cr1, 1, 0) }
}

/// Eight words for a slave; RXD for a master, in no step with its words.
fn feed(device: &Device) -> Vec<u8> {
    if device.slave() {
        wave(device.cr0, queue(PLACES))
    } else {
        (0..450).map(|i| (i * i / 7 % 5 % 2) as u8 * DATA).collect()
    }
}

/// All settings but the speed, in both roles and editions, with the last places empty or not:
/// as a whole, to idle and in parts.
fn every_setting(bench: &mut Bench) -> Step<()> {
    for cr0 in settings().filter(|cr0| has_phase(*cr0)) {
        for cr1 in [MASTER, MASTER | 1, SLAVE, SLAVE | 1] {
            for held in 6..=PLACES {
                for edition in [Edition::First, Edition::Second] {
                    run_all(bench, &Device { edition, ..device(cr0, cr1, held) })?;
                }
            }
        }
    }
    Ok(())
}

fn run_all(bench: &mut Bench, device: &Device) -> Step<()> {
    let input = feed(device);
    load(bench, device);
    run(bench, 0, input.clone())?;
    load(bench, device);
    idle(bench, 0, input.clone())?;
    load(bench, device);
    input.chunks(37).try_for_each(|part| run(bench, 0, part.to_vec()).map(drop))
}

/// More than 255 words in one run.
fn many(bench: &mut Bench) -> Step<()> {
    for cr0 in FOUR_BITS {
        let slave = device(cr0, SLAVE, PLACES);
        load(bench, &slave);
        let lost = run(bench, 0, feed(&slave).repeat(40))?.lost[0];
        bench.require(lost.count > 255, "more than 255 words lost")?;
    }
    Ok(())
}

/// The same in a run to idle: a Microwire slave takes no word to send if FSS rises after the
/// control byte, so that it stays busy.
fn many_to_idle(bench: &mut Bench) -> Step<()> {
    let bits = |byte: u16| (0..8).map(move |i| if byte << i & 0x80 != 0 { DATA } else { 0 });
    let control = |byte| bits(byte).flat_map(|rxd| [rxd, rxd | CLK]).chain([FSS | CLK, FSS]);
    load(bench, &device(0x27, SLAVE, PLACES));
    let input = (0..300).flat_map(control).collect();
    let lost = idle(bench, 0, input)?.lost[0];
    bench.require(lost.count > 255, "more than 255 words lost")
}

/// Either of two wired devices loses words, or both do: a master and a slave, or two masters,
/// which do it in the same cycle.
fn every_pair(bench: &mut Bench) -> Step<()> {
    for cr0 in FOUR_BITS.into_iter().chain([0x0F, 0x8F, 0x1F, 0x2F]) {
        for roles in [[MASTER, SLAVE], [SLAVE, MASTER], [MASTER, MASTER]] {
            for held in [[8, 8], [8, 0], [0, 8], [7, 8], [8, 6]] {
                let [one, other] = [0, 1].map(|i| device(cr0, roles[i], held[i]));
                nine_words(bench, [one, other])?;
            }
        }
    }
    Ok(())
}

/// A master has taken a word, and its queue is full again.
fn nine_words(bench: &mut Bench, pair: [Device; 2]) -> Step<()> {
    for (i, mut device) in pair.into_iter().enumerate() {
        if !device.slave() {
            device.cycle(0);
            device.tx = queue(PLACES);
        }
        bench.load(i, &encode(&device));
    }
    bench.forget();
    [1, 1, 7, 460, 3].into_iter().try_for_each(|cycles| pair_run(bench, cycles))?;
    refused_pair(bench, 100)
}

/// SSE cleared after each cycle of a frame of edition 2 with eight words held.
fn stopped(bench: &mut Bench) -> Step<()> {
    for cr0 in FOUR_BITS {
        for cr1 in [MASTER, MASTER | 1, SLAVE] {
            let device = Device { rx: queue(PLACES), ..start(cr0, cr1, 2, 2) };
            for (state, input) in states(&device) {
                for call in [run, idle] {
                    load(bench, &state);
                    disable(bench, 0)?;
                    call(bench, 0, input.clone())?;
                }
            }
        }
    }
    Ok(())
}

/// The shift register has ones above the bits of a word, of which the next cycle captures the
/// last; no run leads there.
fn uncut(bench: &mut Bench) -> Step<()> {
    for cr0 in FOUR_BITS {
        for cr1 in [MASTER, SLAVE] {
            let device = device(cr0, cr1, PLACES);
            let captured = device.incoming_bits() - 1;
            // Each slot and each edge, so that the one that captures is among them.
            for slot in 0..=device.last_slot() {
                for pins in [[0, 0, CLK], [0, CLK, 0]] {
                    let frame = Device { frame: true, selected: true, slot, ..device.clone() };
                    load(bench, &Device { captured, receiving: 0xFFFF, pins, ..frame });
                    run(bench, 0, vec![0])?;
                }
            }
        }
    }
    Ok(())
}

/// After words were lost, in a frame that loses the next: runs that are refused, and a word to
/// send that finds its queue full.
fn refusals(bench: &mut Bench) -> Step<()> {
    for cr0 in FOUR_BITS {
        for cr1 in [MASTER, SLAVE] {
            let device = device(cr0, cr1, PLACES);
            load(bench, &device);
            write(bench, 0, DR, 0x9)?;
            let mut input = feed(&device);
            let rest = input.split_off(65);
            run(bench, 0, input)?;
            refused(bench, rest)?;
        }
    }
    Ok(())
}
