//! Wrong lengths and bytes, alone and together, so that the order shows.

use super::settings::{enabling, set_up, write, CR1};
use super::waves::noise;
use crate::bench::{Bench, Step};
use crate::command::Command;
use crate::random::Random;

const LENGTHS: [usize; 8] = [0, 1, 64, 127, 129, 130, 255, 256];

pub fn wrong(bench: &mut Bench, random: &mut Random) -> Step<()> {
    let slave = random.percent(40);
    let cr1 = enabling(random, slave);
    set_up(bench, random, 0, cr1)?;
    write(bench, 0, CR1, cr1)?;
    let kept = bench.record(0).to_vec();
    for _ in 0..80 {
        let spoiled = spoil_record(random, kept.clone());
        bench.load(0, &spoiled);
        let (input, output_len) = spoiled_buffers(random);
        let device = 0;
        let command = match random.below(8) {
            0 => Command::Read { device, offset: random.below(0x30) as u32 },
            1 => Command::Write { device, offset: random.below(0x30) as u32, value: 1 },
            2 => Command::Reset { device },
            3..=5 => Command::Run { device, input, output_len },
            _ => Command::Idle { device, input, output_len },
        };
        bench.step(command)?;
    }
    Ok(())
}

/// Mostly leaves the record whole.
fn spoil_record(random: &mut Random, mut record: Vec<u8>) -> Vec<u8> {
    match random.below(10) {
        0 | 1 => {
            let length = random.pick(&LENGTHS);
            record.resize(length, 0);
        }
        2 | 3 => record[100] = 1,
        _ => {}
    }
    record
}

/// Input bytes above 7 anywhere, also past where a run to idle stops.
fn spoiled_buffers(random: &mut Random) -> (Vec<u8>, usize) {
    let cycles = random.pick(&[0, 1, 2, 5, 40, 200]);
    let mut input = noise(random, cycles);
    if cycles > 0 && random.percent(40) {
        let at = if random.percent(30) { cycles - 1 } else { random.size(cycles) };
        input[at] = random.pick(&[8, 9, 15, 16, 128, 255]);
    }
    let output_len = match random.below(8) {
        0 => cycles + 1,
        1 => cycles.saturating_sub(1),
        2 => 0,
        _ => cycles,
    };
    (input, output_len)
}
