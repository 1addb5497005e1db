//! The calls as a trait, so that two programs can stand side by side.

use crate::device::PLACES;
use crate::difference::{difference, Part};
use crate::ran::{PairRan, Ran};
use crate::{calls, judge, text};

pub trait Model {
    fn reset(&self, record: &mut [u8]) -> u32;
    fn reset_edition(&self, record: &mut [u8], edition: u32) -> u32;
    fn read(&self, record: &mut [u8], offset: u32) -> (u32, u32);
    fn write(&self, record: &mut [u8], offset: u32, value: u32) -> u32;
    fn run(&self, record: &mut [u8], input: &[u8], output: &mut [u8]) -> Ran;
    fn run_to_idle(&self, record: &mut [u8], input: &[u8], output: &mut [u8]) -> Ran;
    fn pair_run(&self, first: &mut [u8], second: &mut [u8], cycles: u64) -> PairRan;
    fn write_text(&self, cycles: &[u8], places: &[u32], text: &mut [u8]) -> (u64, u64);
    fn read_text(&self, text: &[u8], cycles: &mut [u8], starts: &mut [u32]) -> (u64, u64, u64);
    fn judge(&self, cr0: u32, cpsr: u32, recording: &[u8], words: &mut [u16; PLACES])
        -> (u64, u64);
    fn difference(&self, first: &[u8], second: &[u8]) -> Part;
}

/// The program of this crate.
pub struct Second;

impl Model for Second {
    fn reset(&self, record: &mut [u8]) -> u32 {
        calls::reset(record)
    }

    fn reset_edition(&self, record: &mut [u8], edition: u32) -> u32 {
        calls::reset_edition(record, edition)
    }

    fn read(&self, record: &mut [u8], offset: u32) -> (u32, u32) {
        calls::read(record, offset)
    }

    fn write(&self, record: &mut [u8], offset: u32, value: u32) -> u32 {
        calls::write(record, offset, value)
    }

    fn run(&self, record: &mut [u8], input: &[u8], output: &mut [u8]) -> Ran {
        calls::run(record, input, output)
    }

    fn run_to_idle(&self, record: &mut [u8], input: &[u8], output: &mut [u8]) -> Ran {
        calls::run_to_idle(record, input, output)
    }

    fn pair_run(&self, first: &mut [u8], second: &mut [u8], cycles: u64) -> PairRan {
        calls::pair_run(first, second, cycles)
    }

    fn write_text(&self, cycles: &[u8], places: &[u32], text: &mut [u8]) -> (u64, u64) {
        text::write_text(cycles, places, text)
    }

    fn read_text(&self, text: &[u8], cycles: &mut [u8], starts: &mut [u32]) -> (u64, u64, u64) {
        text::read_text(text, cycles, starts)
    }

    fn judge(
        &self,
        cr0: u32,
        cpsr: u32,
        recording: &[u8],
        words: &mut [u16; PLACES],
    ) -> (u64, u64) {
        judge::judge(cr0, cpsr, recording, words)
    }

    fn difference(&self, first: &[u8], second: &[u8]) -> Part {
        difference(first, second)
    }
}
