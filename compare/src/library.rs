//! The proved implementation, called as a C program would call it.

#[cfg(feature = "library")]
pub use linked::Library;

#[cfg(feature = "library")]
mod linked {
    use crate::device::PLACES;
    use crate::difference::Part;
    use crate::model::Model;
    use crate::ran::{PairRan, Ran};

    #[repr(C)]
    #[derive(Clone, Copy)]
    struct Word {
        refusal: u32,
        word: u32,
    }

    #[repr(C)]
    #[derive(Clone, Copy)]
    struct Count {
        refusal: u64,
        count: u64,
    }

    #[repr(C)]
    #[derive(Clone, Copy)]
    struct Text {
        refusal: u64,
        cycles: u64,
        starts: u64,
    }

    extern "C" {
        fn pl022_reset(record: *mut u8, record_len: usize) -> u32;
        fn pl022_reset_edition(record: *mut u8, record_len: usize, edition: u32) -> u32;
        fn pl022_read(record: *mut u8, record_len: usize, offset: u32) -> Word;
        fn pl022_write(record: *mut u8, record_len: usize, offset: u32, value: u32) -> u32;
        fn pl022_run(
            record: *mut u8,
            record_len: usize,
            input: *const u8,
            input_len: usize,
            output: *mut u8,
            output_len: usize,
        ) -> Ran;
        fn pl022_run_to_idle(
            record: *mut u8,
            record_len: usize,
            input: *const u8,
            input_len: usize,
            output: *mut u8,
            output_len: usize,
        ) -> Ran;
        fn pl022_pair_run(
            first: *mut u8,
            first_len: usize,
            second: *mut u8,
            second_len: usize,
            cycles: u64,
        ) -> PairRan;
        fn pl022_write_text(
            lines: *const u8,
            lines_len: usize,
            places: *const u32,
            places_len: usize,
            text: *mut u8,
            text_len: usize,
        ) -> Count;
        fn pl022_read_text(
            text: *const u8,
            text_len: usize,
            lines: *mut u8,
            lines_len: usize,
            starts: *mut u32,
            starts_len: usize,
        ) -> Text;
        fn pl022_judge(
            cr0: u32,
            cpsr: u32,
            recording: *const u8,
            recording_len: usize,
            words: *mut u16,
        ) -> Count;
        fn pl022_difference(
            first: *const u8,
            first_len: usize,
            second: *const u8,
            second_len: usize,
        ) -> Part;
    }

    /// The archive linked by build.rs.
    pub struct Library;

    // Each call lends live, disjoint slices; the archive keeps no pointer.
    impl Model for Library {
        fn reset(&self, record: &mut [u8]) -> u32 {
            unsafe { pl022_reset(record.as_mut_ptr(), record.len()) }
        }

        fn reset_edition(&self, record: &mut [u8], edition: u32) -> u32 {
            unsafe { pl022_reset_edition(record.as_mut_ptr(), record.len(), edition) }
        }

        fn read(&self, record: &mut [u8], offset: u32) -> (u32, u32) {
            let answer = unsafe { pl022_read(record.as_mut_ptr(), record.len(), offset) };
            (answer.refusal, answer.word)
        }

        fn write(&self, record: &mut [u8], offset: u32, value: u32) -> u32 {
            unsafe { pl022_write(record.as_mut_ptr(), record.len(), offset, value) }
        }

        fn run(&self, record: &mut [u8], input: &[u8], output: &mut [u8]) -> Ran {
            unsafe {
                pl022_run(
                    record.as_mut_ptr(),
                    record.len(),
                    input.as_ptr(),
                    input.len(),
                    output.as_mut_ptr(),
                    output.len(),
                )
            }
        }

        fn run_to_idle(&self, record: &mut [u8], input: &[u8], output: &mut [u8]) -> Ran {
            unsafe {
                pl022_run_to_idle(
                    record.as_mut_ptr(),
                    record.len(),
                    input.as_ptr(),
                    input.len(),
                    output.as_mut_ptr(),
                    output.len(),
                )
            }
        }

        fn pair_run(&self, first: &mut [u8], second: &mut [u8], cycles: u64) -> PairRan {
            let (first_len, second_len) = (first.len(), second.len());
            unsafe {
                pl022_pair_run(
                    first.as_mut_ptr(),
                    first_len,
                    second.as_mut_ptr(),
                    second_len,
                    cycles,
                )
            }
        }

        fn write_text(&self, cycles: &[u8], places: &[u32], text: &mut [u8]) -> (u64, u64) {
            let answer = unsafe {
                pl022_write_text(
                    cycles.as_ptr(),
                    cycles.len(),
                    places.as_ptr(),
                    places.len(),
                    text.as_mut_ptr(),
                    text.len(),
                )
            };
            (answer.refusal, answer.count)
        }

        fn read_text(&self, text: &[u8], cycles: &mut [u8], starts: &mut [u32]) -> (u64, u64, u64) {
            let answer = unsafe {
                pl022_read_text(
                    text.as_ptr(),
                    text.len(),
                    cycles.as_mut_ptr(),
                    cycles.len(),
                    starts.as_mut_ptr(),
                    starts.len(),
                )
            };
            (answer.refusal, answer.cycles, answer.starts)
        }

        fn judge(
            &self,
            cr0: u32,
            cpsr: u32,
            recording: &[u8],
            words: &mut [u16; PLACES],
        ) -> (u64, u64) {
            let (lines, places) = (recording.as_ptr(), words.as_mut_ptr());
            let answer = unsafe { pl022_judge(cr0, cpsr, lines, recording.len(), places) };
            (answer.refusal, answer.count)
        }

        fn difference(&self, first: &[u8], second: &[u8]) -> Part {
            let (one, other) = (first.as_ptr(), second.as_ptr());
            unsafe { pl022_difference(one, first.len(), other, second.len()) }
        }
    }
}
