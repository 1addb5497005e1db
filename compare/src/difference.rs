//! What differs in two recordings.

/// A part of one of two recordings. Laid out as in C, since the library answers with the same
/// struct.
#[repr(C)]
#[derive(Clone, Copy, PartialEq, Eq, Debug, Default)]
pub struct Part {
    /// 1 if it is a part of the second recording, else 0.
    pub second: u64,
    pub start: u64,
    pub length: u64,
}

/// Of the longer recording, or of the first if they are equally long, the part that starts at
/// the first difference; without one the rest past the shorter recording.
pub fn difference(first: &[u8], second: &[u8]) -> Part {
    let same = first.iter().zip(second).take_while(|(a, b)| a == b).count();
    let longer = first.len().max(second.len());
    Part {
        second: u64::from(second.len() > first.len()),
        start: same as u64,
        length: (longer - same) as u64,
    }
}
