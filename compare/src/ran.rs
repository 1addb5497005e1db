//! What a run, a run to idle and a pair run answer. Laid out as in C, since the library
//! answers with the same structs.

/// Words lost to overrun in one call.
#[repr(C)]
#[derive(Clone, Copy, PartialEq, Eq, Debug, Default)]
pub struct Lost {
    pub count: u64,
    /// The last of them, 0 if none was lost. A word can be 0 too: the count tells.
    pub last: u64,
}

impl Lost {
    /// What one cycle lost.
    pub fn in_cycle(word: Option<u16>) -> Lost {
        word.map_or(Lost::default(), |word| Lost { count: 1, last: u64::from(word) })
    }

    /// What this and a later part of the same time lost together.
    pub fn then(self, later: Lost) -> Lost {
        let last = if later.count > 0 { later.last } else { self.last };
        Lost { count: self.count + later.count, last }
    }
}

/// A run, and a run to idle.
#[repr(C)]
#[derive(Clone, Copy, PartialEq, Eq, Debug, Default)]
pub struct Ran {
    pub refusal: u64,
    /// The cycles run.
    pub count: u64,
    pub lost: Lost,
}

impl Ran {
    pub fn refused(number: u32) -> Ran {
        Ran { refusal: u64::from(number), ..Ran::default() }
    }
}

#[repr(C)]
#[derive(Clone, Copy, PartialEq, Eq, Debug, Default)]
pub struct PairRan {
    pub refusal: u64,
    pub first: Lost,
    pub second: Lost,
}

impl PairRan {
    pub fn refused(number: u32) -> PairRan {
        PairRan { refusal: u64::from(number), ..PairRan::default() }
    }
}
