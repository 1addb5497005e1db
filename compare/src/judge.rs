//! The judge of recordings, by search: two lists of words that differ in one bit run side by
//! side on this program's own device, and the one that shows more of the recording is kept.

use crate::device::{refusal, Device, Format, Queue, PLACES};
use crate::recording::{enabled_master, is_over};

/// The most cycles of a recording that is judged.
pub const MOST_CYCLES: usize = 65_536;

/// Refusal number and a count: of the words, or of the leading cycles that some list could
/// have given. Without a list the places stay as they are.
pub fn judge(cr0: u32, cpsr: u32, recording: &[u8], words: &mut [u16; PLACES]) -> (u64, u64) {
    match try_judge(cr0, cpsr, recording) {
        Ok(list) => {
            *words = list.words;
            (0, list.count as u64)
        }
        Err((number, leading)) => (u64::from(number), leading as u64),
    }
}

fn try_judge(cr0: u32, cpsr: u32, recording: &[u8]) -> Result<Candidate, (u32, usize)> {
    // As written: whatever a write says against them, they cannot be enabled.
    enabled_master(cr0, cpsr, &[]).map_err(|_| (refusal::SETTING, 0))?;
    if recording.len() > MOST_CYCLES {
        return Err((refusal::TOO_LONG, 0));
    }
    let mut leading = 0;
    for count in 1..=PLACES {
        let zeros = enabled_master(cr0, cpsr, &[0; PLACES][..count]);
        let master = zeros.map_err(|_| (refusal::SETTING, 0))?;
        let list = best_list(master, count, recording);
        if list.gives_all_of(recording) {
            return Ok(list);
        }
        leading = leading.max(list.shared);
        if !list.master.tx.is_empty() {
            // With a word still waiting, longer lists show the same so far.
            break;
        }
    }
    Err((refusal::NO_LIST, leading))
}

/// Of the lists with so many words one that shares most with the recording; the master is
/// loaded with that many zeros. Lists that are alike before some bit show the same until they
/// show this bit, and then differ: at most one of its values goes on, whatever follows it.
fn best_list(master: Device, count: usize, recording: &[u8]) -> Candidate {
    let bits = (0..shown_bits(&master)).rev();
    let all_bits = (0..count).flat_map(|word| bits.clone().map(move |bit| (word, bit)));
    let mut best = Candidate { words: [0; PLACES], count, master, shared: 0, stuck: false };
    for (word, bit) in all_bits {
        if best.stuck {
            return best;
        }
        let mut other = best.with_bit(word, bit);
        // Not `&&`: both make each step.
        while best.shows_next(recording) & other.shows_next(recording) {}
        if other.shared > best.shared {
            best = other;
        }
    }
    while best.shows_next(recording) {}
    best
}

/// The low bits of a word that a master shows.
pub fn shown_bits(master: &Device) -> u8 {
    match master.format() {
        Format::Microwire => 8,
        _ => master.bits(),
    }
}

/// A list of words, and a master that was loaded with it.
#[derive(Clone)]
struct Candidate {
    words: [u16; PLACES],
    count: usize,
    /// After the cycles that it shares with the recording.
    master: Device,
    shared: usize,
    /// The recording has no next cycle, or another one than this master.
    stuck: bool,
}

impl Candidate {
    /// The same with one more bit set. The master has not shown it yet, so it might as well
    /// have been loaded with it.
    fn with_bit(&self, word: usize, bit: u8) -> Candidate {
        let mut other = self.clone();
        other.words[word] |= 1 << bit;
        let taken = self.count - self.master.tx.len();
        if word < taken {
            other.master.sending |= 1 << bit;
        } else {
            let waiting = &other.words[taken..self.count];
            other.master.tx = Queue::from_words(waiting).unwrap_or_default();
        }
        other
    }

    /// Runs the next cycle, if there is one, and compares it with the recording's.
    fn shows_next(&mut self, recording: &[u8]) -> bool {
        if self.stuck {
            return false;
        }
        self.stuck = match recording.get(self.shared) {
            Some(lines) => is_over(&self.master) || self.master.cycle(0).lines != *lines,
            None => true,
        };
        self.shared += usize::from(!self.stuck);
        !self.stuck
    }

    fn gives_all_of(&self, recording: &[u8]) -> bool {
        self.shared == recording.len() && is_over(&self.master)
    }
}
