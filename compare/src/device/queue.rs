//! A queue of eight 16-bit words, first in first out.

pub const PLACES: usize = 8;

#[derive(Clone, Copy, PartialEq, Eq, Debug, Default)]
pub struct Queue {
    words: [u16; PLACES],
    held: usize,
}

impl Queue {
    /// Oldest first; None with more than eight words.
    pub fn from_words(words: &[u16]) -> Option<Queue> {
        let mut queue = Queue::default();
        queue.words.get_mut(..words.len())?.copy_from_slice(words);
        queue.held = words.len();
        Some(queue)
    }

    pub fn words(&self) -> &[u16] {
        &self.words[..self.held]
    }

    pub fn len(&self) -> usize {
        self.held
    }

    pub fn is_empty(&self) -> bool {
        self.held == 0
    }

    pub fn is_full(&self) -> bool {
        self.held == PLACES
    }

    /// Gives the word back if full: then the eight stay.
    #[must_use]
    pub fn push(&mut self, word: u16) -> Option<u16> {
        if self.is_full() {
            return Some(word);
        }
        self.words[self.held] = word;
        self.held += 1;
        None
    }

    pub fn pop(&mut self) -> Option<u16> {
        if self.is_empty() {
            return None;
        }
        let word = self.words[0];
        self.words.rotate_left(1);
        self.words[PLACES - 1] = 0;
        self.held -= 1;
        Some(word)
    }
}
