//! The device: its state and what follows from it at once.

mod access;
mod cycle;
mod master;
mod queue;
mod slave;

pub use access::{offset, refusal};
pub use cycle::Cycle;
pub use queue::{Queue, PLACES};

/// Bits of an output byte; an input byte has RXD where TXD stands.
pub const CLK: u8 = 1;
pub const FSS: u8 = 2;
pub const DATA: u8 = 4;
pub const NSSPOE: u8 = 8;

/// Lines of a slave that drives nothing: FSS and nSSPOE HIGH.
pub const SLAVE_IDLE: u8 = FSS | NSSPOE;

const LBM: u8 = 1;
const SSE: u8 = 2;
const MS: u8 = 4;
const SOD: u8 = 8;

/// Control bits of a Microwire frame.
const CONTROL_BITS: u8 = 8;

#[derive(Clone, Copy, PartialEq, Eq, Debug)]
pub enum Format {
    Motorola,
    Ti,
    Microwire,
}

/// What becomes of a frame when SSE is cleared: it is cut, or it ends.
#[derive(Clone, Copy, PartialEq, Eq, Debug)]
pub enum Edition {
    First,
    Second,
}

impl Edition {
    /// The edition of this number, if there is one.
    pub fn numbered(number: u32) -> Option<Edition> {
        match number {
            1 => Some(Edition::First),
            2 => Some(Edition::Second),
            _ => None,
        }
    }
}

#[derive(Clone, PartialEq, Eq, Debug)]
pub struct Device {
    /// Chosen at reset, for good.
    pub edition: Edition,
    pub cr0: u16,
    pub cr1: u8,
    pub cpsr: u8,
    pub imsc: u8,
    pub dmacr: u8,
    pub ror: bool,
    pub rt: bool,
    pub rt_count: u32,
    /// A frame is in progress.
    pub frame: bool,
    /// A Motorola or Microwire slave is selected.
    pub selected: bool,
    /// A TI slave has seen a start.
    pub mark: bool,
    pub captured: u8,
    /// Slot of the next cycle; in a Microwire slave the edges count it.
    pub slot: u8,
    /// Cycles of that slot already gone.
    pub gone: u16,
    /// Level of the data bit on TXD.
    pub held: bool,
    pub sending: u16,
    pub receiving: u16,
    /// Pins of the last three cycles, newest first.
    pub pins: [u8; 3],
    /// Output of the last cycle.
    pub lines: u8,
    pub tx: Queue,
    pub rx: Queue,
}

/// FRF below 3 and DSS at least 3.
pub fn permitted(cr0: u16) -> bool {
    (cr0 >> 4) & 3 < 3 && cr0 & 15 >= 3
}

impl Device {
    /// Of the first edition.
    pub fn reset() -> Device {
        Device {
            edition: Edition::First,
            cr0: 0,
            cr1: 0,
            cpsr: 0,
            imsc: 0,
            dmacr: 0,
            ror: false,
            rt: false,
            rt_count: 0,
            frame: false,
            selected: false,
            mark: false,
            captured: 0,
            slot: 0,
            gone: 0,
            held: false,
            sending: 0,
            receiving: 0,
            pins: [0; 3],
            lines: FSS | NSSPOE,
            tx: Queue::default(),
            rx: Queue::default(),
        }
    }

    pub fn enabled(&self) -> bool {
        self.cr1 & SSE != 0
    }

    /// The engine works: SSE is set, or a frame of the second edition is still to end.
    pub fn active(&self) -> bool {
        self.enabled() || self.edition == Edition::Second && self.frame
    }

    pub fn slave(&self) -> bool {
        self.cr1 & MS != 0
    }

    pub fn loopback(&self) -> bool {
        self.cr1 & LBM != 0
    }

    pub fn output_disabled(&self) -> bool {
        self.cr1 & SOD != 0
    }

    pub fn format(&self) -> Format {
        match (self.cr0 >> 4) & 3 {
            1 => Format::Ti,
            2 => Format::Microwire,
            _ => Format::Motorola,
        }
    }

    pub fn spo(&self) -> bool {
        self.cr0 & 0x40 != 0
    }

    pub fn sph(&self) -> bool {
        self.cr0 & 0x80 != 0
    }

    /// b, the bits of a word.
    pub fn bits(&self) -> u8 {
        (self.cr0 & 15) as u8 + 1
    }

    /// Bits of a word that comes in: a Microwire slave gets control bytes, whatever b is.
    pub fn incoming_bits(&self) -> u8 {
        if self.slave() && self.format() == Format::Microwire {
            CONTROL_BITS
        } else {
            self.bits()
        }
    }

    /// The low bits that an incoming word has.
    fn incoming_mask(&self) -> u16 {
        0xFFFF >> (16 - self.incoming_bits())
    }

    /// h, the cycles of a slot.
    pub fn slot_cycles(&self) -> u32 {
        u32::from(self.cpsr / 2) * (1 + u32::from(self.cr0 >> 8))
    }

    /// Cycles without a frame after which RT is set.
    pub fn timeout(&self) -> u32 {
        64 * self.slot_cycles()
    }

    pub fn last_slot(&self) -> u8 {
        let b = self.bits();
        match self.format() {
            Format::Motorola => 2 * b + 3,
            Format::Ti => 2 * b + 1,
            Format::Microwire => 2 * b + 20,
        }
    }

    pub fn busy(&self) -> bool {
        self.frame || !self.tx.is_empty()
    }

    pub fn status(&self) -> u32 {
        u32::from(self.tx.is_empty())
            | u32::from(!self.tx.is_full()) << 1
            | u32::from(!self.rx.is_empty()) << 2
            | u32::from(self.rx.is_full()) << 3
            | u32::from(self.busy()) << 4
    }

    pub fn raw_interrupts(&self) -> u32 {
        u32::from(self.ror)
            | u32::from(self.rt) << 1
            | u32::from(self.rx.len() >= 4) << 2
            | u32::from(self.tx.len() <= 4) << 3
    }

    /// Output of a device that sends nothing.
    pub fn idle_lines(&self) -> u8 {
        if self.slave() {
            return SLAVE_IDLE;
        }
        match self.format() {
            Format::Motorola => FSS | NSSPOE | u8::from(self.spo()),
            Format::Ti => NSSPOE,
            Format::Microwire => FSS | NSSPOE,
        }
    }

    /// Bit i of the word being sent, the most significant of b first.
    fn bit(&self, i: u8) -> bool {
        self.sending >> (self.bits() - 1 - i) & 1 != 0
    }

    /// A word can be taken; with SSE clear none is, and the queue counts as empty.
    fn word_waits(&self) -> bool {
        self.enabled() && !self.tx.is_empty()
    }

    /// Takes a word to send, or zeros for want of one.
    fn take_word(&mut self) {
        let word = if self.word_waits() { self.tx.pop() } else { None };
        self.sending = word.unwrap_or(0);
        self.frame = true;
    }

    /// Takes a word and makes ready to capture one; no data level is out yet.
    fn begin_word(&mut self) {
        self.take_word();
        self.captured = 0;
        self.held = false;
        self.receiving = 0;
    }

    /// The frame is over or dropped: nothing is left of its words.
    fn end_frame(&mut self) {
        self.frame = false;
        self.captured = 0;
        self.held = false;
        self.sending = 0;
        self.receiving = 0;
    }

    /// Bytes 12 to 23 of the record become zero.
    fn clear_engine(&mut self) {
        self.end_frame();
        self.selected = false;
        self.mark = false;
        self.slot = 0;
        self.gone = 0;
    }

    fn all_captured(&self) -> bool {
        self.captured == self.incoming_bits()
    }

    /// Captures one bit, the last completes the word. More than that are ignored. Gives the
    /// word if it is lost.
    #[must_use]
    fn capture(&mut self, level: bool) -> Option<u16> {
        if self.all_captured() {
            return None;
        }
        self.receiving = self.receiving << 1 | u16::from(level);
        self.captured += 1;
        if !self.all_captured() {
            return None;
        }
        self.word_arrives(self.receiving & self.incoming_mask())
    }

    /// A word clears RT, be it kept or lost (D113): the flag, not the count, and before
    /// the cycle's end, which may set it again (D114).
    fn word_arrives(&mut self, word: u16) -> Option<u16> {
        self.rt = false;
        let lost = self.rx.push(word);
        self.ror |= lost.is_some();
        lost
    }
}
