//! The slave: follows pins as they stood two cycles earlier.

use super::{Cycle, Device, Format, CLK, CONTROL_BITS, DATA, FSS, NSSPOE};

/// Slots of a Microwire frame, counted as the master counts them: at the rise of the wait
/// the slave takes its word, at the fall after it the first bit is out.
const WORD_TAKEN: u8 = 2 * CONTROL_BITS + 1;
const FIRST_BIT: u8 = WORD_TAKEN + 1;

/// What the slave sees in one cycle: the pins, and those of the cycle before.
#[derive(Clone, Copy)]
struct Seen {
    now: u8,
    before: u8,
}

impl Seen {
    fn high(&self, pin: u8) -> bool {
        self.now & pin != 0
    }

    fn rose(&self, pin: u8) -> bool {
        self.now & !self.before & pin != 0
    }

    fn fell(&self, pin: u8) -> bool {
        !self.now & self.before & pin != 0
    }
}

impl Device {
    pub(super) fn slave_cycle(&mut self) -> Cycle {
        let seen = Seen { now: self.pins[1], before: self.pins[2] };
        match self.format() {
            Format::Motorola => self.motorola_slave(seen),
            Format::Ti => self.ti_slave(seen),
            Format::Microwire => self.microwire_slave(seen),
        }
    }

    fn slave_lines(&self, driving: bool) -> u8 {
        let mut lines = FSS;
        if driving && self.held {
            lines |= DATA;
        }
        if !driving || self.output_disabled() {
            lines |= NSSPOE;
        }
        lines
    }

    /// Data as the slave captures it: its own TXD in loopback.
    fn slave_data(&self, seen: Seen) -> bool {
        if self.loopback() {
            self.held
        } else {
            seen.high(DATA)
        }
    }

    fn motorola_slave(&mut self, seen: Seen) -> Cycle {
        if seen.high(FSS) {
            self.clear_engine();
            return Cycle::showing(self.slave_lines(false));
        }
        if seen.fell(FSS) {
            self.select();
        }
        let edge = self.selected && (seen.rose(CLK) || seen.fell(CLK));
        let lost = if edge { self.motorola_edge(seen) } else { None };
        if self.all_captured() {
            // TXD holds until FSS is HIGH, so only the frame ends.
            self.frame = false;
        }
        Cycle { lines: self.slave_lines(self.selected), lost }
    }

    fn select(&mut self) {
        self.selected = true;
        self.end_frame();
        if !self.sph() {
            self.start_word();
        }
    }

    /// Takes a word and holds its first bit; Motorola and TI show it at once.
    fn start_word(&mut self) {
        self.begin_word();
        self.held = self.bit(0);
    }

    /// Drives the bit that is captured next; the last one if all are.
    fn drive_bit(&mut self) {
        self.held = self.bit(self.captured.min(self.bits() - 1));
    }

    fn motorola_edge(&mut self, seen: Seen) -> Option<u16> {
        let to_active = seen.high(CLK) != self.spo();
        if self.sph() && to_active && !self.frame {
            self.start_word();
        } else if !self.frame {
            // Before the word is taken, or after its last bit.
        } else if to_active != self.sph() {
            return self.capture(self.slave_data(seen));
        } else {
            self.drive_bit();
        }
        None
    }

    fn ti_slave(&mut self, seen: Seen) -> Cycle {
        let start = seen.fell(CLK) && seen.high(FSS);
        if seen.rose(CLK) {
            self.ti_rise();
        }
        if self.frame && start && self.captured + 1 < self.bits() {
            self.end_frame();
        }
        // The last capture's own cycle still shows the bit.
        let mut cycle = Cycle::showing(self.slave_lines(self.frame));
        if self.frame && seen.fell(CLK) {
            cycle.lost = self.capture(self.slave_data(seen));
        }
        if self.frame && self.all_captured() {
            self.end_frame();
        }
        self.mark |= start;
        cycle
    }

    fn ti_rise(&mut self) {
        if self.mark {
            self.mark = false;
            self.start_word();
        } else if self.frame {
            self.drive_bit();
        }
    }

    fn microwire_slave(&mut self, seen: Seen) -> Cycle {
        if seen.high(FSS) {
            self.clear_engine();
        } else if seen.fell(FSS) {
            self.await_control();
        }
        let mut lost = None;
        if self.selected && seen.rose(CLK) {
            lost = self.microwire_rise(seen);
        } else if self.selected && seen.fell(CLK) {
            self.microwire_fall();
        }
        // Not by the frame: the last bit is still out when the frame is over.
        Cycle { lines: self.slave_lines(self.selected && self.slot >= FIRST_BIT), lost }
    }

    /// Selected, and the next rising edge has the first control bit.
    fn await_control(&mut self) {
        self.clear_engine();
        self.selected = true;
    }

    /// The slot that the rise of the last data bit leads to.
    fn last_rise(&self) -> u8 {
        WORD_TAKEN + 2 * self.bits()
    }

    fn microwire_rise(&mut self, seen: Seen) -> Option<u16> {
        if self.slot < WORD_TAKEN {
            return self.control_rise(seen);
        }
        if self.slot % 2 == 0 && self.slot < self.last_rise() {
            self.slot += 1;
            if self.slot == self.last_rise() {
                self.frame = false;
            }
        }
        None
    }

    /// Latches a control bit, or takes the word in the clock after the eight.
    fn control_rise(&mut self, seen: Seen) -> Option<u16> {
        if self.all_captured() {
            self.start_word();
            self.slot = WORD_TAKEN;
            return None;
        }
        self.frame = true;
        // TXD is LOW now, so in loopback every control bit is.
        self.capture(!self.loopback() && seen.high(DATA))
    }

    /// Ends a data bit: what follows it, the next one or none, shows at once.
    fn microwire_fall(&mut self) {
        if self.slot >= self.last_rise() {
            self.await_control();
        } else if self.slot >= WORD_TAKEN && self.slot % 2 == 1 {
            self.held = self.bit((self.slot - WORD_TAKEN) / 2);
            self.slot += 1;
        }
    }
}
