//! One clock cycle: lines, pins and the receive timeout.

use super::Device;

/// What one cycle gives.
#[derive(Clone, Copy, PartialEq, Eq, Debug)]
pub struct Cycle {
    pub lines: u8,
    /// The word that completed in it with eight words held.
    pub lost: Option<u16>,
}

impl Cycle {
    /// Without a capture, so without a word.
    pub(super) fn showing(lines: u8) -> Cycle {
        Cycle { lines, lost: None }
    }
}

impl Device {
    /// Takes the pin levels of this cycle.
    pub fn cycle(&mut self, pins: u8) -> Cycle {
        let cycle = if !self.active() {
            Cycle::showing(self.idle_lines())
        } else if self.slave() {
            self.slave_cycle()
        } else {
            self.master_cycle(pins)
        };
        if !self.active() {
            // SSE is clear. A frame that ended in this cycle has shown its lines.
            self.clear_engine();
        }
        // Pins are followed in every mode, since a slave enabled later looks back.
        self.pins = [pins, self.pins[0], self.pins[1]];
        self.lines = cycle.lines;
        self.count_timeout();
        cycle
    }

    /// The cycle counts by the state at its end.
    fn count_timeout(&mut self) {
        if !self.enabled() || self.frame || self.rx.is_empty() {
            self.rt_count = 0;
            return;
        }
        self.rt_count += 1;
        if self.rt_count >= self.timeout() {
            self.rt = true;
            self.rt_count = 0;
        }
    }
}
