//! The cycles of a script's master, and those in which it takes a word.

use crate::calls::wired;
use crate::command::Command;
use crate::device::Device;
use crate::record::sound_device;
use crate::text::write_text;

/// Cycles that a device ran with MS 0.
#[derive(Default)]
struct Recording {
    cycles: Vec<u8>,
    places: Vec<u32>,
}

/// Both devices; the master is the one that first ran a cycle enabled as such (docs/SCRIPTS.md).
#[derive(Default)]
pub struct Frames {
    recordings: [Recording; 2],
    master: Option<usize>,
}

impl Frames {
    /// Goes through the cycles of a command, from the records as they are before it.
    pub fn follow(&mut self, records: &[Vec<u8>; 2], command: &Command) {
        match command {
            Command::Run { device, input, output_len } if fits(input, *output_len) => {
                self.run(*device, &records[*device], input, |_| true)
            }
            Command::Idle { device, input, output_len } if fits(input, *output_len) => {
                self.run(*device, &records[*device], input, Device::busy)
            }
            Command::Pair { cycles } | Command::PairRun { cycles } => self.pair(records, *cycles),
            _ => {}
        }
    }

    fn run(&mut self, device: usize, record: &[u8], input: &[u8], goes_on: fn(&Device) -> bool) {
        let Some(mut state) = sound_device(record) else { return };
        for pins in input {
            if !goes_on(&state) {
                return;
            }
            self.cycle(device, &mut state, *pins);
        }
    }

    fn pair(&mut self, records: &[Vec<u8>; 2], cycles: u64) {
        let (Some(mut one), Some(mut other)) =
            (sound_device(&records[0]), sound_device(&records[1]))
        else {
            return;
        };
        for _ in 0..cycles {
            let (to_one, to_other) = (wired(other.lines), wired(one.lines));
            self.cycle(0, &mut one, to_one);
            self.cycle(1, &mut other, to_other);
        }
    }

    fn cycle(&mut self, device: usize, state: &mut Device, pins: u8) {
        let (master, taken) = (!state.slave(), state.master_takes_word());
        if master && state.enabled() && self.master.is_none() {
            self.master = Some(device);
        }
        let lines = state.cycle(pins).lines;
        let recording = &mut self.recordings[device];
        if taken {
            recording.places.push(recording.cycles.len() as u32);
        }
        if master {
            recording.cycles.push(lines);
        }
    }

    /// The master's cycles as text, or the refusal number; empty without a master.
    pub fn text(&self) -> Result<Vec<u8>, u64> {
        let Some(master) = self.master else { return Ok(Vec::new()) };
        let Recording { cycles, places } = &self.recordings[master];
        let mut text = vec![0; 2 * cycles.len()];
        let (refusal, count) = write_text(cycles, places, &mut text);
        text.truncate(count as usize);
        if refusal == 0 {
            Ok(text)
        } else {
            Err(refusal)
        }
    }
}

/// A run is refused with any other buffers.
fn fits(input: &[u8], output_len: usize) -> bool {
    input.len() == output_len && input.iter().all(|pins| *pins <= 7)
}
