//! Two devices of one program, and commands carried out on them.

use crate::command::Command;
use crate::device::PLACES;
use crate::difference::Part;
use crate::model::Model;
use crate::ran::{Lost, Ran};
use crate::record::LENGTH;

/// What output buffers hold before a call, so that untouched bytes show.
pub const PREFILL: u8 = 0xEE;
pub const PREFILL_NUMBER: u32 = 0xEEEE_EEEE;
pub const PREFILL_WORD: u16 = 0xEEEE;

/// Guards on each side of a buffer.
const GUARDS: usize = 32;

/// What a lent buffer holds: bytes, words or numbers.
trait Item: Copy + PartialEq {
    const GUARD: Self;
}

impl Item for u8 {
    const GUARD: u8 = 0x5C;
}

impl Item for u16 {
    const GUARD: u16 = 0x5C5C;
}

impl Item for u32 {
    const GUARD: u32 = 0x5C5C_5C5C;
}

/// A lent buffer between guards, which no call may touch.
struct Lent<T> {
    items: Vec<T>,
}

impl<T: Item> Lent<T> {
    fn new(content: &[T]) -> Lent<T> {
        let mut items = Vec::with_capacity(content.len() + 2 * GUARDS);
        items.extend_from_slice(&[T::GUARD; GUARDS]);
        items.extend_from_slice(content);
        items.extend_from_slice(&[T::GUARD; GUARDS]);
        Lent { items }
    }

    fn content(&mut self) -> &mut [T] {
        let end = self.items.len() - GUARDS;
        &mut self.items[GUARDS..end]
    }

    fn intact(&self) -> bool {
        let end = self.items.len() - GUARDS;
        let guards = self.items[..GUARDS].iter().chain(&self.items[end..]);
        guards.into_iter().all(|item| *item == T::GUARD)
    }

    /// Nothing of it was written.
    fn holds(&mut self, content: &[T]) -> bool {
        self.intact() && self.content() == content
    }
}

/// What one call gave, besides the records.
#[derive(Clone, PartialEq, Eq, Debug, Default)]
pub struct Outcome {
    pub refusal: u64,
    /// The word read, the cycles counted, the bytes of a text, or what a verdict counts.
    pub value: u64,
    /// What each device lost.
    pub lost: [Lost; 2],
    /// The lines of a text that was read.
    pub lines: u64,
    pub output: Vec<u8>,
    /// The buffer for line starts.
    pub starts: Vec<u32>,
    /// The eight places of a verdict.
    pub words: Vec<u16>,
    /// What differs in two recordings.
    pub part: Part,
    /// Guards and input are as they were.
    pub intact: bool,
}

impl Outcome {
    fn plain(refusal: u32, value: u32, intact: bool) -> Outcome {
        let (refusal, value) = (u64::from(refusal), u64::from(value));
        Outcome { refusal, value, intact, ..Outcome::default() }
    }
}

pub struct Session<'m> {
    model: &'m dyn Model,
    pub records: [Vec<u8>; 2],
}

impl<'m> Session<'m> {
    /// Both devices as after reset.
    pub fn new(model: &'m dyn Model) -> Session<'m> {
        let mut records = [vec![0; LENGTH], vec![0; LENGTH]];
        for record in &mut records {
            model.reset(record);
        }
        Session { model, records }
    }

    pub fn call(&mut self, command: &Command) -> Outcome {
        match command {
            Command::Reset { device } => {
                self.access(*device, |model, record| (model.reset(record), 0))
            }
            Command::ResetEdition { device, edition } => {
                self.access(*device, |model, record| (model.reset_edition(record, *edition), 0))
            }
            Command::Read { device, offset } => {
                self.access(*device, |model, record| model.read(record, *offset))
            }
            Command::Write { device, offset, value } => {
                self.access(*device, |model, record| (model.write(record, *offset, *value), 0))
            }
            Command::Run { device, input, output_len } => {
                self.lend(*device, input, *output_len, |model, record, input, output| {
                    model.run(record, input, output)
                })
            }
            Command::Idle { device, input, output_len } => {
                self.lend(*device, input, *output_len, |model, record, input, output| {
                    model.run_to_idle(record, input, output)
                })
            }
            Command::PairRun { cycles } | Command::Pair { cycles } => self.pair(*cycles),
            Command::Load { device, bytes } => {
                self.records[*device] = bytes.clone();
                Outcome::plain(0, 0, true)
            }
            Command::Save { .. } | Command::Dump { .. } => Outcome::plain(0, 0, true),
            Command::WriteText { cycles, places, text_len } => {
                self.write_text(cycles, places, *text_len)
            }
            Command::ReadText { text, cycles_len, starts_len } => {
                self.read_text(text, *cycles_len, *starts_len)
            }
            Command::Judge { cr0, cpsr, recording } => self.judge(*cr0, *cpsr, recording),
            Command::Difference { first, second } => self.difference(first, second),
        }
    }

    fn access<F>(&mut self, device: usize, call: F) -> Outcome
    where
        F: Fn(&dyn Model, &mut [u8]) -> (u32, u32),
    {
        let mut record = Lent::new(&self.records[device]);
        let (refusal, value) = call(self.model, record.content());
        self.records[device].copy_from_slice(record.content());
        Outcome::plain(refusal, value, record.intact())
    }

    fn lend<F>(&mut self, device: usize, input: &[u8], output_len: usize, call: F) -> Outcome
    where
        F: Fn(&dyn Model, &mut [u8], &[u8], &mut [u8]) -> Ran,
    {
        let mut record = Lent::new(&self.records[device]);
        let mut pins = Lent::new(input);
        let mut output = Lent::new(&vec![PREFILL; output_len]);
        let ran = call(self.model, record.content(), pins.content(), output.content());
        self.records[device].copy_from_slice(record.content());
        let mut lost = [Lost::default(); 2];
        lost[device] = ran.lost;
        Outcome {
            refusal: ran.refusal,
            value: ran.count,
            lost,
            intact: record.intact() && pins.holds(input) && output.intact(),
            output: output.content().to_vec(),
            ..Outcome::default()
        }
    }

    fn pair(&mut self, cycles: u64) -> Outcome {
        let mut first = Lent::new(&self.records[0]);
        let mut second = Lent::new(&self.records[1]);
        let ran = self.model.pair_run(first.content(), second.content(), cycles);
        self.records[0].copy_from_slice(first.content());
        self.records[1].copy_from_slice(second.content());
        Outcome {
            refusal: ran.refusal,
            lost: [ran.first, ran.second],
            intact: first.intact() && second.intact(),
            ..Outcome::default()
        }
    }

    fn write_text(&self, cycles: &[u8], places: &[u32], text_len: usize) -> Outcome {
        let mut lent_cycles = Lent::new(cycles);
        let mut lent_places = Lent::new(places);
        let mut text = Lent::new(&vec![PREFILL; text_len]);
        let (refusal, value) =
            self.model.write_text(lent_cycles.content(), lent_places.content(), text.content());
        Outcome {
            refusal,
            value,
            intact: lent_cycles.holds(cycles) && lent_places.holds(places) && text.intact(),
            output: text.content().to_vec(),
            ..Outcome::default()
        }
    }

    fn read_text(&self, text: &[u8], cycles_len: usize, starts_len: usize) -> Outcome {
        let mut lent_text = Lent::new(text);
        let mut cycles = Lent::new(&vec![PREFILL; cycles_len]);
        let mut starts = Lent::new(&vec![PREFILL_NUMBER; starts_len]);
        let (refusal, value, lines) =
            self.model.read_text(lent_text.content(), cycles.content(), starts.content());
        Outcome {
            refusal,
            value,
            lines,
            intact: lent_text.holds(text) && cycles.intact() && starts.intact(),
            output: cycles.content().to_vec(),
            starts: starts.content().to_vec(),
            ..Outcome::default()
        }
    }

    fn judge(&self, cr0: u32, cpsr: u32, recording: &[u8]) -> Outcome {
        let mut lent = Lent::new(recording);
        let mut words = Lent::new(&[PREFILL_WORD; PLACES]);
        let places = words.content().first_chunk_mut().expect("eight places are lent");
        let (refusal, value) = self.model.judge(cr0, cpsr, lent.content(), places);
        Outcome {
            refusal,
            value,
            intact: lent.holds(recording) && words.intact(),
            words: words.content().to_vec(),
            ..Outcome::default()
        }
    }

    fn difference(&self, first: &[u8], second: &[u8]) -> Outcome {
        let (mut one, mut other) = (Lent::new(first), Lent::new(second));
        let part = self.model.difference(one.content(), other.content());
        let intact = one.holds(first) && other.holds(second);
        Outcome { part, intact, ..Outcome::default() }
    }
}
