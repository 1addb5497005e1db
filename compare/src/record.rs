//! The 128-byte device record: one encoding for each state, and soundness.

use crate::device::{permitted, Device, Edition, Queue, PLACES};

pub const LENGTH: usize = 128;

/// Places of the fields; numbers of more than one byte are little-endian.
pub mod at {
    pub const CR0: usize = 0;
    pub const CR1: usize = 2;
    pub const CPSR: usize = 3;
    pub const IMSC: usize = 4;
    pub const DMACR: usize = 5;
    pub const ROR: usize = 6;
    pub const RT: usize = 7;
    pub const RT_COUNT: usize = 8;
    pub const FRAME: usize = 12;
    pub const SELECTED: usize = 13;
    pub const MARK: usize = 14;
    pub const CAPTURED: usize = 15;
    pub const SLOT: usize = 16;
    pub const HELD: usize = 17;
    pub const GONE: usize = 18;
    pub const SENDING: usize = 20;
    pub const RECEIVING: usize = 22;
    pub const PINS: usize = 24;
    pub const LINES: usize = 27;
    pub const TX_COUNT: usize = 28;
    pub const RX_COUNT: usize = 29;
    pub const EDITION: usize = 30;
    pub const TX: usize = 32;
    pub const RX: usize = 48;
}

fn put(bytes: &mut [u8], place: usize, value: u16) {
    bytes[place..place + 2].copy_from_slice(&value.to_le_bytes());
}

fn get(bytes: &[u8], place: usize) -> u16 {
    u16::from_le_bytes([bytes[place], bytes[place + 1]])
}

fn put_queue(bytes: &mut [u8], place: usize, queue: &Queue) {
    for (i, word) in queue.words().iter().enumerate() {
        put(bytes, place + 2 * i, *word);
    }
}

fn get_queue(bytes: &[u8], place: usize, count: u8) -> Option<Queue> {
    let mut words = [0; PLACES];
    for (i, word) in words.iter_mut().enumerate() {
        *word = get(bytes, place + 2 * i);
    }
    Queue::from_words(words.get(..usize::from(count))?)
}

pub fn encode(device: &Device) -> [u8; LENGTH] {
    let mut bytes = [0; LENGTH];
    put(&mut bytes, at::CR0, device.cr0);
    bytes[at::CR1] = device.cr1;
    bytes[at::CPSR] = device.cpsr;
    bytes[at::IMSC] = device.imsc;
    bytes[at::DMACR] = device.dmacr;
    bytes[at::ROR] = u8::from(device.ror);
    bytes[at::RT] = u8::from(device.rt);
    bytes[at::RT_COUNT..at::RT_COUNT + 4].copy_from_slice(&device.rt_count.to_le_bytes());
    bytes[at::FRAME] = u8::from(device.frame);
    bytes[at::SELECTED] = u8::from(device.selected);
    bytes[at::MARK] = u8::from(device.mark);
    bytes[at::CAPTURED] = device.captured;
    bytes[at::SLOT] = device.slot;
    bytes[at::HELD] = u8::from(device.held);
    put(&mut bytes, at::GONE, device.gone);
    put(&mut bytes, at::SENDING, device.sending);
    put(&mut bytes, at::RECEIVING, device.receiving);
    bytes[at::PINS..at::PINS + 3].copy_from_slice(&device.pins);
    bytes[at::LINES] = device.lines;
    bytes[at::TX_COUNT] = device.tx.len() as u8;
    bytes[at::RX_COUNT] = device.rx.len() as u8;
    bytes[at::EDITION] = u8::from(device.edition == Edition::Second);
    put_queue(&mut bytes, at::TX, &device.tx);
    put_queue(&mut bytes, at::RX, &device.rx);
    bytes
}

/// The state that these bytes encode, if it is a sound one.
pub fn decode(bytes: &[u8; LENGTH]) -> Option<Device> {
    let device = fields(bytes)?;
    // Flags of 2, other editions, used spare bytes and filled unused places come back different.
    if encode(&device) == *bytes && sound(&device) {
        Some(device)
    } else {
        None
    }
}

/// The same for bytes of any length.
pub fn sound_device(bytes: &[u8]) -> Option<Device> {
    decode(bytes.try_into().ok()?)
}

fn fields(bytes: &[u8; LENGTH]) -> Option<Device> {
    let count = &bytes[at::RT_COUNT..at::RT_COUNT + 4];
    Some(Device {
        edition: if bytes[at::EDITION] == 0 { Edition::First } else { Edition::Second },
        cr0: get(bytes, at::CR0),
        cr1: bytes[at::CR1],
        cpsr: bytes[at::CPSR],
        imsc: bytes[at::IMSC],
        dmacr: bytes[at::DMACR],
        ror: bytes[at::ROR] != 0,
        rt: bytes[at::RT] != 0,
        rt_count: u32::from_le_bytes(count.try_into().ok()?),
        frame: bytes[at::FRAME] != 0,
        selected: bytes[at::SELECTED] != 0,
        mark: bytes[at::MARK] != 0,
        captured: bytes[at::CAPTURED],
        slot: bytes[at::SLOT],
        held: bytes[at::HELD] != 0,
        gone: get(bytes, at::GONE),
        sending: get(bytes, at::SENDING),
        receiving: get(bytes, at::RECEIVING),
        pins: [bytes[at::PINS], bytes[at::PINS + 1], bytes[at::PINS + 2]],
        lines: bytes[at::LINES],
        tx: get_queue(bytes, at::TX, bytes[at::TX_COUNT])?,
        rx: get_queue(bytes, at::RX, bytes[at::RX_COUNT])?,
    })
}

/// Soundness of the numbers; the queues are sound by their type.
fn sound(device: &Device) -> bool {
    let settings = (device.cr0 == 0 || permitted(device.cr0))
        && device.cpsr % 2 == 0
        && device.cr1 <= 15
        && device.imsc <= 15
        && device.dmacr <= 3;
    let levels = device.pins.iter().all(|pins| *pins <= 7) && device.lines <= 15;
    let engine = if device.active() { sound_active(device) } else { sound_at_rest(device) };
    settings && levels && engine && sound_count(device)
}

/// The RT count goes by SSE itself, also in a frame that ends without it.
fn sound_count(device: &Device) -> bool {
    if device.enabled() {
        device.rt_count < device.timeout()
    } else {
        device.rt_count == 0
    }
}

fn sound_active(device: &Device) -> bool {
    permitted(device.cr0)
        && device.cpsr != 0
        && device.slot <= device.last_slot()
        && u32::from(device.gone) < device.slot_cycles()
        && device.captured <= device.incoming_bits()
}

fn sound_at_rest(device: &Device) -> bool {
    !(device.frame || device.selected || device.mark)
        && device.slot == 0
        && device.gone == 0
        && device.captured == 0
}
