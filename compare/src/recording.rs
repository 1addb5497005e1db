//! A master's recording, from enabling to its last idle slot.

use crate::command::digits;
use crate::device::offset::{CPSR, CR0, CR1, DR};
use crate::device::Device;

const SSE: u32 = 2;

/// One upper-case digit a cycle; `-` if there is no word to send.
pub fn record_master(cr0: u32, cpsr: u32, words: &[u32]) -> Result<String, u32> {
    let mut device = enabled_master(cr0, cpsr, words)?;
    Ok(digits(&lines_to_rest(&mut device)).to_uppercase())
}

/// A master with these words preloaded, enabled; or the refusal of the first write that fails.
pub fn enabled_master(cr0: u32, cpsr: u32, words: &[u32]) -> Result<Device, u32> {
    let mut device = Device::reset();
    device.write(CR0, cr0)?;
    device.write(CPSR, cpsr)?;
    for word in words {
        device.write(DR, *word)?;
    }
    device.write(CR1, SSE)?;
    Ok(device)
}

/// No slot is left of an enabled master.
pub fn is_over(device: &Device) -> bool {
    !device.busy() && device.at_rest()
}

/// Runs an enabled master until no slot is left, its pins LOW.
pub fn lines_to_rest(device: &mut Device) -> Vec<u8> {
    let mut lines = Vec::new();
    while !is_over(device) {
        lines.push(device.cycle(0).lines);
    }
    lines
}
