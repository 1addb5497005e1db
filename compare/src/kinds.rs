//! A value for each format and role.

use crate::device::{Device, Format};
use std::fmt;

/// By format, then master and slave.
#[derive(Clone, Copy, Default)]
pub struct Kinds<T>([[T; 2]; 3]);

const FORMATS: [&str; 3] = ["Motorola", "TI", "Microwire"];
const ROLES: [&str; 2] = ["master", "slave"];

impl<T> Kinds<T> {
    pub fn of(&self, format: usize, slave: bool) -> &T {
        &self.0[format][usize::from(slave)]
    }

    pub fn of_device(&mut self, device: &Device) -> &mut T {
        let format = match device.format() {
            Format::Motorola => 0,
            Format::Ti => 1,
            Format::Microwire => 2,
        };
        &mut self.0[format][usize::from(device.slave())]
    }

    pub fn iter(&self) -> impl Iterator<Item = &T> {
        self.0.iter().flatten()
    }
}

impl<T: fmt::Display> fmt::Display for Kinds<T> {
    fn fmt(&self, f: &mut fmt::Formatter) -> fmt::Result {
        let names = FORMATS.iter().flat_map(|format| ROLES.map(|role| format!("{format} {role}")));
        let parts: Vec<String> =
            names.zip(self.iter()).map(|(name, value)| format!("{name} {value}")).collect();
        write!(f, "{}", parts.join("; "))
    }
}
