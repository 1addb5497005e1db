//! A second, independent program for the PL022 serial port model, and the
//! harness that compares it with the proved one call by call.

pub mod bench;
pub mod calls;
pub mod cases;
pub mod command;
pub mod device;
pub mod difference;
pub mod fault;
pub mod frames;
pub mod judge;
pub mod kinds;
pub mod library;
pub mod model;
pub mod overruns;
pub mod ran;
pub mod random;
pub mod record;
pub mod recording;
pub mod script;
pub mod session;
pub mod stopped;
pub mod tally;
pub mod text;
pub mod verdicts;
