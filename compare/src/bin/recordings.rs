//! Prints a master's recording: record_lines CR0 CPSR [WORD ...], all hexadecimal.

use compare::recording::record_master;
use std::process::ExitCode;

fn parse(text: &str) -> Result<u32, String> {
    u32::from_str_radix(text, 16).map_err(|_| format!("not a hexadecimal number: {text}"))
}

fn recording(arguments: &[String]) -> Result<String, String> {
    let [cr0, cpsr, words @ ..] = arguments else {
        return Err("usage: record_lines CR0 CPSR [WORD ...]".to_string());
    };
    let words: Result<Vec<u32>, String> = words.iter().map(|word| parse(word)).collect();
    record_master(parse(cr0)?, parse(cpsr)?, &words?)
        .map_err(|number| format!("refused with {number}"))
}

fn main() -> ExitCode {
    let arguments: Vec<String> = std::env::args().skip(1).collect();
    match recording(&arguments) {
        Ok(digits) => {
            println!("{digits}");
            ExitCode::SUCCESS
        }
        Err(message) => {
            eprintln!("record_lines: {message}");
            ExitCode::from(2)
        }
    }
}
