//! sheet_model BANKFILE < input > output; without a name it reads `bank.bin`.

use std::io::{Read, Write};
use std::process::ExitCode;

fn run() -> std::io::Result<()> {
    let name = std::env::args_os()
        .nth(1)
        .unwrap_or_else(|| "bank.bin".into());
    let bank = std::fs::read(name)?;
    let mut input = Vec::new();
    std::io::stdin().lock().read_to_end(&mut input)?;
    std::io::stdout()
        .lock()
        .write_all(&model::sheet(&bank, &input))
}

fn main() -> ExitCode {
    match run() {
        Ok(()) => ExitCode::SUCCESS,
        Err(error) => {
            eprintln!("sheet_model: {error}");
            ExitCode::FAILURE
        }
    }
}
