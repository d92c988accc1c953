//! Prints random input for the listing program: `histories SEED LINES`.

use independent::random::{histories, Random};
use std::io::{self, Write};
use std::process::ExitCode;

fn main() -> ExitCode {
    let arguments: Vec<String> = std::env::args().skip(1).collect();
    let numbers: Option<Vec<u64>> = arguments.iter().map(|each| each.parse().ok()).collect();
    let Some([seed, lines]) = numbers.as_deref() else {
        eprintln!("usage: histories SEED LINES");
        return ExitCode::FAILURE;
    };
    let text = histories::listing(&mut Random::from_seed(*seed), *lines as usize);
    match io::stdout().write_all(&text) {
        Ok(()) => ExitCode::SUCCESS,
        Err(error) => {
            eprintln!("histories: {error}");
            ExitCode::FAILURE
        }
    }
}
