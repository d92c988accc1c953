//! Runs the proved functions and the independent program on the same input and says how much was
//! compared. The word after the program's name says which comparison, a number after `collectors` how
//! many histories of it; whatever differs ends it with a status that is not zero.

mod collectors;
mod decision;
mod headers;
mod heads;
mod lent;
mod listings;
mod names;
mod progress;
mod proved;
mod readings;
mod states;

use std::process::ExitCode;

fn main() -> ExitCode {
    let asked = std::env::args().nth(1).unwrap_or_default();
    let few = std::env::args().nth(2).and_then(|count| count.parse().ok());
    let outcome = match asked.as_str() {
        "collectors" => collectors::run(few),
        "listings" => listings::run(),
        "readings" => readings::run(),
        "decision" => decision::run(),
        "headers" => headers::run(),
        "heads" => heads::run(),
        "names" => names::run(),
        "states" => states::run(),
        _ => Err("say which comparison: readings, decision, headers, collectors, states, names, heads or listings".to_string()),
    };
    match outcome {
        Ok(said) => {
            println!("{asked}: {said}");
            ExitCode::SUCCESS
        }
        Err(said) => {
            eprintln!("{asked}: {said}");
            ExitCode::FAILURE
        }
    }
}
