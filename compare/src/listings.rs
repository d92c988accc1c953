//! The listing program against the independent listing: random histories of lines handed to both,
//! and every byte that they write compared.

use independent::listing::{self, ANSWERS};
use independent::random::{histories, Random};
use std::collections::BTreeMap;
use std::io::Write;
use std::path::PathBuf;
use std::process::{Command, Stdio};
use std::thread;

const SEED: u64 = 301_234;
const HISTORIES: u64 = 400;
const LINES: usize = 80;

/// What the proved program writes for this input.
fn proved(input: &[u8]) -> Result<Vec<u8>, String> {
    let top = PathBuf::from(env!("CARGO_MANIFEST_DIR")).join("..");
    let program = top.join("crates/listing/out/listing");
    let mut child = Command::new(&program)
        .stdin(Stdio::piped())
        .stdout(Stdio::piped())
        .spawn()
        .map_err(|error| format!("{}: {error}", program.display()))?;
    let mut stdin = child.stdin.take().expect("standard input is piped");
    let input = input.to_vec();
    let writer = thread::spawn(move || stdin.write_all(&input));
    let output = child
        .wait_with_output()
        .map_err(|error| error.to_string())?;
    writer
        .join()
        .expect("the writer ends")
        .map_err(|error| error.to_string())?;
    Ok(output.stdout)
}

/// Whether a line tells what the sender says of repeats, and not three times the same.
fn tells_of_repeats(line: &str) -> bool {
    let fields: Vec<&str> = line.split(' ').collect();
    matches!(fields[..], [.., index, continuity, count] if index != continuity || continuity != count)
}

pub fn run() -> Result<String, String> {
    let mut tally: BTreeMap<String, usize> = BTreeMap::new();
    let (mut lines, mut telling) = (0, 0);
    for history in 0..HISTORIES {
        let input = histories::listing(&mut Random::from_seed(SEED + history), LINES);
        let ours = proved(&input)?;
        let mut theirs = Vec::new();
        listing::run(&input[..], &mut theirs).map_err(|error| error.to_string())?;
        if ours != theirs {
            return Err(format!(
                "history {history}:\n{}\nnot\n{}",
                String::from_utf8_lossy(&ours),
                String::from_utf8_lossy(&theirs)
            ));
        }
        for line in String::from_utf8_lossy(&ours).lines() {
            let answer = line.split(' ').nth(1).unwrap_or_default();
            if ANSWERS.contains(&answer) {
                *tally.entry(answer.to_string()).or_default() += 1;
                lines += 1;
                telling += usize::from(tells_of_repeats(line));
            }
        }
    }
    let missing: Vec<_> = ANSWERS
        .into_iter()
        .filter(|answer| !tally.contains_key(*answer))
        .collect();
    if !missing.is_empty() {
        return Err(format!("never given: {missing:?}"));
    }
    if telling < 5_000 {
        return Err(format!("only {telling} lines tell of repeats"));
    }
    Ok(format!(
        "{HISTORIES} histories, {lines} lines compared {tally:?}, {telling} of them with indices and a count that \
         are not all the same"
    ))
}
