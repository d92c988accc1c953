//! What the prover said of a crate: whether it is proved, and if not, what is at fault and why.

use crate::copies::CITES;
use crate::source::function_of_proof;
use std::collections::BTreeMap;

/// Why something is refused.
#[derive(Clone, Copy, Debug, PartialEq, Eq, PartialOrd, Ord)]
pub enum Why {
    /// Only what it calls or cites is refused.
    Rests,
    /// No proof was found of a goal that its proof does not speak of.
    Open,
    /// Only that its proof no longer goes along with the code: what it names is not there.
    Shape,
    /// A fact does not hold, or what was its proof is none.
    Fact,
}

/// What came of a check.
#[derive(Clone, Debug, PartialEq)]
pub enum Verdict {
    Proved,
    /// All that is refused, functions by their paths and theorems by their names.
    Refused(BTreeMap<String, Why>),
    /// The prover said neither.
    Neither,
}

/// Reads what the check of a crate, or of a part of it, printed before it ended with a status. What the prover says of
/// a line of the code is told of the function that has this line in this file.
pub fn verdict(
    name: &str,
    status: Option<i32>,
    log: &str,
    at_line: impl Fn(&str, usize) -> Option<String>,
) -> Verdict {
    let says = |start| log.lines().any(|line: &str| line.starts_with(start));
    match status {
        Some(0) if says("logic=proved") || says("only=") => Verdict::Proved,
        Some(1) if says("logic=not-proved") || says("only=") => {
            let mut refused = BTreeMap::new();
            for (at, why) in messages(log)
                .iter()
                .flat_map(|said| faults(name, said, &at_line))
            {
                let known = refused.entry(at).or_insert(why);
                *known = why.max(*known);
            }
            Verdict::Refused(refused)
        }
        _ => Verdict::Neither,
    }
}

/// What was said, each message with the indented lines below it.
fn messages(log: &str) -> Vec<String> {
    let mut messages: Vec<String> = Vec::new();
    for line in log.lines() {
        match messages.last_mut() {
            Some(last) if line.starts_with("  ") => last.extend(["\n", line]),
            _ => messages.push(line.into()),
        }
    }
    messages
}

fn faults(
    name: &str,
    said: &str,
    at_line: impl Fn(&str, usize) -> Option<String>,
) -> Vec<(String, Why)> {
    if let Some(rest) = said.strip_prefix(&format!("fn {name}::")) {
        return unproved(rest).into_iter().collect();
    }
    if let Some((place, goal)) = said.split_once(": it is not proved that ") {
        let place = place.trim_start_matches("note: ").trim_start_matches("./");
        let mut parts = place.split(':');
        let (file, line) = (
            parts.next(),
            parts.next().and_then(|line| line.parse().ok()),
        );
        let function = file.zip(line).and_then(|(file, line)| at_line(file, line));
        let why = if goal.contains("at which this goal is false") {
            Why::Fact
        } else {
            Why::Open
        };
        return function.map(|at| (at, why)).into_iter().collect();
    }
    errors(said)
}

/// A function for which the prover finds no proof.
fn unproved(rest: &str) -> Option<(String, Why)> {
    let (path, said) = rest.split_once(": no proof")?;
    let why = if said.contains("`search` did not prove") {
        Why::Open
    } else if said.starts_with(": it calls ") {
        Why::Rests
    } else {
        Why::Shape
    };
    Some((path.replace("::", "/"), why))
}

/// An error in a proof, or in a definition or theorem, or what was not checked for another's sake. Errors of other
/// crates have other paths.
fn errors(said: &str) -> Vec<(String, Why)> {
    let Some((place, said)) = said.split_once(": error: ") else {
        return Vec::new();
    };
    let file = place.strip_prefix("./").unwrap_or(place);
    let file = file.split(':').next().unwrap_or_default();
    let Some((folder, _)) = file.rsplit_once('/') else {
        return Vec::new();
    };
    let of = |declared: &str| function_of_proof(folder).unwrap_or(declared.to_string());
    if !folder.starts_with("proofs") && !folder.starts_with("specs") {
        return Vec::new();
    }
    if let Some((cause, left)) = said.split_once(" not checked: ") {
        let names = left.lines().next().unwrap_or_default();
        let names = names.split(" and ").flat_map(|part| part.split(", "));
        let names = names.filter(|name| !name.ends_with(" more"));
        let names = names.filter_map(|name| name.split(' ').next());
        let cause = cause.split('`').nth(1).map(str::to_string);
        let found = names.map(of).chain(cause);
        return found.map(|name| (name, Why::Rests)).collect();
    }
    if file == format!("specs/{}.antt", CITES.0) {
        return Vec::new();
    }
    let declared = said
        .strip_prefix('`')
        .and_then(|rest| rest.split_once("`: "));
    let (at, why) = match declared {
        Some((at, why)) => (at, why),
        // What can't be read has no name.
        None => return vec![(of(file), Why::Shape)],
    };
    let why = if why.contains(" was not admitted") {
        Why::Rests
    } else if is_of_shape(why) {
        Why::Shape
    } else {
        Why::Fact
    };
    vec![(of(at), why)]
}

/// Whether an error says only that a name is not there, so that a proof does not go along with the code, or a text
/// can't be read.
fn is_of_shape(said: &str) -> bool {
    let lacks = [
        "` is not in scope",
        " has no field `",
        " has no `",
        " can be named from here",
        " cannot be named here",
        " is no name",
        "operand is missing",
        "expected the end",
        "cannot continue",
    ];
    let first = said.lines().next().unwrap_or_default();
    let shown = first.replace("is not in scope here, so what is shown", "");
    lacks.iter().any(|part| shown.contains(part))
}
