//! Where reading starts: the promises, and the contracts of the functions that are called or run from
//! outside.

use crate::repository::{Item, Repository};

/// What is promised. Of a file with no names behind it all that stands in it, of another what is named.
const PROMISED: [(&str, &[&str]); 10] = [
    (
        "crates/answer/specs/laws/Table.antt",
        &["never-retired", "sent-by", "sent-only"],
    ),
    ("crates/collector/specs/laws/Outcome.antt", &[]),
    ("crates/history/specs/Promise.antt", &[]),
    ("crates/history/specs/Ours.antt", &[]),
    ("crates/history/specs/laws/Promises.antt", &[]),
    (
        "crates/queries/specs/laws/Theorems.antt",
        &["name-told", "core-shown", "find-lowest", "find-nobody"],
    ),
    (
        "crates/yovtirak/specs/laws/Reaches.antt",
        &[
            "words-reached",
            "returned-reached",
            "counts-reached",
            "finished-there",
        ],
    ),
    (
        "crates/yovtirak/specs/laws/Retired.antt",
        &["opened-never", "returned-never"],
    ),
    (
        "crates/yovtirak/specs/laws/Told.antt",
        &["taken-told", "missing-told", "address-there"],
    ),
    ("crates/listing/specs/laws/Theorems.antt", &["lines-done"]),
];

/// The file whose own words the promises are.
pub const WORDS: &str = "crates/history/specs/Promise.antt";

/// The crates whose public functions are called from outside. What a listing writes has no contract
/// but that of the crates which read its lines and lay them out, so theirs count too.
const CALLED: [&str; 8] = [
    "wire",
    "collector",
    "queries",
    "lent_calls",
    "yovtirak",
    "listing_input",
    "listing_output",
    "comparison",
];

/// The programs: `main` is run, and what it calls of its own says what comes of it.
const RUN: [&str; 2] = ["cases", "listing"];

fn all_of(repository: &Repository, path: &str) -> Result<Vec<Item>, String> {
    let file = repository.files.get(path);
    let file = file.ok_or_else(|| format!("{path}: it is not there, and should be read from"))?;
    Ok(file
        .entries
        .keys()
        .map(|name| Item::new(path, name))
        .collect())
}

fn promises(repository: &Repository) -> Result<Vec<Item>, String> {
    let mut roots = Vec::new();
    for (path, names) in PROMISED {
        let all = all_of(repository, path)?;
        for name in names {
            if !all.iter().any(|item| item.name == *name) {
                return Err(format!(
                    "{path}: `{name}` is not there, and should be read from"
                ));
            }
        }
        let is_root = |item: &Item| names.is_empty() || names.contains(&item.name.as_str());
        roots.extend(all.into_iter().filter(is_root));
    }
    Ok(roots)
}

fn contracts(repository: &Repository) -> Result<Vec<Item>, String> {
    let mut roots = Vec::new();
    let paths = repository.files.keys().filter(|path| path.ends_with(".rt"));
    for path in paths {
        let name = path.split('/').nth(1).unwrap_or("");
        let (is_called, is_run) = (CALLED.contains(&name), RUN.contains(&name));
        for item in all_of(repository, path)? {
            let Some(function) = repository.entry(&item).and_then(|entry| entry.function) else {
                continue;
            };
            if is_called && function.is_public && !function.ensures {
                return Err(format!(
                    "{path}: {} is called from outside and has no contract",
                    item.name
                ));
            }
            if (is_called && function.is_public) || (is_run && function.ensures) {
                roots.push(item);
            }
        }
    }
    Ok(roots)
}

/// All roots.
pub fn all(repository: &Repository) -> Result<Vec<Item>, String> {
    let mut roots = promises(repository)?;
    roots.extend(contracts(repository)?);
    Ok(roots)
}

/// The promises' own words alone.
pub fn words(repository: &Repository) -> Result<Vec<Item>, String> {
    all_of(repository, WORDS)
}
