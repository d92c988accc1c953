//! Statements apart from laws: definitions stand in `specs/`, laws and theorems in `specs/laws/`, and the
//! first bring in nothing of the second, so that what must be believed can be read alone.

use crate::reach::Reached;
use crate::repository::Repository;
use std::collections::BTreeSet;

/// The most lines of all files that must be open to read the promises.
pub const MOST: usize = 2500;

fn is_of_laws(path: &str) -> bool {
    path.contains("/specs/laws/")
}

fn is_of_statements(path: &str) -> bool {
    path.contains("/specs/") && !is_of_laws(path)
}

/// Where a file of statements brings in a law's, has a law itself, or a reached definition is a law's
/// neighbour: a line for each.
pub fn faults(repository: &Repository, reached: &Reached) -> Vec<String> {
    let mut faults = Vec::new();
    let statements = repository
        .files
        .iter()
        .filter(|(path, _)| is_of_statements(path));
    for (path, file) in statements {
        let brought = file.imports.iter().filter_map(|import| import.file());
        for other in brought.filter(|other| is_of_laws(other)) {
            faults.push(format!("{path} brings in {other}"));
        }
        let laws = file.entries.iter().filter(|(_, entry)| entry.law);
        faults.extend(laws.map(|(name, _)| format!("{path} has the law `{name}`")));
    }
    for item in reached.items.keys().filter(|item| is_of_laws(&item.path)) {
        if repository.entry(item).is_some_and(|entry| !entry.law) {
            faults.push(format!("{} has the definition `{}`", item.path, item.name));
        }
    }
    faults.sort();
    faults.dedup();
    faults
}

/// A file, and all that it brings in, itself or by others.
pub fn brought_in<'a>(repository: &'a Repository, path: &str) -> BTreeSet<&'a str> {
    let mut all = BTreeSet::new();
    let mut left = vec![path.to_string()];
    while let Some(path) = left.pop() {
        let Some((path, file)) = repository.files.get_key_value(&path) else {
            continue;
        };
        if all.insert(path.as_str()) {
            left.extend(file.imports.iter().filter_map(|import| import.file()));
        }
    }
    all
}
