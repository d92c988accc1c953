//! What is reached, file by file, and the table of it in a document: the numbers are counted, and the
//! words beside them written by hand.

use crate::reach::Reached;
use crate::repository::Repository;
use std::collections::{BTreeMap, BTreeSet};

pub const START: &str = "<!-- Counted: ./believed --write -->";
pub const END: &str = "<!-- Counted so far -->";

/// What stands in place of words that are still to be written.
const UNSAID: &str = "?";

#[derive(Clone, Copy, Debug, Default, PartialEq)]
pub struct Counted {
    pub definitions: usize,
    /// The lines of these definitions, with the comments right above them.
    pub lines: usize,
}

impl Counted {
    fn cells(self) -> String {
        format!("{} | {}", self.definitions, self.lines)
    }
}

/// Each file of which something is reached, bottom to top.
pub fn counted(
    repository: &Repository,
    reached: &Reached,
    crates: &[String],
) -> Vec<(String, Counted)> {
    let mut lines: BTreeMap<&str, (usize, BTreeSet<usize>)> = BTreeMap::new();
    for item in reached.items.keys() {
        if let Some(entry) = repository.entry(item) {
            let (definitions, all) = lines.entry(&item.path).or_default();
            *definitions += 1;
            all.extend(&entry.lines);
        }
    }
    let count = |(path, (definitions, lines)): (&str, (usize, BTreeSet<usize>))| {
        let counted = Counted {
            definitions,
            lines: lines.len(),
        };
        (path.to_string(), counted)
    };
    let mut rows: Vec<_> = lines.into_iter().map(count).collect();
    let place = |path: &str| {
        crates
            .iter()
            .position(|name| Some(name.as_str()) == path.split('/').nth(1))
    };
    rows.sort_by_key(|(path, _)| (place(path), path.clone()));
    rows
}

pub fn sum(rows: &[(String, Counted)]) -> Counted {
    rows.iter()
        .fold(Counted::default(), |sum, (_, row)| Counted {
            definitions: sum.definitions + row.definitions,
            lines: sum.lines + row.lines,
        })
}

/// The table's rows: all that is reached, and at the end how much that is, how much of it the promises'
/// own words reach, and how long the files are that these bring in.
pub struct Table {
    pub rows: Vec<(String, Counted)>,
    pub words: Counted,
    pub files: Counted,
}

fn head() -> [String; 2] {
    [
        "| File | What it says | Definitions | Lines |".into(),
        "|---|---|---|---|".into(),
    ]
}

fn row(name: &str, said: &str, counted: Counted) -> String {
    format!("| {name} | {said} | {} |", counted.cells())
}

/// The name in the first cell of a row, and the words in the second.
fn cells(row: &str) -> Option<(&str, &str)> {
    let mut cells = row.strip_prefix("| ")?.split(" | ");
    Some((cells.next()?, cells.next()?))
}

impl Table {
    fn lines(&self, said: &BTreeMap<String, String>) -> Vec<String> {
        let words = |name: &str| said.get(name).map_or(UNSAID, String::as_str).to_string();
        let mut lines = head().to_vec();
        for (path, counted) in &self.rows {
            let name = format!("`{path}`");
            lines.push(row(&name, &words(&name), *counted));
        }
        let ends = [
            ("*all*", sum(&self.rows)),
            ("*the promises*", self.words),
            ("*their files*", self.files),
        ];
        lines.extend(ends.map(|(name, counted)| row(name, &words(name), counted)));
        lines
    }

    /// The document with this table in place of the one in it, whose words stay.
    pub fn written(&self, document: &str) -> Result<String, String> {
        let (before, old, after) = parts(document)?;
        let said = old
            .lines()
            .filter_map(cells)
            .map(|(name, said)| (name.into(), said.into()));
        let lines = self.lines(&said.collect()).join("\n");
        Ok(format!("{before}{START}\n\n{lines}\n\n{END}{after}"))
    }

    /// Where the document's table differs, a line for each place.
    pub fn differences(&self, document: &str) -> Result<Vec<String>, String> {
        let (_, old, _) = parts(document)?;
        let stands: Vec<&str> = old.lines().filter(|line| !line.is_empty()).collect();
        let said = stands.iter().filter_map(|row| cells(row));
        let said: BTreeMap<String, String> = said
            .map(|(name, said)| (name.into(), said.into()))
            .collect();
        let counted = self.lines(&said);
        let mut differ = Vec::new();
        for row in counted.iter().filter(|row| !stands.contains(&row.as_str())) {
            differ.push(format!("is counted and not in the table: {row}"));
        }
        for row in stands
            .iter()
            .filter(|row| !counted.iter().any(|other| other == *row))
        {
            differ.push(format!("is in the table and not counted: {row}"));
        }
        if differ.is_empty() && stands.iter().ne(counted.iter()) {
            differ.push("the table's rows are out of order, or one is there twice".into());
        }
        for (name, _) in said.iter().filter(|(_, words)| *words == UNSAID) {
            differ.push(format!("what {name} says is not said"));
        }
        Ok(differ)
    }
}

/// A document before the table, in its place, and after it.
fn parts(document: &str) -> Result<(&str, &str, &str), String> {
    let missing = || format!("a line `{START}` and one `{END}` are missing");
    let (before, rest) = document.split_once(START).ok_or_else(missing)?;
    let (table, after) = rest.split_once(END).ok_or_else(missing)?;
    Ok((before, table, after))
}
