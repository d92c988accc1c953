//! An edit that makes a program wrong, as its file tells it, and what it makes of a text.
//!
//! ```text
//! # why the program is then wrong
//! at: THEOREM
//! named: NAME NAME
//! file: src/lib.rt
//! in: FUNCTION
//! old: TEXT
//! new: TEXT
//! ```
//!
//! A line `file:` holds for what follows, and so does a line `in:` up to the next `file:`. Without `in:` the old
//! text must stand in the file exactly once, with it in that function, or in that definition, exactly once. A line
//! `at:` names the theorem that must be among what is refused. Several pairs of `old:` and `new:` are one edit. The
//! prover names the facts of a test after the test's text, so a proof cites `if-a-b` for `a < b`: a line `named:` has
//! the part of such names that an edit changes, as `a-b`, and what it becomes, and the changed function's proof is
//! changed alike. Else it would be refused for its names alone.

use crate::source;
use std::ops::Range;

/// One text in the place of another.
#[derive(Clone, Debug, PartialEq)]
pub struct Change {
    pub file: String,
    /// The function or definition that the old text stands in.
    pub within: Option<String>,
    pub old: String,
    pub new: String,
}

#[derive(Clone, Debug, Default, PartialEq)]
pub struct Edit {
    pub name: String,
    /// The theorem that must be among what is refused.
    pub at: Option<String>,
    /// Parts of names that the proof of what is changed has, each with what it becomes.
    pub names: Vec<(String, String)>,
    pub changes: Vec<Change>,
}

impl Edit {
    /// Reads an edit off the text of its file.
    pub fn read(name: &str, text: &str) -> Result<Edit, String> {
        let mut edit = Edit {
            name: name.into(),
            ..Edit::default()
        };
        let (mut file, mut within, mut old) = (None, None, None);
        for line in text.lines().filter(|line| !line.starts_with('#')) {
            let (word, rest) = line.split_once(':').unwrap_or((line, ""));
            let rest = rest.strip_prefix(' ').unwrap_or(rest);
            match word {
                "at" => edit.at = Some(rest.to_string()),
                "file" => (file, within) = (Some(rest.to_string()), None),
                "named" => {
                    let (old, new) = rest.split_once(' ').ok_or("two names are not told")?;
                    edit.names.push((old.to_string(), new.to_string()));
                }
                "in" => within = Some(rest.to_string()),
                "old" if old.is_none() => old = Some(rest.to_string()),
                "new" => edit.changes.push(Change {
                    file: file.clone().ok_or("no file is named before a text")?,
                    within: within.clone(),
                    old: old.take().ok_or("a new text has no old one")?,
                    new: rest.to_string(),
                }),
                _ => return Err(format!("a line that is not understood: {line}")),
            }
        }
        if old.is_some() || edit.changes.is_empty() {
            return Err("an old text has no new one".into());
        }
        Ok(edit)
    }
}

impl Change {
    /// Where the old text stands in the text of the file.
    pub fn place(&self, text: &str) -> Result<Range<usize>, String> {
        let (range, whose) = match &self.within {
            None => (0..text.len(), self.file.clone()),
            Some(name) => (
                source::only_item(&self.file, text, name)?,
                format!("{name} of {}", self.file),
            ),
        };
        let mut found = text[range.clone()].match_indices(&self.old);
        match (self.old.is_empty(), found.next(), found.next()) {
            (false, Some((at, _)), None) => {
                let start = range.start + at;
                Ok(start..start + self.old.len())
            }
            (false, Some(_), Some(_)) => Err(format!("the old text is in {whose} more than once")),
            _ => Err(format!("the old text is not in {whose}")),
        }
    }
}

/// The text of a proof with parts of names changed, where they stand between dashes or at a name's ends.
pub fn renamed(text: &str, names: &[(String, String)]) -> String {
    let is_of_name = |letter: char| letter.is_alphanumeric() || "_-'".contains(letter);
    let mut whole = String::new();
    let mut rest = text;
    while let Some(start) = rest.find(is_of_name) {
        whole += &rest[..start];
        rest = &rest[start..];
        let (name, after) = rest.split_at(
            rest.find(|letter| !is_of_name(letter))
                .unwrap_or(rest.len()),
        );
        whole += &of_parts(name, names);
        rest = after;
    }
    whole + rest
}

fn of_parts(name: &str, names: &[(String, String)]) -> String {
    let whole = format!("-{name}-");
    for (old, new) in names {
        if let Some((before, after)) = whole.split_once(&format!("-{old}-")) {
            let changed = format!("{before}-{new}-{after}");
            return changed.trim_matches('-').to_string();
        }
    }
    name.to_string()
}

/// The text of a file with each new text in its old one's place. All old texts are those of the file as it is.
pub fn applied(text: &str, changes: &[&Change]) -> Result<String, String> {
    let mut places = Vec::new();
    for change in changes {
        places.push((change.place(text)?, change.new.as_str()));
    }
    places.sort_by_key(|(place, _)| place.start);
    let mut whole = String::new();
    let mut passed = 0;
    for (place, new) in places {
        let between = text.get(passed..place.start);
        whole += between.ok_or("two old texts overlap")?;
        whole += new;
        passed = place.end;
    }
    Ok(whole + &text[passed..])
}
