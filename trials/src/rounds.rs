//! Which edits are tried together. A proof sees no other function's body and no other theorem's proof, so edits of the
//! bodies of different functions, and of the statements of different theorems, can be made in one copy: each of these
//! must be refused for a fault of its own. A constant of the code counts as a part of the bodies that mention it. An
//! edit of anything else is tried alone.

use crate::edit::{Change, Edit};
use crate::source::{constants, functions, items, mentions, Item};
use std::collections::{BTreeMap, BTreeSet};
use std::ops::Range;

/// What a wrong program is to be refused at: any one of these functions, or this theorem.
pub type Marks = BTreeSet<String>;

/// The files of a crate, each with its text.
pub type Texts = BTreeMap<String, String>;

fn holds(whole: &Range<usize>, part: &Range<usize>) -> bool {
    whole.start <= part.start && part.end <= whole.end
}

/// What an edit changes, if that is only functions' bodies or the theorem that it names.
pub fn marks(edit: &Edit, texts: &Texts) -> Result<Option<Marks>, String> {
    let mut marks = Marks::new();
    let mut told = true;
    for change in &edit.changes {
        let text = texts
            .get(&change.file)
            .ok_or(format!("there is no {}", change.file))?;
        let place = change.place(text)?;
        let changed = match &edit.at {
            Some(at) => theorem(at, change, text, &place),
            None => bodies(change, text, &place, texts),
        };
        told = told && changed.is_some();
        marks.extend(changed.into_iter().flatten());
    }
    Ok(Some(marks).filter(|_| told))
}

fn theorem(at: &str, change: &Change, text: &str, place: &Range<usize>) -> Option<Marks> {
    let is_it = |item: &Item| item.path == at && holds(&item.whole, place);
    let found = items(&change.file, text).into_iter().find(is_it)?;
    Some(Marks::from([found.path]))
}

/// The function whose body has the place, or those whose bodies mention the constant that has it.
fn bodies(change: &Change, text: &str, place: &Range<usize>, texts: &Texts) -> Option<Marks> {
    if !change.file.ends_with(".rt") {
        return None;
    }
    let in_body = |item: &Item| holds(&item.body, place);
    if let Some(function) = functions(&change.file, text).into_iter().find(in_body) {
        return Some(Marks::from([function.path]));
    }
    let constant = constants(text).into_iter().find(in_body)?;
    users(&constant.path, texts)
}

/// The functions whose bodies mention a constant, itself or by way of other constants; nothing where it is mentioned
/// elsewhere, in a type or in a contract.
fn users(name: &str, texts: &Texts) -> Option<Marks> {
    let mut marks = Marks::new();
    let mut names = vec![name.to_string()];
    let mut next = 0;
    while let Some(name) = names.get(next).cloned() {
        next += 1;
        for (file, text) in texts.iter().filter(|(file, _)| file.ends_with(".rt")) {
            let (functions, constants) = (functions(file, text), constants(text));
            for at in mentions(text, &name) {
                let here = |item: &&Item| item.body.contains(&at);
                if let Some(function) = functions.iter().find(here) {
                    marks.insert(function.path.clone());
                } else {
                    let constant = constants.iter().find(here)?;
                    if !names.contains(&constant.path) {
                        names.push(constant.path.clone());
                    }
                }
            }
        }
    }
    Some(marks)
}

/// The edits in as few rounds as it takes, so that no two of a round change the same.
pub fn rounds<T>(edits: Vec<(T, Option<Marks>)>) -> Vec<Vec<T>> {
    let mut shared: Vec<(Marks, Vec<T>)> = Vec::new();
    let mut alone = Vec::new();
    for (edit, marks) in edits {
        let Some(marks) = marks else {
            alone.push(vec![edit]);
            continue;
        };
        let free = shared
            .iter_mut()
            .find(|(taken, _)| taken.is_disjoint(&marks));
        match free {
            Some((taken, round)) => {
                taken.extend(marks);
                round.push(edit);
            }
            None => shared.push((marks, vec![edit])),
        }
    }
    let shared = shared.into_iter().map(|(_, round)| round);
    shared.chain(alone).collect()
}
