//! Trials of a crate's edits, and its control.

use crate::copies::{Crate, Scope, Workshop, CONTROL};
use crate::edit::{renamed, Edit};
use crate::log::{Verdict, Why};
use crate::rounds::{marks, rounds, Marks, Texts};
use crate::source::{definitions, module, proof_folders};

/// What is tried in one copy.
pub enum Trial<'a> {
    /// Edits that are tried together, or one, each with what it changes if that can be told.
    Round(Vec<(&'a Edit, Option<Marks>)>),
    /// The crate with an edit that makes nothing wrong.
    Control,
}

/// What is said of an edit or of a control.
#[derive(Debug, PartialEq)]
pub struct Said {
    pub passed: bool,
    pub line: String,
}

impl Said {
    /// That a crate's trial could not be made.
    pub fn failure(name: &str, why: &str) -> Said {
        said(false, format!("{name}: {why}"))
    }
}

fn said(passed: bool, line: String) -> Said {
    Said { passed, line }
}

/// At what an edit is refused as it must be, or why it is not. Where it changes only functions' bodies, or the theorem
/// that it names, one of these must be at fault itself. Where it names a theorem and changes something else, that
/// theorem may also rest on what is at fault.
pub fn outcome(edit: &Edit, marks: &Option<Marks>, verdict: &Verdict) -> Result<String, String> {
    let refused = match verdict {
        Verdict::Refused(refused) => refused,
        Verdict::Proved => return Err("NOT REFUSED".into()),
        Verdict::Neither => return Err("NEITHER REFUSED NOR PROVED".into()),
    };
    let is_its_own = |at: &String| marks.as_ref().is_none_or(|marks| marks.contains(at));
    let own = || refused.iter().filter(|(at, _)| is_its_own(at));
    let of = |why| own().find(|(_, other)| **other == why).map(|(at, _)| at);
    let Some(fact) = of(Why::Fact).or_else(|| of(Why::Open)) else {
        return Err(match of(Why::Shape) {
            Some(at) => {
                format!("REFUSED ONLY FOR ITS SHAPE: the proof of {at} no longer fits the code")
            }
            None => "NOT REFUSED".into(),
        });
    };
    match &edit.at {
        Some(at) if !refused.contains_key(at) => Err(format!("NOT REFUSED at {at}")),
        Some(at) => Ok(at.clone()),
        None => Ok(fact.clone()),
    }
}

/// The rounds of a crate's edits, and what is said of edits that can't be made. Edits of theorems and of functions are
/// tried apart, as different parts of the copy are then checked.
pub fn rounds_of(of: &Crate) -> (Vec<Trial<'_>>, Vec<Said>) {
    let (mut of_theorems, mut others) = (Vec::new(), Vec::new());
    let mut unfit = Vec::new();
    for edit in &of.edits {
        let list = match &edit.at {
            Some(_) => &mut of_theorems,
            None => &mut others,
        };
        let found = marks(edit, &of.texts).and_then(|marks| {
            let lost = |name: &&(String, String)| !is_in_proof(name, &marks, &of.texts);
            match edit.names.iter().find(lost) {
                None => Ok(marks),
                Some((old, _)) => Err(format!("no proof of what it changes has the name {old}")),
            }
        });
        match found {
            Ok(marks) => list.push(((edit, marks.clone()), marks)),
            Err(why) => unfit.push(failed(of, edit, &format!("DOES NOT APPLY: {why}"))),
        }
    }
    let trials = rounds(of_theorems).into_iter().chain(rounds(others));
    (trials.map(Trial::Round).collect(), unfit)
}

/// Whether a proof of what an edit changes has a name that becomes another.
fn is_in_proof(name: &(String, String), marks: &Option<Marks>, texts: &Texts) -> bool {
    let changed = |text: &String| renamed(text, std::slice::from_ref(name)) != *text;
    let mut functions = marks.iter().flatten();
    functions.any(|function| {
        let folders = proof_folders(function).map(|folder| folder + "/");
        let is_its = |file: &str| folders.iter().any(|folder| file.starts_with(folder));
        let mut files = texts.iter().filter(|(file, _)| is_its(file));
        files.any(|(_, text)| changed(text))
    })
}

fn failed(of: &Crate, edit: &Edit, why: &str) -> Said {
    said(false, format!("{}/{}: {why}", of.name, edit.name))
}

fn refused(of: &Crate, edit: &Edit, at: &str) -> Said {
    said(
        true,
        format!("{}/{}: refused, as it must be ({at})", of.name, edit.name),
    )
}

/// Makes a trial, and says what came of each edit.
pub fn tried(workshop: &Workshop, of: &Crate, trial: &Trial) -> Result<Vec<Said>, String> {
    let is_proved = workshop.control(of)? == Verdict::Proved;
    match trial {
        Trial::Control if is_proved => {
            let line = format!("{}: control proved, as it must be", of.name);
            Ok(vec![said(true, line)])
        }
        Trial::Control => {
            let line = format!("{}: CONTROL NOT PROVED, {}", of.name, log(of, CONTROL));
            Ok(vec![said(false, line)])
        }
        Trial::Round(edits) if is_proved => round(workshop, of, edits),
        Trial::Round(edits) => Ok(edits
            .iter()
            .map(|(edit, _)| failed(of, edit, "NOT TRIED, as the control is not proved"))
            .collect()),
    }
}

/// Where it is kept what the prover said of a copy.
fn log(of: &Crate, label: &str) -> String {
    format!("as target/refused/{}/{label}/log tells", of.name)
}

fn specs(texts: &Texts) -> impl Iterator<Item = (&String, &String)> {
    let is_of_specs = |(file, _): &(&String, &String)| file.starts_with("specs/");
    texts.iter().filter(is_of_specs)
}

/// The names of a module of specs that other modules can cite, each with the module's path.
fn citable(file: &str, text: &str) -> impl Iterator<Item = (String, String)> {
    let is_plain = |letter: char| letter.is_alphanumeric() || letter == '-' || letter == '_';
    let path = module(file);
    let items = definitions(text).into_iter();
    let names = items.filter(|item| item.is_public).map(|item| item.path);
    names
        .filter(move |name| name.chars().all(is_plain))
        .map(move |name| (path.clone(), name))
}

/// What to cite of the module that has a theorem: the theorem itself, if that can be.
fn cited(texts: &Texts, theorem: &str) -> Option<(String, String)> {
    let has_it = |text: &str| definitions(text).iter().any(|item| item.path == theorem);
    let (file, text) = specs(texts).find(|(_, text)| has_it(text))?;
    let itself = citable(file, text).find(|(_, name)| name == theorem);
    itself.or_else(|| citable(file, text).next())
}

/// The parts of a copy that are checked for edits, one after the other until each edit is refused.
pub fn scopes(texts: &Texts, edits: &[(&Edit, Option<Marks>)]) -> Vec<Scope> {
    let theorem = |(edit, _): &(&Edit, Option<Marks>)| cited(texts, edit.at.as_ref()?);
    if let Some(theorems) = edits.iter().map(theorem).collect() {
        return vec![Scope::Theorems(theorems)];
    }
    let changed = |(edit, marks): &(&Edit, Option<Marks>)| match edit.at {
        Some(_) => None,
        None => marks.clone(),
    };
    if let Some(changed) = edits.iter().map(changed).collect::<Option<Vec<_>>>() {
        return vec![Scope::Functions(changed.into_iter().flatten().collect())];
    }
    let is_of_specs = |(edit, _): &(&Edit, Option<Marks>)| {
        let mut files = edit.changes.iter().map(|change| &change.file);
        edit.at.is_none() && files.all(|file| file.starts_with("specs/"))
    };
    if edits.iter().all(is_of_specs) {
        let all = specs(texts).filter_map(|(file, text)| citable(file, text).next());
        return vec![Scope::Modules(all.collect()), Scope::Whole];
    }
    vec![Scope::Whole]
}

/// Tries edits in one copy, and alone those that are not refused there.
fn round(
    workshop: &Workshop,
    of: &Crate,
    edits: &[(&Edit, Option<Marks>)],
) -> Result<Vec<Said>, String> {
    let [first, ..] = edits else {
        return Ok(Vec::new());
    };
    let alone = edits.len() == 1;
    let label = if alone {
        first.0.name.clone()
    } else {
        format!("with-{}", first.0.name)
    };
    let made: Vec<_> = edits.iter().map(|(edit, _)| *edit).collect();
    let mut verdict = Verdict::Proved;
    for scope in scopes(&of.texts, edits) {
        let copy = workshop.copy(of, &label)?;
        copy.apply(&made)?;
        for (edit, marks) in edits {
            copy.rename(marks.as_ref().unwrap_or(&Marks::new()), &edit.names)?;
        }
        verdict = copy.check(&scope)?;
        copy.clear();
        if edits
            .iter()
            .all(|(edit, marks)| outcome(edit, marks, &verdict).is_ok())
        {
            break;
        }
    }
    let mut lines = Vec::new();
    for (edit, marks) in edits {
        match outcome(edit, marks, &verdict) {
            Ok(at) => lines.push(refused(of, edit, &at)),
            Err(why) if alone => {
                lines.push(failed(of, edit, &format!("{why}, {}", log(of, &label))));
            }
            Err(_) => lines.extend(round(workshop, of, &[(edit, marks.clone())])?),
        }
    }
    Ok(lines)
}
