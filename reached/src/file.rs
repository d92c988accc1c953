//! What is kept of a file, of definitions or of code: its entries, and what it brings in from others.

use crate::tokens::Token;
use std::collections::{BTreeMap, BTreeSet};

/// A piece of an entry's text.
#[derive(Clone, Debug)]
pub enum Part {
    /// Parameters, which all later pieces see.
    Binders(Vec<Token>),
    /// A field or an argument: its type, and its name, which all later pieces see.
    Field(Vec<String>, Vec<Token>),
    /// A signature, a constructor's or a contract.
    Statement(Vec<Token>),
    /// A clause of a function: patterns, `=` and a term.
    Clause(Vec<Token>),
}

/// A definition, a law, a declared type or constant, or a function's contract.
#[derive(Clone, Debug, Default)]
pub struct Entry {
    /// It is a law: what it says counts where it is asked for, and never its proof.
    pub law: bool,
    pub parts: Vec<Part>,
    /// Its lines, with those of the comment right above it; of a law those of its statement.
    pub lines: BTreeSet<usize>,
    /// The constructors that go with it.
    pub variants: Vec<String>,
    /// What it is besides, if it is a function.
    pub function: Option<Function>,
}

#[derive(Clone, Copy, Debug)]
pub struct Function {
    pub is_public: bool,
    /// It says what it returns and leaves.
    pub ensures: bool,
}

/// A line that brings something in from another file.
#[derive(Clone, Debug)]
pub struct Import {
    pub module: Vec<String>,
    /// What of the module; nothing where the module itself gets a name.
    pub item: Option<String>,
    pub name: String,
}

/// The crate whose `specs/` a module is of, and its path there: `Rattle.CRATE.specs.Path`.
pub fn of_specs(module: &[String]) -> Option<(&str, &[String])> {
    match module {
        [library, crate_name, specs, inner @ ..] if library == "Rattle" && specs == "specs" => {
            Some((crate_name, inner))
        }
        _ => None,
    }
}

impl Import {
    /// The file of definitions or laws that it brings in, the project's or another's; nothing where that
    /// is a type that code declares.
    pub fn file(&self) -> Option<String> {
        let (crate_name, inner) = of_specs(&self.module)?;
        let is_file = inner.first()? != "declared";
        is_file.then(|| format!("crates/{crate_name}/specs/{}.antt", inner.join("/")))
    }
}

#[derive(Clone, Debug, Default)]
pub struct File {
    pub entries: BTreeMap<String, Entry>,
    pub imports: Vec<Import>,
    /// How many lines it has.
    pub length: usize,
}

/// The lines of a comment that stands right above a line.
pub fn comment_above(lines: &[&str], mark: &str, below: usize) -> BTreeSet<usize> {
    let is_comment = |number: &usize| lines[number - 1].trim_start().starts_with(mark);
    (1..below).rev().take_while(is_comment).collect()
}

/// The lines from one to another on which something stands.
pub fn filled(lines: &[&str], from: usize, to: usize) -> BTreeSet<usize> {
    (from..=to)
        .filter(|number| !lines[number - 1].trim().is_empty())
        .collect()
}
