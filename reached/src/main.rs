//! Counts the definitions that the promises and the contracts of the outside functions reach.
//!
//!     ./believed            file by file, bottom to top
//!     ./believed --names    each definition, with those that mention it
//!     ./believed --check    compares with the table in docs/LAYERS.md, and fails where they differ, where
//!                           definitions and laws do not stand apart, or where the promises' files are long
//!     ./believed --write    renews the numbers of that table
//!
//! A definition is an `abbrev`, an `unfoldable`, a record, a data type or a function to types; its text
//! is its signature with the parameters of the blocks that it stands in, its fields or constructors and
//! its clauses. All that a text mentions is reached, and what that mentions. A law is never followed;
//! where a definition mentions one, that is said, and is a fault. What a name means is read off the
//! file's own declarations and imports: one that is bound where it stands, by a pattern, a `λ`, a `let`,
//! a parameter, an argument or an earlier field, is no mention, nor is the label of a field. So the
//! count is exact but for one thing: a field that is taken (`.number`) mentions nothing by itself, as
//! the type that it belongs to is mentioned where the value comes from. A form of the language that is
//! not read ends the count with an error.

use reached::apart;
use reached::reach::{reach, Reached};
use reached::repository::Repository;
use reached::roots;
use reached::table::{counted, sum, Counted, Table};
use std::path::Path;
use std::{env, fs};

const DOCUMENT: &str = "docs/LAYERS.md";

fn read(path: &Path) -> Result<String, String> {
    fs::read_to_string(path).map_err(|why| format!("{}: {why}", path.display()))
}

/// The crates, bottom to top.
fn crates() -> Result<Vec<String>, String> {
    let text = read(Path::new("crates.txt"))?;
    let named = text.lines().filter(|line| !line.starts_with('#'));
    let names = named.filter_map(|line| line.split([' ', ':']).next());
    Ok(names
        .filter(|name| !name.is_empty())
        .map(String::from)
        .collect())
}

/// Every file of definitions and of code, with its text.
fn texts(crates: &[String]) -> Result<Vec<(String, String)>, String> {
    let mut texts = Vec::new();
    for name in crates {
        for (folder, kind) in [("specs", "antt"), ("specs/laws", "antt"), ("src", "rt")] {
            let folder = format!("crates/{name}/{folder}");
            let Ok(files) = fs::read_dir(&folder) else {
                continue;
            };
            for file in files {
                let path = file.map_err(|why| format!("{folder}: {why}"))?.path();
                if path.extension().is_some_and(|extension| extension == kind) {
                    texts.push((path.display().to_string(), read(&path)?));
                }
            }
        }
    }
    Ok(texts)
}

fn print_names(reached: &Reached) {
    for (item, by) in &reached.items {
        let by: Vec<_> = by.iter().map(|item| item.name.as_str()).collect();
        println!("{}: {} < {}", item.path, item.name, by.join(", "));
    }
}

fn print_counts(table: &Table) {
    for (path, row) in &table.rows {
        println!(
            "{path}: {} definitions, {} lines",
            row.definitions, row.lines
        );
    }
    for (name, all) in [
        ("all", sum(&table.rows)),
        ("the promises' own words", table.words),
        ("their files", table.files),
    ] {
        println!(
            "{name}: {} definitions, {} lines",
            all.definitions, all.lines
        );
    }
}

/// The files that must be open to read the promises: how many definitions stand in them, and how many
/// lines they have.
fn promises_files(repository: &Repository) -> Counted {
    let files = apart::brought_in(repository, roots::WORDS);
    let files = files.iter().map(|path| &repository.files[*path]);
    files.fold(Counted::default(), |sum, file| Counted {
        definitions: sum.definitions + file.entries.len(),
        lines: sum.lines + file.length,
    })
}

fn run(asked: &str) -> Result<(), String> {
    let crates = crates()?;
    let repository = Repository::new(&texts(&crates)?)?;
    let reached = reach(&repository, &roots::all(&repository)?)?;
    let words = reach(&repository, &roots::words(&repository)?)?;
    for (law, by) in &reached.laws {
        let by: Vec<_> = by
            .iter()
            .map(|item| format!("{} {}", item.path, item.name))
            .collect();
        eprintln!(
            "{}: the law `{}` is mentioned by {}",
            law.path,
            law.name,
            by.join(", ")
        );
    }
    let table = Table {
        rows: counted(&repository, &reached, &crates),
        words: sum(&counted(&repository, &words, &crates)),
        files: promises_files(&repository),
    };
    let faults = apart::faults(&repository, &reached);
    let document = Path::new(DOCUMENT);
    match asked {
        "" => print_counts(&table),
        "--names" => print_names(&reached),
        "--write" => {
            let written = table.written(&read(document)?)?;
            fs::write(document, written).map_err(|why| format!("{DOCUMENT}: {why}"))?;
        }
        "--check" => {
            let differ = table.differences(&read(document)?)?;
            for line in &differ {
                eprintln!("{DOCUMENT}: {line}");
            }
            for fault in &faults {
                eprintln!("{fault}");
            }
            if !differ.is_empty() {
                return Err(format!(
                    "{DOCUMENT} differs; ./believed --write renews its numbers"
                ));
            }
            if !faults.is_empty() {
                return Err("definitions and laws are not apart".into());
            }
            if table.files.lines >= apart::MOST {
                return Err(format!(
                    "the promises' files have {} lines or more",
                    apart::MOST
                ));
            }
        }
        _ => return Err("usage: ./believed [--names | --check | --write]".into()),
    }
    if reached.laws.is_empty() {
        Ok(())
    } else {
        Err("a definition mentions a law".into())
    }
}

fn main() {
    if let Err(why) = run(&env::args().nth(1).unwrap_or_default()) {
        eprintln!("believed: {why}");
        std::process::exit(1);
    }
}
