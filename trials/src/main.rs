//! Tries the wrong programs of the crates. Each `crates/NAME/refused/*.edit` is made in a copy of its crate, and the
//! prover must refuse the copy.
//!
//!     ./refused           tries all
//!     ./refused NAME ..   tries those of the named crates
//!
//! What an edit's file says is told in `edit.rs`, which edits are tried together in `rounds.rs`, and what counts as
//! refused in `log.rs`. A crate's control is a copy in which nothing is wrong, only a comment more: it must be proved,
//! so that nothing is refused for the way in which it is tried.

use std::collections::VecDeque;
use std::path::{Path, PathBuf};
use std::process::Command;
use std::sync::Mutex;
use std::{env, fs, thread};
use trials::copies::{Crate, Workshop};
use trials::list::List;
use trials::trial::{rounds_of, tried, Said, Trial};

/// The kit that the crates are proved with: the folder of the one `rt` that is found as a command.
fn kit() -> Result<PathBuf, String> {
    let path = env::var_os("PATH").unwrap_or_default();
    let mut found = env::split_paths(&path).map(|folder| folder.join("rt"));
    let rt = found.find(|file| file.is_file()).ok_or("there is no rt")?;
    let rt = fs::canonicalize(&rt).map_err(|why| format!("{}: {why}", rt.display()))?;
    let kit = rt.parent().and_then(Path::parent);
    Ok(kit.ok_or("rt lies in no kit")?.to_path_buf())
}

/// Has `rt` do its work in a crate's folder.
fn rt(list: &List, name: &str, verb: &str) -> Result<(), String> {
    let mut command = Command::new("rt");
    command.arg(verb).current_dir(list.folder(name));
    let output = command.output().map_err(|why| format!("rt: {why}"))?;
    if output.status.success() {
        return Ok(());
    }
    print!("{}", String::from_utf8_lossy(&output.stdout));
    Err(format!("{name} is not proved as it is"))
}

/// Builds the libraries that crates stand on, where they are not yet built, and checks the crates of which nothing
/// checked is kept.
fn prepare(list: &List, names: &[String]) -> Result<(), String> {
    let is_below = |name: &str| names.iter().any(|one| list.below(one).contains(&name));
    for name in &list.names {
        if is_below(name) {
            rt(list, name, "lib")?;
        }
        if names.contains(name) && !list.kept(name).is_dir() {
            rt(list, name, "check")?;
        }
    }
    Ok(())
}

/// The crates that have edits, top to bottom: the higher a crate stands, the longer its checks take.
fn with_edits(list: &List) -> Vec<String> {
    let has_edits = |name: &&String| list.folder(name).join("refused").is_dir();
    list.names.iter().filter(has_edits).cloned().rev().collect()
}

fn print(said: &Said) {
    println!("{}", said.line);
}

/// Makes all trials on all processors, and counts what passed and what failed.
fn all_tried(workshop: &Workshop, trials: VecDeque<(&Crate, Trial)>) -> (usize, usize) {
    let left = Mutex::new(trials);
    let counted = Mutex::new((0, 0));
    let work = || loop {
        let next = left.lock().unwrap().pop_front();
        let Some((of, trial)) = next else { break };
        let lines =
            tried(workshop, of, &trial).unwrap_or_else(|why| vec![Said::failure(&of.name, &why)]);
        let mut counted = counted.lock().unwrap();
        for said in &lines {
            print(said);
            if said.passed {
                counted.0 += 1;
            } else {
                counted.1 += 1;
            }
        }
    };
    let processors = thread::available_parallelism().map_or(1, usize::from);
    thread::scope(|scope| {
        for _ in 0..processors {
            scope.spawn(work);
        }
    });
    let result = *counted.lock().unwrap();
    result
}

fn run(names: Vec<String>) -> Result<bool, String> {
    let root = env::current_dir().map_err(|why| why.to_string())?;
    let list = List::read(&root, &kit()?)?;
    let names = if names.is_empty() {
        with_edits(&list)
    } else {
        names
    };
    prepare(&list, &names)?;
    let crates = names.iter().map(|name| Crate::read(&list, name));
    let crates = crates.collect::<Result<Vec<_>, _>>()?;
    let workshop = Workshop::new(&root, list)?;
    // The controls come first: where much of a crate has to be checked, no round then waits for it.
    let mut queue: VecDeque<_> = crates.iter().map(|of| (of, Trial::Control)).collect();
    let mut failed = 0;
    for of in &crates {
        let (rounds, unfit) = rounds_of(of);
        queue.extend(rounds.into_iter().map(|round| (of, round)));
        unfit.iter().for_each(print);
        failed += unfit.len();
    }
    let (passed, more) = all_tried(&workshop, queue);
    workshop.clear(&crates);
    failed += more;
    println!("{passed} passed, {failed} failed");
    Ok(failed == 0)
}

fn main() {
    match run(env::args().skip(1).collect()) {
        Ok(true) => {}
        Ok(false) => std::process::exit(1),
        Err(why) => {
            println!("refused: {why}\n0 passed, 1 failed");
            std::process::exit(1);
        }
    }
}
