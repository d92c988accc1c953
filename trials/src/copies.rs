//! Copies of a crate in which edits are made, each in a folder of its own, and checks of them. Such a check goes over
//! what the prover already checked of the crate as it is, so that only what an edit touches is checked again.

use crate::edit::{applied, renamed, Edit};
use crate::list::List;
use crate::log::{verdict, Verdict};
use crate::rounds::{Marks, Texts};
use crate::source::{functions, proof_folders, Item};
use std::collections::BTreeSet;
use std::fs::{self, File};
use std::io;
use std::path::{Path, PathBuf};
use std::process::Command;
use std::sync::OnceLock;

/// What the copy is called in which nothing is wrong.
pub const CONTROL: &str = "control";

/// The folders of a crate that the prover reads.
const PARTS: [&str; 3] = ["src", "specs", "proofs"];

/// The module of specs and the function of a copy that cite theorems, so that these alone are checked.
pub const CITES: (&str, &str) = ("Cites", "cites");

/// Where copies are made, over the repository with the crates.
pub struct Workshop {
    pub list: List,
    work: PathBuf,
}

/// A crate whose edits are tried.
pub struct Crate {
    pub name: String,
    pub edits: Vec<Edit>,
    /// Its code, specs and proofs.
    pub texts: Texts,
    /// What came of its control.
    control: OnceLock<Result<Verdict, String>>,
}

/// A copy of a crate.
pub struct Copy<'a> {
    list: &'a List,
    name: &'a str,
    place: PathBuf,
    /// What was checked of it, which a check goes over and adds to.
    checked: PathBuf,
}

/// What of a copy is checked.
#[derive(Clone, Debug, PartialEq)]
pub enum Scope {
    Whole,
    /// These functions, and what they call.
    Functions(Marks),
    /// These theorems, each its module's path and its name, the rest of their modules, and what they rest on.
    Theorems(BTreeSet<(String, String)>),
    /// These modules, each its path and a name to cite of it, and what they rest on.
    Modules(BTreeSet<(String, String)>),
}

fn told<T>(path: &Path, result: io::Result<T>) -> Result<T, String> {
    result.map_err(|why| format!("{}: {why}", path.display()))
}

/// What stands in a folder, in order; nothing where there is none.
fn entries(folder: &Path) -> Vec<PathBuf> {
    let Ok(found) = fs::read_dir(folder) else {
        return Vec::new();
    };
    let mut paths: Vec<_> = found.flatten().map(|entry| entry.path()).collect();
    paths.sort();
    paths
}

/// Puts each file of a folder below another, in a way.
fn put_all(from: &Path, to: &Path, way: fn(&Path, &Path) -> io::Result<()>) -> Result<(), String> {
    told(to, fs::create_dir_all(to))?;
    for path in entries(from) {
        let target = to.join(path.file_name().unwrap_or_default());
        if path.is_dir() {
            put_all(&path, &target, way)?;
        } else {
            told(&path, way(&path, &target))?;
        }
    }
    Ok(())
}

fn copy_file(from: &Path, to: &Path) -> io::Result<()> {
    fs::copy(from, to).map(drop)
}

/// Gives the file of a checked module a second name, where that can be. The prover never writes into such a file: it
/// puts another in its place. Other files are copied.
fn link_file(from: &Path, to: &Path) -> io::Result<()> {
    if from.extension().is_some_and(|kind| kind == "oantt") && fs::hard_link(from, to).is_ok() {
        return Ok(());
    }
    copy_file(from, to)
}

/// Reads all files below a folder.
fn read_all(folder: &Path, called: &str, texts: &mut Texts) -> Result<(), String> {
    for path in entries(folder) {
        let name = path.file_name().unwrap_or_default().to_string_lossy();
        let called = format!("{called}/{name}");
        if path.is_dir() {
            read_all(&path, &called, texts)?;
        } else {
            texts.insert(called, told(&path, fs::read_to_string(&path))?);
        }
    }
    Ok(())
}

impl Crate {
    /// A crate with the edits of its folder.
    pub fn read(list: &List, name: &str) -> Result<Crate, String> {
        let folder = list.folder(name);
        let mut edits = Vec::new();
        for path in entries(&folder.join("refused")) {
            let label = path.file_stem().unwrap_or_default().to_string_lossy();
            let text = told(&path, fs::read_to_string(&path))?;
            let edit = Edit::read(&label, &text);
            edits.push(edit.map_err(|why| format!("{}: {why}", path.display()))?);
        }
        let mut texts = Texts::new();
        for part in PARTS {
            read_all(&folder.join(part), part, &mut texts)?;
        }
        Ok(Crate {
            name: name.to_string(),
            edits,
            texts,
            control: OnceLock::new(),
        })
    }
}

impl Workshop {
    /// An empty workshop in the repository.
    pub fn new(root: &Path, list: List) -> Result<Workshop, String> {
        let work = root.join("target/refused");
        if work.exists() {
            told(&work, fs::remove_dir_all(&work))?;
        }
        Ok(Workshop { list, work })
    }

    /// A copy of a crate, over what the prover already checked of it.
    pub fn copy<'a>(&'a self, of: &'a Crate, label: &str) -> Result<Copy<'a>, String> {
        let place = self.work.join(&of.name).join(label);
        let checked = place.join("checked");
        put_all(&self.kept(of), &checked, link_file)?;
        self.over(of, place, checked)
    }

    /// Checks the control of a crate, once: a copy in which nothing is wrong, only a comment more. The crate's other
    /// copies go over what this check leaves, which itself goes over what is kept of the crate's last check.
    pub fn control(&self, of: &Crate) -> Result<Verdict, String> {
        let check = || {
            let kept = self.kept(of);
            put_all(&self.list.kept(&of.name), &kept, link_file)?;
            let place = self.work.join(&of.name).join(CONTROL);
            let copy = self.over(of, place, kept)?;
            copy.add(copy.root_file()?, |text| {
                format!("// A comment more.\n{text}")
            })?;
            let verdict = copy.check(&Scope::Whole)?;
            if verdict == Verdict::Proved {
                copy.clear();
            }
            Ok(verdict)
        };
        of.control.get_or_init(check).clone()
    }

    /// Where that stands which the copies of a crate go over.
    fn kept(&self, of: &Crate) -> PathBuf {
        self.work.join(&of.name).join("kept")
    }

    fn over<'a>(
        &'a self,
        of: &'a Crate,
        place: PathBuf,
        checked: PathBuf,
    ) -> Result<Copy<'a>, String> {
        for part in PARTS {
            let own = self.list.folder(&of.name).join(part);
            put_all(&own, &place.join(part), copy_file)?;
        }
        Ok(Copy {
            list: &self.list,
            name: &of.name,
            place,
            checked,
        })
    }

    /// Takes away what the copies of crates went over.
    pub fn clear(&self, crates: &[Crate]) {
        for of in crates {
            let _ = fs::remove_dir_all(self.kept(of));
        }
    }
}

impl Copy<'_> {
    fn put(&self, file: &str, text: &str) -> Result<(), String> {
        let path = self.place.join(file);
        told(&path, fs::write(&path, text))
    }

    fn add(&self, file: &str, change: impl Fn(&str) -> String) -> Result<(), String> {
        let path = self.place.join(file);
        self.put(file, &change(&told(&path, fs::read_to_string(&path))?))
    }

    /// The file of the crate's code that names the others.
    fn root_file(&self) -> Result<&'static str, String> {
        let is_there = |file: &&str| self.place.join(file).exists();
        let found = ["src/lib.rt", "src/main.rt"].into_iter().find(is_there);
        found.ok_or(format!("{} has no code", self.name))
    }

    /// Makes edits, each as if it were the only one.
    pub fn apply(&self, edits: &[&Edit]) -> Result<(), String> {
        let changes: Vec<_> = edits.iter().flat_map(|edit| &edit.changes).collect();
        let files: BTreeSet<_> = changes.iter().map(|change| &change.file).collect();
        for file in files {
            let here: Vec<_> = changes
                .iter()
                .copied()
                .filter(|change| change.file == *file)
                .collect();
            let path = self.place.join(file);
            let text = told(&path, fs::read_to_string(&path))?;
            self.put(file, &applied(&text, &here)?)?;
        }
        Ok(())
    }

    /// Changes names in the proofs of functions.
    pub fn rename(&self, functions: &Marks, names: &[(String, String)]) -> Result<(), String> {
        for function in functions {
            let folders = proof_folders(function).map(|folder| self.place.join(folder));
            for path in folders.iter().flat_map(|folder| entries(folder)) {
                if path.is_file() {
                    let text = told(&path, fs::read_to_string(&path))?;
                    told(&path, fs::write(&path, renamed(&text, names)))?;
                }
            }
        }
        Ok(())
    }

    /// Adds a function for whose sake modules are checked, and nothing else. Where these are theorems', a definition
    /// rests on each, as the prover does not name all that rests on what it refuses.
    fn cite(&self, cited: &BTreeSet<(String, String)>, are_theorems: bool) -> Result<(), String> {
        let (module, function) = CITES;
        let specs = format!("Rattle.{}", self.name);
        let mut uses = String::from("use Rattle.std.specs.Prelude.{ℕ}\n");
        let mut rests = String::from("\npub rest : {A : Type 0} → A → ℕ\nrest cited = 0\n");
        for (index, (path, name)) in cited.iter().enumerate() {
            uses += &format!("use {specs}.{path}.{{{name} as cited-{index}}}\n");
            if are_theorems {
                rests += &format!("\nrests-{index} : ℕ\nrests-{index} = rest cited-{index}\n");
            }
        }
        self.put(&format!("specs/{module}.antt"), &(uses + &rests))?;
        self.add("specs/Lib.antt", |text| format!("{text}pub mod {module}\n"))?;
        let text =
            format!("ghost use {specs}.specs.{module}.{{rest}};\n\npub fn {function}() {{}}\n");
        self.put(&format!("src/{function}.rt"), &text)?;
        self.add(self.root_file()?, |text| {
            format!("{text}\nmod {function};\n")
        })
    }

    /// Checks the copy, or a part of it.
    pub fn check(&self, scope: &Scope) -> Result<Verdict, String> {
        let mut words = self.list.words(self.name, self.root_file()?)?;
        words.extend(["--incremental".into(), self.checked.clone().into()]);
        let only = match scope {
            Scope::Whole => Marks::new(),
            Scope::Functions(functions) => functions.clone(),
            Scope::Theorems(cited) | Scope::Modules(cited) => {
                self.cite(cited, matches!(scope, Scope::Theorems(_)))?;
                Marks::from([format!("{}/{}", CITES.1, CITES.1)])
            }
        };
        for path in only {
            words.extend(["--only".into(), path.replace('/', "::").into()]);
        }
        let path = self.place.join("log");
        let file = told(&path, File::create(&path))?;
        let again = told(&path, file.try_clone())?;
        let prover = self.list.prover();
        let mut command = Command::new(&prover);
        command.args(words).current_dir(&self.place);
        let status = told(&prover, command.stdout(file).stderr(again).status())?;
        let log = told(&path, fs::read(&path))?;
        let log = String::from_utf8_lossy(&log);
        let at_line = |file: &str, line: usize| self.function_at(file, line);
        Ok(verdict(self.name, status.code(), &log, at_line))
    }

    /// The function that has a line of a file.
    fn function_at(&self, file: &str, line: usize) -> Option<String> {
        let text = fs::read_to_string(self.place.join(file)).ok()?;
        let start = text
            .split_inclusive('\n')
            .take(line - 1)
            .map(str::len)
            .sum();
        let found = functions(file, &text).into_iter();
        let mut with_line = found.filter(|function: &Item| function.whole.contains(&start));
        with_line.next().map(|function| function.path)
    }

    /// Takes all away but what the prover said.
    pub fn clear(&self) {
        for part in PARTS.into_iter().chain(["checked"]) {
            let _ = fs::remove_dir_all(self.place.join(part));
        }
    }
}
