//! The list of the crates, `crates.txt`, and the prover's words for a check of one of them, which are those of
//! `rt check`: what the crates below it are is read from what `rt lib` built of them.

use std::collections::BTreeMap;
use std::ffi::OsString;
use std::fs;
use std::path::{Path, PathBuf};

/// What the list says of a crate.
#[derive(Default)]
struct Line {
    is_static: bool,
    /// What it stands on: crates of the list, and libraries of the prover's kit.
    uses: Vec<String>,
}

/// The crates of a repository.
pub struct List {
    root: PathBuf,
    kit: PathBuf,
    lines: BTreeMap<String, Line>,
    /// The crates' names, bottom to top.
    pub names: Vec<String>,
}

impl List {
    /// The list of a repository whose crates are proved with a kit.
    pub fn read(root: &Path, kit: &Path) -> Result<List, String> {
        let path = root.join("crates.txt");
        let text = fs::read_to_string(&path).map_err(|why| format!("{}: {why}", path.display()))?;
        let mut list = List {
            root: root.to_path_buf(),
            kit: kit.to_path_buf(),
            lines: BTreeMap::new(),
            names: Vec::new(),
        };
        for line in text.lines().filter(|line| !line.starts_with('#')) {
            let Some((named, uses)) = line.split_once(':') else {
                continue;
            };
            let mut words = named.split_whitespace();
            let name = words.next().ok_or("crates.txt: a line with no name")?;
            let said = Line {
                is_static: words.any(|word| word == "staticlib"),
                uses: uses.split_whitespace().map(str::to_string).collect(),
            };
            list.names.push(name.to_string());
            list.lines.insert(name.to_string(), said);
        }
        Ok(list)
    }

    /// The crates that a crate stands on, each after those that it stands on itself.
    pub fn below(&self, name: &str) -> Vec<&str> {
        let mut found = Vec::new();
        for used in self.lines.get(name).map_or(&[][..], |line| &line.uses) {
            let Some((used, _)) = self.lines.get_key_value(used) else {
                continue;
            };
            for one in self.below(used).into_iter().chain([used.as_str()]) {
                if !found.contains(&one) {
                    found.push(one);
                }
            }
        }
        found
    }

    /// A crate's folder.
    pub fn folder(&self, name: &str) -> PathBuf {
        self.root.join("crates").join(name)
    }

    /// Where that is kept which was checked of a crate as it is.
    pub fn kept(&self, name: &str) -> PathBuf {
        self.folder(name).join("out/incremental")
    }

    /// The prover itself.
    pub fn prover(&self) -> PathBuf {
        self.kit.join("bin/rattle")
    }

    /// The words for a check of a crate, in a folder that holds its code, specs and proofs.
    pub fn words(&self, name: &str, root_file: &str) -> Result<Vec<OsString>, String> {
        let line = self.lines.get(name);
        let line = line.ok_or(format!("{name} is not listed"))?;
        let (listed, of_kit): (Vec<&String>, Vec<&String>) = line
            .uses
            .iter()
            .partition(|used| self.lines.contains_key(*used));
        let built = |name: &str| self.folder(name).join("out/rlib");
        let in_kit = self.kit.join("rlibs");
        let mut words: Vec<OsString> = ["check", "--crate-name", name, root_file, "--jobs", "1"]
            .map(OsString::from)
            .to_vec();
        let mut add = |flag: &str, start: &str, path: PathBuf| {
            let mut word = OsString::from(start);
            word.push(path);
            words.extend([flag.into(), word]);
        };
        for name in ["std"]
            .into_iter()
            .chain(of_kit.iter().map(|name| name.as_str()))
        {
            add(
                "--extern",
                &format!("{name}="),
                in_kit.join(format!("{name}.rlib")),
            );
        }
        add("-L", "dependency=", in_kit.clone());
        for name in listed {
            add(
                "--extern",
                &format!("{name}="),
                built(name).join(format!("{name}.rlib")),
            );
        }
        for name in self.below(name) {
            add("-L", "dependency=", built(name));
        }
        let logic = self.kit.join("rattle/logic/antt-project.json");
        add("--antt-project", "", logic);
        add("--logic-built", "", self.kit.join("logic_built"));
        words.extend(["--links".into(), format!("{name}=").into()]);
        if line.is_static {
            words.extend(["--crate-type".into(), "staticlib".into()]);
        }
        Ok(words)
    }
}
