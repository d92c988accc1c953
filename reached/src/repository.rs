//! All files, and what a name in one of them means.

use crate::file::{of_specs, Entry, File, Import};
use crate::reader::Reader;
use crate::{sources, specs};
use std::collections::{BTreeMap, BTreeSet, HashMap};

/// An entry of a file.
#[derive(Clone, Debug, PartialEq, Eq, PartialOrd, Ord)]
pub struct Item {
    pub path: String,
    pub name: String,
}

impl Item {
    pub fn new(path: &str, name: &str) -> Item {
        Item {
            path: path.into(),
            name: name.into(),
        }
    }
}

/// What a name means: an entry, or a constructor that goes with it.
#[derive(Clone, Debug)]
pub struct Meaning {
    pub item: Item,
    pub is_variant: bool,
}

#[derive(Default)]
struct Scope {
    names: HashMap<String, Meaning>,
    /// Modules that were brought in under a name.
    modules: HashMap<String, Vec<String>>,
}

#[derive(Default)]
pub struct Repository {
    pub files: BTreeMap<String, File>,
    scopes: HashMap<String, Scope>,
}

impl Repository {
    /// Of files, each with its path from the root, `crates/NAME/specs/F.antt` or `crates/NAME/src/F.rt`,
    /// and its text.
    pub fn new(texts: &[(String, String)]) -> Result<Repository, String> {
        let mut all = Repository::default();
        for (path, text) in texts {
            let parse = if path.ends_with(".rt") {
                sources::parse
            } else {
                specs::parse
            };
            let mut file = parse(text).map_err(|why| format!("{path}: {why}"))?;
            file.length = text.lines().count();
            all.files.insert(path.clone(), file);
        }
        let mut scopes = HashMap::new();
        for path in all.files.keys() {
            let scope = all.scope(path).map_err(|why| format!("{path}: {why}"))?;
            scopes.insert(path.clone(), scope);
        }
        all.scopes = scopes;
        Ok(all)
    }

    pub fn entry(&self, item: &Item) -> Option<&Entry> {
        self.files.get(&item.path)?.entries.get(&item.name)
    }

    /// A name that a file declares: an entry, or a constructor of one.
    fn declared_in(&self, path: &str, name: &str) -> Option<Meaning> {
        let file = self.files.get(path)?;
        let meaning = |entry: &String, is_variant| Meaning {
            item: Item::new(path, entry),
            is_variant,
        };
        if let Some((entry, _)) = file.entries.get_key_value(name) {
            return Some(meaning(entry, false));
        }
        let mut entries = file.entries.iter();
        let owner =
            entries.find(|(_, entry)| entry.variants.iter().any(|variant| variant == name))?;
        Some(meaning(owner.0, true))
    }

    /// A type or a constant that a crate's code declares.
    fn declared_by(&self, crate_name: &str, name: &str) -> Option<Meaning> {
        let folder = format!("crates/{crate_name}/src/");
        let mut paths = self.files.keys().filter(|path| path.starts_with(&folder));
        paths.find_map(|path| self.declared_in(path, name))
    }

    /// A crate of that name is one of the project's.
    fn has(&self, crate_name: &str) -> bool {
        let folder = format!("crates/{crate_name}/");
        self.files.keys().any(|path| path.starts_with(&folder))
    }

    /// What of a module a name means; nothing where the module is not one of the project's.
    fn of_module(&self, module: &[String], name: &str) -> Result<Option<Meaning>, String> {
        let missing = || format!("`{name}` is not found in `{}`", module.join("."));
        let Some((crate_name, inner)) = of_specs(module) else {
            return Ok(None);
        };
        if !self.has(crate_name) {
            return Ok(None);
        }
        match inner {
            [declared, inner @ ..] if declared == "declared" => {
                let is_variant = inner.last().is_some_and(|last| last == "TheVariants");
                let of = if is_variant {
                    &inner[..inner.len() - 1]
                } else {
                    inner
                };
                let of = of.last().ok_or_else(missing)?;
                let meaning = self.declared_by(crate_name, of).ok_or_else(missing)?;
                Ok(Some(Meaning {
                    is_variant,
                    ..meaning
                }))
            }
            _ => {
                let path = format!("crates/{crate_name}/specs/{}.antt", inner.join("/"));
                self.declared_in(&path, name).map(Some).ok_or_else(missing)
            }
        }
    }

    /// What code brings in with `use CRATE::NAME`; nothing where it is none of the project's types.
    fn of_crate(&self, import: &Import) -> Option<Meaning> {
        self.declared_by(import.module.first()?, import.item.as_ref()?)
    }

    fn scope(&self, path: &str) -> Result<Scope, String> {
        let file = &self.files[path];
        let is_code = path.ends_with(".rt");
        let mut scope = Scope::default();
        for import in &file.imports {
            let meaning = match &import.item {
                None => {
                    scope
                        .modules
                        .insert(import.name.clone(), import.module.clone());
                    None
                }
                Some(_) if is_code && import.module[0] != "Rattle" => self.of_crate(import),
                Some(item) => self.of_module(&import.module, item)?,
            };
            if let Some(meaning) = meaning {
                scope.names.insert(import.name.clone(), meaning);
            }
        }
        for (name, entry) in &file.entries {
            for declared in std::iter::once(name).chain(&entry.variants) {
                if let Some(meaning) = self.declared_in(path, declared) {
                    scope.names.insert(declared.clone(), meaning);
                }
            }
        }
        // An operator's words mean the operator.
        let is_operator = |name: &&String| name.contains('◌');
        let operators: Vec<String> = scope.names.keys().filter(is_operator).cloned().collect();
        for operator in operators {
            let meaning = scope.names[&operator].clone();
            for word in operator.split('◌').filter(|word| !word.is_empty()) {
                scope.names.entry(word.into()).or_insert(meaning.clone());
            }
        }
        Ok(scope)
    }

    /// What a name in a file means, alone or behind others with dots between them; nothing where it is
    /// none of the project's.
    pub fn meaning(&self, file: &str, path: &[String]) -> Result<Option<Meaning>, String> {
        let scope = &self.scopes[file];
        let (last, module) = path.split_last().ok_or("a name without words")?;
        if let [first, ..] = module {
            if let Some(brought) = scope.modules.get(first) {
                return self.of_module(brought, &path[1]);
            }
            if first == "Rattle" {
                return self.of_module(module, last);
            }
        }
        Ok(scope.names.get(&path[0]).cloned())
    }

    /// What an entry's text mentions; a law's, what its statement does.
    pub fn mentioned(&self, item: &Item) -> Result<BTreeSet<Item>, String> {
        let entry = self.entry(item);
        let entry = entry.ok_or_else(|| format!("{}: `{}` is not there", item.path, item.name))?;
        let mut reader = Reader::new(self, item);
        for part in &entry.parts {
            let read = reader.part(part);
            read.map_err(|why| format!("{}: {}: {why}", item.path, item.name))?;
        }
        reader.found.remove(item);
        Ok(reader.found)
    }
}
