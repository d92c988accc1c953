//! What stands where in a text: the functions of a file of code, the definitions and theorems of a file of specs.
//! It is read off the layout, which the gate holds every file to.

use std::ops::Range;

/// A function, definition or theorem of a file.
#[derive(Clone, Debug, PartialEq)]
pub struct Item {
    /// Its name, with the modules and the type that it belongs to before it, as `Collector/taken`.
    pub path: String,
    pub whole: Range<usize>,
    /// What no other proof sees: a function's body.
    pub body: Range<usize>,
    /// Whether a definition or theorem can be named by other modules.
    pub is_public: bool,
}

impl Item {
    pub fn name(&self) -> &str {
        self.path.rsplit('/').next().unwrap_or_default()
    }
}

/// A line with where it starts and how far it is indented.
struct Line<'a> {
    start: usize,
    indent: usize,
    text: &'a str,
}

fn lines(text: &str) -> Vec<Line<'_>> {
    let mut start = 0;
    let mut lines = Vec::new();
    for whole in text.split_inclusive('\n') {
        let line = whole.trim_end();
        let trimmed = line.trim_start();
        lines.push(Line {
            start,
            indent: line.len() - trimmed.len(),
            text: trimmed,
        });
        start += whole.len();
    }
    lines
}

fn end(lines: &[Line], index: usize) -> usize {
    lines[index].start + lines[index].indent + lines[index].text.len()
}

/// The word that follows another on a line, up to what no name has.
fn word_after<'a>(line: &'a str, before: &str) -> Option<&'a str> {
    let at = if line.starts_with(before) {
        before.len()
    } else {
        line.find(&format!(" {before}"))? + 1 + before.len()
    };
    line[at..]
        .split(|letter: char| !letter.is_alphanumeric() && letter != '_')
        .next()
        .filter(|word| !word.is_empty())
}

/// The type whose `impl` a line begins: `Lent` of `impl<'a> Lent<'a> {`.
fn type_of(line: &str) -> Option<&str> {
    let after = line.strip_prefix("impl")?;
    let named = match after.strip_prefix('<') {
        Some(parameters) => parameters.split_once('>')?.1,
        None => after,
    };
    word_after(named.strip_prefix(' ')?, "")
}

/// The modules that a file of code stands for.
fn modules(file: &str) -> Vec<String> {
    let inner = file.trim_start_matches("src/").trim_end_matches(".rt");
    inner
        .split('/')
        .filter(|part| !["lib", "main", "mod"].contains(part))
        .map(str::to_string)
        .collect()
}

/// The functions of a file of code. A function's body starts behind the line at its own indent that ends in a brace.
/// The tests, which stand last, are none: a check doesn't read them.
pub fn functions(file: &str, text: &str) -> Vec<Item> {
    let lines = lines(text);
    let mut found = Vec::new();
    let mut owner: Option<(usize, &str)> = None;
    for (first, line) in lines.iter().enumerate() {
        if line.text == "#[cfg(test)]" {
            break;
        }
        if line.text.starts_with("//") {
            continue;
        }
        if let Some(name) = type_of(line.text) {
            owner = Some((line.indent, name));
        } else if line.text == "}" && owner.is_some_and(|(indent, _)| indent == line.indent) {
            owner = None;
        }
        let Some(name) = word_after(line.text, "fn ") else {
            continue;
        };
        let at_indent =
            |(index, other): &(usize, &Line)| *index >= first && other.indent == line.indent;
        let mut own = lines.iter().enumerate().filter(at_indent);
        let Some((opened, _)) = own.by_ref().find(|(_, other)| other.text.ends_with('{')) else {
            continue;
        };
        let Some((closed, _)) = own.find(|(_, other)| other.text == "}") else {
            continue;
        };
        let mut path = modules(file);
        path.extend(owner.map(|(_, name)| name.to_string()));
        path.push(name.to_string());
        found.push(Item {
            path: path.join("/"),
            whole: line.start..end(&lines, closed),
            body: end(&lines, opened)..end(&lines, closed),
            is_public: false,
        });
    }
    found
}

/// The constants of a file of code.
pub fn constants(text: &str) -> Vec<Item> {
    let lines = lines(text);
    let mut found = Vec::new();
    for (first, line) in lines.iter().enumerate() {
        let declares = line.text.starts_with("const ") || line.text.starts_with("pub const ");
        let Some(name) = word_after(line.text, "const ").filter(|_| declares) else {
            continue;
        };
        let last = (first..lines.len()).find(|index| lines[*index].text.ends_with(';'));
        let stop = end(&lines, last.unwrap_or(first));
        found.push(Item {
            path: name.to_string(),
            whole: line.start..stop,
            body: line.start..stop,
            is_public: false,
        });
    }
    found
}

/// Where a name is mentioned in a file of code, but for comments and what brings it in.
pub fn mentions(text: &str, name: &str) -> Vec<usize> {
    let in_name = |letter: char| letter.is_alphanumeric() || letter == '_';
    let mut found = Vec::new();
    for line in lines(text) {
        if line.text.starts_with("//") || line.text.starts_with("use ") {
            continue;
        }
        for (at, _) in line.text.match_indices(name) {
            let before = line.text[..at].chars().next_back();
            let after = line.text[at + name.len()..].chars().next();
            if !before.is_some_and(in_name) && !after.is_some_and(in_name) {
                found.push(line.start + line.indent + at);
            }
        }
    }
    found
}

/// The name that a line of a file of specs gives a type or a clause to.
fn declared(line: &str) -> Option<&str> {
    let before = ["pub", "abbrev", "unfoldable", "data", "record"];
    line.split_whitespace()
        .find(|word| !before.contains(word))
        .filter(|word| !["use", "mod", "unfolding"].contains(word))
}

/// The definitions and theorems of a file of specs: the lines from the one that gives a name its type to the last of
/// its clauses. Nothing of it is a body, as another proof may see it whole.
pub fn definitions(text: &str) -> Vec<Item> {
    let lines = lines(text);
    let mut found: Vec<Item> = Vec::new();
    // How far the declarations of the block are indented; behind the head of a block its first line says it.
    let mut indent = None;
    for (index, line) in lines.iter().enumerate() {
        if line.text.is_empty() || line.text.starts_with("--") {
            continue;
        }
        if line.text.starts_with("module ") {
            indent = None;
            continue;
        }
        let inner = indent.is_some_and(|indent| line.indent > indent);
        let name = declared(line.text).filter(|_| !inner);
        if !inner {
            indent = Some(line.indent);
        }
        let stop = end(&lines, index);
        match (found.last_mut(), name) {
            (Some(last), None) if inner || line.text.starts_with("unfolding ") => {
                last.whole.end = stop
            }
            (Some(last), Some(name)) if last.path == name => last.whole.end = stop,
            (_, Some(name)) => found.push(Item {
                path: name.to_string(),
                whole: line.start..stop,
                body: stop..stop,
                is_public: line.text.split_whitespace().any(|word| word == "pub"),
            }),
            _ => {}
        }
    }
    found
}

/// The folders that a function's proof may lie in: that of one which calls itself has a `+` before the name.
pub fn proof_folders(function: &str) -> [String; 2] {
    let at = function.rfind('/').map_or(0, |slash| slash + 1);
    let (type_path, name) = function.split_at(at);
    ["", "+"].map(|mark| format!("proofs/{type_path}{mark}{name}"))
}

/// The function whose proof lies in a folder, if one does.
pub fn function_of_proof(folder: &str) -> Option<String> {
    Some(folder.strip_prefix("proofs/")?.replace('+', ""))
}

/// The path of a module of specs or proofs in its crate.
pub fn module(file: &str) -> String {
    file.trim_end_matches(".antt").replace('/', ".")
}

/// What stands in a file.
pub fn items(file: &str, text: &str) -> Vec<Item> {
    if file.ends_with(".rt") {
        functions(file, text)
    } else {
        definitions(text)
    }
}

/// Where the one item of a name, or of a path that ends so, stands.
pub fn only_item(file: &str, text: &str, name: &str) -> Result<Range<usize>, String> {
    let found: Vec<_> = items(file, text)
        .into_iter()
        .filter(|item| item.path == name || item.path.ends_with(&format!("/{name}")))
        .collect();
    match &found[..] {
        [item] => Ok(item.whole.clone()),
        [] => Err(format!("{file} has no {name}")),
        _ => Err(format!("{file} has {name} more than once")),
    }
}
