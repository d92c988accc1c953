//! A file of code, as the formatter lays it out: the types and constants that it declares, and what
//! its functions say of themselves, which is all before their bodies.

use crate::file::{comment_above, filled, Entry, File, Function, Import, Part};
use crate::specs;
use crate::tokens::{tokens, Kind, Token};

/// The name under which a function stands among the entries, beside the types.
pub fn function(name: &str) -> String {
    format!("{name}()")
}

/// The words of a type's text.
fn words(text: &str) -> Vec<Token> {
    let is_word = |c: char| c.is_ascii_alphanumeric() || c == '_';
    let words = text.split(|c| !is_word(c)).filter(|word| !word.is_empty());
    let token = |word: &str| Token {
        kind: Kind::Name(vec![word.into()]),
        line: 0,
        column: 0,
        first: false,
    };
    words.map(token).collect()
}

/// The text from the first opening bracket to the one that closes it, and what is behind it.
fn bracketed(text: &str, open: char, close: char) -> Option<(&str, &str)> {
    let start = text.find(open)?;
    let mut depth = 0;
    for (at, character) in text.char_indices().skip_while(|(at, _)| *at < start) {
        if character == open {
            depth += 1;
        } else if character == close {
            depth -= 1;
        }
        if depth == 0 {
            return Some((
                &text[start + open.len_utf8()..at],
                &text[at + close.len_utf8()..],
            ));
        }
    }
    None
}

/// The arguments between a function's brackets: no argument's type has a comma outside brackets.
fn arguments(text: &str) -> Vec<Part> {
    let mut depth = 0;
    let parts = text.split(|character| {
        match character {
            '(' | '[' | '<' => depth += 1,
            ')' | ']' | '>' => depth -= 1,
            _ => {}
        }
        character == ',' && depth == 0
    });
    let parts = parts.map(str::trim).filter(|part| !part.is_empty());
    parts
        .map(|part| {
            let (name, kind) = part.split_once(':').unwrap_or((part, ""));
            let name = name.rsplit([' ', '&']).next().unwrap_or(name);
            Part::Field(vec![name.into()], words(kind))
        })
        .collect()
}

/// The members of a struct or an enum, each with the types in it.
fn members(body: &str, is_enum: bool) -> Vec<Part> {
    let of_line = |line: &str| {
        let line = line.trim().trim_start_matches("pub ");
        let at = if is_enum {
            line.find(['(', '{'])
        } else {
            line.find(':')
        };
        at.map_or("", |at| &line[at..]).to_string()
    };
    let lines = body.lines().filter(|line| !line.trim().starts_with("//"));
    lines
        .map(|line| Part::Statement(words(&of_line(line))))
        .collect()
}

/// What a declaration mentions, and on how many lines it stands.
fn declared(lines: &[&str], word: &str) -> Option<(Vec<Part>, usize)> {
    if word == "const" || lines[0].ends_with(';') {
        let last = lines.iter().position(|line| line.ends_with(';'))?;
        let text = lines[..=last].join("\n");
        let (_, text) = text.split_once([':', '(', ';'])?;
        return Some((vec![Part::Statement(words(text))], last + 1));
    }
    let rest = lines.join("\n");
    let (body, behind) = bracketed(&rest, '{', '}')?;
    let count = rest[..rest.len() - behind.len()].lines().count();
    Some((members(body, word == "enum"), count))
}

/// What code brings in with `use`, from behind that word on: `a::B;`, `a::{B, C as D};`.
fn used(text: &str) -> Option<Vec<Import>> {
    let (module, items) = text.strip_suffix(';')?.rsplit_once("::")?;
    let module: Vec<String> = module.split("::").map(String::from).collect();
    let items = match items.strip_prefix('{') {
        Some(items) => items.strip_suffix('}')?,
        None => items,
    };
    let import = |item: &str| {
        let (item, name) = item.split_once(" as ").unwrap_or((item, item));
        Import {
            module: module.clone(),
            item: Some(item.into()),
            name: name.into(),
        }
    };
    Some(items.split(',').map(str::trim).map(import).collect())
}

/// Whether a line begins a clause of a contract, with a name or without: `ensures {`, `requires low {`.
fn begins_clause(line: &str, word: &str) -> bool {
    let behind = line.trim_start().strip_prefix(word);
    behind.is_some_and(|rest| rest.starts_with([' ', '*']) && rest.contains('{'))
}

fn is_clause(line: &str) -> bool {
    begins_clause(line, "requires") || begins_clause(line, "ensures")
}

/// The text before a function's body, from its first line on, and on how many lines it stands.
fn before_body(lines: &[&str]) -> Option<(String, usize)> {
    let mut text = String::new();
    let mut depth = 0_i64;
    for (count, line) in lines.iter().enumerate() {
        let bare = line.trim_start();
        let starts = depth == 0 && is_clause(line);
        if depth == 0 && !starts && line.ends_with('{') {
            text.push_str(line.trim_end_matches('{'));
            return Some((text, count + usize::from(bare != "{")));
        }
        if starts || depth > 0 {
            depth += line.matches('{').count() as i64 - line.matches('}').count() as i64;
        }
        text.push_str(line);
        text.push('\n');
    }
    None
}

pub fn parse(text: &str) -> Result<File, String> {
    let lines: Vec<&str> = text.lines().collect();
    let mut file = File::default();
    for (at, line) in lines.iter().enumerate() {
        let number = at + 1;
        let bare = line.trim_start();
        let plain = bare
            .trim_start_matches("pub ")
            .trim_start_matches("extern \"C\" ");
        let word = plain.split(' ').next().unwrap_or("");
        let name = |text: &str| {
            words(text)
                .get(1)
                .and_then(Token::name)
                .unwrap_or("")
                .to_string()
        };
        let not_read = || format!("{number}: a `{word}` that is not read");
        let mut top = number;
        while top > 1 && lines[top - 2].trim_start().starts_with("#[") {
            top -= 1;
        }
        let above = comment_above(&lines, "//", top);
        if let Some(import) = bare.strip_prefix("ghost use ") {
            file.imports
                .extend(specs::imports(&tokens(import.trim_end_matches(';')))?);
        } else if let Some(import) = line.strip_prefix("use ") {
            file.imports.extend(used(import).ok_or_else(not_read)?);
        } else if ["struct", "enum", "const"].contains(&word) {
            let (parts, count) = declared(&lines[at..], word).ok_or_else(not_read)?;
            let entry = Entry {
                parts,
                lines: &filled(&lines, top, at + count) | &above,
                ..Entry::default()
            };
            file.entries.insert(name(plain), entry);
        } else if word == "fn" {
            let (head, count) = before_body(&lines[at..]).ok_or_else(not_read)?;
            let (given, behind) = bracketed(&head, '(', ')').ok_or_else(not_read)?;
            let mut parts = arguments(given);
            let before = behind.split_inclusive('\n');
            let before = before.take_while(|line| !is_clause(line));
            let (returned, mut rest) = behind.split_at(before.map(str::len).sum());
            parts.push(Part::Field(vec!["result".into()], words(returned)));
            while let Some((clause, next)) = bracketed(rest, '{', '}') {
                parts.push(Part::Statement(tokens(clause)));
                rest = next;
            }
            let entry = Entry {
                parts,
                lines: &filled(&lines, top, at + count) | &above,
                function: Some(Function {
                    is_public: bare.starts_with("pub "),
                    ensures: behind.lines().any(|line| begins_clause(line, "ensures")),
                }),
                ..Entry::default()
            };
            file.entries.insert(function(&name(plain)), entry);
        }
    }
    Ok(file)
}
