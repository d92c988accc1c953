//! A file of definitions and laws. An entry begins at a line that is indented as its block is; all
//! that is indented more belongs to it.

use crate::file::{comment_above, filled, Entry, File, Import, Part};
use crate::tokens::{closing, outside_brackets, tokens, Kind, Token};
use std::collections::BTreeSet;

/// What may stand in front of a signature.
const MARKS: [&str; 4] = ["unfoldable", "abbrev", "pub", "axiom"];

struct Parser<'a> {
    lines: Vec<&'a str>,
    file: File,
}

/// What stands around a block: its parameters, and the lines that say so.
#[derive(Clone, Default)]
struct Around {
    binders: Vec<Part>,
    lines: BTreeSet<usize>,
}

/// A block's entries, each from its first token on.
fn chunks(block: &[Token]) -> Vec<&[Token]> {
    let Some(first) = block.first() else {
        return Vec::new();
    };
    // A bracket that closes at the margin ends what it stands in.
    let closes = |token: &Token| token.is_mark('}') || token.is_mark(')');
    let starts =
        |at: usize| block[at].first && block[at].column == first.column && !closes(&block[at]);
    let mut all = Vec::new();
    let mut from = 0;
    for at in 1..=block.len() {
        if at == block.len() || starts(at) {
            all.push(&block[from..at]);
            from = at;
        }
    }
    all
}

/// The tokens before the word `where`, and the block behind it.
fn split_where(chunk: &[Token]) -> Result<(&[Token], &[Token]), String> {
    let at = outside_brackets(chunk, |token| token.is("where"))
        .ok_or_else(|| format!("{}: a `where` is missing", chunk[0].line))?;
    Ok((&chunk[..at], &chunk[at + 1..]))
}

/// The names before a colon, and the type behind it: `pub low : ..`, `red green : ..`.
fn split_colon(chunk: &[Token]) -> Result<(Vec<String>, &[Token]), String> {
    let at = outside_brackets(chunk, |token| token.is(":"))
        .ok_or_else(|| format!("{}: a `:` is missing", chunk[0].line))?;
    let names = chunk[..at].iter().filter_map(Token::name);
    let names = names.filter(|name| *name != "pub").map(String::from);
    Ok((names.collect(), &chunk[at + 1..]))
}

/// A signature's type ends in a universe, so that what it is of is a type.
fn is_universe(statement: &[Token]) -> bool {
    let mut rest = statement;
    while let Some(at) = outside_brackets(rest, |token| token.is("→")) {
        rest = &rest[at + 1..];
    }
    rest.first().is_some_and(|token| token.is("Type"))
}

fn path(token: &Token) -> Result<Vec<String>, String> {
    match &token.kind {
        Kind::Name(path) => Ok(path.clone()),
        _ => Err(format!("{}: a name is missing", token.line)),
    }
}

/// What a `use` line brings in, from behind that word on: `M`, `M as N`, `M.{a, b as c}`.
pub fn imports(line: &[Token]) -> Result<Vec<Import>, String> {
    let module = path(line.first().ok_or("a `use` of nothing")?)?;
    let not_read = || format!("{}: a `use` that is not read", line[0].line);
    let renamed = |item: &[Token]| match item {
        [name] => name.name().map(String::from),
        [_, word, name] if word.is("as") => name.name().map(String::from),
        _ => None,
    };
    let import = |item: Option<String>, name: String| Import {
        module: module.clone(),
        item,
        name,
    };
    match line {
        [_] => Ok(vec![import(None, module[module.len() - 1].clone())]),
        [_, dot, open, ..] if dot.is_mark('.') && open.is_mark('{') => {
            let items = line[3..closing(line, 2)?].split(|token| token.is_mark(','));
            let imports = items.map(|item| {
                let from = item.first().and_then(Token::name).map(String::from);
                Some(import(Some(from?), renamed(item)?))
            });
            imports.collect::<Option<_>>().ok_or_else(not_read)
        }
        _ => Ok(vec![import(None, renamed(line).ok_or_else(not_read)?)]),
    }
}

impl Parser<'_> {
    /// A chunk's lines, with those of the comment above it.
    fn lines_of(&self, chunk: &[Token]) -> BTreeSet<usize> {
        let (first, last) = (chunk[0].line, chunk[chunk.len() - 1].line);
        let mut all = filled(&self.lines, first, last);
        all.extend(comment_above(&self.lines, "--", first));
        all
    }

    fn declare(&mut self, name: &str, entry: Entry) -> Result<(), String> {
        match self.file.entries.insert(name.into(), entry) {
            Some(_) => Err(format!("`{name}` is declared twice")),
            None => Ok(()),
        }
    }

    /// A line or a clause more of what was declared last; of a law it is no matter.
    fn add(&mut self, name: &str, chunk: &[Token], part: Option<Part>) -> Result<(), String> {
        let lines = self.lines_of(chunk);
        let entry = self.file.entries.get_mut(name);
        let entry = entry.ok_or_else(|| format!("{}: a clause of nothing", chunk[0].line))?;
        if !entry.law {
            entry.parts.extend(part);
            entry.lines.extend(lines);
        }
        Ok(())
    }

    /// `record Name parameters : Type where fields`, or `data` with constructors.
    fn type_of(&mut self, chunk: &[Token], is_record: bool, around: &Around) -> Result<(), String> {
        let lines = &self.lines_of(chunk) | &around.lines;
        let (head, members) = match split_where(chunk) {
            Ok((head, members)) => (head, members),
            Err(_) => (chunk, &chunk[..0]),
        };
        let word = if is_record { "record" } else { "data" };
        let at = head.iter().position(|token| token.is(word)).unwrap_or(0) + 1;
        let name = head.get(at).and_then(Token::name);
        let name = name.ok_or_else(|| format!("{}: a type without a name", chunk[0].line))?;
        let mut entry = Entry {
            parts: around.binders.clone(),
            lines,
            ..Entry::default()
        };
        entry.parts.push(Part::Binders(head[at + 1..].to_vec()));
        for member in chunks(members) {
            let (names, statement) = split_colon(member)?;
            if is_record {
                entry.parts.push(Part::Field(names, statement.to_vec()));
            } else {
                entry.parts.push(Part::Statement(statement.to_vec()));
                entry.variants.extend(names);
            }
        }
        self.declare(name, entry)
    }

    /// The entries of a block.
    fn block(&mut self, block: &[Token], around: &Around) -> Result<(), String> {
        // The name whose signature stood last: clauses are its own.
        let mut current = String::new();
        for chunk in chunks(block) {
            let is_mark = |token: &&Token| MARKS.iter().any(|mark| token.is(mark));
            let (marks, head) = chunk.split_at(chunk.iter().take_while(is_mark).count());
            let marked = |word: &str| marks.iter().any(|token| token.is(word));
            let Some(first) = head.first() else {
                return Err(format!("{}: marks of nothing", chunk[0].line));
            };
            let word = first.name().unwrap_or("");
            // A name's levels may stand between it and the colon.
            let colon = match head.get(1) {
                Some(token) if token.is_mark('{') => closing(head, 1)? + 1,
                _ => 1,
            };
            match word {
                "use" => self.file.imports.extend(imports(&head[1..])?),
                "mod" => {}
                "module" => {
                    let (before, inner) = split_where(head)?;
                    let mut deeper = around.clone();
                    deeper.lines.extend(self.lines_of(before));
                    deeper.binders.push(Part::Binders(before[2..].to_vec()));
                    self.block(inner, &deeper)?;
                }
                "record" | "data" => self.type_of(chunk, word == "record", around)?,
                "infix" | "infixl" | "infixr" => {}
                "unfolding" => self.add(&current, chunk, None)?,
                "mutual" | "open" | "ruleset" | "deriving" => {
                    return Err(format!("{}: `{word}` is not read", first.line));
                }
                _ if head.get(colon).is_some_and(|token| token.is(":")) => {
                    let statement = head[colon + 1..].to_vec();
                    let mut entry = Entry {
                        law: !marked("abbrev") && !marked("unfoldable") && !is_universe(&statement),
                        parts: around.binders.clone(),
                        lines: &self.lines_of(chunk) | &around.lines,
                        ..Entry::default()
                    };
                    entry.parts.push(Part::Statement(statement));
                    self.declare(word, entry)?;
                    current = word.into();
                }
                _ => self.add(&current, chunk, Some(Part::Clause(chunk.to_vec())))?,
            }
        }
        Ok(())
    }
}

pub fn parse(text: &str) -> Result<File, String> {
    let mut parser = Parser {
        lines: text.lines().collect(),
        file: File::default(),
    };
    parser.block(&tokens(text), &Around::default())?;
    Ok(parser.file)
}
