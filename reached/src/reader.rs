//! Reads an entry's text: what it mentions that is not bound in it.

use crate::file::Part;
use crate::repository::{Item, Meaning, Repository};
use crate::tokens::{closing, outside_brackets, Kind, Token};
use std::collections::BTreeSet;

pub struct Reader<'a> {
    repository: &'a Repository,
    /// Whose text it is.
    item: &'a Item,
    /// The names that are bound where it reads.
    locals: Vec<String>,
    pub found: BTreeSet<Item>,
}

impl<'a> Reader<'a> {
    pub fn new(repository: &'a Repository, item: &'a Item) -> Reader<'a> {
        Reader {
            repository,
            item,
            locals: Vec::new(),
            found: BTreeSet::new(),
        }
    }

    pub fn part(&mut self, part: &Part) -> Result<(), String> {
        match part {
            Part::Binders(tokens) => self.open(tokens),
            Part::Field(names, tokens) => {
                self.term(tokens)?;
                self.locals.extend(names.iter().cloned());
                Ok(())
            }
            Part::Statement(tokens) => self.term(tokens),
            Part::Clause(tokens) => {
                let bound = self.locals.len();
                let at = outside_brackets(tokens, |token| token.is("="));
                let at = at.ok_or_else(|| format!("{}: a clause without `=`", tokens[0].line))?;
                let own = |name: &str| is_word_of(name, &self.item.name);
                let is_pattern = |token: &&Token| !token.name().is_some_and(own);
                let patterns = tokens[..at].iter().filter(is_pattern).cloned();
                let patterns: Vec<Token> = patterns.collect();
                self.pattern(&patterns)?;
                self.term(&tokens[at + 1..])?;
                self.locals.truncate(bound);
                Ok(())
            }
        }
    }

    fn meaning(&self, path: &[String]) -> Result<Option<Meaning>, String> {
        self.repository.meaning(&self.item.path, path)
    }

    fn name(&mut self, path: &[String]) -> Result<(), String> {
        if !self.locals.contains(&path[0]) {
            if let Some(meaning) = self.meaning(path)? {
                self.found.insert(meaning.item);
            }
        }
        Ok(())
    }

    /// Patterns: a name that is no constructor is bound.
    fn pattern(&mut self, tokens: &[Token]) -> Result<(), String> {
        for token in tokens {
            if let Kind::Name(path) = &token.kind {
                match self.meaning(path)? {
                    Some(meaning) if meaning.is_variant || path.len() > 1 => {
                        self.found.insert(meaning.item);
                    }
                    _ => self.locals.push(path[0].clone()),
                }
            }
        }
        Ok(())
    }

    /// A term or a type: what it binds ends with it.
    fn term(&mut self, tokens: &[Token]) -> Result<(), String> {
        let bound = self.locals.len();
        self.open(tokens)?;
        self.locals.truncate(bound);
        Ok(())
    }

    /// The same, and what it binds outside its brackets stays bound.
    fn open(&mut self, tokens: &[Token]) -> Result<(), String> {
        let bound = self.locals.len();
        // What each `let` binds, from its `in` on.
        let mut lets: Vec<Vec<Token>> = Vec::new();
        let mut at = 0;
        while at < tokens.len() {
            let token = &tokens[at];
            match &token.kind {
                Kind::Mark('(' | '{') => {
                    let end = closing(tokens, at)?;
                    let inside = &tokens[at + 1..end];
                    let is_record = at > 0 && tokens[at - 1].is("record");
                    self.group(inside, is_record)?;
                    at = end;
                }
                Kind::Mark(',' | ';') => self.locals.truncate(bound),
                Kind::Name(path) if path.len() == 1 => match path[0].as_str() {
                    "λ" => {
                        let dot = outside_brackets(&tokens[at..], |token| token.is_mark('.'));
                        let dot =
                            dot.ok_or_else(|| format!("{}: a `λ` without its dot", token.line))?;
                        self.binders(&tokens[at + 1..at + dot])?;
                        at += dot;
                    }
                    "let" => {
                        let rest = &tokens[at + 1..];
                        let end = outside_brackets(rest, |token| token.is("=") || token.is(":"));
                        let end =
                            end.ok_or_else(|| format!("{}: a `let` without `=`", token.line))?;
                        lets.push(rest[..end].to_vec());
                        at += end;
                    }
                    "in" => {
                        if let Some(names) = lets.pop() {
                            self.pattern(&names)?;
                        }
                    }
                    "elim" | "do" | "where" | "open" | "←" => {
                        return Err(format!("{}: `{}` is not read", token.line, path[0]));
                    }
                    _ => self.name(path)?,
                },
                Kind::Name(path) => self.name(path)?,
                _ => {}
            }
            at += 1;
        }
        Ok(())
    }

    /// What a `λ` binds: names, and groups `(x : A)` and `(x, y)`.
    fn binders(&mut self, tokens: &[Token]) -> Result<(), String> {
        let mut at = 0;
        while at < tokens.len() {
            if tokens[at].is_mark('(') || tokens[at].is_mark('{') {
                let end = closing(tokens, at)?;
                let inside = &tokens[at + 1..end];
                match typed(inside) {
                    Some(_) => self.group(inside, false)?,
                    None => self.pattern(inside)?,
                }
                at = end;
            } else {
                self.pattern(&tokens[at..=at])?;
            }
            at += 1;
        }
        Ok(())
    }

    /// What stands in brackets: `x y : A` binds, `x = e; y = f` has labels, all else is a term.
    fn group(&mut self, inside: &[Token], is_record: bool) -> Result<(), String> {
        if !is_record {
            if let Some(colon) = typed(inside) {
                self.term(&inside[colon + 1..])?;
                return self.pattern_names(&inside[..colon]);
            }
        }
        let bound = self.locals.len();
        let mut rest = inside;
        while !rest.is_empty() {
            let end = outside_brackets(rest, |token| token.is_mark(';')).unwrap_or(rest.len());
            let member = &rest[..end];
            match member {
                [label, equals, term @ ..] if label.name().is_some() && equals.is("=") => {
                    self.term(term)?
                }
                [label, colon, term @ ..] if is_record && colon.is(":") => {
                    self.term(term)?;
                    self.pattern_names(&[label.clone()])?;
                }
                _ => self.term(member)?,
            }
            rest = rest.get(end + 1..).unwrap_or(&[]);
        }
        self.locals.truncate(bound);
        Ok(())
    }

    /// Names that are bound whatever else they mean.
    fn pattern_names(&mut self, tokens: &[Token]) -> Result<(), String> {
        let names = tokens.iter().filter_map(Token::name).map(String::from);
        self.locals.extend(names);
        Ok(())
    }
}

/// The place of the colon in `x y : A`.
fn typed(inside: &[Token]) -> Option<usize> {
    let colon = outside_brackets(inside, |token| token.is(":"))?;
    let are_names = inside[..colon].iter().all(|token| token.name().is_some());
    are_names.then_some(colon)
}

/// A word of a name: the name itself or, of an operator, one of its words.
fn is_word_of(word: &str, name: &str) -> bool {
    word == name || (name.contains('◌') && name.split('◌').any(|part| part == word))
}
