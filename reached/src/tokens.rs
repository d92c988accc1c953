//! A text, of definitions or of a contract, as tokens.

#[derive(Clone, Debug, PartialEq)]
pub enum Kind {
    /// A name, or names with dots between them: `pick`, `Answer.State`, `s.stores`.
    Name(Vec<String>),
    /// A field that is taken of what stands in brackets: `.number`.
    Field,
    /// One of `( ) { } ; , @`, and the dot behind the names that a `λ` binds.
    Mark(char),
    /// A quoted text.
    Quoted,
}

#[derive(Clone, Debug)]
pub struct Token {
    pub kind: Kind,
    pub line: usize,
    pub column: usize,
    /// It is the first of its line.
    pub first: bool,
}

impl Token {
    /// It is this one name.
    pub fn is(&self, name: &str) -> bool {
        self.name() == Some(name)
    }

    pub fn is_mark(&self, mark: char) -> bool {
        self.kind == Kind::Mark(mark)
    }

    /// Its name, if it is one name alone.
    pub fn name(&self) -> Option<&str> {
        match &self.kind {
            Kind::Name(path) if path.len() == 1 => Some(&path[0]),
            _ => None,
        }
    }
}

fn is_named(character: char) -> bool {
    !character.is_whitespace() && !"(){}.;,@\"".contains(character)
}

/// One name from `at` on, `«escaped»` or plain, and what is behind it.
fn one_name(line: &[char], at: usize) -> (String, usize) {
    if line[at] == '«' {
        let length = line[at..].iter().take_while(|c| **c != '»').count();
        let name = line[at + 1..at + length].iter().collect();
        return (name, (at + length + 1).min(line.len()));
    }
    let length = line[at..].iter().take_while(|c| is_named(**c)).count();
    (line[at..at + length].iter().collect(), at + length)
}

/// Behind the quoted text that starts at `at`.
fn behind_quoted(line: &[char], at: usize) -> usize {
    let mut next = at + 1;
    while next < line.len() && line[next] != '"' {
        next += if line[next] == '\\' { 2 } else { 1 };
    }
    next + 1
}

/// The tokens of a text, comments left out. Lines count from 1, columns from 0.
pub fn tokens(text: &str) -> Vec<Token> {
    let mut all: Vec<Token> = Vec::new();
    for (number, line) in text.lines().enumerate() {
        let line: Vec<char> = line.chars().collect();
        let follows = |at: usize| line.get(at).is_some_and(|c| is_named(*c));
        let mut at = 0;
        while at < line.len() {
            if line[at].is_whitespace() {
                at += 1;
                continue;
            }
            if line[at..].starts_with(&['-', '-']) {
                break;
            }
            let (column, kind) = (
                at,
                match line[at] {
                    '"' => {
                        at = behind_quoted(&line, at);
                        Kind::Quoted
                    }
                    '.' if follows(at + 1) => {
                        at = one_name(&line, at + 1).1;
                        Kind::Field
                    }
                    mark if !is_named(mark) => {
                        at += 1;
                        Kind::Mark(mark)
                    }
                    _ => {
                        let mut path = Vec::new();
                        loop {
                            let (name, next) = one_name(&line, at);
                            path.push(name);
                            at = next;
                            if line.get(at) != Some(&'.') || !follows(at + 1) {
                                break;
                            }
                            at += 1;
                        }
                        Kind::Name(path)
                    }
                },
            );
            let first = all.last().is_none_or(|token| token.line != number + 1);
            all.push(Token {
                kind,
                line: number + 1,
                column,
                first,
            });
        }
    }
    all
}

/// The place of the bracket that closes the one at `open`.
pub fn closing(tokens: &[Token], open: usize) -> Result<usize, String> {
    let mut depth = 0;
    for (at, token) in tokens.iter().enumerate().skip(open) {
        match token.kind {
            Kind::Mark('(' | '{') => depth += 1,
            Kind::Mark(')' | '}') => depth -= 1,
            _ => {}
        }
        if depth == 0 {
            return Ok(at);
        }
    }
    Err(format!("{}: a bracket is not closed", tokens[open].line))
}

/// The place of the first token, outside all brackets, that passes the test.
pub fn outside_brackets(tokens: &[Token], test: impl Fn(&Token) -> bool) -> Option<usize> {
    let mut depth = 0;
    for (at, token) in tokens.iter().enumerate() {
        match token.kind {
            Kind::Mark('(' | '{') => depth += 1,
            Kind::Mark(')' | '}') => depth -= 1,
            _ if depth == 0 && test(token) => return Some(at),
            _ => {}
        }
    }
    None
}
