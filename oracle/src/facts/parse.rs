//! The part of antt in which the facts are written: definitions by equations, and what may stand on their right.
//!
//! A definition is read when it is asked for, so that theorems and proofs, which use more of the language, may stand in the same file.

use std::collections::HashMap;
use std::ops::Range;
use std::rc::Rc;

/// An expression, and which bytes of its file it is.
#[derive(Debug)]
pub struct Expr {
    pub node: Node,
    pub span: Range<usize>,
}

#[derive(Debug)]
pub enum Node {
    Name(String),
    Number(usize),
    Text(String),
    Empty,
    Cons(Box<Expr>, Box<Expr>),
    Append(Box<Expr>, Box<Expr>),
    Apply(Box<Expr>, Box<Expr>),
    Field(Box<Expr>, String),
    Tuple(Vec<Expr>),
    Record(Vec<(String, Expr)>),
    Lambda(Vec<String>, Rc<Expr>),
}

/// One equation: what stands left of it after the name, and its right side.
#[derive(Debug)]
pub struct Equation {
    pub patterns: Vec<Expr>,
    pub right: Expr,
}

/// A file: the type that each name is declared with, and where its equations stand.
pub struct Source {
    pub text: String,
    types: HashMap<String, String>,
    equations: HashMap<String, Vec<Range<usize>>>,
}

impl Source {
    /// A line that begins with a word begins a declaration or an equation, and the indented lines after it belong to it.
    pub fn new(text: String) -> Source {
        let mut source = Source { types: HashMap::new(), equations: HashMap::new(), text: String::new() };
        let mut starts: Vec<usize> = Vec::new();
        let mut at = 0;
        for line in text.split_inclusive('\n') {
            if !line.starts_with([' ', '\n']) {
                starts.push(at);
            }
            at += line.len();
        }
        let ends = starts.iter().skip(1).copied().chain([text.len()]);
        for (start, end) in starts.iter().copied().zip(ends) {
            source.add(&text[start..end], start..end);
        }
        source.text = text;
        source
    }

    fn add(&mut self, part: &str, span: Range<usize>) {
        let declared = part.strip_prefix("abbrev ").map(|rest| rest.strip_prefix("pub ").unwrap_or(rest));
        if let Some((name, of)) = declared.and_then(|rest| rest.split_once(" : ")) {
            self.types.insert(spelled(name), of.trim().to_string());
        } else if let Some(name) = part.split_whitespace().next().map(spelled).filter(|name| self.types.contains_key(name)) {
            self.equations.entry(name).or_default().push(span);
        }
    }

    /// The type that a name is declared with.
    pub fn type_of(&self, name: &str) -> Option<&str> {
        self.types.get(name).map(String::as_str)
    }

    /// The equations of a name, if it has any here.
    pub fn equations(&self, name: &str) -> Option<Vec<Equation>> {
        let spans = self.equations.get(name)?;
        Some(spans.iter().map(|span| Parser::new(&self.text, span.clone()).equation()).collect())
    }
}

/// A name as it is spelled now; earlier revisions have dashes.
fn spelled(name: &str) -> String {
    name.replace('-', "_")
}

/// The next word or sign of a text: a bracket, comma or semicolon, a text in quotes, or whatever stands up to a space, one of those or a field.
fn token(text: &str) -> usize {
    let signs = ['(', ')', '{', '}', ',', ';'];
    if text.starts_with(signs) {
        return 1;
    }
    if let Some(quoted) = text.strip_prefix('"') {
        return quoted.find('"').map_or(text.len(), |end| end + 2);
    }
    let end = text.find(|c: char| c.is_whitespace() || signs.contains(&c)).unwrap_or(text.len());
    match text[..end].find('.') {
        Some(dot) if 0 < dot && dot + 1 < end => dot,
        _ => end,
    }
}

/// The words and signs of a part of a text, with where they stand; comments are left out.
fn tokens(text: &str, span: Range<usize>) -> Vec<Range<usize>> {
    let mut found = Vec::new();
    let mut at = span.start;
    while at < span.end {
        let rest = &text[at..span.end];
        let blank = rest.len() - rest.trim_start().len();
        let comment = rest.starts_with("--").then(|| rest.find('\n').unwrap_or(rest.len()));
        match comment.or(Some(blank).filter(|blank| *blank > 0)) {
            Some(skipped) => at += skipped,
            None => {
                found.push(at..at + token(rest));
                at += token(rest);
            }
        }
    }
    found
}

struct Parser<'a> {
    text: &'a str,
    tokens: Vec<Range<usize>>,
    next: usize,
}

impl<'a> Parser<'a> {
    fn new(text: &'a str, span: Range<usize>) -> Parser<'a> {
        Parser { text, tokens: tokens(text, span), next: 0 }
    }

    fn peek(&self) -> &'a str {
        self.tokens.get(self.next).map_or("", |span| &self.text[span.clone()])
    }

    fn taken(&mut self) -> (&'a str, Range<usize>) {
        let span = self.tokens.get(self.next).unwrap_or_else(|| panic!("an expression ends too early: {}", self.near())).clone();
        self.next += 1;
        (&self.text[span.clone()], span)
    }

    fn expect(&mut self, sign: &str) -> usize {
        let (found, span) = self.taken();
        assert!(found == sign, "{found} where {sign} must stand: {}", self.near());
        span.end
    }

    /// The beginning of what is read, for messages.
    fn near(&self) -> &'a str {
        self.tokens.first().map_or("", |first| self.text[first.start..].lines().next().unwrap_or(""))
    }

    /// `name patterns = right`.
    fn equation(&mut self) -> Equation {
        self.taken();
        let mut patterns = Vec::new();
        while self.peek() != "=" {
            patterns.push(self.atom());
        }
        self.expect("=");
        let right = self.expr();
        assert!(self.next == self.tokens.len(), "more after an equation: {}", self.near());
        Equation { patterns, right }
    }

    /// `∷` and `++` bind less than application, and to the right.
    fn expr(&mut self) -> Expr {
        let first = self.application();
        let join = match self.peek() {
            "∷" => Node::Cons,
            "++" => Node::Append,
            _ => return first,
        };
        self.taken();
        let rest = self.expr();
        let span = first.span.start..rest.span.end;
        Expr { node: join(Box::new(first), Box::new(rest)), span }
    }

    /// A field with a space before it, as earlier revisions have it, is taken of all that stands before it.
    fn application(&mut self) -> Expr {
        let mut so_far = self.atom();
        loop {
            let word = self.peek();
            if matches!(word, "" | ")" | "}" | "," | ";" | "∷" | "++" | "=") {
                return so_far;
            }
            let start = so_far.span.start;
            if let Some(field) = word.strip_prefix('.') {
                let (_, span) = self.taken();
                so_far = Expr { node: Node::Field(Box::new(so_far), spelled(field)), span: start..span.end };
            } else {
                let argument = self.atom();
                let end = argument.span.end;
                so_far = Expr { node: Node::Apply(Box::new(so_far), Box::new(argument)), span: start..end };
            }
        }
    }

    /// What is no application, with the fields that follow it at once.
    fn atom(&mut self) -> Expr {
        let mut so_far = self.bare();
        while self.tokens.get(self.next).is_some_and(|span| span.start == so_far.span.end) {
            let Some(field) = self.peek().strip_prefix('.') else { break };
            let span = so_far.span.start..self.taken().1.end;
            so_far = Expr { node: Node::Field(Box::new(so_far), spelled(field)), span };
        }
        so_far
    }

    fn bare(&mut self) -> Expr {
        let (word, span) = self.taken();
        let start = span.start;
        match word {
            "(" => self.bracketed(start),
            "λ" => self.lambda(start),
            "record" => self.record(start),
            "[]" => Expr { node: Node::Empty, span },
            _ => Expr { node: plain(word), span },
        }
    }

    /// An expression in brackets, or several with commas.
    fn bracketed(&mut self, start: usize) -> Expr {
        let mut parts = vec![self.expr()];
        while self.peek() == "," {
            self.taken();
            parts.push(self.expr());
        }
        let span = start..self.expect(")");
        match parts.len() {
            1 => Expr { node: parts.remove(0).node, span },
            _ => Expr { node: Node::Tuple(parts), span },
        }
    }

    /// `λ names. body`.
    fn lambda(&mut self, start: usize) -> Expr {
        let mut names = Vec::new();
        loop {
            let (word, _) = self.taken();
            names.push(spelled(word.trim_end_matches('.')));
            if word.ends_with('.') {
                break;
            }
        }
        let body = self.expr();
        let span = start..body.span.end;
        Expr { node: Node::Lambda(names, Rc::new(body)), span }
    }

    /// `record { field = expression; .. }`.
    fn record(&mut self, start: usize) -> Expr {
        self.expect("{");
        let mut fields = Vec::new();
        loop {
            let (name, _) = self.taken();
            self.expect("=");
            fields.push((spelled(name), self.expr()));
            if self.peek() == "}" {
                break;
            }
            self.expect(";");
        }
        Expr { node: Node::Record(fields), span: start..self.expect("}") }
    }
}

/// A number, a text in quotes, or a name.
fn plain(word: &str) -> Node {
    match word.parse() {
        Ok(number) => Node::Number(number),
        Err(_) if word.starts_with('"') => Node::Text(word.trim_matches('"').to_string()),
        Err(_) => Node::Name(spelled(word)),
    }
}
