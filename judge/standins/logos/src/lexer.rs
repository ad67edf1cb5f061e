//! The part of logos' face that the Rust calls.

use std::ops::Range;

use crate::{
    automaton::Automaton,
    regex::{self, Regex},
};

type Callback<T> = fn(&mut Lexer<'_, T>);

/// One `#[token]` or `#[regex]` attribute.
pub struct Rule<T: 'static> {
    regex: Regex,
    is_token: bool,
    kind: T,
    callback: Option<Callback<T>>,
}

impl<T> Rule<T> {
    /// `#[token(text)]`
    pub fn token(text: &str, kind: T, callback: Option<Callback<T>>) -> Self {
        Self { regex: regex::literal(text), is_token: true, kind, callback }
    }

    /// `#[regex(pattern)]`
    pub fn regex(pattern: &str, kind: T, callback: Option<Callback<T>>) -> Self {
        Self { regex: regex::parse(pattern), is_token: false, kind, callback }
    }
}

/// All rules of an enum.
pub struct Rules<T: 'static> {
    automaton: Automaton,
    outcomes: Vec<(T, Option<Callback<T>>)>,
}

impl<T> Rules<T> {
    /// Prepares the rules for running.
    pub fn new(rules: Vec<Rule<T>>) -> Self {
        let mut patterns = Vec::new();
        let mut outcomes = Vec::new();
        for rule in rules {
            patterns.push((rule.regex, rule.is_token));
            outcomes.push((rule.kind, rule.callback));
        }
        Self { automaton: Automaton::new(&patterns), outcomes }
    }
}

/// An enum whose attributes are lexical rules.
pub trait Logos: Copy + 'static {
    /// The rules, made ready once.
    fn rules() -> &'static Rules<Self>;

    /// A lexer at the start of `source`.
    fn lexer(source: &str) -> Lexer<'_, Self> {
        Lexer::new(source)
    }
}

/// Walks over a source; `span` is the range of the lexeme found last.
pub struct Lexer<'s, T: 'static> {
    rules: &'static Rules<T>,
    source: &'s str,
    span: Range<usize>,
}

impl<'s, T: Logos> Lexer<'s, T> {
    /// A lexer at the start of `source`.
    pub fn new(source: &'s str) -> Self {
        Self { rules: T::rules(), source, span: 0..0 }
    }

    /// The text of the lexeme found last.
    pub fn slice(&self) -> &'s str {
        &self.source[self.span()]
    }

    /// The range of the lexeme found last.
    pub fn span(&self) -> Range<usize> {
        self.span.clone()
    }

    /// What has not been taken yet.
    pub fn remainder(&self) -> &'s str {
        &self.source[self.span.end..]
    }

    /// Lengthens the lexeme by `bytes`.
    pub fn bump(&mut self, bytes: usize) {
        self.span.end += bytes;
        assert!(self.source.is_char_boundary(self.span.end), "bumped into a character");
    }
}

impl<T: Logos> Iterator for Lexer<'_, T> {
    type Item = Result<T, ()>;

    fn next(&mut self) -> Option<Self::Item> {
        let rest = self.remainder();
        let first = rest.chars().next()?;
        self.span.start = self.span.end;
        let Some((rule, length)) = self.rules.automaton.longest(rest) else {
            self.bump(first.len_utf8());
            return Some(Err(()));
        };
        self.bump(length);
        let (kind, callback) = self.rules.outcomes[rule];
        if let Some(callback) = callback {
            callback(self);
        }
        Some(Ok(kind))
    }
}
