//! Reads the regular expressions that syntax_kinds.rs uses. An unknown form stops the program.

use std::{iter::Peekable, str::Chars};

use crate::charset::CharSet;

#[derive(Debug, PartialEq)]
pub enum Regex {
    One(CharSet),
    Sequence(Vec<Regex>),
    Either(Vec<Regex>),
    /// At least once if `needed`, at most once unless `many`.
    Repeat {
        inner: Box<Regex>,
        needed: bool,
        many: bool,
    },
}

pub fn parse(pattern: &str) -> Regex {
    let mut parser = Parser { chars: pattern.chars().peekable() };
    let regex = parser.either(false);
    assert_eq!(parser.chars.next(), None, "{pattern} has a `)` too many");
    regex
}

pub fn literal(text: &str) -> Regex {
    Regex::Sequence(text.chars().map(|c| Regex::One(CharSet::one(c))).collect())
}

struct Parser<'p> {
    chars: Peekable<Chars<'p>>,
}

impl Parser<'_> {
    fn try_eat(&mut self, c: char) -> bool {
        self.chars.next_if_eq(&c).is_some()
    }

    fn next(&mut self) -> char {
        self.chars.next().expect("the expression is cut short")
    }

    /// `dot_all` is the flag `s`: `.` takes the line feed too.
    fn either(&mut self, dot_all: bool) -> Regex {
        let mut branches = vec![self.sequence(dot_all)];
        while self.try_eat('|') {
            branches.push(self.sequence(dot_all));
        }
        Regex::Either(branches)
    }

    fn sequence(&mut self, dot_all: bool) -> Regex {
        let mut parts = Vec::new();
        while !matches!(self.chars.peek(), None | Some('|' | ')')) {
            parts.push(self.repeated(dot_all));
        }
        Regex::Sequence(parts)
    }

    fn repeated(&mut self, dot_all: bool) -> Regex {
        let inner = self.atom(dot_all);
        let (needed, many) = match self.chars.peek() {
            Some('*') => (false, true),
            Some('+') => (true, true),
            Some('?') => (false, false),
            _ => return inner,
        };
        self.next();
        // Lazy forms take the same texts; the longest match is wanted either way.
        self.try_eat('?');
        Regex::Repeat { inner: Box::new(inner), needed, many }
    }

    fn atom(&mut self, dot_all: bool) -> Regex {
        match self.next() {
            '(' => {
                let dot_all = self.group_flags() || dot_all;
                let inner = self.either(dot_all);
                assert!(self.try_eat(')'), "a group has no end");
                inner
            }
            '[' => Regex::One(self.class()),
            '.' if dot_all => Regex::One(CharSet::new(Vec::new()).negated()),
            '.' => Regex::One(CharSet::one('\n').negated()),
            '\\' => Regex::One(self.escape()),
            c if "*+?{}^$".contains(c) => panic!("{c} stands where a character should"),
            c => Regex::One(CharSet::one(c)),
        }
    }

    /// What may follow `(`: `?:`, `?s:` or nothing. True for `?s:`.
    fn group_flags(&mut self) -> bool {
        if !self.try_eat('?') {
            return false;
        }
        let dot_all = self.try_eat('s');
        assert!(self.try_eat(':'), "unknown flag of a group");
        dot_all
    }

    fn class(&mut self) -> CharSet {
        let negated = self.try_eat('^');
        let mut ranges = Vec::new();
        loop {
            let set = match self.next() {
                ']' => break,
                '\\' => self.escape(),
                c => CharSet::one(c),
            };
            let &[(low, high)] = set.ranges() else {
                ranges.extend_from_slice(set.ranges());
                continue;
            };
            ranges.push((low, self.range_end().unwrap_or(high)));
        }
        let set = CharSet::new(ranges);
        if negated { set.negated() } else { set }
    }

    /// The `b` of a range `a-b`; a `-` before the closing bracket is only itself.
    fn range_end(&mut self) -> Option<u32> {
        let mut ahead = self.chars.clone();
        if ahead.next() != Some('-') || ahead.next() == Some(']') {
            return None;
        }
        self.next();
        match self.next() {
            '\\' => panic!("a range ends in an escape"),
            c => Some(c as u32),
        }
    }

    fn escape(&mut self) -> CharSet {
        match self.next() {
            's' => CharSet::white_space(),
            'S' => CharSet::white_space().negated(),
            'n' => CharSet::one('\n'),
            'r' => CharSet::one('\r'),
            't' => CharSet::one('\t'),
            c if c.is_ascii_punctuation() => CharSet::one(c),
            c => panic!("unknown escape {c}"),
        }
    }
}
