//! Sources written along the grammar, with every switch of a setting in use.

use super::rng::Rng;

/// A random expression under `setting` with about `size` phrases, written out.
pub fn source(rng: &mut Rng, setting: u64, size: usize) -> String {
    let mut writer = Writer { rng, setting, left: size, lexemes: Vec::new() };
    writer.expr();
    let lexemes = writer.lexemes;
    join(rng, &lexemes)
}

/// Puts blanks where lexemes would run together, and at other places now and then.
pub fn join(rng: &mut Rng, lexemes: &[&str]) -> String {
    let mut text = String::new();
    for lexeme in lexemes {
        if runs_together(&text, lexeme) || rng.once_in(12) {
            text.push_str(
                rng.pick(&[" ", " ", " ", " ", "\n", "\t", "\r\n", "/**/", "#\n", "//a\n"]),
            );
        }
        text.push_str(lexeme);
    }
    text
}

fn runs_together(text: &str, lexeme: &str) -> bool {
    let (Some(last), Some(first)) = (text.chars().last(), lexeme.chars().next()) else {
        return false;
    };
    let word = |c: char| c.is_ascii_alphanumeric() || c == '_';
    let sign = |c: char| c.is_ascii_punctuation() && !"()[]{},;\"'_".contains(c);
    word(last) && word(first) || sign(last) && sign(first) || last.is_ascii_digit() && first == '.'
}

const PREFIX: [&str; 4] = ["+", "-", "~", "!"];

const INFIX: [&str; 19] = [
    "*", "/", "%", "+", "-", "<<", ">>", "<", ">", "<=", ">=", "&", "|", "^", "==", "!=", "&&",
    "||", "in",
];

const ATOMS: [&str; 32] = [
    "a", "b", "c", "x", "a", "b", "_1", "null", "true", "false", "self", "super", "$", "0", "1",
    "1_0", "1.5", "2e3", "0.0_1E-5", "0e999", "\"\"", "\"a\"", "'b'", "'\\n'", "\"\\u00e9\"",
    "\"\\x41\"", "\"é\"", "@\"a\"\"\"", "@''''", "|||\n a\n|||", "|||-\n\n  a\n\n   b\n|||",
    "'\\uD83D\\uDE00'",
];

/// Literals that say nothing: bad escapes, and numbers that a double does not hold.
const BAD_LITERALS: [&str; 6] =
    ["\"\\q\"", "'\\uD800'", "\"\\u12\"", "'\\xg0'", "1e999", "1_8.0e+3_07"];

const NAMES: [&str; 6] = ["a", "b", "k", "v", "x", "mass"];

struct Writer<'r> {
    rng: &'r mut Rng,
    setting: u64,
    /// How many more phrases may be opened.
    left: usize,
    lexemes: Vec<&'static str>,
}

impl Writer<'_> {
    fn has(&self, switch: u64) -> bool {
        self.setting & switch != 0
    }

    fn put(&mut self, lexemes: &[&'static str]) {
        self.lexemes.extend(lexemes);
    }

    fn name(&mut self) {
        let name = self.rng.pick(&NAMES);
        self.put(&[name]);
    }

    /// Some of `part`, none at all now and then, with commas between and perhaps behind.
    fn commas(&mut self, part: impl Fn(&mut Self)) {
        let count = self.rng.below(4);
        for at in 0..count {
            part(self);
            if at + 1 < count || self.rng.once_in(6) {
                self.put(&[","]);
            }
        }
    }

    fn atom(&mut self) {
        let atoms = if self.rng.once_in(60) { &BAD_LITERALS[..] } else { &ATOMS[..] };
        let atom = self.rng.pick(atoms);
        self.put(&[atom]);
    }

    fn expr(&mut self) {
        if self.left == 0 {
            return self.atom();
        }
        self.left -= 1;
        match self.rng.below(20) {
            0 => self.atom(),
            1 | 2 => {
                let sign = self.rng.pick(&PREFIX);
                self.put(&[sign]);
                self.expr();
            }
            3..7 => {
                self.expr();
                let sign =
                    if self.has(4) && self.rng.once_in(6) { "??" } else { self.rng.pick(&INFIX) };
                self.put(&[sign]);
                self.expr();
            }
            7..11 => self.suffixed(),
            11 => {
                self.put(&["("]);
                self.expr();
                self.put(&[")"]);
            }
            12 => {
                self.put(&["["]);
                self.commas(Self::expr);
                self.put(&["]"]);
            }
            13 => {
                self.put(&["["]);
                self.expr();
                if self.rng.once_in(6) {
                    self.put(&[","]);
                }
                self.clauses();
                self.put(&["]"]);
            }
            14 | 15 => self.object(),
            16 => {
                self.put(&["local"]);
                self.commas(Self::bind);
                self.put(&[";"]);
                self.expr();
            }
            17 => {
                self.put(&["if"]);
                self.expr();
                self.put(&["then"]);
                self.expr();
                if self.rng.once_in(2) {
                    self.put(&["else"]);
                    self.expr();
                }
            }
            18 => {
                self.put(&["function"]);
                self.params();
                self.expr();
            }
            _ => self.statement(),
        }
    }

    fn statement(&mut self) {
        match self.rng.below(3) {
            0 => {
                self.assert();
                self.put(&[";"]);
            }
            1 => self.put(&["error"]),
            _ => {
                let kind = self.rng.pick(&["import", "importstr", "importbin"]);
                self.put(&[kind]);
            }
        }
        self.expr();
    }

    fn suffixed(&mut self) {
        if self.rng.once_in(2) {
            self.atom()
        } else {
            self.expr()
        }
        for _ in 0..=self.rng.below(3) {
            match self.rng.below(8) {
                0 | 1 => {
                    self.put(&["."]);
                    self.name();
                }
                2 => {
                    self.put(&["["]);
                    self.expr();
                    self.put(&["]"]);
                }
                3 => self.slice(),
                4 => self.call(),
                5 => self.object(),
                _ if !self.has(4) => {
                    self.put(&["."]);
                    self.name();
                }
                6 => {
                    self.put(&["?", "."]);
                    self.name();
                }
                _ => {
                    self.put(&["?", ".", "["]);
                    self.expr();
                    self.put(&["]"]);
                }
            }
        }
    }

    fn slice(&mut self) {
        self.put(&["["]);
        for at in 0..3 {
            if at == 1 || at == 2 && self.rng.once_in(2) {
                self.put(&[":"]);
            } else if at == 2 {
                break;
            }
            if self.rng.once_in(2) {
                self.expr();
            }
        }
        self.put(&["]"]);
    }

    fn call(&mut self) {
        self.put(&["("]);
        // Named arguments stand last, but for a fault now and then.
        let positional = self.rng.below(3);
        let named = self.rng.below(3);
        for at in 0..positional + named {
            if at > 0 {
                self.put(&[","]);
            }
            if at >= positional && !self.rng.once_in(8) {
                self.name();
                self.put(&["="]);
            }
            self.expr();
        }
        if positional + named > 0 && self.rng.once_in(6) {
            self.put(&[","]);
        }
        self.put(&[")"]);
        if self.rng.once_in(6) {
            self.put(&["tailstrict"]);
        }
    }

    fn params(&mut self) {
        self.put(&["("]);
        self.commas(|writer| {
            writer.pattern();
            if writer.rng.once_in(3) {
                writer.put(&["="]);
                writer.expr();
            }
        });
        self.put(&[")"]);
    }

    fn assert(&mut self) {
        self.put(&["assert"]);
        self.expr();
        if self.rng.once_in(2) {
            self.put(&[":"]);
            self.expr();
        }
    }

    fn bind(&mut self) {
        if self.rng.once_in(3) {
            self.name();
            self.params();
        } else {
            self.pattern();
        }
        self.put(&["="]);
        self.expr();
    }

    fn object(&mut self) {
        self.put(&["{"]);
        if self.rng.once_in(3) {
            // Mostly one field; more, none and asserts are faults.
            for _ in 0..self.rng.below(2) {
                self.local_member();
                self.put(&[","]);
            }
            if self.rng.once_in(8) {
                self.member()
            } else {
                self.field()
            }
            if self.rng.once_in(4) {
                self.put(&[","]);
                if self.rng.once_in(2) {
                    self.member();
                }
            }
            self.clauses();
        } else {
            self.commas(Self::member);
        }
        self.put(&["}"]);
    }

    fn member(&mut self) {
        match self.rng.below(5) {
            0 => self.local_member(),
            1 => self.assert(),
            _ => self.field(),
        }
    }

    fn local_member(&mut self) {
        self.put(&["local"]);
        self.bind();
    }

    fn field(&mut self) {
        match self.rng.below(4) {
            0 => {
                self.put(&["["]);
                self.expr();
                self.put(&["]"]);
            }
            1 => {
                let name = self
                    .rng
                    .pick(&["\"a\"", "'mass'", "@\"d\"", "|||\n a\n|||", "\"\\t\"", "'\\z'"]);
                self.put(&[name]);
            }
            _ => self.name(),
        }
        match self.rng.below(5) {
            0 => self.params(),
            1 => self.put(&["+"]),
            _ => {}
        }
        self.visibility();
        self.expr();
    }

    fn visibility(&mut self) {
        let colons = self.rng.pick(&[1, 1, 1, 2, 3]);
        self.put(&[":"; 3][..colons]);
    }

    fn clauses(&mut self) {
        for at in 0..=self.rng.below(3) {
            if at > 0 && self.rng.once_in(2) {
                self.put(&["if"]);
                self.expr();
                continue;
            }
            self.put(&["for"]);
            if self.has(2) && self.rng.once_in(2) {
                self.put(&["["]);
                self.name();
                self.put(&["]"]);
                self.visibility();
            }
            self.pattern();
            self.put(&["in"]);
            self.expr();
        }
    }

    fn pattern(&mut self) {
        if !self.has(1) || self.left == 0 || self.rng.once_in(2) {
            return self.name();
        }
        self.left -= 1;
        match self.rng.below(3) {
            0 => self.put(&["?"]),
            1 => {
                self.put(&["["]);
                self.commas(
                    |writer| {
                        if writer.rng.once_in(4) { writer.rest() } else { writer.pattern() }
                    },
                );
                self.put(&["]"]);
            }
            _ => {
                self.put(&["{"]);
                self.commas(Self::pattern_field);
                self.put(&["}"]);
            }
        }
    }

    fn rest(&mut self) {
        self.put(&["..."]);
        if self.rng.once_in(2) {
            self.name();
        }
    }

    fn pattern_field(&mut self) {
        if self.rng.once_in(6) {
            return self.rest();
        }
        self.name();
        if self.rng.once_in(3) {
            self.put(&[":"]);
            self.pattern();
        }
        if self.rng.once_in(3) {
            self.put(&["="]);
            self.expr();
        }
    }
}
