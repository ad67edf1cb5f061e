//! Request 6, from RFC 8259, document 02 and the notes on its reading: a station's text, read into
//! the same image. One method for each production of the RFC, named as it is there.
//!
//! A text is refused at the first byte where no JSON text continues. A method that finds no byte
//! of its own to go on with answers so; since every production begun so far can be ended, that is
//! the place.

use image::{Image, Refusal};

use crate::{
    doubles, hex,
    reader::{Answer, SOURCE_LIMIT},
};

/// The number of a text that is not JSON.
pub const NOT_JSON: u16 = 19;

const DEEP: u16 = 11;
const LARGE: u16 = 17;

/// How many values may be open.
pub const DEPTH: usize = 200;

struct Text<'t> {
    text: &'t str,
    at: usize,
    image: Image,
}

type Read<T> = Result<T, Refusal>;

impl Text<'_> {
    fn peek(&self) -> Option<u8> {
        self.text.as_bytes().get(self.at).copied()
    }

    fn refused<T>(&self, number: u16, start: usize) -> Read<T> {
        let (start, end) = (start as u32, self.at as u32);
        Err(Refusal { number, start, end, detail: 0 })
    }

    fn not_json<T>(&self) -> Read<T> {
        self.refused(NOT_JSON, self.at)
    }

    /// The next byte, if it is one of these.
    fn next(&mut self, wanted: impl Fn(u8) -> bool) -> Option<u8> {
        let byte = self.peek().filter(|&byte| wanted(byte))?;
        self.at += 1;
        Some(byte)
    }

    fn must(&mut self, wanted: impl Fn(u8) -> bool) -> Read<u8> {
        match self.next(wanted) {
            Some(byte) => Ok(byte),
            None => self.not_json(),
        }
    }

    fn word(&mut self, word: &str) -> Read<()> {
        word.bytes().try_for_each(|letter| self.must(|byte| byte == letter).map(drop))
    }

    fn ws(&mut self) {
        while self.next(|byte| matches!(byte, b' ' | b'\t' | b'\n' | b'\r')).is_some() {}
    }

    /// A value in whose place `open` others are open.
    fn value(&mut self, open: usize) -> Read<()> {
        let Some(first) = self.peek().filter(|byte| b"{[\"-0123456789tfn".contains(byte)) else {
            return self.not_json();
        };
        if open == DEPTH {
            return self.refused(DEEP, self.at);
        }
        match first {
            b'{' => self.object(open + 1),
            b'[' => self.array(open + 1),
            b'"' => {
                let text = self.string()?;
                self.image.record(5).text(&text).end();
                Ok(())
            }
            b't' => {
                self.word("true")?;
                self.image.record(3).flag(true).end();
                Ok(())
            }
            b'f' => {
                self.word("false")?;
                self.image.record(3).flag(false).end();
                Ok(())
            }
            b'n' => {
                self.word("null")?;
                self.image.record(2).end();
                Ok(())
            }
            b'-' => self.minus(open + 1),
            _ => self.number(),
        }
    }

    fn array(&mut self, open: usize) -> Read<()> {
        let count = self.items(b'[', b']', |text| text.value(open))?;
        self.image.record(7).number(count).end();
        Ok(())
    }

    fn object(&mut self, open: usize) -> Read<()> {
        let count = self.items(b'{', b'}', |text| text.member(open))?;
        self.image.record(9).number(count).end();
        Ok(())
    }

    /// Items with commas between them.
    fn items(
        &mut self,
        opening: u8,
        closing: u8,
        item: impl Fn(&mut Self) -> Read<()>,
    ) -> Read<usize> {
        self.must(|byte| byte == opening)?;
        self.ws();
        if self.next(|byte| byte == closing).is_some() {
            return Ok(0);
        }
        for count in 1.. {
            item(self)?;
            self.ws();
            if self.must(|byte| byte == b',' || byte == closing)? == closing {
                return Ok(count);
            }
            self.ws();
        }
        unreachable!("a text ends")
    }

    fn member(&mut self, open: usize) -> Read<()> {
        let start = self.at as u32;
        let name = self.string()?;
        let span = (start, self.at as u32);
        self.image.record(5).text(&name).end();
        self.ws();
        self.must(|byte| byte == b':')?;
        self.ws();
        self.value(open)?;
        // neither computed, plus nor a method; no parameters; visible by `:`
        let field = self.image.record(31).span(span);
        field.flag(false).flag(false).flag(false).number(0).byte(0).end();
        Ok(())
    }

    /// A sign, over a number that is a level deeper.
    fn minus(&mut self, open: usize) -> Read<()> {
        self.must(|byte| byte == b'-')?;
        if !self.peek().is_some_and(|byte| byte.is_ascii_digit()) {
            return self.not_json();
        }
        if open == DEPTH {
            return self.refused(DEEP, self.at);
        }
        self.number()?;
        self.image.record(12).byte(1).end();
        Ok(())
    }

    fn number(&mut self) -> Read<()> {
        let start = self.at;
        if self.next(|byte| byte == b'0').is_none() {
            self.digits()?;
        }
        if self.next(|byte| byte == b'.').is_some() {
            self.digits()?;
        }
        if self.next(|byte| matches!(byte, b'e' | b'E')).is_some() {
            self.next(|byte| matches!(byte, b'+' | b'-'));
            self.digits()?;
        }
        let literal = &self.text[start..self.at];
        if doubles::too_large(literal) {
            return self.refused(LARGE, start);
        }
        self.image.record(4).text(literal).end();
        Ok(())
    }

    fn digits(&mut self) -> Read<()> {
        self.must(|byte| byte.is_ascii_digit())?;
        while self.next(|byte| byte.is_ascii_digit()).is_some() {}
        Ok(())
    }

    fn string(&mut self) -> Read<String> {
        self.must(|byte| byte == b'"')?;
        let mut decoded = String::new();
        loop {
            let rest = &self.text[self.at..];
            let plain = rest.find(|c: char| c < ' ' || c == '"' || c == '\\');
            let plain = plain.unwrap_or(rest.len());
            decoded.push_str(&rest[..plain]);
            self.at += plain;
            if self.must(|byte| matches!(byte, b'"' | b'\\'))? == b'"' {
                return Ok(decoded);
            }
            decoded.push(self.escape()?);
        }
    }

    /// What an escape stands for, read behind its backslash.
    fn escape(&mut self) -> Read<char> {
        Ok(match self.must(|byte| b"\"\\/bfnrtu".contains(&byte))? {
            b'b' => '\x08',
            b'f' => '\x0c',
            b'n' => '\n',
            b'r' => '\r',
            b't' => '\t',
            b'u' => return self.code_units(),
            itself => itself.into(),
        })
    }

    /// One code unit, or two that are the halves of a pair: of a `D` the next digit already tells
    /// which half it is, and a low half alone goes on no more there.
    fn code_units(&mut self) -> Read<char> {
        let first = self.digit(|_| true)?;
        let second = self.digit(|digit| first != 0xd || digit < 0xc)?;
        let unit = first << 12 | second << 8 | self.pair()?;
        if !(first == 0xd && second >= 8) {
            return Ok(char::from_u32(unit).expect("this is no half"));
        }
        self.word("\\u")?;
        self.digit(|digit| digit == 0xd)?;
        let second = self.digit(|digit| digit >= 0xc)?;
        let low = 0xd << 12 | second << 8 | self.pair()?;
        let value = 0x1_0000 + ((unit & 0x3ff) << 10 | low & 0x3ff);
        Ok(char::from_u32(value).expect("a pair is a character"))
    }

    /// Two digits.
    fn pair(&mut self) -> Read<u32> {
        Ok(self.digit(|_| true)? << 4 | self.digit(|_| true)?)
    }

    fn digit(&mut self, wanted: impl Fn(u32) -> bool) -> Read<u32> {
        let value = |byte: u8| char::from(byte).to_digit(16);
        let byte = self.must(|byte| value(byte).is_some_and(&wanted))?;
        Ok(value(byte).expect("a digit"))
    }
}

/// The image of a text, or why and where it is none.
fn read(text: &str) -> Read<Vec<u8>> {
    let mut text = Text { text, at: 0, image: Image::default() };
    text.ws();
    text.value(0)?;
    text.ws();
    if text.peek().is_some() {
        return text.not_json();
    }
    Ok(text.image.into_bytes())
}

pub fn answer(room: u64, text: &[u8]) -> Answer {
    if text.len() > SOURCE_LIMIT {
        return Answer { number: 2, ..Answer::default() };
    }
    let text = match std::str::from_utf8(text) {
        Ok(text) => text,
        Err(fault) => {
            let place = fault.valid_up_to() as u32;
            return Answer { number: 3, start: place, end: place, ..Answer::default() };
        }
    };
    match read(text) {
        Err(Refusal { number, start, end, detail }) => {
            Answer { number, start, end, detail, ..Answer::default() }
        }
        Ok(image) if image.len() as u64 > room => {
            Answer { number: 12, length: image.len(), ..Answer::default() }
        }
        Ok(image) => Answer { length: image.len(), image, ..Answer::default() },
    }
}

/// A line `json OUTLEN HEXTEXT`.
pub fn line(line: &str) -> Result<String, String> {
    let ["json", room, text] = line.split(' ').collect::<Vec<_>>()[..] else {
        return Err(format!("not `json OUTLEN HEXTEXT`: {line}"));
    };
    let room = room.parse().map_err(|e| format!("output length {room}: {e}"))?;
    Ok(answer(room, &hex::decode(text)?).to_string())
}
