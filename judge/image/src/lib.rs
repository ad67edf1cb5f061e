//! Document 01's image, record by record, and its refusals.

/// A refusal with its place.
#[derive(Clone, Copy, Debug, PartialEq, Eq)]
pub struct Refusal {
    pub number: u16,
    pub start: u32,
    pub end: u32,
    pub detail: u16,
}

/// Records one behind the other.
#[derive(Default)]
pub struct Image(Vec<u8>);

impl Image {
    /// Begins a record; its payload follows field by field.
    pub fn record(&mut self, tag: u8) -> Record<'_> {
        self.0.extend([tag, 0, 0]);
        let start = self.0.len();
        Record { bytes: &mut self.0, start }
    }

    pub fn into_bytes(self) -> Vec<u8> {
        self.0
    }
}

/// A record whose payload begins at `start`; its length is filled in by `end`.
#[must_use]
pub struct Record<'i> {
    bytes: &'i mut Vec<u8>,
    start: usize,
}

impl Record<'_> {
    pub fn byte(self, value: u8) -> Self {
        self.bytes.push(value);
        self
    }

    pub fn flag(self, value: bool) -> Self {
        self.byte(value.into())
    }

    pub fn number(self, value: usize) -> Self {
        let value = u16::try_from(value).expect("no number exceeds the source's length");
        self.bytes.extend(value.to_be_bytes());
        self
    }

    pub fn span(self, (start, end): (u32, u32)) -> Self {
        self.number(start as usize).number(end as usize)
    }

    pub fn text(self, text: &str) -> Self {
        self.bytes.extend(text.as_bytes());
        self
    }

    pub fn end(self) {
        let length = u16::try_from(self.bytes.len() - self.start);
        let length = length.expect("no payload exceeds the source's length by much");
        self.bytes[self.start - 2..self.start].copy_from_slice(&length.to_be_bytes());
    }
}
