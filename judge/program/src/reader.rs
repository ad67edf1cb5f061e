//! Document 01's answer: the checks before the parser, the parser of the setting, and the room.

use std::fmt;

use image::Refusal;

use crate::hex;

/// The longest source that is read.
pub const SOURCE_LIMIT: usize = 65_000;

#[derive(Clone, Debug, Default, PartialEq, Eq)]
pub struct Answer {
    pub number: u16,
    pub start: u32,
    pub end: u32,
    pub detail: u16,
    pub length: usize,
    /// Empty unless the number is 0.
    pub image: Vec<u8>,
}

impl fmt::Display for Answer {
    fn fmt(&self, f: &mut fmt::Formatter<'_>) -> fmt::Result {
        let Self { number, start, end, detail, length, image } = self;
        write!(f, "{number} {start} {end} {detail} {length} {}", hex::encode(image))
    }
}

type Read = fn(&str, bool) -> Result<Vec<u8>, Refusal>;

/// How many settings there are.
pub const SETTINGS: u64 = 16;

/// The switch of a setting that has signs bind by the published rule.
const PUBLISHED: u64 = 8;

/// The parser under each setting without that switch.
const PARSERS: [Read; 8] = [
    setting0::read,
    setting1::read,
    setting2::read,
    setting3::read,
    setting4::read,
    setting5::read,
    setting6::read,
    setting7::read,
];

pub fn answer(setting: u64, room: u64, source: &[u8]) -> Answer {
    if setting >= SETTINGS {
        return Answer { number: 1, ..Answer::default() };
    }
    if source.len() > SOURCE_LIMIT {
        return Answer { number: 2, ..Answer::default() };
    }
    let source = match std::str::from_utf8(source) {
        Ok(source) => source,
        Err(fault) => {
            let place = fault.valid_up_to() as u32;
            return Answer { number: 3, start: place, end: place, ..Answer::default() };
        }
    };
    let read = PARSERS[(setting % PUBLISHED) as usize];
    match read(source, setting >= PUBLISHED) {
        Err(Refusal { number, start, end, detail }) => {
            Answer { number, start, end, detail, ..Answer::default() }
        }
        Ok(image) if image.len() as u64 > room => {
            Answer { number: 12, length: image.len(), ..Answer::default() }
        }
        Ok(image) => Answer { length: image.len(), image, ..Answer::default() },
    }
}

/// A line `SETTING OUTLEN HEXSOURCE`.
pub fn line(line: &str) -> Result<String, String> {
    let [setting, room, source] = line.split(' ').collect::<Vec<_>>()[..] else {
        return Err(format!("not three words: {line}"));
    };
    let setting = setting.parse().map_err(|e| format!("setting {setting}: {e}"))?;
    let room = room.parse().map_err(|e| format!("output length {room}: {e}"))?;
    Ok(answer(setting, room, &hex::decode(source)?).to_string())
}
