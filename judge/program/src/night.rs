//! Request 7, from document 02: a night's files in one call, each as the single call has it.

use std::{fmt, ops::Range};

use crate::{
    hex,
    reader::{self, Answer},
};

/// The number of lists that do not fit.
const LISTS: u64 = 20;

/// How many numbers a file has among the answers.
const FIVE: usize = 5;

/// One call: the files end in `sources` at `ends`, their parts in an output of `room` bytes at
/// `parts`, and the list for the answers has `count` numbers.
pub struct Question {
    pub setting: u64,
    pub ends: Vec<u64>,
    pub parts: Vec<u64>,
    pub room: usize,
    pub count: usize,
    pub sources: Vec<u8>,
}

/// What the call gives, and the whole lists as it leaves them.
#[derive(Debug, PartialEq, Eq)]
pub struct Night {
    pub number: u64,
    pub answers: Vec<u64>,
    pub output: Vec<u8>,
}

/// "end short of or beyond their buffers, or go backward"
fn cut(ends: &[u64], length: usize) -> Option<Vec<Range<usize>>> {
    let mut parts = Vec::new();
    let mut from = 0;
    for &end in ends {
        let end = usize::try_from(end).ok().filter(|end| (from..=length).contains(end))?;
        parts.push(from..end);
        from = end;
    }
    (from == length).then_some(parts)
}

impl Question {
    /// The files and their parts. "unequal numbers of files" takes in the list for the answers.
    fn files(&self) -> Option<Vec<(Range<usize>, Range<usize>)>> {
        let files = cut(&self.ends, self.sources.len())?;
        let parts = cut(&self.parts, self.room)?;
        let fit = files.len() == parts.len() && self.count == FIVE * files.len();
        fit.then(|| files.into_iter().zip(parts).collect())
    }

    pub fn answer(&self) -> Night {
        let mut night =
            Night { number: 0, answers: vec![0; self.count], output: vec![0; self.room] };
        let Some(files) = self.files() else {
            night.number = LISTS;
            return night;
        };
        for (place, (file, part)) in night.answers.chunks_mut(FIVE).zip(files) {
            let part = &mut night.output[part];
            let answer = reader::answer(self.setting, part.len() as u64, &self.sources[file]);
            let Answer { number, start, end, detail, length, image } = answer;
            place.copy_from_slice(&[
                number.into(),
                start.into(),
                end.into(),
                detail.into(),
                length as u64,
            ]);
            part[..image.len()].copy_from_slice(&image);
        }
        night
    }
}

/// Numbers with commas between them, `-` for none.
pub fn list(numbers: &[u64]) -> String {
    if numbers.is_empty() {
        return "-".to_owned();
    }
    numbers.iter().map(u64::to_string).collect::<Vec<_>>().join(",")
}

fn unlist(text: &str) -> Result<Vec<u64>, String> {
    if text == "-" {
        return Ok(Vec::new());
    }
    let numbers = text.split(',').map(str::parse);
    numbers.collect::<Result<_, _>>().map_err(|e| format!("list {text}: {e}"))
}

impl fmt::Display for Question {
    fn fmt(&self, f: &mut fmt::Formatter<'_>) -> fmt::Result {
        let Self { setting, ends, parts, room, count, sources } = self;
        let (ends, parts, sources) = (list(ends), list(parts), hex::encode(sources));
        write!(f, "night {setting} {ends} {parts} {room} {count} {sources}")
    }
}

impl fmt::Display for Night {
    fn fmt(&self, f: &mut fmt::Formatter<'_>) -> fmt::Result {
        let Self { number, answers, output } = self;
        write!(f, "{number} {} {}", list(answers), hex::encode(output))
    }
}

/// A line `night SETTING ENDS OUTENDS OUTLEN ANSWERLEN HEXSOURCES`.
pub fn line(line: &str) -> Result<String, String> {
    let ["night", setting, ends, parts, room, count, sources] =
        line.split(' ').collect::<Vec<_>>()[..]
    else {
        return Err(format!("no night: {line}"));
    };
    let question = Question {
        setting: setting.parse().map_err(|e| format!("setting {setting}: {e}"))?,
        ends: unlist(ends)?,
        parts: unlist(parts)?,
        room: room.parse().map_err(|e| format!("output length {room}: {e}"))?,
        count: count.parse().map_err(|e| format!("answers {count}: {e}"))?,
        sources: hex::decode(sources)?,
    };
    Ok(question.answer().to_string())
}

#[cfg(test)]
mod tests {
    use super::line;

    /// What is written down: document 02's example, and the readings of request 7.
    const WRITTEN: [(&str, &str); 22] = [
        ("night 0 1,3 4,9 9 10 313a31", "0 0,0,0,0,4,7,0,1,0,0 040001310000000000"),
        ("night 0 - - 0 0 -", "0 - -"),
        ("night 99 - - 0 0 -", "0 - -"),
        // nothing but the lists is empty
        ("night 0 - - 0 0 31", "20 - -"),
        ("night 0 - - 1 0 -", "20 - 00"),
        ("night 0 - - 0 5 -", "20 0,0,0,0,0 -"),
        // five numbers for each file, no more and no fewer
        ("night 0 1 4 4 0 31", "20 - 00000000"),
        ("night 0 1 4 4 4 31", "20 0,0,0,0 00000000"),
        ("night 0 1 4 4 6 31", "20 0,0,0,0,0,0 00000000"),
        ("night 0 1 4 4 10 31", "20 0,0,0,0,0,0,0,0,0,0 00000000"),
        // ends and parts for other numbers of files
        ("night 0 1,2 4 4 10 3131", "20 0,0,0,0,0,0,0,0,0,0 00000000"),
        ("night 0 1,2 4 4 5 3131", "20 0,0,0,0,0 00000000"),
        ("night 0 2 4,8 8 5 3131", "20 0,0,0,0,0 0000000000000000"),
        // short of and beyond the buffers
        ("night 0 1 4 4 5 3131", "20 0,0,0,0,0 00000000"),
        ("night 0 3 4 4 5 3131", "20 0,0,0,0,0 00000000"),
        ("night 0 1 3 4 5 31", "20 0,0,0,0,0 00000000"),
        ("night 0 1 5 4 5 31", "20 0,0,0,0,0 00000000"),
        // backward, and beyond in the middle
        ("night 0 2,1,2 4,4,4 4 15 3131", "20 0,0,0,0,0,0,0,0,0,0,0,0,0,0,0 00000000"),
        ("night 0 9,2 0,4 4 10 3131", "20 0,0,0,0,0,0,0,0,0,0 00000000"),
        // an empty source and an empty part
        ("night 0 0,1 0,0 0 10 31", "0 7,0,0,0,0,12,0,0,0,4 -"),
        // a bad setting is each file's own
        ("night 16 1,2 4,8 8 10 3131", "0 1,0,0,0,0,1,0,0,0,0 0000000000000000"),
        // a character that is cut by an end
        ("night 0 2,4 2,4 4 10 22c3a922", "0 3,1,1,0,0,3,0,0,0,0 00000000"),
    ];

    #[test]
    fn written() {
        for (question, answer) in WRITTEN {
            assert_eq!(line(question).as_deref(), Ok(answer), "{question}");
        }
    }
}
