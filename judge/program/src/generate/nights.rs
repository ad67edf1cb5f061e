//! Nights: some sources in one buffer, with the lists of a call.

use super::{Lines, rng::Rng, sources};
use crate::{hex, night::Question, reader};

/// A night of these files, each with so much room.
fn night(setting: u64, files: &[(&[u8], usize)]) -> Question {
    let (mut ends, mut parts) = (Vec::new(), Vec::new());
    let (mut sources, mut room) = (Vec::new(), 0);
    for &(source, part) in files {
        sources.extend_from_slice(source);
        ends.push(sources.len() as u64);
        room += part;
        parts.push(room as u64);
    }
    Question { setting, count: 5 * ends.len(), ends, parts, room, sources }
}

/// What a planner's night may have: read, refused in each way, empty, without room.
const FILES: [(&[u8], usize); 12] = [
    (b"1", 4),
    (b":1", 5),
    (b"", 0),
    (b"", 3),
    (b"-a*b", 28),
    (b"-a*b", 27),
    (b"[1,2]", 20),
    (b"\"\xff\"", 2),
    (b"a?.b", 40),
    (b"\"\\q\"", 6),
    (b"f(a=1,2)", 1),
    (b"1 2", 0),
];

/// All ways to move one number of the lists by one or two, or to drop or add one.
fn unfit(lines: &mut Lines, files: &[(&[u8], usize)]) {
    let question = || night(0, files);
    for by in [-2, -1, 1, 2] {
        let moved = |n: u64| n.checked_add_signed(by);
        for i in 0..files.len() {
            for which in [0, 1] {
                let mut q = question();
                let list = if which == 0 { &mut q.ends } else { &mut q.parts };
                let Some(n) = moved(list[i]) else { continue };
                list[i] = n;
                lines.push(q.to_string());
            }
        }
        for which in [0, 1] {
            let mut q = question();
            let n = if which == 0 { &mut q.room } else { &mut q.count };
            let Some(m) = moved(*n as u64) else { continue };
            *n = m as usize;
            lines.push(q.to_string());
        }
    }
    for which in [0, 1] {
        let mut q = question();
        if which == 0 { q.ends.pop() } else { q.parts.pop() };
        lines.push(q.to_string());
        let mut q = question();
        let list = if which == 0 { &mut q.ends } else { &mut q.parts };
        let last = list.last().copied().unwrap_or(0);
        list.push(last);
        lines.push(q.to_string());
    }
    for n in [u64::MAX, 1 << 63, 1 << 32] {
        let mut q = question();
        if let Some(last) = q.ends.last_mut() {
            *last = n;
        }
        lines.push(q.to_string());
    }
}

pub fn fixed(lines: &mut Lines) {
    lines.push("night 0 1,3 4,9 9 10 313a31".to_owned());
    for setting in [0, 7, 15, 16, u64::MAX] {
        lines.push(night(setting, &[]).to_string());
        lines.push(night(setting, &FILES).to_string());
    }
    for first in FILES {
        lines.push(night(0, &[first]).to_string());
        for second in FILES {
            lines.push(night(0, &[first, second]).to_string());
        }
    }
    for files in [&FILES[..0], &FILES[..1], &FILES[..2], &FILES[2..4], &FILES[3..6]] {
        unfit(lines, files);
    }
    // a file in which each number that is no place is met, between two others
    let cut = b"\"\xc3\xa9\"";
    for at in 0..=cut.len() {
        lines.push(night(0, &[(b"1", 4), (&cut[..at], 9), (&cut[at..], 9)]).to_string());
    }
}

pub fn random(rng: &mut Rng) -> String {
    let setting = rng.below(reader::SETTINGS as usize + 1) as u64;
    let files: Vec<(Vec<u8>, usize)> = (0..rng.below(6))
        .map(|_| {
            let line = sources::random(rng);
            let mut words = line.split(' ').skip(1);
            let room = words.next().and_then(|room| room.parse().ok()).unwrap_or(0);
            let source = words.next().map(hex::decode).and_then(Result::ok).unwrap_or_default();
            (source, room)
        })
        .collect();
    let files: Vec<(&[u8], usize)> = files.iter().map(|(s, room)| (s.as_slice(), *room)).collect();
    let mut q = night(setting, &files);
    if rng.once_in(4) {
        damage(rng, &mut q);
    }
    q.to_string()
}

/// One number of the lists, or a length, is another.
fn damage(rng: &mut Rng, q: &mut Question) {
    let by = rng.pick(&[-5, -2, -1, 1, 2, 5]);
    let which = rng.below(6);
    match which {
        0 | 1 => {
            let list = if which == 0 { &mut q.ends } else { &mut q.parts };
            if list.is_empty() {
                list.push(rng.below(3) as u64);
            } else {
                let i = rng.below(list.len());
                list[i] = list[i].saturating_add_signed(by);
            }
        }
        2 => q.room = q.room.saturating_add_signed(by as isize),
        3 => q.count = q.count.saturating_add_signed(by as isize),
        4 => q.sources.push(b' '),
        _ => {
            // which is no damage if the two are equal
            let list = if rng.once_in(2) { &mut q.ends } else { &mut q.parts };
            if list.len() > 1 {
                let i = rng.below(list.len() - 1);
                list.swap(i, i + 1);
            }
        }
    }
}
