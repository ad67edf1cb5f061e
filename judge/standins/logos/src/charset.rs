//! Sets of characters.

const LAST: u32 = char::MAX as u32;

/// Sorted ranges, ends included, none touching the next.
#[derive(Clone, Debug, PartialEq)]
pub struct CharSet(Vec<(u32, u32)>);

impl CharSet {
    pub fn one(c: char) -> Self {
        Self(vec![(c as u32, c as u32)])
    }

    pub fn new(mut ranges: Vec<(u32, u32)>) -> Self {
        ranges.sort_unstable();
        let mut merged: Vec<(u32, u32)> = Vec::new();
        for (low, high) in ranges {
            assert!(low <= high, "a range runs upwards");
            match merged.last_mut() {
                Some(last) if low <= last.1 + 1 => last.1 = last.1.max(high),
                _ => merged.push((low, high)),
            }
        }
        Self(merged)
    }

    /// Unicode White_Space, 25 code points.
    pub fn white_space() -> Self {
        Self::new(vec![
            (0x09, 0x0d),
            (0x20, 0x20),
            (0x85, 0x85),
            (0xa0, 0xa0),
            (0x1680, 0x1680),
            (0x2000, 0x200a),
            (0x2028, 0x2029),
            (0x202f, 0x202f),
            (0x205f, 0x205f),
            (0x3000, 0x3000),
        ])
    }

    pub fn negated(&self) -> Self {
        let mut ranges = Vec::new();
        let mut from = 0;
        for &(low, high) in &self.0 {
            if from < low {
                ranges.push((from, low - 1));
            }
            from = high + 1;
        }
        if from <= LAST {
            ranges.push((from, LAST));
        }
        Self(ranges)
    }

    pub fn ranges(&self) -> &[(u32, u32)] {
        &self.0
    }

    pub fn contains(&self, c: u32) -> bool {
        self.0.iter().any(|&(low, high)| low <= c && c <= high)
    }
}

#[cfg(test)]
mod tests {
    use super::CharSet;

    #[test]
    fn white_space_is_unicode_white_space() {
        let set = CharSet::white_space();
        assert_eq!(set.ranges().iter().map(|(low, high)| high - low + 1).sum::<u32>(), 25);
        for c in '\0'..=char::MAX {
            assert_eq!(set.contains(c as u32), c.is_whitespace(), "{c:?}");
            assert_ne!(set.negated().contains(c as u32), c.is_whitespace(), "{c:?}");
        }
    }
}
