//! Reads Jsonnet sources: bytes in; the image of a tree out, or a refusal with its place.
//!
//! Every answer is the proved reader's (`crates/matigelo`); this crate only hands slices over and gives the numbers their names. The image is
//! described in the repository's README, "The image".
//!
//! ```
//! let mut output = [0u8; 64];
//! let image = matigelo::read(0, b"-a*b", &mut output).unwrap();
//! assert_eq!(image.len(), 28);
//!
//! let refusal = matigelo::read(0, b"1 2", &mut output).unwrap_err();
//! assert_eq!(refusal.why, matigelo::Why::Wanted);
//! assert_eq!(refusal.place, 2..3);
//! ```
//!
//! An image that comes from elsewhere is read back by [`back`], which trusts no byte of it: it is one tree's, and each record's children are found, or
//! it is refused at its first bad record.
//!
//! ```
//! # let mut output = [0u8; 64];
//! let image = matigelo::read(0, b"-a*b", &mut output).unwrap();
//! let mut links = vec![0; matigelo::links_for(image.len())];
//! let records = matigelo::back(image, &mut links).unwrap();
//! assert_eq!(records.children(records.root()).map(|r| image[records.offset(r)]).collect::<Vec<_>>(), [13]);
//! ```
//!
//! A station's text, JSON (RFC 8259), is read to the same image by [`json`].
//!
//! ```
//! # let (mut output, mut other) = ([0u8; 64], [0u8; 64]);
//! assert_eq!(matigelo::json(b"[-1]", &mut output), matigelo::read(0, b"[-1]", &mut other));
//! let refusal = matigelo::json(b"[1,]", &mut output).unwrap_err();
//! assert_eq!((refusal.why, refusal.place), (matigelo::Why::NotJson, 3..3));
//! ```
//!
//! Reading a source recurses, at most 200 levels deep: a thread of your own needs 512 KiB of stack. Reading an image back, or JSON, does not.

use std::error::Error;
use std::fmt;
use std::ops::Range;

mod entry {
    extern "C" {
        pub fn matigelo_read(
            setting: u64,
            source: *const u8,
            source_length: usize,
            output: *mut u8,
            output_length: usize,
            answer: *mut [u64; 5],
        );
        pub fn matigelo_json(
            text: *const u8,
            text_length: usize,
            output: *mut u8,
            output_length: usize,
            answer: *mut [u64; 5],
        );
        pub fn matigelo_back(
            image: *const u8,
            image_length: usize,
            links: *mut usize,
            links_length: usize,
            answer: *mut [u64; 3],
        );
        pub fn matigelo_mass(
            image: *const u8,
            image_length: usize,
            links: *mut usize,
            links_length: usize,
            list: *mut usize,
            list_length: usize,
            answer: *mut [u64; 3],
        );
    }
}

/// Switches; a setting is the sum of those that are on.
pub mod switch {
    /// Patterns in place of names.
    pub const EXP_DESTRUCT: u64 = 1;
    /// `for [k]: v in o`.
    pub const EXP_OBJECT_ITERATION: u64 = 2;
    /// `a ?? b`, `a?.b`.
    pub const EXP_NULL_COAELSE: u64 = 4;
    /// `-a*b` is `(-a)*b`.
    pub const PUBLISHED_SIGNS: u64 = 8;
}

/// The most bytes that a source may have.
pub const LONGEST_SOURCE: usize = 65_000;

/// An image has at most so many bytes for each byte of its source.
pub const IMAGE_FACTOR: usize = 16;

macro_rules! numbers {
    ($($number:literal $name:ident $words:literal)*) => {
        /// Why a source or a station's text is refused: the README's tables of refusals, "given when".
        #[derive(Clone, Copy, Debug, PartialEq, Eq, Hash)]
        #[non_exhaustive]
        pub enum Why {
            $(#[doc = $words] $name,)*
        }

        impl Why {
            /// The number that the reader hands back for it.
            pub fn number(self) -> u64 {
                match self {
                    $(Why::$name => $number,)*
                }
            }

            fn of(number: u64) -> Option<Why> {
                match number {
                    $($number => Some(Why::$name),)*
                    _ => None,
                }
            }

            fn words(self) -> &'static str {
                match self {
                    $(Why::$name => $words,)*
                }
            }
        }
    };
}

// a line for each number, as in crates/grammar/src/numbers.rt; behind them what crates/json has of its own
numbers! {
    1 Setting "the setting is above 15"
    2 Long "the source is longer than 65,000 bytes"
    3 Encoding "the source is not UTF-8"
    4 Lexeme "a bad lexeme stands there"
    5 Wanted "another kind of lexeme is wanted"
    6 Absent "a field name or a pattern is wanted"
    7 Expression "an expression is wanted"
    8 Misplaced "what stands there is misplaced"
    9 Escape "a string has a bad escape"
    11 Deep "phrases would nest 201 deep"
    12 Room "the image is longer than the output"
    17 Large "a number is more than a double holds"
    19 NotJson "no JSON text goes on there"
}

/// A source that has no tree, or whose image has no room.
#[derive(Clone, Debug, PartialEq, Eq, Hash)]
pub struct Refusal {
    pub why: Why,
    /// Bytes of the source, counted from 0; empty at 0 where there is no place to tell.
    pub place: Range<usize>,
    /// What the README's table has for the number: a kind, which of several faults, or where a bad escape begins; 0 where it has none.
    pub detail: u64,
    /// For `Why::Room` the length of output that is needed, else 0.
    pub needed: usize,
}

impl fmt::Display for Refusal {
    fn fmt(&self, f: &mut fmt::Formatter<'_>) -> fmt::Result {
        match self.why {
            Why::Setting | Why::Long => f.write_str(self.why.words()),
            Why::Room => write!(f, "{}: {} bytes are needed", self.why.words(), self.needed),
            _ => write!(
                f,
                "{}, at bytes {} to {}",
                self.why.words(),
                self.place.start,
                self.place.end
            ),
        }
    }
}

impl Error for Refusal {}

/// Reads a source under a setting into a lent output. The image is the output's start, and zeros follow it; after a refusal all of the output
/// is zero. Every setting, source and output has an answer.
pub fn read<'o>(setting: u64, source: &[u8], output: &'o mut [u8]) -> Result<&'o [u8], Refusal> {
    let mut answer = [0u64; 5];
    // SAFETY: the pointers and lengths are those of slices that live through the call; `output` and `answer` are borrowed mutably, so they overlap
    // neither each other nor the source, and nothing else changes the source.
    unsafe {
        entry::matigelo_read(
            setting,
            source.as_ptr(),
            source.len(),
            output.as_mut_ptr(),
            output.len(),
            &mut answer,
        );
    }
    answered(answer, output)
}

/// The image that an answer has left in the output, or the refusal that it is.
fn answered(answer: [u64; 5], output: &[u8]) -> Result<&[u8], Refusal> {
    let [number, start, end, detail, length] = answer;
    if number == 0 {
        return Ok(&output[..length as usize]);
    }
    let why = Why::of(number).unwrap_or_else(|| {
        panic!("the linked library gives number {number}, which this crate does not know")
    });
    Err(Refusal { why, place: start as usize..end as usize, detail, needed: length as usize })
}

/// Reads a station's text, JSON, into a lent output, which is left as [`read`] leaves it. Every text and output has an answer, and nothing recurses.
pub fn json<'o>(text: &[u8], output: &'o mut [u8]) -> Result<&'o [u8], Refusal> {
    let mut answer = [0u64; 5];
    // SAFETY: as for `read`.
    unsafe {
        entry::matigelo_json(
            text.as_ptr(),
            text.len(),
            output.as_mut_ptr(),
            output.len(),
            &mut answer,
        );
    }
    answered(answer, output)
}

/// The same with an output that has room for every image.
pub fn read_to_vec(setting: u64, source: &[u8]) -> Result<Vec<u8>, Refusal> {
    let mut output = vec![0; IMAGE_FACTOR * source.len().min(LONGEST_SOURCE)];
    let length = read(setting, source, &mut output)?.len();
    output.truncate(length);
    Ok(output)
}

macro_rules! back_numbers {
    ($($number:literal $name:ident $words:literal)*) => {
        /// Why an image is refused: the header's table of what is said of an image that is read back.
        #[derive(Clone, Copy, Debug, PartialEq, Eq, Hash)]
        #[non_exhaustive]
        pub enum Fault {
            $(#[doc = $words] $name,)*
        }

        impl Fault {
            /// The number that the reader of images hands back for it.
            pub fn number(self) -> u64 {
                match self {
                    $(Fault::$name => $number,)*
                }
            }

            fn of(number: u64) -> Option<Fault> {
                match number {
                    $($number => Some(Fault::$name),)*
                    _ => None,
                }
            }

            fn words(self) -> &'static str {
                match self {
                    $(Fault::$name => $words,)*
                }
            }
        }
    };
}

// a line for each number, as in crates/images/specs/Numbers.antt
back_numbers! {
    13 Unknown "no record has this tag"
    14 Malformed "a length, a flag or an enum byte is wrong"
    15 Children "children are missing, or trees are left over"
    16 Underived "no source gives this text, name, shape, root or span"
    21 ListShort "the list is too short"
    24 Short "the array for the links is too short"
}

/// An image that is no tree's, an array that is too short for its links, or a list that is too short for its listings.
#[derive(Clone, Debug, PartialEq, Eq, Hash)]
pub struct BadImage {
    pub fault: Fault,
    /// The offset of the first bad record; the image's length where the fault is seen at its end; 0 for `Fault::Short` and `Fault::ListShort`.
    pub offset: usize,
    /// For `Fault::Short` how many numbers are needed, for `Fault::ListShort` how many listings there are, else 0.
    pub needed: usize,
}

impl fmt::Display for BadImage {
    fn fmt(&self, f: &mut fmt::Formatter<'_>) -> fmt::Result {
        match self.fault {
            Fault::Short => write!(f, "{}: {} numbers are needed", self.fault.words(), self.needed),
            Fault::ListShort => {
                write!(f, "{}: there are {} listings", self.fault.words(), self.needed)
            }
            _ => write!(f, "{}, at byte {}", self.fault.words(), self.offset),
        }
    }
}

impl Error for BadImage {}

impl BadImage {
    fn of([number, offset, count]: [u64; 3]) -> BadImage {
        let fault = Fault::of(number).unwrap_or_else(|| {
            panic!("the linked library gives number {number}, which this crate does not know")
        });
        BadImage { fault, offset: offset as usize, needed: count as usize }
    }
}

/// How many links an image of so many bytes needs: two for every three bytes.
pub const fn links_for(image_length: usize) -> usize {
    image_length / 3 * 2
}

/// The records of an image in its order, the root last: where each stands, and which are its children.
#[derive(Clone, Copy, Debug)]
pub struct Records<'l> {
    links: &'l [usize],
}

impl<'l> Records<'l> {
    /// How many there are: one or more.
    #[allow(clippy::len_without_is_empty)]
    pub fn len(&self) -> usize {
        self.links.len() / 2
    }

    /// The number of the root.
    pub fn root(&self) -> usize {
        self.len() - 1
    }

    /// Where a record's tag stands in the image.
    pub fn offset(&self, record: usize) -> usize {
        self.links[2 * record]
    }

    /// The numbers of a record's children, the last first.
    pub fn children(&self, record: usize) -> impl Iterator<Item = usize> + 'l {
        let links = self.links;
        let first = links[2 * record + 1];
        let mut end = record;
        std::iter::from_fn(move || {
            if end == first {
                return None;
            }
            let child = end - 1;
            end = links[2 * child + 1];
            Some(child)
        })
    }
}

/// Reads an image back: whether it is one tree's, with its links in a lent array of at least [`links_for`] numbers. After a refusal all of the array
/// is zero. All bytes have an answer, at any length, and nothing recurses.
pub fn back<'l>(image: &[u8], links: &'l mut [usize]) -> Result<Records<'l>, BadImage> {
    let mut answer = [0u64; 3];
    // SAFETY: the pointers and lengths are those of slices that live through the call; `links` and `answer` are borrowed mutably, so they overlap
    // neither each other nor the image, and nothing else changes the image.
    unsafe {
        entry::matigelo_back(
            image.as_ptr(),
            image.len(),
            links.as_mut_ptr(),
            links.len(),
            &mut answer,
        );
    }
    let [number, _, count] = answer;
    if number == 0 {
        return Ok(Records { links: &links[..2 * count as usize] });
    }
    Err(BadImage::of(answer))
}

/// What an object raises by its own fields that are marked plus.
#[derive(Clone, Copy, Debug, PartialEq, Eq, Hash)]
pub enum Raises {
    /// A computed field is added, whose name nobody knows.
    Undecided,
    /// `mass` and not `depth`.
    Mass,
    /// `depth` and not `mass`.
    Depth,
}

/// An object that raises one of the two without the other, or of which that is undecided.
#[derive(Clone, Debug, PartialEq, Eq, Hash)]
pub struct Listing {
    /// Where the object's record stands in the image.
    pub offset: usize,
    pub raises: Raises,
    /// Where the name of the first such field stands in the source; empty at 0 where it is undecided.
    pub place: Range<usize>,
}

/// The planner's list of an image, in the order of its records, over a lent list of four numbers for each listing; the links are for working and are zero
/// afterwards. After a refusal all of the list is zero.
pub fn mass<'l>(
    image: &[u8],
    links: &mut [usize],
    list: &'l mut [usize],
) -> Result<impl Iterator<Item = Listing> + 'l, BadImage> {
    let mut answer = [0u64; 3];
    // SAFETY: as for `back`; the list is another slice that is borrowed mutably.
    unsafe {
        entry::matigelo_mass(
            image.as_ptr(),
            image.len(),
            links.as_mut_ptr(),
            links.len(),
            list.as_mut_ptr(),
            list.len(),
            &mut answer,
        );
    }
    let [number, _, count] = answer;
    if number != 0 {
        return Err(BadImage::of(answer));
    }
    Ok(list[..4 * count as usize].chunks_exact(4).map(|four| Listing {
        offset: four[0],
        raises: match four[1] {
            1 => Raises::Mass,
            2 => Raises::Depth,
            _ => Raises::Undecided,
        },
        place: four[2]..four[3],
    }))
}
