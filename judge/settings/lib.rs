//! The Rust's tree and parser under one setting. Eight packages compile this file, each with the
//! features that its setting stands for.

// The parser takes the tree's crate by this name, and the tree's files call their neighbours
// from the crate's root.
extern crate self as jrsonnet_ir;

#[path = "../target/patched/jrsonnet-ir/src/lib.rs"]
mod ir;
#[path = "../target/patched/jrsonnet-ir-parser/src/lib.rs"]
mod parser;
mod walk;

mod source {
    pub use crate::ir::Source;
}

pub use image::Refusal;
pub use ir::*;
pub use parser::{ParseError, ParserSettings, bad_escape, parse, string_to_expr};

/// The power of prefix operators by the published rule: above every binary operator's.
const PUBLISHED: u8 = 22;

/// The image of a source, or the refusal that the reading meets.
pub fn read(source: &str, published: bool) -> Result<Vec<u8>, Refusal> {
    let prefix = published.then_some(PUBLISHED);
    let settings = ParserSettings { source: Source::default(), prefix };
    match parse(source, &settings) {
        Ok(tree) => Ok(walk::image(&tree)),
        Err(ParseError { number, detail, location: Span(_, start, end) }) => {
            Err(Refusal { number, start, end, detail })
        }
    }
}
