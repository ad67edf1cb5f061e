//! The Rust's tree and parser without the patch, to show that the patch changes no more than it
//! says. Two packages compile this file, with all features and with none.

// As in settings/lib.rs.
extern crate self as jrsonnet_ir;

#[path = "../target/rust/jrsonnet-ir/src/lib.rs"]
mod ir;
#[path = "../target/rust/jrsonnet-ir-parser/src/lib.rs"]
mod parser;

mod source {
    pub use crate::ir::Source;
}

pub use ir::*;
pub use parser::{ParseError, ParserSettings, parse, string_to_expr};

/// What the parser says against a source, and where.
pub fn complaint(source: &str) -> Option<(String, u32, u32)> {
    let settings = ParserSettings { source: Source::default() };
    let ParseError { message, location: Span(_, start, end) } = parse(source, &settings).err()?;
    Some((message, start, end))
}
