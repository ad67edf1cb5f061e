//! Stand-in for logos. It runs the very expressions that `#[token]` and `#[regex]` give:
//! the longest match wins, a token wins over a regex of the same length, and a character
//! that no rule takes is an error of one character.

mod automaton;
mod charset;
mod lexer;
mod regex;

pub use derive::Logos;
pub use lexer::{Lexer, Logos, Rule, Rules};
