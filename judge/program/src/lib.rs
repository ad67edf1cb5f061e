//! Answers as document 01 asks, from the Rust.

pub mod back;
pub mod doubles;
pub mod exhaustive;
pub mod generate;
pub mod hex;
pub mod json;
pub mod layers;
pub mod mass;
pub mod night;
pub mod reader;
pub mod readings;
pub mod stack;
pub mod suite;
pub mod written;
