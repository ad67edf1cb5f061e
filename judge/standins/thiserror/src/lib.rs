//! Stand-in for thiserror.

pub use derive::Error;
