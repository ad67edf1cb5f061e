//! Stand-in for jrsonnet-gcmodule: nothing here is collected, so every type qualifies.

pub use derive::Acyclic;

/// A type that cannot hold a cycle of references.
pub trait Acyclic {}

impl<T: ?Sized> Acyclic for T {}
