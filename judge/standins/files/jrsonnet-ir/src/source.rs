//! Stand-in for a module that is not among those given. A source is known by a number that only
//! tells it from other sources; spans carry it along and nothing looks at it.

/// A source, one pointer wide as the assertion on `Span` wants it.
#[derive(Clone, Debug, Default, PartialEq, Eq)]
pub struct Source(usize);

/// What the kinds of path have in common.
pub trait SourcePathT {}

macro_rules! paths {
	($($name:ident)+) => {$(
		/// One kind of path. Nothing read here uses it.
		pub struct $name;
	)+};
}
paths!(SourceDefaultIgnoreJpath SourceDirectory SourceFifo SourceFile SourcePath SourceUrl SourceVirtual);
