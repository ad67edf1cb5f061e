//! Stand-in for jrsonnet-interner: a shared string that is not interned.

use std::{fmt, ops::Deref, rc::Rc};

/// A shared string.
#[derive(Clone, Debug, PartialEq, Eq)]
pub struct IStr(Rc<str>);

impl Deref for IStr {
    type Target = str;

    fn deref(&self) -> &str {
        &self.0
    }
}

impl From<&str> for IStr {
    fn from(text: &str) -> Self {
        Self(text.into())
    }
}

impl From<String> for IStr {
    fn from(text: String) -> Self {
        Self(text.into())
    }
}

impl fmt::Display for IStr {
    fn fmt(&self, f: &mut fmt::Formatter<'_>) -> fmt::Result {
        f.write_str(self)
    }
}
