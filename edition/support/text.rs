//! Texts whose growth may be refused.

use super::alloc::{AllocError, Global};
use core::fmt::{self, Write};
use core::ops::Deref;

/// A text. It has the calls of a `str`.
#[derive(Default, PartialEq, Eq)]
pub struct String(::alloc::string::String);

impl String {
    /// An empty one. Takes no memory.
    pub const fn new(_alloc: Global) -> String {
        String(::alloc::string::String::new())
    }

    /// A copy of a text.
    pub fn from_str(alloc: Global, text: &str) -> Result<String, AllocError> {
        let mut copy = String::new(alloc);
        copy.push_str(text)?;
        Ok(copy)
    }

    /// Appends a text.
    pub fn push_str(&mut self, text: &str) -> Result<(), AllocError> {
        self.0.try_reserve(text.len())?;
        self.0.push_str(text);
        Ok(())
    }

    /// All of it.
    pub fn as_str(&self) -> &str {
        &self.0
    }
}

impl From<::alloc::string::String> for String {
    fn from(text: ::alloc::string::String) -> String {
        String(text)
    }
}

impl Deref for String {
    type Target = str;

    fn deref(&self) -> &str {
        &self.0
    }
}

impl fmt::Debug for String {
    fn fmt(&self, f: &mut fmt::Formatter<'_>) -> fmt::Result {
        fmt::Debug::fmt(&self.0, f)
    }
}

impl fmt::Display for String {
    fn fmt(&self, f: &mut fmt::Formatter<'_>) -> fmt::Result {
        fmt::Display::fmt(&self.0, f)
    }
}

impl Write for String {
    fn write_str(&mut self, text: &str) -> fmt::Result {
        self.push_str(text).map_err(|_| fmt::Error)
    }
}

/// What `format!(in alloc; ..)` answers.
pub fn text_of(alloc: Global, arguments: fmt::Arguments<'_>) -> Result<String, AllocError> {
    let mut text = String::new(alloc);
    text.write_fmt(arguments).map_err(|_| AllocError)?;
    Ok(text)
}

#[cfg(feature = "command")]
macro_rules! format {
    (in $alloc:expr; $($words:tt)*) => {
        $crate::proved::support::text_of($alloc, format_args!($($words)*))
    };
}

#[cfg(feature = "command")]
pub(crate) use format;
