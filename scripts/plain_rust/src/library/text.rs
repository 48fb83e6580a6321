//! Texts that tell where memory for them is refused.
use super::{AllocError, Global};
use std::fmt;
use std::ops::Deref;

pub struct String(std::string::String);

impl String {
    pub fn new(_: Global) -> String {
        String(std::string::String::new())
    }

    pub fn from_str(alloc: Global, text: &str) -> Result<String, AllocError> {
        let mut made = String::new(alloc);
        made.push_str(text)?;
        Ok(made)
    }

    pub fn push_str(&mut self, text: &str) -> Result<(), AllocError> {
        self.0.try_reserve(text.len())?;
        self.0.push_str(text);
        Ok(())
    }

    pub fn as_str(&self) -> &str {
        &self.0
    }
}

impl Deref for String {
    type Target = str;

    fn deref(&self) -> &str {
        &self.0
    }
}

impl fmt::Debug for String {
    fn fmt(&self, f: &mut fmt::Formatter) -> fmt::Result {
        self.0.fmt(f)
    }
}

impl fmt::Display for String {
    fn fmt(&self, f: &mut fmt::Formatter) -> fmt::Result {
        self.0.fmt(f)
    }
}

impl fmt::Write for String {
    fn write_str(&mut self, text: &str) -> fmt::Result {
        self.push_str(text).map_err(|_| fmt::Error)
    }
}

/// What `format_in!` makes. Nothing but lack of memory stops it.
pub fn formatted(alloc: Global, parts: fmt::Arguments) -> Result<String, AllocError> {
    let mut text = String::new(alloc);
    fmt::write(&mut text, parts).map_err(|_| AllocError)?;
    Ok(text)
}

/// The kit's `format!`, which is handed an allocator.
macro_rules! format_in {
    ($alloc:expr; $($part:tt)*) => {
        $crate::library::formatted($alloc, format_args!($($part)*))
    };
}

/// The kit's `to_ascii_uppercase`, which is handed an allocator.
pub trait TextIn {
    fn to_ascii_uppercase_in(&self, alloc: Global) -> Result<String, AllocError>;
}

impl TextIn for str {
    fn to_ascii_uppercase_in(&self, alloc: Global) -> Result<String, AllocError> {
        let mut text = String::from_str(alloc, self)?;
        text.0.make_ascii_uppercase();
        Ok(text)
    }
}

/// The kit's `join`, which is handed an allocator.
pub trait JoinIn {
    fn join_in(&self, alloc: Global, between: &str) -> Result<String, AllocError>;
}

impl JoinIn for [&str] {
    fn join_in(&self, alloc: Global, between: &str) -> Result<String, AllocError> {
        let mut text = String::new(alloc);
        for (number, part) in self.iter().enumerate() {
            if number > 0 {
                text.push_str(between)?;
            }
            text.push_str(part)?;
        }
        Ok(text)
    }
}
