//! The words that the program was started with.
use super::host::{AllocGlobal, Env};
use super::{String, Vec};
use std::io;

/// The words, in their order.
pub struct Args(std::vec::IntoIter<String>);

impl Iterator for Args {
    type Item = String;

    fn next(&mut self) -> Option<String> {
        self.0.next()
    }

    fn size_hint(&self) -> (usize, Option<usize>) {
        self.0.size_hint()
    }
}

/// The words; an error where one isn't UTF-8, or memory is refused.
pub fn args<R: Env + AllocGlobal>(rt: &R) -> io::Result<Args> {
    let mut words = Vec::new(rt.alloc());
    for word in rt.words() {
        let Ok(word) = std::str::from_utf8(word) else {
            return Err(io::ErrorKind::InvalidData.into());
        };
        let pushed = String::from_str(rt.alloc(), word).and_then(|word| Ok(words.push(word)?));
        if pushed.is_err() {
            return Err(io::ErrorKind::OutOfMemory.into());
        }
    }
    Ok(Args(words.into_iter()))
}
