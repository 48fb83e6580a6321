//! Files.
use super::host::Files;
use std::io;

/// A file that is open.
pub trait OpenFile {
    fn metadata(&self) -> io::Result<std::fs::Metadata>;
}

impl OpenFile for std::fs::File {
    fn metadata(&self) -> io::Result<std::fs::Metadata> {
        std::fs::File::metadata(self)
    }
}

pub fn open<R: Files>(rt: &R, name: &str) -> io::Result<R::File> {
    rt.open(name)
}
