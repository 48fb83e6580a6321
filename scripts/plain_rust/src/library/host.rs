//! The host: the words that the program was started with, its files and devices, and its random
//! source. Nothing here asks for memory but by calls that can be refused.
use super::{AllocError, Global};
use std::io;

/// Something that has an allocator.
pub trait AllocGlobal {
    fn alloc(&self) -> Global;
}

/// Something that has the words of the program, each as the bytes that the host gave.
pub trait Env {
    fn words(&self) -> &[&[u8]];
}

/// Something that opens files.
pub trait Files {
    type File: io::Read + super::fs::OpenFile;

    fn open(&self, name: &str) -> io::Result<Self::File>;
}

/// Something that gives bytes that nobody can foretell.
pub trait RandomSource {
    fn fill_bytes(&self, bytes: &mut [u8]) -> io::Result<()>;
}

/// The host that the program runs on.
pub struct HostRuntime<'w> {
    pub words: &'w [&'w [u8]],
}

impl HostRuntime<'_> {
    pub fn alloc(&self) -> Global {
        Global
    }

    pub fn stdout(&self) -> Device {
        Device(1)
    }

    pub fn stderr(&self) -> Device {
        Device(2)
    }
}

impl AllocGlobal for HostRuntime<'_> {
    fn alloc(&self) -> Global {
        Global
    }
}

impl Env for HostRuntime<'_> {
    fn words(&self) -> &[&[u8]] {
        self.words
    }
}

impl Files for HostRuntime<'_> {
    type File = std::fs::File;

    // Rust's library takes memory for a long name, and ends the program where it gets none: so
    // whether there is any is asked first.
    fn open(&self, name: &str) -> io::Result<std::fs::File> {
        let mut room = std::vec::Vec::<u8>::new();
        if name.len() > 300 && room.try_reserve_exact(name.len() + 1).is_err() {
            return Err(io::ErrorKind::OutOfMemory.into());
        }
        drop(room);
        std::fs::File::open(name)
    }
}

impl RandomSource for HostRuntime<'_> {
    #[cfg(unix)]
    fn fill_bytes(&self, bytes: &mut [u8]) -> io::Result<()> {
        extern "C" {
            fn getentropy(bytes: *mut u8, count: usize) -> i32;
        }
        // The call writes so many bytes, which are there.
        match unsafe { getentropy(bytes.as_mut_ptr(), bytes.len()) } {
            0 => Ok(()),
            _ => Err(io::Error::last_os_error()),
        }
    }

    #[cfg(not(unix))]
    fn fill_bytes(&self, bytes: &mut [u8]) -> io::Result<()> {
        use std::hash::{BuildHasher, Hasher};
        for byte in bytes {
            *byte = std::hash::RandomState::new().build_hasher().finish() as u8;
        }
        Ok(())
    }
}

/// Standard output or standard error: each write is a call of the host, and nothing is kept back.
pub struct Device(i32);

impl Device {
    pub fn is_terminal(&self) -> bool {
        use std::io::IsTerminal;
        match self.0 {
            1 => io::stdout().is_terminal(),
            _ => io::stderr().is_terminal(),
        }
    }
}

#[cfg(unix)]
impl io::Write for Device {
    fn write(&mut self, bytes: &[u8]) -> io::Result<usize> {
        use std::os::fd::FromRawFd;
        // The device stays open: it is only lent to the file.
        let mut file = std::mem::ManuallyDrop::new(unsafe { std::fs::File::from_raw_fd(self.0) });
        file.write(bytes)
    }

    fn flush(&mut self) -> io::Result<()> {
        Ok(())
    }
}

#[cfg(not(unix))]
impl io::Write for Device {
    fn write(&mut self, bytes: &[u8]) -> io::Result<usize> {
        if self.0 == 1 {
            let mut out = io::stdout().lock();
            out.write_all(bytes)?;
            out.flush()?;
        } else {
            io::stderr().write_all(bytes)?;
        }
        Ok(bytes.len())
    }

    fn flush(&mut self) -> io::Result<()> {
        Ok(())
    }
}
