//! What the program uses of the kit's library and crates, made of Rust's own library. Memory is
//! asked for by calls that can be refused, and a refusal is told as in the kit.
#[macro_use]
mod text;

pub mod clap;
mod digits;
pub mod env;
pub mod fs;
mod heap;
mod host;
mod lanes;
mod list;
mod map;
mod map_hash;
mod nearness;

pub use digits::Buffer;
pub use fs::OpenFile;
pub use heap::BinaryHeap;
pub use host::{AllocGlobal, Env, Files, HostRuntime, RandomSource};
pub use lanes::{u8x16, u8x64};
pub use list::{filled, CollectIn, SliceIn, Vec};
pub use map::{IndexMap, IndexSet};
pub use map_hash::FoldHasher;
pub use nearness::{damerau_levenshtein, jaro};
pub use std::hash::{BuildHasher, Hash, Hasher};
pub use text::{formatted, JoinIn, String, TextIn};

/// Memory was refused.
#[derive(Clone, Copy, Debug, PartialEq, Eq)]
pub struct AllocError;

/// Memory was refused for this value.
pub struct AllocFailed<T> {
    pub value: T,
}

impl<T> From<AllocFailed<T>> for AllocError {
    fn from(_refused: AllocFailed<T>) -> AllocError {
        AllocError
    }
}

impl From<std::collections::TryReserveError> for AllocError {
    fn from(_refused: std::collections::TryReserveError) -> AllocError {
        AllocError
    }
}

/// Where memory comes from: Rust's own allocator.
#[derive(Clone, Copy, Debug)]
pub struct Global;

/// The status with which the program ends.
#[derive(Clone, Copy)]
pub struct ExitCode(pub u8);

impl From<u8> for ExitCode {
    fn from(status: u8) -> ExitCode {
        ExitCode(status)
    }
}
