//! The program `mm` in plain Rust. The modules whose names begin with `mm_` are the sources that
//! are proved elsewhere, without their contracts: scripts/plain-rust of the repository writes them.
//! `library` is what they use of the kit's library and crates.
#![allow(warnings)]
#![cfg_attr(unix, no_main)]

#[macro_use]
mod library;
mod mm_rules;
mod mm_verdict;
mod mm_render;
mod mm_near;
mod mm_facts;
mod mm_groups;
mod mm_explain;
mod mm_mend;
mod mm_axioms;
mod mm_find;
mod mm_save;
mod mm_terms;
mod mm_patterns;
mod mm_lemma_proofs;
mod mm_lemma_search;
mod mm_lemmas;
mod mm_lemma_file;
mod mm_with_lemmas;
mod mm_minimize;
mod mm_check;
mod mm_code;
mod mm_frame;
mod mm_step;
mod mm_proof;
mod mm_listing;
mod mm_places;
mod mm_alike;
mod mm_diff;
mod mm_distinct;
mod mm_forms;
mod mm_shorten;
mod mm_base;
mod mm_text;
mod mm_serve;
mod mm_tool;
mod mm_words;
mod mm_help;

use library::HostRuntime;

/// Where the host begins: before it Rust's library takes no memory, which it might not get.
#[cfg(unix)]
#[no_mangle]
pub extern "C" fn main(count: i32, words: *const *const std::ffi::c_char) -> i32 {
    extern "C" {
        fn signal(number: i32, handler: usize) -> usize;
    }
    const BROKEN_PIPE: i32 = 13;
    const IGNORED: usize = 1;
    // A write to a reader that has gone is an error of the write, and no end of the program.
    unsafe { signal(BROKEN_PIPE, IGNORED) };
    let mut texts: Vec<&[u8]> = Vec::new();
    if texts.try_reserve_exact(count as usize).is_err() {
        return refused();
    }
    for number in 0..count as usize {
        // The host gives so many words, each of which ends in a zero.
        let word = unsafe { std::ffi::CStr::from_ptr(*words.add(number)) };
        texts.push(word.to_bytes());
    }
    i32::from(mm_tool::main(HostRuntime { words: &texts }).0)
}

/// Tells that there is no memory for the words.
#[cfg(unix)]
fn refused() -> i32 {
    use std::io::Write;
    let _ = HostRuntime { words: &[] }.stderr().write(b"mm: out of memory\n");
    4
}

#[cfg(not(unix))]
fn main() -> std::process::ExitCode {
    let words: Vec<Vec<u8>> = std::env::args_os()
        .map(|word| word.into_encoded_bytes())
        .collect();
    let texts: Vec<&[u8]> = words.iter().map(Vec::as_slice).collect();
    mm_tool::main(HostRuntime { words: &texts }).0.into()
}
