// Times three calls of the library on each proof of a file: what `mm` does with all of a proof's
// tokens to check it, and `verify` and `compress` on its steps.
#![allow(warnings)]
#[macro_use]
#[path = "../library/mod.rs"]
mod library;
#[path = "../mm_code/mod.rs"]
mod mm_code;
#[path = "../mm_frame/mod.rs"]
mod mm_frame;
#[path = "../mm_step/mod.rs"]
mod mm_step;
#[path = "../mm_proof/mod.rs"]
mod mm_proof;
#[path = "../mm_listing/mod.rs"]
mod mm_listing;
#[path = "../mm_places/mod.rs"]
mod mm_places;
#[path = "../mm_distinct/mod.rs"]
mod mm_distinct;
#[path = "../mm_forms/mod.rs"]
mod mm_forms;
#[path = "../mm_base/mod.rs"]
mod mm_base;
#[path = "../mm_text/mod.rs"]
mod mm_text;

use crate::library::Global;
use crate::mm_frame::{LabelId, Taken};
use crate::mm_forms::{compress};
use crate::mm_proof::{verify, Parsed, Proved, Prover, Steps};
use crate::mm_step::{Flat, Profile};
use crate::mm_base::{File, Kind, Seed, Statement, Token};
use crate::mm_text::{Statements};

/// What the calls took, and what they went over.
#[derive(Default)]
struct Times {
    proofs: usize,
    moves: usize,
    codes: usize,
    prove: f64,
    verify: f64,
    compress: f64,
    slower: usize,
}

const PROCESS: i32 = 2; // the clock of the processor time of this process

#[repr(C)]
struct Time {
    seconds: i64,
    nanoseconds: i64,
}

extern "C" {
    fn clock_gettime(clock: i32, into: *mut Time) -> i32;
}

/// The seconds of processor time that this process took so far.
fn now() -> f64 {
    let mut time = Time {
        seconds: 0,
        nanoseconds: 0,
    };
    // The C library writes the two numbers, and nothing else.
    let status = unsafe { clock_gettime(PROCESS, &mut time) };
    assert!(status == 0);
    time.seconds as f64 + time.nanoseconds as f64 / 1e9
}

fn timed<T>(into: &mut f64, work: impl FnOnce() -> T) -> T {
    let start = now();
    let done = work();
    *into += now() - start;
    done
}

fn time_proof(times: &mut Times, prover: &mut Prover, id: LabelId, tokens: &[&[u8]]) {
    let book = prover.book();
    let Ok(Parsed::Steps(steps)) = Steps::parse(Global, Profile::Lenient, book, id, tokens) else {
        return;
    };
    let (mut verifying, mut compressing) = (0.0, 0.0);
    let verified = timed(&mut verifying, || {
        verify(Global, Flat::new(Global), book, id, &steps)
    });
    assert!(verified.is_ok());
    let Ok(packed) = timed(&mut compressing, || compress(Global, book, id, &steps)) else {
        panic!("memory");
    };
    times.proofs += 1;
    times.moves += steps.codes.len();
    times.codes += packed.codes.len();
    times.slower += usize::from(compressing > verifying);
    times.verify += verifying;
    times.compress += compressing;
}

/// The times of all proofs of the files, of so many bytes.
fn times_of(files: &[File], size: usize) -> Times {
    let Ok(mut statements) = Statements::new(Global, Seed::known(), files) else {
        panic!("the file can be read");
    };
    let Ok(mut prover) = Prover::new(Global, Seed::known()) else {
        panic!("memory");
    };
    prover.prepare(size);
    let mut statement = Statement::empty(Global);
    let mut times = Times::default();
    while let Ok(true) = statements.read(&mut statement) {
        let Ok(taken) = prover.take(&statement) else {
            panic!("a rule is broken");
        };
        let Taken::Assertion(id) = taken else {
            continue;
        };
        if statement.kind == Kind::Provable {
            let proved = timed(&mut times.prove, || {
                prover.prove(Profile::Lenient, id, &statement.proof)
            });
            if let Ok(Proved::Complete) = proved {
                let tokens: Vec<&[u8]> = statement.proof.iter().map(|t: &Token| t.text).collect();
                time_proof(&mut times, &mut prover, id, &tokens);
            }
        }
    }
    times
}

/// Prints a line: how many proofs, moves of them, and codes of the packed ones there are; the
/// seconds of `prove`, `verify` and `compress`; how many proofs have a longer `compress` than
/// `verify`.
fn main() {
    let name = std::env::args().nth(1).expect("usage: forms FILE");
    let bytes = std::fs::read(&name).expect("the file can be read");
    let file = File {
        name: b"file",
        bytes: &bytes,
    };
    let times = times_of(&[file], bytes.len());
    println!(
        "{} {} {} {} {} {} {}",
        times.proofs,
        times.moves,
        times.codes,
        times.prove,
        times.verify,
        times.compress,
        times.slower
    );
}
