//! The commands of `vozhkell` in plain Rust, written by hand, of which nothing is proved:
//!
//!     rustc -O --edition 2021 -o out/vozhkell bench/vozhkell.rs
//!
//! With `--cfg alone --cfg 'alone="replay"'` it has this command alone, and takes a little less time, since more of what
//! it calls is called at one place. Such programs are measured beside the proved one.
//!
//! It writes what the proved program may write, but for its usage, and ends with the statuses of that: 0, 1 for words
//! that name no command, 2 for a refused header, 3 where a line was refused, 4 for a failed read and 5 for a failed
//! write, 7 past a limit, and 9 where a history isn't one of the trace. Only where it finds no memory Rust's runtime ends
//! it, and where it gets no thread it panics.

mod apart;
mod canonical;
mod certify;
mod check;
mod commands;
mod counters;
mod events;
mod gen;
mod group_trace;
mod group_words;
mod groups;
mod lanes;
mod lines;
mod names;
mod pages;
mod passes;
mod record;
mod replay;
mod report;
mod run;
mod script;
mod shared;
mod trace;
mod world;

use commands::{Command, Input};
use std::env;
use std::ffi::OsString;
use std::io;
use std::os::unix::ffi::OsStrExt;
use std::process::ExitCode;

const USAGE: &str = "\
usage: check | replay | run | gen SEED CPUS LINES | groups | record | certify
Nothing of this program is proved. It is plain Rust: bench/vozhkell.rs.
";

/// The command that the words name, and what it reads.
fn asked(words: &[OsString]) -> Option<(Command, Input)> {
    let words: Vec<_> = words.iter().map(|word| word.as_bytes()).collect();
    let command: Command = match *words {
        #[cfg(any(not(alone), alone = "check"))]
        [b"check"] => check::check,
        #[cfg(any(not(alone), alone = "replay"))]
        [b"replay"] => replay::replay,
        #[cfg(any(not(alone), alone = "run"))]
        [b"run"] => run::run,
        #[cfg(any(not(alone), alone = "gen"))]
        [b"gen", seed, cpus, lines] => return Some((run::run, Input::of(gen::MadeText::of(seed, cpus, lines)?))),
        #[cfg(any(not(alone), alone = "groups"))]
        [b"groups"] => groups::groups,
        #[cfg(any(not(alone), alone = "record"))]
        [b"record"] => record::record,
        #[cfg(any(not(alone), alone = "certify"))]
        [b"certify"] => certify::certify,
        _ => return None,
    };
    Some((command, Input::of(io::stdin().lock())))
}

fn main() -> ExitCode {
    let words: Vec<_> = env::args_os().skip(1).collect();
    commands::run(asked(&words), USAGE)
}
