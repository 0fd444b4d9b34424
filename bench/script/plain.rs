//! The script program in plain Rust: all commands of a script, with the same answers, faults and statuses, and without a proof.
//!
//! It is written for speed, so that it is a fair one to be measured against. Lines are answered where they lie in large pieces of the
//! input, and answers gathered for large writes before the next read; a verb is compared as one number, a number's digits are read and
//! put in one pass, all at once, and hex digits in lanes of a vector; no line and no answer takes memory. What a slot is kept for, where
//! it lies and where a block lies are tables by slot and by block, and so are the numbered maps; free and live slots are bits; parity
//! groups are filed by how many live slots they have, and mirrored blocks by the turn of their last write, so that no step walks over
//! slots, blocks or groups to find where it goes. Drives hold units: both copies and all parities are written, and memory for a payload
//! isn't touched before its first write.

use std::fs::File;
use std::io;
use std::os::fd::{AsFd, BorrowedFd};
use std::process::ExitCode;

#[path = "plain/answers.rs"]
mod answers;
#[path = "plain/array.rs"]
mod array;
#[path = "plain/bits.rs"]
mod bits;
#[path = "plain/decimal.rs"]
mod decimal;
#[path = "plain/drives.rs"]
mod drives;
#[path = "plain/groups.rs"]
mod groups;
#[path = "plain/hex.rs"]
mod hex;
#[path = "plain/live.rs"]
mod live;
#[path = "plain/making.rs"]
mod making;
#[path = "plain/maps.rs"]
mod maps;
#[path = "plain/moves.rs"]
mod moves;
#[path = "plain/recency.rs"]
mod recency;
#[path = "plain/record.rs"]
mod record;
#[path = "plain/run.rs"]
mod run;
#[path = "plain/scan.rs"]
mod scan;
#[path = "plain/script.rs"]
mod script;
#[path = "plain/steps.rs"]
mod steps;
#[path = "plain/stop.rs"]
mod stop;
#[path = "plain/tiers.rs"]
mod tiers;
#[path = "plain/units.rs"]
mod units;
#[path = "plain/words.rs"]
mod words;

use answers::Answers;
use run::{End, run};

// The same open file, without std's buffer.
fn unbuffered(file: BorrowedFd) -> io::Result<File> {
    Ok(File::from(file.try_clone_to_owned()?))
}

fn main() -> ExitCode {
    let (Ok(mut input), Ok(output)) = (unbuffered(io::stdin().as_fd()), unbuffered(io::stdout().as_fd())) else {
        return ExitCode::from(5);
    };
    let end = match Answers::new(output) {
        Ok(mut answers) => run(&mut input, &mut answers),
        Err(_) => End::NoMemory,
    };
    ExitCode::from(match end {
        End::Whole => 0,
        End::Fault => 2,
        End::NoMemory => 4,
        End::Broken => 5,
    })
}
