//! `bench`: times the port and the reference crate in one run, on the same bytes, and prints
//! the tables of docs/PERFORMANCE.md. Each case is first run on both sides; where they do
//! not agree the command ends with status 1.
#![cfg_attr(
    not(feature = "linked"),
    allow(dead_code, reason = "without the library there is nothing to time")
)]

#[cfg(feature = "linked")]
mod case;
#[cfg(feature = "linked")]
mod cases;
mod inputs;
#[cfg(feature = "linked")]
mod report;
mod table;
mod timing;

use std::process::ExitCode;

fn main() -> ExitCode {
    #[cfg(feature = "linked")]
    return report::print();
    #[cfg(not(feature = "linked"))]
    {
        eprintln!("bench: built without the feature linked, so there is no library to time");
        ExitCode::from(2)
    }
}
