//! The second program: the rules of docs/RULES.md once more, in plain Rust, to be compared with the proved program.
//!
//! `second vectors` answers the hash lines on standard input and `second noticecheck` the letters there; `second
//! selftest` checks this program against worked examples, published values and random histories, and ends with a
//! failure if one of them is not met.

mod book;
mod controller;
mod edges;
mod hash;
mod histories;
mod kinds;
mod ledger;
mod notice;
mod noticecheck;
mod refusal;
mod selftest;
mod tables;
mod vectors;

use std::process::ExitCode;

fn main() -> ExitCode {
    let arguments: Vec<String> = std::env::args().skip(1).collect();
    let words: Vec<&str> = arguments.iter().map(String::as_str).collect();
    let outcome = match words[..] {
        ["vectors"] => vectors::run(),
        ["noticecheck"] => noticecheck::run(),
        ["selftest"] => selftest::run(),
        _ => {
            eprintln!("usage: second vectors | second noticecheck | second selftest");
            return ExitCode::from(2);
        }
    };
    match outcome {
        Ok(()) => ExitCode::SUCCESS,
        Err(error) => {
            eprintln!("second: {error}");
            ExitCode::FAILURE
        }
    }
}
