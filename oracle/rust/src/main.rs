//! Answers a script of calls from the original's own state.
//!
//!     driver SCRIPT ANSWERS    told the port's answers: see oracle/README.md for what is echoed, checked and adapted
//!     driver --raw SCRIPT      told nothing and nothing adapted: what the original does by itself

// The original's files have more than the driver calls.
#![allow(dead_code)]

mod agg;
mod alc;
mod cfg;
mod control;
mod id;
mod msg;
mod peekable_mpsc;
mod script;
mod seq;

/// A broken protocol, with a text that says how.
macro_rules! protocol_err {
    ($($words:tt)*) => {
        std::io::Error::other(format!($($words)*))
    };
}
use protocol_err;

use agg::task::driver::Driver;
use std::{
    env, fs,
    io::{self, BufWriter, Write},
    process,
};

fn lines(file: &str) -> Vec<String> {
    let bytes = fs::read(file).unwrap_or_else(|err| {
        eprintln!("{file}: {err}");
        process::exit(2);
    });
    let mut lines: Vec<_> =
        bytes.split(|&b| b == b'\n').map(|line| String::from_utf8_lossy(line).into_owned()).collect();
    if lines.last().is_some_and(String::is_empty) {
        lines.pop();
    }
    lines
}

fn main() -> io::Result<()> {
    let args: Vec<_> = env::args().skip(1).collect();
    let (raw, script, told) = match &args[..] {
        [raw, script] if raw == "--raw" => (true, lines(script), None),
        [script, answers] => (false, lines(script), Some(lines(answers))),
        _ => {
            eprintln!("usage: driver SCRIPT ANSWERS, or driver --raw SCRIPT");
            process::exit(2);
        }
    };

    let mut out = BufWriter::new(io::stdout().lock());
    let mut driver = Driver::new(raw);
    let mut told = told.unwrap_or_default().into_iter();
    for line in &script {
        let answer = told.next().unwrap_or_default();
        // A dump's further lines are not looked at.
        if line == "dump" && answer == "0" {
            told.by_ref().find(|line| line == ".");
        }
        writeln!(out, "{}", driver.answer(line, answer.split(' ').next().unwrap_or_default()))?;
    }
    out.flush()
}
