//! Runs a tile's rounds through the original's own functions: `original rounds PACKETS CELLS COUNT SLOT`, `original gap CELLS SLOT`, `original unconfirm PACKETS SLOT`.

#![allow(dead_code)]

mod agg;
mod alc;
mod cfg;
mod control;
mod id;
mod msg;
mod peekable_mpsc;
mod seq;

/// A broken protocol, with a text that says how.
macro_rules! protocol_err {
    ($($words:tt)*) => {
        std::io::Error::other(format!($($words)*))
    };
}
use protocol_err;

use agg::task::bench;

fn main() {
    let words: Vec<_> = std::env::args().skip(1).collect();
    let number = |at: usize| words[at].parse::<u32>().unwrap();
    match words[0].as_str() {
        "rounds" => println!("{}", bench::rounds(number(1), number(2), number(3), number(4) as usize)),
        "gap" => println!("{}", bench::gap(number(1), number(2) as usize)),
        _ => bench::unconfirm(number(1), number(2) as usize),
    }
}
