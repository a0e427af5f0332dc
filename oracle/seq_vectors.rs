// What the original sequence numbers answer, for crates/vectors to compare with: a line for each pair (a, b),
//
//     AAAAAAAA BBBBBBBB SSSSSSSS DDDDDDDD dddddddd O
//
// with a, b, the number b past a, the number b before a and the signed distance a − b, each as 8 hexadecimal digits,
// and how a compares with b: `<`, `=` or `>`. A line is 47 bytes long, its line feed with it.
//
// Run from the repository's root:  oracle/seq-vectors >crates/vectors/stdin
// The script puts the original seq.rs, unchanged, beside a copy of this file.

// The original has more than is asked here.
#[allow(dead_code)]
mod seq;

use seq::Seq;
use std::cmp::Ordering;

// Around 0, a quarter, a half, three quarters and the wrap. The original's own quarters, where its comparison turns, are
// 0x3fffffff and 0xbffffffd.
const EDGES: [u32; 16] = [
    0, 1, 2, 0x3fff_fffe, 0x3fff_ffff, 0x4000_0000, 0x4000_0001, 0x7fff_ffff, 0x8000_0000, 0x8000_0001, 0xbfff_fffc,
    0xbfff_fffd, 0xbfff_ffff, 0xc000_0000, 0xffff_fffe, 0xffff_ffff,
];

// How far apart the pairs at the wrap are: small, around the usable interval, and around a quarter.
const STEPS: [u32; 11] = [1, 2, 3, 16, 255, 65_535, 65_536, 65_537, 0x3fff_ffff, 0x4000_0000, 0x4000_0001];

const SEED: u32 = 0x2545_f491;

// 1,200 lines of 47 bytes stay below the 65,536 bytes that are read.
const PAIRS: usize = 1_200;

// A number after x that looks like chance (xorshift): the same on every run.
fn next(x: &mut u32) -> u32 {
    *x ^= *x << 13;
    *x ^= *x >> 17;
    *x ^= *x << 5;
    *x
}

// Each pair is asked once.
fn ask(pairs: &mut Vec<(u32, u32)>, a: u32, b: u32) {
    if !pairs.contains(&(a, b)) {
        pairs.push((a, b));
    }
}

fn edges(pairs: &mut Vec<(u32, u32)>) {
    for a in EDGES {
        for b in EDGES {
            ask(pairs, a, b);
        }
    }
}

// From the pair that just stays below the wrap to the one that starts at the last number, each both ways round.
fn wraps(pairs: &mut Vec<(u32, u32)>) {
    for k in STEPS {
        for back in [k + 1, k, k - 1, k / 2, 1] {
            let n = 0u32.wrapping_sub(back);
            ask(pairs, n, n.wrapping_add(k));
            ask(pairs, n.wrapping_add(k), n);
        }
    }
}

// By turns a pair less than 2^16 apart, in either order, and a pair of any two numbers.
fn chances(pairs: &mut Vec<(u32, u32)>) {
    let mut x = SEED;
    while pairs.len() < PAIRS {
        let a = next(&mut x);
        let b = next(&mut x);
        let k = b & 0xffff;
        let near = if b & 0x1_0000 == 0 { a.wrapping_add(k) } else { a.wrapping_sub(k) };
        ask(pairs, a, near);
        if pairs.len() < PAIRS {
            ask(pairs, a, b);
        }
    }
}

fn main() {
    let mut pairs = Vec::new();
    edges(&mut pairs);
    wraps(&mut pairs);
    chances(&mut pairs);
    for (a, b) in pairs {
        let sum = u32::from(Seq(a) + b);
        let difference = u32::from(Seq(a) - b);
        let distance: i32 = Seq(a) - Seq(b);
        let order = match Seq(a).cmp(&Seq(b)) {
            Ordering::Less => '<',
            Ordering::Equal => '=',
            Ordering::Greater => '>',
        };
        println!("{a:08x} {b:08x} {sum:08x} {difference:08x} {:08x} {order}", distance as u32);
    }
}
