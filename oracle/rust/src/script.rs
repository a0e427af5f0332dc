//! The words of a script's line, as docs/CALLS.md gives them.

use std::{num::NonZeroUsize, str::FromStr};

use crate::{
    msg::{LinkMsg, RefusedReason},
    seq::Seq,
};

/// More bytes, or more room, make a line that isn't a call.
const MOST_BYTES: usize = 2_048;

/// The cell count of a `fresh` that doesn't say one.
const LEAST_CELLS: u32 = 64;

/// The rows of the links. `slow` lends as many, or as it says, up to one more.
pub(crate) const SLOTS: usize = 8;

pub(crate) enum Call {
    Fresh { start: u32, buffer: u32, cells: u32 },
    Add { identity: u64, roundtrip: u64, max_ping: Option<u64>, blocked: bool, unconfirmed: bool },
    Remove { slot: usize },
    Confirm { slot: usize },
    Unconfirm { slot: usize },
    Block { slot: usize, blocked: bool },
    Ping { slot: usize, time: u64 },
    Flush { slot: usize, time: u64 },
    Pong { slot: usize, time: u64 },
    Mark { slot: usize, number: Seq },
    Send { slot: usize, time: u64, kind: u8, count: u32, bytes: Vec<u8> },
    Resend { slot: usize, time: u64, number: Seq },
    Ack { slot: usize, time: u64, number: Seq },
    Receive { slot: usize, kind: u8, number: Seq, count: u32, bytes: Vec<u8> },
    Show,
    Take,
    TakeAck { slot: usize },
    Due,
    Close,
    Deadline { factors: [u64; 3], min: u64, max: u64, unreliable: bool },
    Slow { rows: usize },
    Dump,
    Read { bytes: Vec<u8> },
    Write { room: usize, message: Asked },
    Lend,
}

/// A message that `write` is asked for. A script says nothing of what a handshake holds.
pub(crate) enum Asked {
    Handshake,
    Message(LinkMsg),
}

impl Call {
    /// Whether the call needs no state.
    pub(crate) fn stateless(&self) -> bool {
        matches!(self, Self::Fresh { .. } | Self::Read { .. } | Self::Write { .. })
    }

    /// The slot that the call is given.
    pub(crate) fn slot(&self) -> Option<usize> {
        match self {
            Self::Remove { slot }
            | Self::Confirm { slot }
            | Self::Unconfirm { slot }
            | Self::Block { slot, .. }
            | Self::Ping { slot, .. }
            | Self::Flush { slot, .. }
            | Self::Pong { slot, .. }
            | Self::Mark { slot, .. }
            | Self::Send { slot, .. }
            | Self::Resend { slot, .. }
            | Self::Ack { slot, .. }
            | Self::Receive { slot, .. }
            | Self::TakeAck { slot } => Some(*slot),
            _ => None,
        }
    }

    /// The time that the call is given.
    pub(crate) fn time(&self) -> Option<u64> {
        match self {
            Self::Ping { time, .. }
            | Self::Flush { time, .. }
            | Self::Pong { time, .. }
            | Self::Send { time, .. }
            | Self::Resend { time, .. }
            | Self::Ack { time, .. } => Some(*time),
            _ => None,
        }
    }

    /// The call that the line is, if it is one.
    pub(crate) fn parse(line: &str) -> Option<Self> {
        let words: Vec<_> = line.split(' ').collect();
        Some(match words[..] {
            ["fresh", start, buffer] => {
                Self::Fresh { start: number(start)?, buffer: number(buffer)?, cells: LEAST_CELLS }
            }
            ["fresh", start, buffer, cells] => {
                Self::Fresh { start: number(start)?, buffer: number(buffer)?, cells: number(cells)? }
            }
            ["add", identity, roundtrip, max_ping, blocked, unconfirmed] => Self::Add {
                identity: number(identity)?,
                roundtrip: number(roundtrip)?,
                max_ping: if max_ping == "-" { None } else { Some(number(max_ping)?) },
                blocked: flag(blocked)?,
                unconfirmed: flag(unconfirmed)?,
            },
            ["remove", at] => Self::Remove { slot: slot(at)? },
            ["confirm", at] => Self::Confirm { slot: slot(at)? },
            ["unconfirm", at] => Self::Unconfirm { slot: slot(at)? },
            ["block", at, blocked] => Self::Block { slot: slot(at)?, blocked: flag(blocked)? },
            ["ping", at, time] => Self::Ping { slot: slot(at)?, time: number(time)? },
            ["flush", at, time] => Self::Flush { slot: slot(at)?, time: number(time)? },
            ["pong", at, time] => Self::Pong { slot: slot(at)?, time: number(time)? },
            ["mark", at, n] => Self::Mark { slot: slot(at)?, number: seq(n)? },
            ["send", at, time, kind, count, data] => {
                let (kind, count) = reliable(kind, count)?;
                Self::Send { slot: slot(at)?, time: number(time)?, kind, count, bytes: bytes(data)? }
            }
            ["resend", at, time, n] => Self::Resend { slot: slot(at)?, time: number(time)?, number: seq(n)? },
            ["ack", at, time, n] => Self::Ack { slot: slot(at)?, time: number(time)?, number: seq(n)? },
            ["receive", at, kind, n, count, data] => {
                let (kind, count) = reliable(kind, count)?;
                Self::Receive { slot: slot(at)?, kind, number: seq(n)?, count, bytes: bytes(data)? }
            }
            ["show"] => Self::Show,
            ["take"] => Self::Take,
            ["takeack", at] => Self::TakeAck { slot: slot(at)? },
            ["due"] => Self::Due,
            ["close"] => Self::Close,
            ["deadline", roundtrip, resent, unreliable, min, max, is_unreliable] => Self::Deadline {
                factors: [number(roundtrip)?, number(resent)?, number(unreliable)?],
                min: number(min)?,
                max: number(max)?,
                unreliable: flag(is_unreliable)?,
            },
            ["slow"] => Self::Slow { rows: SLOTS },
            ["slow", rows] => Self::Slow { rows: number(rows).filter(|&rows| rows <= SLOTS + 1)? },
            ["dump"] => Self::Dump,
            ["read", data] => Self::Read { bytes: bytes(data)? },
            ["write", room, ref message @ ..] => {
                Self::Write { room: number(room).filter(|&room| room <= MOST_BYTES)?, message: asked(message)? }
            }
            ["lend", what, length] => {
                let most = most_lent(what)?;
                number::<u32>(length).filter(|&length| length <= most)?;
                Self::Lend
            }
            _ => return None,
        })
    }
}

/// The greatest length that a store, or the record space, can be lent with.
fn most_lent(what: &str) -> Option<u32> {
    match what {
        "sent" | "records" => Some(65_537),
        "received" => Some(67_108_865),
        _ => None,
    }
}

fn number<T: FromStr>(word: &str) -> Option<T> {
    let plain = word.bytes().all(|b| b.is_ascii_digit()) && (word == "0" || !word.starts_with('0'));
    if plain { word.parse().ok() } else { None }
}

fn slot(word: &str) -> Option<usize> {
    number::<u8>(word).map(usize::from)
}

fn seq(word: &str) -> Option<Seq> {
    number(word).map(Seq)
}

fn flag(word: &str) -> Option<bool> {
    match word {
        "0" => Some(false),
        "1" => Some(true),
        _ => None,
    }
}

fn bytes(word: &str) -> Option<Vec<u8>> {
    if word == "-" {
        return Some(Vec::new());
    }
    let digit = |b: u8| match b {
        b'0'..=b'9' => Some(b - b'0'),
        b'a'..=b'f' => Some(b - b'a' + 10),
        _ => None,
    };
    let count = NonZeroUsize::new(word.len())?.get();
    if count % 2 != 0 || count / 2 > MOST_BYTES {
        return None;
    }
    word.as_bytes().chunks(2).map(|pair| Some(digit(pair[0])? * 16 + digit(pair[1])?)).collect()
}

/// A kind that `send` and `receive` have, and its count.
fn reliable(kind: &str, count: &str) -> Option<(u8, u32)> {
    let (kind, count) = (number(kind)?, number(count)?);
    (matches!(kind, 7 | 9..=12) && (kind == 9 || count == 0)).then_some((kind, count))
}

fn reason(word: &str) -> Option<RefusedReason> {
    Some(match word {
        "1" => RefusedReason::Closed,
        "2" => RefusedReason::NotListening,
        "3" => RefusedReason::ConnectionRefused,
        "4" => RefusedReason::LinkRefused,
        _ => return None,
    })
}

fn asked(words: &[&str]) -> Option<Asked> {
    let (kind, rest) = words.split_first()?;
    Some(Asked::Message(match (number::<u8>(kind)?, rest) {
        (1 | 2, []) => return Some(Asked::Handshake),
        (3, []) => LinkMsg::Accepted,
        (4, [word]) => LinkMsg::Refused { reason: reason(word)? },
        (5, []) => LinkMsg::Ping,
        (6, []) => LinkMsg::Pong,
        (7, [n]) => LinkMsg::Data { seq: seq(n)? },
        (8, [n]) => LinkMsg::Ack { received: seq(n)? },
        (9, [n, count]) => LinkMsg::Consumed { seq: seq(n)?, consumed: number(count)? },
        (10, [n]) => LinkMsg::SendFinish { seq: seq(n)? },
        (11, [n]) => LinkMsg::ReceiveClose { seq: seq(n)? },
        (12, [n]) => LinkMsg::ReceiveFinish { seq: seq(n)? },
        (13, [size]) => LinkMsg::TestData { size: number::<u32>(size)? as usize },
        (14, [blocked]) => LinkMsg::SetBlock { blocked: flag(blocked)? },
        (15, []) => LinkMsg::Goodbye,
        (16, []) => LinkMsg::Terminate,
        _ => return None,
    }))
}
