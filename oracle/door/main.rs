//! Answers a script of calls (docs/CALLS.md) through the exported calls in place, over words, stores and records that this program holds.
//!
//! Standard input is the script; standard output its answers. With `--runs N` the calls that can be in a run go through `fk_run`, up to N of them at once.

#[allow(dead_code)]
#[path = "../rust/src/script.rs"]
mod script;

/// What script.rs names of the original.
mod msg {
    #[derive(Clone, Copy)]
    pub enum RefusedReason {
        Closed,
        NotListening,
        ConnectionRefused,
        LinkRefused,
    }

    pub enum LinkMsg {
        Accepted,
        Refused { reason: RefusedReason },
        Ping,
        Pong,
        Data { seq: crate::seq::Seq },
        Ack { received: crate::seq::Seq },
        Consumed { seq: crate::seq::Seq, consumed: u32 },
        SendFinish { seq: crate::seq::Seq },
        ReceiveClose { seq: crate::seq::Seq },
        ReceiveFinish { seq: crate::seq::Seq },
        TestData { size: usize },
        SetBlock { blocked: bool },
        Goodbye,
        Terminate,
    }
}

mod seq {
    pub struct Seq(pub u32);
}

/// Kind and numbers, as `fk_write` is given them.
fn numbers(message: &msg::LinkMsg) -> (u8, u32, u32) {
    use msg::LinkMsg::*;
    match message {
        Accepted => (3, 0, 0),
        Refused { reason } => (4, 1 + *reason as u32, 0),
        Ping => (5, 0, 0),
        Pong => (6, 0, 0),
        Data { seq } => (7, seq.0, 0),
        Ack { received } => (8, received.0, 0),
        Consumed { seq, consumed } => (9, seq.0, *consumed),
        SendFinish { seq } => (10, seq.0, 0),
        ReceiveClose { seq } => (11, seq.0, 0),
        ReceiveFinish { seq } => (12, seq.0, 0),
        TestData { size } => (13, *size as u32, 0),
        SetBlock { blocked } => (14, *blocked as u32, 0),
        Goodbye => (15, 0, 0),
        Terminate => (16, 0, 0),
    }
}

/// The answer to a `read`: what the message carries, or the refusal, which writes no value.
fn read(bytes: &[u8]) -> String {
    let mut values = [UNTOLD; 3];
    let number = unsafe { door::fk_read(bytes.as_ptr(), bytes.len(), values.as_mut_ptr()) };
    assert!(number == 0 || values == [UNTOLD; 3], "a refusal wrote a value");
    values.iter().take_while(|&&v| v != UNTOLD).fold(number.to_string(), |line, value| line + " " + &value.to_string())
}

/// The answer to a `write` into so many bytes, of which only the message's own are written.
fn write_message(room: usize, (kind, first, second): (u8, u32, u32)) -> String {
    let mut buffer = vec![0xee; room];
    let mut values = [UNTOLD; 3];
    let number = unsafe { door::fk_write(buffer.as_mut_ptr(), room, kind, first, second, values.as_mut_ptr()) };
    let length = if number == 0 { values[0] as usize } else { 0 };
    assert!(buffer[length..].iter().all(|&byte| byte == 0xee), "a byte that is not the message's was written");
    assert!(number == 0 || values == [UNTOLD; 3], "a refusal wrote a value");
    if number == 0 { format!("0 {}", hex(&buffer[..length])) } else { number.to_string() }
}

mod door {
    //! The exported calls: a lent run is a pointer and a length, the values a pointer to three words.
    unsafe extern "C" {
        pub fn fk_fresh(words: *mut u64, n: usize, start: u32, buffer: u32, cells: u32, records: *mut u64, r: usize) -> u64;
        pub fn fk_add(words: *mut u64, n: usize, id: u64, trip: u64, limited: bool, max: u64, blocked: bool, unconfirmed: bool, values: *mut u64) -> u64;
        pub fn fk_remove(words: *mut u64, n: usize, slot: u8) -> u64;
        pub fn fk_confirm(words: *mut u64, n: usize, slot: u8) -> u64;
        pub fn fk_unconfirm(words: *mut u64, n: usize, slot: u8) -> u64;
        pub fn fk_block(words: *mut u64, n: usize, slot: u8, blocked: bool) -> u64;
        pub fn fk_mark(words: *mut u64, n: usize, slot: u8, number: u32) -> u64;
        pub fn fk_ping(words: *mut u64, n: usize, slot: u8, time: u64) -> u64;
        pub fn fk_pong(words: *mut u64, n: usize, slot: u8, time: u64) -> u64;
        pub fn fk_flush(words: *mut u64, n: usize, slot: u8, time: u64) -> u64;
        pub fn fk_send(words: *mut u64, n: usize, store: *mut u8, s: usize, slot: u8, time: u64, kind: u8, count: u32, bytes: *const u8, b: usize, values: *mut u64) -> u64;
        pub fn fk_resend(words: *mut u64, n: usize, slot: u8, time: u64, number: u32, values: *mut u64) -> u64;
        pub fn fk_ack(words: *mut u64, n: usize, slot: u8, time: u64, number: u32) -> u64;
        pub fn fk_receive(words: *mut u64, n: usize, store: *mut u8, s: usize, records: *mut u64, r: usize, slot: u8, kind: u8, number: u32, count: u32, bytes: *const u8, b: usize) -> u64;
        pub fn fk_showing(words: *const u64, n: usize, store: *const u8, s: usize, records: *const u64, r: usize, values: *mut u64) -> u64;
        pub fn fk_take(words: *mut u64, n: usize, records: *mut u64, r: usize, values: *mut u64) -> u64;
        pub fn fk_take_ack(words: *mut u64, n: usize, slot: u8, values: *mut u64) -> u64;
        pub fn fk_is_consume_ack_required(words: *const u64, n: usize, values: *mut u64) -> u64;
        pub fn fk_close_reader(words: *mut u64, n: usize) -> u64;
        pub fn fk_earliest_confirm_timeout(words: *const u64, n: usize, trip: u64, resent: u64, unreliable: u64, min: u64, max: u64, is: bool, values: *mut u64) -> u64;
        pub fn fk_run(words: *mut u64, n: usize, sent: *mut u8, s: usize, received: *mut u8, r: usize, records: *mut u64, k: usize, calls: *const u64, c: usize, bytes: *const u8, b: usize, answers: *mut u64, a: usize) -> u64;
        pub fn fk_read(bytes: *const u8, b: usize, values: *mut u64) -> u64;
        pub fn fk_write(buffer: *mut u8, b: usize, kind: u8, first: u32, second: u32, values: *mut u64) -> u64;
        pub fn fk_slow(words: *const u64, n: usize, slots: *mut u64, values: *mut u64) -> u64;
    }
}

use script::{Asked, Call};
use std::{
    fmt::Write as _,
    io::{self, BufRead, Write as _},
};

const WORDS: usize = 1248;
const SENT: usize = 65_536;
const CELL: usize = 1_024;
/// What stands in the values before a call: a refusal must leave it.
const UNTOLD: u64 = 0x5555_5555_5555_5555;

struct End {
    begun: bool,
    words: Vec<u64>,
    sent: Vec<u8>,
    received: Vec<u8>,
    records: Vec<u64>,
    // with how many the stores and the records are lent
    lent: [usize; 3],
    records_set: bool,
    // the calls of a run that is not done yet, how many values each tells, and the bytes that they name
    calls: Vec<[u64; 8]>,
    counts: Vec<usize>,
    bytes: Vec<u8>,
}

/// A call's words (docs/RUNS.md) and how many values it tells; none for what is asked by itself.
fn words_of(call: &Call, from: usize) -> Option<([u64; 8], usize)> {
    let (w, count): (&[u64], usize) = match call {
        Call::Add { identity, roundtrip, max_ping, blocked, unconfirmed } => {
            (&[1, *identity, *roundtrip, max_ping.is_some() as u64, max_ping.unwrap_or(7), *blocked as u64, *unconfirmed as u64], 1)
        }
        Call::Remove { slot } => (&[2, *slot as u64], 0),
        Call::Confirm { slot } => (&[3, *slot as u64], 0),
        Call::Unconfirm { slot } => (&[4, *slot as u64], 0),
        Call::Block { slot, blocked } => (&[5, *slot as u64, *blocked as u64], 0),
        Call::Mark { slot, number } => (&[6, *slot as u64, number.0.into()], 0),
        Call::Ping { slot, time } => (&[7, *slot as u64, *time], 0),
        Call::Pong { slot, time } => (&[8, *slot as u64, *time], 0),
        Call::Flush { slot, time } => (&[9, *slot as u64, *time], 0),
        Call::Send { slot, time, kind, count, bytes } => {
            (&[10, *slot as u64, *time, (*kind).into(), (*count).into(), from as u64, bytes.len() as u64], 1)
        }
        Call::Ack { slot, time, number } => (&[12, *slot as u64, *time, number.0.into()], 0),
        Call::Receive { slot, kind, number, count, bytes } => {
            (&[13, *slot as u64, (*kind).into(), number.0.into(), (*count).into(), from as u64, bytes.len() as u64], 0)
        }
        Call::Take => (&[15], 3),
        Call::TakeAck { slot } => (&[16, *slot as u64], 1),
        Call::Due => (&[17], 1),
        Call::Close => (&[18], 0),
        _ => return None,
    };
    let mut call = [UNTOLD; 8];
    call[..w.len()].copy_from_slice(w);
    Some((call, count))
}

impl End {
    fn new() -> Self {
        End {
            begun: false,
            words: vec![0; WORDS],
            sent: vec![0; SENT + 1],
            received: Vec::new(),
            records: Vec::new(),
            lent: [SENT, 0, 0],
            records_set: false,
            calls: Vec::new(),
            counts: Vec::new(),
            bytes: Vec::new(),
        }
    }

    /// The answers of the calls that wait, one line each.
    fn run(&mut self) -> Vec<String> {
        if self.calls.is_empty() {
            return Vec::new();
        }
        let calls: Vec<u64> = self.calls.iter().flatten().copied().collect();
        let mut answers = vec![UNTOLD; 4 * self.calls.len()];
        let [s, r, k] = self.lent;
        let number = unsafe {
            door::fk_run(
                self.words.as_mut_ptr(), WORDS, self.sent.as_mut_ptr(), s, self.received.as_mut_ptr(), r, self.records.as_mut_ptr(), k,
                calls.as_ptr(), calls.len(), self.bytes.as_ptr(), self.bytes.len(), answers.as_mut_ptr(), answers.len(),
            )
        };
        assert_eq!(number, 0, "a run on a state that is not sound");
        let lines = answers.chunks(4).zip(&self.counts).map(|(answer, &count)| {
            let told = if answer[0] == 0 { count } else { 0 };
            assert!(answer[1 + told..].iter().all(|&value| value == 0), "a value too many");
            answer[1..=told].iter().fold(answer[0].to_string(), |line, value| line + " " + &value.to_string())
        });
        let lines = lines.collect();
        self.calls.clear();
        self.counts.clear();
        self.bytes.clear();
        lines
    }

    /// The answers that a line brings: its own, or none yet where its call waits for a run, with those of the calls before it where it can't wait.
    fn answers(&mut self, line: &str, most: usize) -> Vec<String> {
        if self.begun && most > 0 {
            if let Some(call) = Call::parse(line) {
                if let Some((words, count)) = words_of(&call, self.bytes.len()) {
                    if let Call::Send { bytes, .. } | Call::Receive { bytes, .. } = &call {
                        self.bytes.extend(bytes);
                    }
                    self.calls.push(words);
                    self.counts.push(count);
                    return if self.calls.len() < most { Vec::new() } else { self.run() };
                }
            }
        }
        let mut lines = self.run();
        lines.push(self.answer(line));
        lines
    }

    fn cells(&self) -> usize {
        self.words[21] as u32 as usize
    }

    /// The answer's line; every word is as it was where the call is refused.
    fn told(&self, before: &[u64], number: u64, values: &[u64; 3], count: usize) -> String {
        if number != 0 {
            assert!(self.words == before, "a refusal changed a word");
            assert!(values.iter().all(|&v| v == UNTOLD), "a refusal wrote a value");
            return number.to_string();
        }
        assert!(values[count..].iter().all(|&v| v == UNTOLD), "a value too many");
        values[..count].iter().fold("0".to_string(), |line, value| line + " " + &value.to_string())
    }

    fn fresh(&mut self, start: u32, buffer: u32, cells: u32) -> String {
        let wanted = if self.records_set { self.lent[2] } else { (cells as usize).min(65_537) };
        let mut records = vec![u64::MAX; wanted];
        let mut words = self.words.clone();
        let number = unsafe { door::fk_fresh(words.as_mut_ptr(), WORDS, start, buffer, cells, records.as_mut_ptr(), records.len()) };
        if number != 0 {
            assert!(words == self.words && records.iter().all(|&r| r == u64::MAX), "a refused fresh changed a word");
            return number.to_string();
        }
        *self = End::new();
        self.begun = true;
        self.words = words;
        self.received = vec![0; cells as usize * CELL];
        self.records = records;
        self.lent = [SENT, self.received.len(), self.records.len()];
        "0".into()
    }

    fn lend(&mut self, what: &str, length: usize) -> String {
        match what {
            "sent" => self.lent[0] = length,
            "received" => {
                self.lent[1] = length;
                self.received.resize(self.received.len().max(length), 0);
            }
            _ => {
                self.lent[2] = length;
                self.records.resize(self.records.len().max(length), 0);
                self.records_set = true;
            }
        }
        "0".into()
    }

    fn perform(&mut self, call: Call) -> String {
        let before = self.words.clone();
        let (w, n) = (self.words.as_mut_ptr(), WORDS);
        let [s, r, k] = self.lent;
        let (sent, received, records) = (self.sent.as_mut_ptr(), self.received.as_mut_ptr(), self.records.as_mut_ptr());
        let mut values = [UNTOLD; 3];
        let v = values.as_mut_ptr();
        // Every pointer is to a run of at least the length beside it, and none overlaps another.
        let (number, count) = unsafe {
            match call {
                Call::Add { identity, roundtrip, max_ping, blocked, unconfirmed } => {
                    (door::fk_add(w, n, identity, roundtrip, max_ping.is_some(), max_ping.unwrap_or(7), blocked, unconfirmed, v), 1)
                }
                Call::Remove { slot } => (door::fk_remove(w, n, slot as u8), 0),
                Call::Confirm { slot } => (door::fk_confirm(w, n, slot as u8), 0),
                Call::Unconfirm { slot } => (door::fk_unconfirm(w, n, slot as u8), 0),
                Call::Block { slot, blocked } => (door::fk_block(w, n, slot as u8, blocked), 0),
                Call::Ping { slot, time } => (door::fk_ping(w, n, slot as u8, time), 0),
                Call::Pong { slot, time } => (door::fk_pong(w, n, slot as u8, time), 0),
                Call::Flush { slot, time } => (door::fk_flush(w, n, slot as u8, time), 0),
                Call::Mark { slot, number } => (door::fk_mark(w, n, slot as u8, number.0), 0),
                Call::Send { slot, time, kind, count, bytes } => {
                    (door::fk_send(w, n, sent, s, slot as u8, time, kind, count, bytes.as_ptr(), bytes.len(), v), 1)
                }
                Call::Resend { slot, time, number } => {
                    let told = door::fk_resend(w, n, slot as u8, time, number.0, v);
                    if told == 0 {
                        let at = number.0 as usize % 64 * CELL;
                        let bytes = if values[0] == 7 { hex(&self.sent[at..at + values[2] as usize]) } else { "-".into() };
                        return self.told(&before, told, &values, 3) + " " + &bytes;
                    }
                    (told, 3)
                }
                Call::Ack { slot, time, number } => (door::fk_ack(w, n, slot as u8, time, number.0), 0),
                Call::Receive { slot, kind, number, count, bytes } => {
                    (door::fk_receive(w, n, received, r, records, k, slot as u8, kind, number.0, count, bytes.as_ptr(), bytes.len()), 0)
                }
                Call::Show => {
                    let told = door::fk_showing(w, n, received, r, records, k, v);
                    if told != 0 {
                        return self.told(&before, told, &values, 0);
                    }
                    let at = values[1] as usize % self.cells() * CELL;
                    let len = if values[0] == 7 { values[2] as usize } else { 0 };
                    return format!("0 {}", hex(&self.received[at..at + len]));
                }
                Call::Take => (door::fk_take(w, n, records, k, v), 3),
                Call::TakeAck { slot } => (door::fk_take_ack(w, n, slot as u8, v), 1),
                Call::Due => (door::fk_is_consume_ack_required(w, n, v), 1),
                Call::Close => (door::fk_close_reader(w, n), 0),
                Call::Deadline { factors, min, max, unreliable } => {
                    let told = door::fk_earliest_confirm_timeout(w, n, factors[0], factors[1], factors[2], min, max, unreliable, v);
                    (told, if values[0] == UNTOLD { 0 } else { 3 })
                }
                Call::Slow { .. } => {
                    let mut slots = [UNTOLD; 8];
                    let told = door::fk_slow(w, n, slots.as_mut_ptr(), v);
                    return slots[..values[0] as usize].iter().fold(told.to_string(), |line, slot| line + " " + &slot.to_string());
                }
                Call::Dump => return self.dump(),
                Call::Fresh { .. } | Call::Read { .. } | Call::Write { .. } | Call::Lend => unreachable!(),
            }
        };
        self.told(&before, number, &values, count)
    }

    fn dump(&self) -> String {
        let mut out = String::from("0\n");
        self.dump_to(&mut out).unwrap();
        out + "."
    }

    fn dump_to(&self, out: &mut String) -> std::fmt::Result {
        let w = &self.words;
        let half = |at: usize| w[at] as u32;
        let flag = |at: usize| (w[at] != 0) as u8;
        let or_none = |at: usize, value: String| if w[at] != 0 { value } else { "-".into() };
        write!(out, "end {} {} {} {} {} {} {} ", half(0), half(3), half(4), half(5), half(6), flag(7), flag(8))?;
        writeln!(out, "{} {} {} {} {} {} {}", half(16), half(18), half(19), half(20), w[24], flag(25), half(21))?;
        for slot in 0..8 {
            let at = 32 + 16 * slot;
            if w[at] == 0 {
                continue;
            }
            write!(out, "link {slot} {} {} {} ", w[at + 1], w[at + 2], or_none(at + 3, w[at + 4].to_string()))?;
            write!(out, "{} {} {} {} ", flag(at + 5), flag(at + 6), flag(at + 7), or_none(at + 8, half(at + 9).to_string()))?;
            write!(out, "{} {}", or_none(at + 10, w[at + 11].to_string()), half(at + 12))?;
            for i in 0..w[at + 13] as usize {
                write!(out, " {}", half(160 + 64 * slot + i))?;
            }
            writeln!(out)?;
        }
        let count = w[1] as u32;
        let numbers = (0..count).map(|i| half(0).wrapping_sub(count).wrapping_add(i));
        let message = |word: u64| (word as u8, word >> 32, (word >> 8 & 0xff_ffff) as usize);
        for number in numbers.clone() {
            let at = 672 + 8 * (number as usize % 64);
            assert_eq!(half(at), number);
            let (kind, told, len) = message(w[at + 1]);
            let told = if kind == 9 { told } else { 0 };
            write!(out, "packet {number} ")?;
            match w[at + 2] {
                again @ (1 | 2) => {
                    let flushed = or_none(at + 6, w[at + 7].to_string());
                    writeln!(out, "sent {} {} {} {flushed} {} {kind} {told} {len}", w[at + 3] as u8, w[at + 4], w[at + 5], again - 1)?
                }
                3 => writeln!(out, "received {len}")?,
                4 => writeln!(out, "queued {} {kind} {told} {len}", w[at + 4])?,
                tag => panic!("tag {tag}"),
            }
        }
        if w[2] != 0 {
            write!(out, "queue")?;
            for i in 0..w[2] as usize {
                write!(out, " {}", half(1184 + i))?;
            }
            writeln!(out)?;
        }
        let (expected, oldest, end) = (half(16), half(17), half(22));
        let cells = self.cells();
        let held = |from: u32, to: u32| {
            let records = &self.records;
            (0..to.wrapping_sub(from)).map(move |i| from.wrapping_add(i)).filter_map(move |number| {
                let word = records[number as usize % cells];
                (word != 0).then_some((number, word))
            })
        };
        for (number, word) in held(oldest, expected) {
            let (kind, _, len) = message(word);
            writeln!(out, "ready {number} {kind} {len}")?;
        }
        for (number, word) in held(expected, end) {
            let (kind, told, len) = message(word);
            writeln!(out, "held {number} {kind} {told} {len}")?;
        }
        for number in numbers {
            let at = 672 + 8 * (number as usize % 64);
            let (kind, _, len) = message(w[at + 1]);
            if w[at + 2] != 3 && kind == 7 && len != 0 {
                let from = number as usize % 64 * CELL;
                writeln!(out, "sent {} {}", number % 64, hex(&self.sent[from..from + len]))?;
            }
        }
        for (number, word) in held(oldest, end) {
            let (kind, _, len) = message(word);
            if kind == 7 && len != 0 {
                let cell = number as usize % cells;
                writeln!(out, "kept {cell} {}", hex(&self.received[cell * CELL..cell * CELL + len]))?;
            }
        }
        Ok(())
    }

    fn answer(&mut self, line: &str) -> String {
        match Call::parse(line) {
            None => "?".into(),
            Some(Call::Read { bytes }) => read(&bytes),
            Some(Call::Write { room, message: Asked::Handshake }) => write_message(room, (1, 0, 0)),
            Some(Call::Write { room, message: Asked::Message(message) }) => write_message(room, numbers(&message)),
            Some(Call::Fresh { start, buffer, cells }) => self.fresh(start, buffer, cells),
            Some(_) if !self.begun => "?".into(),
            Some(Call::Lend) => {
                let words: Vec<_> = line.split(' ').collect();
                self.lend(words[1], words[2].parse().unwrap())
            }
            // the rows of the state are lent by the call itself, all eight
            Some(Call::Slow { rows }) if rows != script::SLOTS => "4".into(),
            Some(call) => self.perform(call),
        }
    }
}

fn hex(bytes: &[u8]) -> String {
    if bytes.is_empty() { "-".into() } else { bytes.iter().map(|b| format!("{b:02x}")).collect() }
}

fn main() -> io::Result<()> {
    let most = match &std::env::args().skip(1).collect::<Vec<_>>()[..] {
        [] => 0,
        [word, most] if word == "--runs" => most.parse().unwrap(),
        _ => panic!("usage: door [--runs N]"),
    };
    let mut end = End::new();
    let mut out = io::BufWriter::new(io::stdout().lock());
    let mut line = Vec::new();
    let mut input = io::stdin().lock();
    while input.read_until(b'\n', &mut line)? != 0 {
        if line.last() == Some(&b'\n') {
            line.pop();
        }
        for answer in end.answers(&String::from_utf8_lossy(&line), most) {
            writeln!(out, "{answer}")?;
        }
        line.clear();
    }
    for answer in end.run() {
        writeln!(out, "{answer}")?;
    }
    out.flush()
}
