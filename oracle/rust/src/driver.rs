//! The driver: performs a script's calls on a Task. It is a child of task.rs, so that it reaches what is private there.
//!
//! Where it repeats what `run` does around a private method, or takes back what document 01 doesn't have, a comment says so;
//! oracle/README.md lists these places.

use super::*;
use crate::{
    agg::link_int::RELIABLE_ROUNDTRIP_ESTIMATES,
    script::{Asked, Call, SLOTS},
};
use std::{
    any::Any,
    fmt::Write,
    num::{NonZeroU32, NonZeroU128},
    panic::{self, AssertUnwindSafe},
    pin::Pin,
    sync::Mutex,
    task::{Context, Poll},
};
use wokio::time;

type End = Task<Wire, Wire, u64>;

/// The sent store's; the received store has as many as its `fresh` says.
const SENT_CELLS: u32 = 64;
const MOST_TEST_DATA: usize = 1_024;
/// Kind, magic bytes and version: what document 01 looks at in a handshake.
const HANDSHAKE_HEAD: usize = 7;

const ACK: u8 = 8;
const PONG: u8 = 6;

/// The two directions of a link's wire, as the driver sees them.
#[derive(Clone, Default)]
struct Wire(Arc<Mutex<Frames>>);

#[derive(Default)]
struct Frames {
    written: VecDeque<Bytes>,
    arriving: VecDeque<Bytes>,
}

impl Sink<Bytes> for Wire {
    type Error = io::Error;
    fn poll_ready(self: Pin<&mut Self>, _: &mut Context) -> Poll<io::Result<()>> {
        Poll::Ready(Ok(()))
    }
    fn start_send(self: Pin<&mut Self>, frame: Bytes) -> io::Result<()> {
        self.0.lock().unwrap().written.push_back(frame);
        Ok(())
    }
    fn poll_flush(self: Pin<&mut Self>, _: &mut Context) -> Poll<io::Result<()>> {
        Poll::Ready(Ok(()))
    }
    fn poll_close(self: Pin<&mut Self>, _: &mut Context) -> Poll<io::Result<()>> {
        Poll::Ready(Ok(()))
    }
}

impl Stream for Wire {
    type Item = io::Result<Bytes>;
    fn poll_next(self: Pin<&mut Self>, _: &mut Context) -> Poll<Option<Self::Item>> {
        match self.0.lock().unwrap().arriving.pop_front() {
            Some(frame) => Poll::Ready(Some(Ok(frame))),
            None => Poll::Pending,
        }
    }
}

pub(crate) struct Driver {
    /// Told nothing, nothing adapted.
    raw: bool,
    end: Option<End>,
    /// The wire of each slot that was ever used.
    wires: Vec<Wire>,
    /// The last accepted time; the clock shows it.
    time: u64,
    /// The cell count. The original has no cells; a dump names them.
    cells: u32,
}

impl Driver {
    pub(crate) fn new(raw: bool) -> Self {
        // What a panic says is an answer here.
        panic::set_hook(Box::new(|_| ()));
        Self { raw, end: None, wires: Vec::new(), time: 0, cells: 0 }
    }

    /// The answer to a line, of which the port's answer starts with `told`.
    pub(crate) fn answer(&mut self, line: &str, told: &str) -> String {
        let call = match Call::parse(line) {
            Some(call) if call.stateless() || self.end.is_some() => call,
            _ => return "?".into(),
        };
        let refusal = told.parse().ok().filter(|&number| number != 0u32 && !self.raw);
        panic::catch_unwind(AssertUnwindSafe(|| match refusal {
            Some(number) => self.refused(call, number),
            None => self.perform(call),
        }))
        .unwrap_or_else(|said| format!("panic: {}", text(&*said)))
    }

    fn end(&mut self) -> &mut End {
        self.end.as_mut().unwrap()
    }

    fn link(&mut self, slot: usize) -> &mut LinkInt<Wire, Wire, u64> {
        self.end().links[slot].as_mut().unwrap()
    }

    fn is_live(&self, slot: usize) -> bool {
        self.end.as_ref().is_some_and(|end| end.links.get(slot).is_some_and(Option::is_some))
    }

    /// The answer to a call that the port refused: checked where the original has a counterpart, else the port's own.
    fn refused(&mut self, call: Call, number: u32) -> String {
        let checked = match (number, &call) {
            (4, _) => call.slot().is_none_or(|slot| self.is_live(slot)),
            (7, Call::Write { .. }) => true,
            (11 | 14 | 15, Call::Receive { .. }) => true,
            (16 | 17, &Call::Resend { slot, number, .. }) => return self.resend_refused(slot, number),
            (19, Call::Show) | (19, Call::Take) | (19, Call::TakeAck { .. }) => true,
            (20, Call::Read { bytes }) => !reads_laxly(bytes),
            (20, Call::Write { message, .. }) => !writes_laxly(message),
            _ => false,
        };
        if checked { self.perform(call) } else { number.to_string() }
    }

    fn perform(&mut self, call: Call) -> String {
        if let Some(time) = call.time() {
            self.time = time;
            time::set(time);
        }
        match call {
            Call::Fresh { start, buffer, cells } => self.fresh(start, buffer, cells),
            Call::Add { identity, roundtrip, max_ping, blocked, unconfirmed } => {
                self.add(identity, roundtrip, max_ping, blocked, unconfirmed)
            }
            Call::Remove { slot } => done(self.end().remove_link(slot, DisconnectReason::LocallyRequested)),
            Call::Confirm { slot } => done(self.link(slot).set_unconfirmed(None)),
            Call::Unconfirm { slot } => done(self.end().unconfirm_link(slot, NotWorkingReason::AckTimeout)),
            Call::Block { slot, blocked } => done(self.link(slot).blocked.store(blocked, Ordering::Relaxed)),
            Call::Ping { slot, .. } => self.ping(slot),
            Call::Flush { slot, .. } => done(self.end().flush_link(slot)),
            Call::Pong { slot, .. } => self.handle(slot, PONG, &[], None),
            Call::Mark { slot, number } => done(self.link(slot).txed_unacked_data_limit_increased = Some(number)),
            Call::Send { slot, kind, count, bytes, .. } => self.send(slot, kind, count, bytes),
            Call::Resend { slot, number, .. } => self.resend(slot, number),
            Call::Ack { slot, number, .. } => self.handle(slot, ACK, &[number.0], None),
            Call::Receive { slot, kind, number, count, bytes } => self.receive(slot, kind, number, count, bytes),
            Call::Show => match self.end().rxed_reliable_consumable.front() {
                Some(ReceivedReliableMsg { msg, .. }) => format!("0 {}", hex(data_of(msg))),
                None => "19".into(),
            },
            Call::Take => self.take(),
            Call::TakeAck { slot } => self.take_ack(slot),
            Call::Due => format!("0 {}", self.end().is_consume_ack_required() as u8),
            Call::Close => self.close(),
            Call::Deadline { factors, min, max, unreliable } => self.deadline(factors, min, max, unreliable),
            // The original looks at its own links, so that no run of another length is asked of it.
            Call::Slow { rows } => if rows == SLOTS { self.slow() } else { "4".into() },
            Call::Dump => self.dump(),
            Call::Read { bytes } => match read(&bytes, self.raw) {
                Ok(message) => format!("0 {}", words(&message)),
                Err(_) => "20".into(),
            },
            Call::Write { room, message } => write(room, message, self.raw),
            Call::Lend => "0".into(),
        }
    }

    /// Adaptation: the start number, in three fields.
    fn fresh(&mut self, start: u32, buffer: u32, cells: u32) -> String {
        let mut end = new_end(NonZeroU32::new(buffer).expect("a receive buffer above 0"));
        end.tx_seq = Seq(start);
        end.rx_seq = Seq(start);
        end.txed_last_consumed = Seq(start) - 1u32;
        self.end = Some(end);
        self.wires.clear();
        self.time = 0;
        self.cells = cells;
        time::set(0);
        "0".into()
    }

    /// Adaptation: a new link's estimates are 1, so that the zero-estimate flag starts false.
    fn add(
        &mut self, identity: u64, roundtrip: u64, max_ping: Option<u64>, blocked: bool, unconfirmed: bool,
    ) -> String {
        let wire = Wire::default();
        let cfg = self.end().cfg.clone();
        let mut link = new_link(cfg, &wire, identity, roundtrip, max_ping, blocked, unconfirmed);
        if !self.raw {
            link.roundtrip_estimates = Some(1);
        }
        let slot = self.end().add_link(link);
        self.wires.resize_with(self.wires.len().max(slot + 1), Wire::default);
        self.wires[slot] = wire;
        format!("0 {slot}")
    }

    /// Lets the link write what it holds back, until it is ready for the next message, and answers what it wrote.
    fn written(&mut self, slot: usize) -> VecDeque<Bytes> {
        while let Some(event) = self.link(slot).event().now_or_never() {
            assert!(matches!(event, LinkIntEvent::TxReady | LinkIntEvent::TxFlushed), "{event:?}");
        }
        std::mem::take(&mut self.wires[slot].0.lock().unwrap().written)
    }

    /// The link's Sent packets that have no flush time.
    fn unflushed(&mut self, slot: usize) -> Vec<Arc<SentReliable>> {
        let is_unflushed = |packet: &&Arc<SentReliable>| match &*packet.status.borrow() {
            SentReliableStatus::Sent { link_id, flushed, .. } => *link_id == slot && flushed.is_none(),
            _ => false,
        };
        self.end().txed_packets.iter().filter(is_unflushed).cloned().collect()
    }

    /// Adaptation: the flush that sending some messages makes by itself is taken back.
    fn take_flush_back(&self, packets: Vec<Arc<SentReliable>>) {
        for packet in packets.iter().filter(|_| !self.raw) {
            if let SentReliableStatus::Sent { flushed, .. } = &mut *packet.status.borrow_mut() {
                *flushed = None;
            }
        }
    }

    /// Repeats what `run` does when a ping is to be sent.
    fn ping(&mut self, slot: usize) -> String {
        let unflushed = self.unflushed(slot);
        self.written(slot);
        self.link(slot).start_send_msg(LinkMsg::Ping, None);
        self.link(slot).current_ping_sent = Some(Instant::now());
        self.take_flush_back(unflushed);
        match self.written(slot).make_contiguous() {
            [frame] if matches!(LinkMsg::read(&**frame), Ok(LinkMsg::Ping)) => "0".into(),
            other => format!("written: {other:?}"),
        }
    }

    /// Repeats what `run` does around `send_reliable_over_link`.
    /// Adaptation: a Consumed tells the given count, where `run` tells all; the reader is kept when ReceiveFinish is sent.
    fn send(&mut self, slot: usize, kind: u8, count: u32, bytes: Vec<u8>) -> String {
        let data = Bytes::from(bytes);
        let told = if self.raw { self.end().rxed_reliable_consumed_since_last_ack as u32 } else { count };
        let message = match kind {
            7 => ReliableMsg::Data(data.clone()),
            9 => ReliableMsg::Consumed(told),
            10 => ReliableMsg::SendFinish,
            11 => ReliableMsg::ReceiveClose,
            _ => ReliableMsg::ReceiveFinish,
        };
        let unflushed = if kind > 9 { self.unflushed(slot) } else { Vec::new() };
        self.written(slot);
        let raw = self.raw;
        let end = self.end();
        let number = end.send_reliable_over_link(slot, message);
        match kind {
            9 => end.rxed_reliable_consumed_since_last_ack -= told as usize,
            10 => {
                end.write_rx = None;
                end.send_finish_sent = true;
            }
            11 => {
                end.read_closed_rx = None;
                end.receive_close_sent = true;
            }
            12 => {
                end.receive_finish_sent = true;
                if raw {
                    end.read_tx = None;
                }
            }
            _ => (),
        }
        self.take_flush_back(unflushed);
        let count = if kind == 9 { told } else { 0 };
        match seen(self.written(slot)) {
            Some(sent) if sent == (number, kind, count, data.clone()) => format!("0 {number}"),
            other => format!("written: {other:?}"),
        }
    }

    /// Adaptation: any queued packet may be resent, where `run` takes the queue's first.
    fn resend(&mut self, slot: usize, number: Seq) -> String {
        let unflushed = self.unflushed(slot);
        self.written(slot);
        let end = self.end();
        // The original has no call for a packet that isn't in its table.
        let Some(packet) = end.txed_packets.iter().find(|packet| packet.seq == number).cloned() else {
            return "16".into();
        };
        end.resend_reliable_over_link(slot, packet);
        end.resend_queue.retain(|packet| packet.seq != number);
        self.take_flush_back(unflushed);
        match seen(self.written(slot)) {
            Some((sent, kind, count, data)) if sent == number => {
                format!("0 {kind} {count} {} {}", data.len(), hex(&data))
            }
            other => format!("written: {other:?}"),
        }
    }

    /// A resend that the port refused with 16 or 17: the original's counterpart is a panic before anything has changed.
    fn resend_refused(&mut self, slot: usize, number: Seq) -> String {
        match panic::catch_unwind(AssertUnwindSafe(|| self.resend(slot, number))) {
            Ok(answer) => answer,
            Err(said) if text(&*said).contains("not queued") => "16".into(),
            Err(said) if text(&*said).contains("original link") => "17".into(),
            Err(said) => format!("panic: {}", text(&*said)),
        }
    }

    /// Lets a message arrive over the link's wire and has it handled.
    /// Adaptation: the link is reported ready before that, so that a Pong's testing step does nothing.
    fn handle(&mut self, slot: usize, kind: u8, numbers: &[u32], data: Option<Vec<u8>>) -> String {
        let mut frame = vec![kind];
        numbers.iter().for_each(|number| frame.extend(number.to_be_bytes()));
        self.written(slot);
        let frames = [Some(frame), data].into_iter().flatten().map(Bytes::from);
        self.wires[slot].0.lock().unwrap().arriving.extend(frames);
        let Some(LinkIntEvent::Rx { msg, data }) = self.link(slot).event().now_or_never() else {
            return "nothing arrived".into();
        };
        if !self.raw {
            self.link(slot).report_ready();
        }
        match self.end().handle_received_msg(slot, msg, data) {
            Ok(false) => "0".into(),
            Ok(true) => "terminate".into(),
            Err(err) => match err.to_string() {
                said if said.contains("sequence") => "11".into(),
                said if said.contains("buffer") => "14".into(),
                said if said.contains("unconsumed") => "15".into(),
                said => said,
            },
        }
    }

    /// Adaptation: what changed before an error is taken back.
    fn receive(&mut self, slot: usize, kind: u8, number: Seq, count: u32, bytes: Vec<u8>) -> String {
        let (size, places) = (self.end().rxed_reliable_size, self.end().rxed_reliable.len());
        let answer = match kind {
            7 => self.handle(slot, kind, &[number.0], Some(bytes)),
            9 => self.handle(slot, kind, &[number.0, count], None),
            _ => self.handle(slot, kind, &[number.0], None),
        };
        if answer != "0" && !self.raw {
            self.link(slot).tx_ack_queue.pop_back();
            self.end().rxed_reliable_size = size;
            self.end().rxed_reliable.truncate(places);
        }
        answer
    }

    /// Repeats what `run` does with a consumable message.
    /// Adaptation: the reader is kept when SendFinish is taken.
    fn take(&mut self) -> String {
        let raw = self.raw;
        let end = self.end();
        let Some(ReceivedReliableMsg { seq, msg }) = end.rxed_reliable_consumable.pop_front() else {
            return "19".into();
        };
        let length = data_of(&msg).len();
        match &msg {
            ReliableMsg::Data(_) => {
                end.rxed_reliable_size -= length;
                end.rxed_reliable_consumed_since_last_ack += length;
            }
            _ if raw => {
                end.read_tx = None;
                end.receive_finish_sent = true;
            }
            _ => (),
        }
        format!("0 {} {seq} {length}", kind_of(&msg))
    }

    /// Repeats what `run` does when it finds that the reader was dropped, but for the ReceiveFinish, which is a call of its own here.
    fn close(&mut self) -> String {
        let end = self.end();
        end.read_tx = None;
        end.read_closed_rx = None;
        "0".into()
    }

    /// Repeats what `run` does with a waiting ack; the number is read from the wire.
    fn take_ack(&mut self, slot: usize) -> String {
        self.written(slot);
        let Some(received) = self.link(slot).tx_ack_queue.pop_front() else { return "19".into() };
        self.link(slot).start_send_msg(LinkMsg::Ack { received }, None);
        match self.written(slot).front().map(|frame| LinkMsg::read(&**frame)) {
            Some(Ok(LinkMsg::Ack { received })) => format!("0 {received}"),
            other => format!("written: {other:?}"),
        }
    }

    /// Adaptation: the check is made on a second Task with links alike, since it unconfirms what it finds.
    fn slow(&mut self) -> String {
        if self.raw {
            return slow_of(self.end());
        }
        let end = self.end();
        let mut second = new_end(end.cfg.recv_buffer);
        for link in &end.links {
            second.links.push(link.as_ref().map(|link| {
                let max_ping = link.link_cfg().max_ping.map(nanoseconds);
                let (identity, roundtrip) = (link.link_id().0, nanoseconds(link.roundtrip));
                let unconfirmed = link.unconfirmed().clone();
                let cfg = second.cfg.clone();
                let blocked = link.is_blocked();
                let mut alike =
                    new_link(cfg, &Wire::default(), identity, roundtrip, max_ping, blocked, unconfirmed.is_some());
                alike.set_unconfirmed(unconfirmed);
                alike
            }));
        }
        slow_of(&mut second)
    }

    /// Adaptation: the call's settings hold on every link for this question alone, and so does its word on reliability, for which
    /// the original by itself goes by its count of estimates.
    fn deadline(&mut self, factors: [u64; 3], min: u64, max: u64, unreliable: bool) -> String {
        let [Some(roundtrip_factor), Some(resent_factor), Some(unreliable_factor)] = factors.map(factor) else {
            return "not a factor of its type".into();
        };
        let raw = self.raw;
        let links = self.end().links.iter_mut().flatten();
        let before: Vec<_> = links.map(|link| (link.link_cfg().clone(), link.roundtrip_estimates)).collect();
        for link in self.end().links.iter_mut().flatten() {
            let link_cfg = LinkCfg {
                ack_timeout_roundtrip_factor: roundtrip_factor,
                ack_timeout_resent_factor: resent_factor,
                ack_timeout_unreliable_factor: unreliable_factor,
                ack_timeout_min: Duration::from_nanos(min),
                ack_timeout_max: Duration::from_nanos(max),
                ..link.link_cfg().clone()
            };
            set_link_cfg(link, link_cfg);
            if !raw {
                link.roundtrip_estimates = Some(if unreliable { 0 } else { RELIABLE_ROUNDTRIP_ESTIMATES });
            }
        }
        let found = panic::catch_unwind(AssertUnwindSafe(|| self.end().earliest_confirm_timeout()));
        for (link, (link_cfg, estimates)) in self.end().links.iter_mut().flatten().zip(before) {
            set_link_cfg(link, link_cfg);
            link.roundtrip_estimates = estimates;
        }
        match found {
            Ok(Some((slot, deadline, flushed))) => format!("0 {slot} {} {}", flushed as u8, deadline.nanoseconds()),
            Ok(None) => "0".into(),
            Err(said) => panic::resume_unwind(said),
        }
    }

    fn dump(&mut self) -> String {
        let (time, cells) = (self.time, self.cells);
        let mut out = String::from("0\n");
        self.end().dump_to(&mut out, time, cells).unwrap();
        out + "."
    }
}

impl End {
    fn dump_to(&self, out: &mut String, time: u64, cells: u32) -> fmt::Result {
        writeln!(
            out,
            "end {} {} {} {} {} {} {} {} {} {} {} {time} {} {cells}",
            self.tx_seq,
            self.txed_unacked,
            self.txed_unconsumed,
            self.txed_unconsumable,
            self.txed_last_consumed,
            self.send_finish_sent as u8,
            self.write_closed.load(Ordering::Relaxed) as u8,
            self.rx_seq,
            self.rxed_reliable_size,
            self.rxed_reliable_consumed_since_last_ack,
            self.cfg.recv_buffer,
            self.read_tx.is_some() as u8,
        )?;
        for (slot, link) in self.links.iter().enumerate() {
            let Some(link) = link else { continue };
            write!(
                out,
                "link {slot} {} {} {} {} {} {} {} {} {}",
                link.link_id(),
                link.roundtrip.as_nanos(),
                or_none(link.link_cfg().max_ping.map(|max_ping| max_ping.as_nanos())),
                link.is_blocked() as u8,
                link.unconfirmed().is_some() as u8,
                (link.roundtrip_estimates == Some(0)) as u8,
                or_none(link.txed_unacked_data_limit_increased),
                or_none(link.current_ping_sent.map(|ping| ping.nanoseconds())),
                link.txed_unacked_data,
            )?;
            for number in &link.tx_ack_queue {
                write!(out, " {number}")?;
            }
            writeln!(out)?;
        }
        for packet in &self.txed_packets {
            write!(out, "packet {} ", packet.seq)?;
            match &*packet.status.borrow() {
                SentReliableStatus::Sent { sent, flushed, link_id, link, msg, resent } => {
                    let (sent, resent) = (sent.nanoseconds(), *resent as u8);
                    let flushed = or_none(flushed.map(|flushed| flushed.nanoseconds()));
                    writeln!(out, "sent {link_id} {link} {sent} {flushed} {resent} {}", message(msg))
                }
                SentReliableStatus::Received { size } => writeln!(out, "received {size}"),
                SentReliableStatus::ResendQueued { msg, sent_link } => {
                    writeln!(out, "queued {sent_link} {}", message(msg))
                }
            }?
        }
        if !self.resend_queue.is_empty() {
            write!(out, "queue")?;
            for packet in &self.resend_queue {
                write!(out, " {}", packet.seq)?;
            }
            writeln!(out)?;
        }
        let ready = &self.rxed_reliable_consumable;
        let held = self.rxed_reliable.iter().flatten();
        for ReceivedReliableMsg { seq, msg } in ready {
            writeln!(out, "ready {seq} {} {}", kind_of(msg), data_of(msg).len())?;
        }
        for ReceivedReliableMsg { seq, msg } in held.clone() {
            writeln!(out, "held {seq} {}", message(msg))?;
        }
        for packet in &self.txed_packets {
            match &*packet.status.borrow() {
                SentReliableStatus::Sent { msg, .. } | SentReliableStatus::ResendQueued { msg, .. } => {
                    cell(out, "sent", SENT_CELLS, packet.seq, msg)?
                }
                SentReliableStatus::Received { .. } => (),
            }
        }
        for ReceivedReliableMsg { seq, msg } in ready.iter().chain(held) {
            cell(out, "kept", cells, *seq, msg)?;
        }
        Ok(())
    }
}

/// A Task that has no links. Nothing waits at the other ends of its channels.
fn new_end(recv_buffer: NonZeroU32) -> End {
    let (_, terminate_rx) = mpsc::channel(1);
    let (_, link_rx) = mpsc::channel(1);
    let (_, read_closed_rx) = mpsc::channel(1);
    let (_, write_rx) = mpsc::channel(1);
    let (_, fatal_rx) = mpsc::channel(1);
    Task::new(
        Arc::new(Cfg::with(recv_buffer)),
        None,
        OwnedConnId::new(ConnId(0)),
        Direction::Outgoing,
        terminate_rx,
        watch::channel(Vec::new()).0,
        link_rx,
        oneshot::channel().0,
        mpsc::channel(1).0,
        read_closed_rx,
        write_rx,
        watch::channel(None).0,
        watch::channel(SendError::TaskTerminated).0,
        watch::channel(Stats::default()).0,
        fatal_rx,
        watch::channel(Ok(())).0,
        Vec::new(),
    )
}

fn new_link(
    cfg: Arc<Cfg>, wire: &Wire, identity: u64, roundtrip: u64, max_ping: Option<u64>, blocked: bool, unconfirmed: bool,
) -> LinkInt<Wire, Wire, u64> {
    LinkId::name_next(identity);
    let link_cfg = LinkCfg::with(max_ping.map(Duration::from_nanos), unconfirmed);
    let remote_cfg = ExchangedCfg { recv_buffer: NonZeroU32::MAX };
    let link = LinkInt::new(
        identity,
        ConnId(0),
        wire.clone(),
        wire.clone(),
        cfg,
        remote_cfg,
        Some(link_cfg),
        Direction::Outgoing,
        Duration::from_nanos(roundtrip),
        Vec::new(),
    );
    link.blocked.store(blocked, Ordering::Relaxed);
    link
}

/// Gives a link other settings, as its handle does.
fn set_link_cfg(link: &mut LinkInt<Wire, Wire, u64>, link_cfg: LinkCfg) {
    Link::from(&*link).link_cfg_tx.send_replace(Some(link_cfg));
    link.update_link_cfg();
}

/// A factor, if the original's type has it.
fn factor(number: u64) -> Option<NonZeroU32> {
    NonZeroU32::new(u32::try_from(number).ok()?)
}

/// The slots of the links that the check unconfirms.
fn slow_of(end: &mut End) -> String {
    let confirmed = |end: &End| -> Vec<bool> {
        end.links.iter().map(|link| link.as_ref().is_some_and(|link| link.unconfirmed().is_none())).collect()
    };
    let before = confirmed(end);
    end.check_link_limits();
    let after = confirmed(end);
    let listed = before.iter().zip(after).enumerate().filter(|(_, (before, after))| **before && !after);
    listed.fold(String::from("0"), |answer, (slot, _)| format!("{answer} {slot}"))
}

/// The reliable message that these frames are: number, kind, count and data.
fn seen(mut frames: VecDeque<Bytes>) -> Option<(Seq, u8, u32, Bytes)> {
    let message = LinkMsg::read(&*frames.pop_front()?).ok()?;
    let data = if let LinkMsg::Data { .. } = message { Some(frames.pop_front()?) } else { None };
    let (message, number) = frames.is_empty().then(|| ReliableMsg::from_link_msg(message, data))?;
    let count = if let ReliableMsg::Consumed(count) = message { count } else { 0 };
    Some((number, kind_of(&message), count, Bytes::copy_from_slice(data_of(&message))))
}

/// Reads a message. Adaptation: a handshake whose head is there gets the rest that the original demands.
fn read(bytes: &[u8], raw: bool) -> io::Result<LinkMsg> {
    match bytes {
        [kind @ (1 | 2), ..] if !raw && bytes.len() >= HANDSHAKE_HEAD => {
            LinkMsg::read(&*[&bytes[..HANDSHAKE_HEAD], &handshake(*kind).encode()[HANDSHAKE_HEAD..]].concat())
        }
        _ => LinkMsg::read(bytes),
    }
}

fn handshake(kind: u8) -> LinkMsg {
    let (extensions, public_key, user_data) = (0, [0; 32].into(), Vec::new());
    let cfg = ExchangedCfg { recv_buffer: NonZeroU32::MAX };
    let server_id = crate::id::ServerId(NonZeroU128::MAX);
    if kind == 1 {
        LinkMsg::Welcome { extensions, public_key, server_id, user_data, cfg }
    } else {
        let connection_id = crate::id::EncryptedConnId(0);
        let server_id = Some(server_id);
        LinkMsg::Connect {
            extensions,
            public_key,
            server_id,
            connection_id,
            existing_connection: false,
            user_data,
            cfg,
        }
    }
}

/// Whether the original reads what document 01 or request [11] refuses: bytes after the message, a flag above 1, too much test data,
/// test data off its pattern. But for the size, what it reads so is written otherwise.
fn reads_laxly(bytes: &[u8]) -> bool {
    match LinkMsg::read(bytes) {
        Ok(LinkMsg::Welcome { .. } | LinkMsg::Connect { .. }) | Err(_) => false,
        Ok(LinkMsg::TestData { size }) if size > MOST_TEST_DATA => true,
        Ok(message) => message.encode() != bytes,
    }
}

/// Whether the original writes what document 01 refuses.
fn writes_laxly(message: &Asked) -> bool {
    match message {
        Asked::Handshake => true,
        Asked::Message(LinkMsg::TestData { size }) => *size > MOST_TEST_DATA,
        Asked::Message(_) => false,
    }
}

/// Writes a message. Adaptation: the original's buffer grows, so its length is held against the room.
fn write(room: usize, message: Asked, raw: bool) -> String {
    let bytes = match message {
        Asked::Handshake => handshake(1).encode(),
        Asked::Message(message) => message.encode(),
    };
    if bytes.len() > room && !raw { "7".into() } else { format!("0 {}", hex(&bytes)) }
}

/// A message's words: its kind byte, as the original writes it, and what it carries.
fn words(message: &LinkMsg) -> String {
    let kind = message.encode()[0];
    match message {
        LinkMsg::Refused { reason } => format!("{kind} {}", u8::from(*reason)),
        LinkMsg::Data { seq } | LinkMsg::SendFinish { seq } => format!("{kind} {seq}"),
        LinkMsg::ReceiveClose { seq } | LinkMsg::ReceiveFinish { seq } => format!("{kind} {seq}"),
        LinkMsg::Ack { received } => format!("{kind} {received}"),
        LinkMsg::Consumed { seq, consumed } => format!("{kind} {seq} {consumed}"),
        LinkMsg::TestData { size } => format!("{kind} {size}"),
        LinkMsg::SetBlock { blocked } => format!("{kind} {}", *blocked as u8),
        _ => kind.to_string(),
    }
}

/// The kind byte, as the original writes it.
fn kind_of(message: &ReliableMsg) -> u8 {
    message.to_link_msg(Seq::ZERO).0.encode()[0]
}

fn data_of(message: &ReliableMsg) -> &[u8] {
    if let ReliableMsg::Data(data) = message { data } else { &[] }
}

/// Kind, count and length.
fn message(message: &ReliableMsg) -> String {
    let count = if let ReliableMsg::Consumed(count) = message { *count } else { 0 };
    format!("{} {count} {}", kind_of(message), data_of(message).len())
}

fn cell(out: &mut String, name: &str, cells: u32, number: Seq, message: &ReliableMsg) -> fmt::Result {
    match data_of(message) {
        [] => Ok(()),
        data => writeln!(out, "{name} {} {}", number.0 % cells, hex(data)),
    }
}

fn hex(bytes: &[u8]) -> String {
    const DIGITS: &[u8; 16] = b"0123456789abcdef";
    if bytes.is_empty() {
        return "-".into();
    }
    bytes.iter().flat_map(|b| [DIGITS[usize::from(b / 16)] as char, DIGITS[usize::from(b % 16)] as char]).collect()
}

fn or_none<T: fmt::Display>(value: Option<T>) -> String {
    value.map_or("-".into(), |value| value.to_string())
}

fn nanoseconds(length: Duration) -> u64 {
    length.as_nanos().try_into().unwrap()
}

fn done(_: ()) -> String {
    "0".into()
}

/// What a panic said.
fn text(said: &(dyn Any + Send)) -> &str {
    match (said.downcast_ref::<String>(), said.downcast_ref::<&str>()) {
        (Some(text), _) => text,
        (_, Some(text)) => text,
        _ => "",
    }
}
