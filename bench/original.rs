//! A tile's round through the original's own functions, one wrapper for each, so that a profiler can tell them apart. A child of task.rs, as the oracle's driver is.

use super::*;
use futures::FutureExt;
use std::{
    hint::black_box,
    num::NonZeroU32,
    pin::Pin,
    task::{Context, Poll},
};
use wokio::time;

/// A wire that takes what is written and gives nothing.
#[derive(Clone, Default)]
struct Wire;

impl Sink<Bytes> for Wire {
    type Error = io::Error;
    fn poll_ready(self: Pin<&mut Self>, _: &mut Context) -> Poll<io::Result<()>> {
        Poll::Ready(Ok(()))
    }
    fn start_send(self: Pin<&mut Self>, _: Bytes) -> io::Result<()> {
        Ok(())
    }
    fn poll_flush(self: Pin<&mut Self>, _: &mut Context) -> Poll<io::Result<()>> {
        Poll::Ready(Ok(()))
    }
    fn poll_close(self: Pin<&mut Self>, _: &mut Context) -> Poll<io::Result<()>> {
        Poll::Ready(Ok(()))
    }
}

impl Stream for Wire {
    type Item = io::Result<Bytes>;
    fn poll_next(self: Pin<&mut Self>, _: &mut Context) -> Poll<Option<Self::Item>> {
        Poll::Pending
    }
}

type End = Task<Wire, Wire, u64>;

fn new_end() -> End {
    let (_, terminate_rx) = mpsc::channel(1);
    let (_, link_rx) = mpsc::channel(1);
    let (_, read_closed_rx) = mpsc::channel(1);
    let (_, write_rx) = mpsc::channel(1);
    let (_, fatal_rx) = mpsc::channel(1);
    let cfg = Arc::new(Cfg::with(NonZeroU32::new(65_536).unwrap()));
    let mut end: End = Task::new(
        cfg.clone(),
        None,
        OwnedConnId::new(ConnId(0)),
        Direction::Outgoing,
        terminate_rx,
        watch::channel(Vec::new()).0,
        link_rx,
        oneshot::channel().0,
        mpsc::channel(1).0,
        read_closed_rx,
        write_rx,
        watch::channel(None).0,
        watch::channel(SendError::TaskTerminated).0,
        watch::channel(Stats::default()).0,
        fatal_rx,
        watch::channel(Ok(())).0,
        Vec::new(),
    );
    for identity in [7, 8] {
        LinkId::name_next(identity);
        let link_cfg = LinkCfg::with(None, false);
        let remote_cfg = ExchangedCfg { recv_buffer: NonZeroU32::MAX };
        end.links.push(Some(LinkInt::new(
            identity,
            ConnId(0),
            Wire,
            Wire,
            cfg.clone(),
            remote_cfg,
            Some(link_cfg),
            Direction::Outgoing,
            Duration::from_nanos(1000),
            Vec::new(),
        )));
    }
    end
}

/// The transport's part: what was written is taken.
fn drained(end: &mut End, slot: usize) {
    while end.links[slot].as_mut().unwrap().event().now_or_never().is_some() {}
}

#[unsafe(no_mangle)]
#[inline(never)]
fn bench_send(end: &mut End, slot: usize, data: &Bytes) -> Seq {
    end.send_reliable_over_link(slot, ReliableMsg::Data(data.clone()))
}

/// What of sending is the message's own writing, which the engine's calls leave to the host.
#[unsafe(no_mangle)]
#[inline(never)]
fn bench_frame(end: &mut End, slot: usize, seq: Seq, data: &Bytes) {
    end.links[slot].as_mut().unwrap().start_send_msg(LinkMsg::Data { seq }, Some(data.clone()));
}

#[unsafe(no_mangle)]
#[inline(never)]
fn bench_receive(end: &mut End, slot: usize, seq: Seq, data: &Bytes) -> bool {
    end.handle_received_reliable_msg(slot, seq, ReliableMsg::Data(data.clone())).is_ok()
}

#[unsafe(no_mangle)]
#[inline(never)]
fn bench_show(end: &End) -> usize {
    match end.rxed_reliable_consumable.front() {
        Some(ReceivedReliableMsg { msg: ReliableMsg::Data(data), .. }) => data.len(),
        _ => 0,
    }
}

/// What `run` does with a consumable message.
#[unsafe(no_mangle)]
#[inline(never)]
fn bench_take(end: &mut End) -> usize {
    let Some(ReceivedReliableMsg { msg, .. }) = end.rxed_reliable_consumable.pop_front() else { return 0 };
    let length = if let ReliableMsg::Data(data) = &msg { data.len() } else { 0 };
    end.rxed_reliable_size -= length;
    end.rxed_reliable_consumed_since_last_ack += length;
    end.rxed_reliable_consumed_since_last_ack %= 1_000_000;
    length
}

#[unsafe(no_mangle)]
#[inline(never)]
fn bench_take_ack(end: &mut End, slot: usize) -> Option<Seq> {
    end.links[slot].as_mut().unwrap().tx_ack_queue.pop_front()
}

#[unsafe(no_mangle)]
#[inline(never)]
fn bench_ack(end: &mut End, slot: usize, seq: Seq) {
    end.handle_ack(slot, seq);
    // `run` limits what is unconsumed by what the other end tells
    end.txed_unconsumed = 0;
}

#[unsafe(no_mangle)]
#[inline(never)]
fn bench_unconfirm(end: &mut End, slot: usize) {
    end.unconfirm_link(slot, NotWorkingReason::AckTimeout);
}

/// Rounds with so many packets and cells in use at their fullest.
pub(crate) fn rounds(packets: u32, cells: u32, count: u32, slot: usize) -> usize {
    let (mut a, mut b) = (new_end(), new_end());
    let data = Bytes::from(vec![7; 1024]);
    let mut sum = 0;
    let (mut taken, mut acked) = (0, 0);
    for n in 0..count + packets - 1 {
        time::set(1_000_000 * u64::from(n));
        let seq = bench_send(&mut a, slot, &data);
        drained(&mut a, slot);
        sum += bench_receive(&mut b, slot, seq, &data) as usize;
        if n >= packets - 1 || n - taken >= cells - 1 {
            sum += bench_show(&b) + bench_take(&mut b);
            taken += 1;
        }
        sum += bench_take_ack(&mut b, slot).map_or(0, |seq| seq.0 as usize);
        if n >= packets - 1 {
            bench_ack(&mut a, slot, Seq(acked));
            acked += 1;
        }
        bench_frame(&mut a, slot, seq, &data);
        drained(&mut a, slot);
    }
    black_box(sum)
}

/// Closing a gap of so many cells, and unconfirming so many packets.
pub(crate) fn gap(cells: u32, slot: usize) -> usize {
    let mut b = new_end();
    let data = Bytes::from(vec![7; 1024]);
    for n in 1..=cells {
        bench_receive(&mut b, slot, Seq(n), &data);
        bench_take_ack(&mut b, slot);
    }
    gap_closed(&mut b, slot, &data)
}

#[unsafe(no_mangle)]
#[inline(never)]
fn gap_closed(end: &mut End, slot: usize, data: &Bytes) -> usize {
    end.handle_received_reliable_msg(slot, Seq(0), ReliableMsg::Data(data.clone())).is_ok() as usize
}

pub(crate) fn unconfirm(packets: u32, slot: usize) {
    let mut a = new_end();
    let data = Bytes::from(vec![7; 1024]);
    for _ in 0..packets {
        bench_send(&mut a, slot, &data);
        drained(&mut a, slot);
    }
    bench_unconfirm(&mut a, slot);
}
