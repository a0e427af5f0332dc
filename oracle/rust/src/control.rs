//! Stand-in for control.rs: handles and figures that the task publishes. Nothing here is looked at.

use std::{
    fmt, io,
    sync::{Arc, atomic::AtomicBool},
    time::Duration,
};

use tokio::sync::{mpsc, watch};
use wokio::time::Instant;

use crate::{
    cfg::{Cfg, LinkCfg},
    id::{ConnId, LinkId},
};

#[derive(Debug, Clone, Copy, PartialEq, Eq)]
#[allow(dead_code)]
pub enum Direction {
    Incoming,
    Outgoing,
}

impl Direction {
    pub(crate) fn arrow(&self) -> &'static str {
        match self {
            Self::Incoming => "<",
            Self::Outgoing => ">",
        }
    }
}

impl fmt::Display for Direction {
    fn fmt(&self, f: &mut fmt::Formatter) -> fmt::Result {
        write!(f, "{}", self.arrow())
    }
}

#[derive(Debug, Clone)]
#[allow(dead_code)]
pub enum DisconnectReason {
    AllUnconfirmedTimeout,
    AbortedByServer,
    ConnectionClosed,
    IoError(Arc<io::Error>),
    LinkFilter,
    LocallyRequested,
    PingTimeout,
    ProtocolError(String),
    RemotelyRequested,
    SendTimeout,
    ServerIdMismatch,
    TaskTerminated,
    UnconfirmedTimeout,
}

#[derive(Debug, Clone, PartialEq, Eq)]
pub enum NotWorkingReason {
    New,
    AckTimeout,
    MaxPingExceeded,
    Disconnecting,
}

#[allow(dead_code)]
pub struct Link<TAG> {
    pub(crate) conn_id: ConnId,
    pub(crate) link_id: LinkId,
    pub(crate) direction: Direction,
    pub(crate) tag: Arc<TAG>,
    pub(crate) cfg: Arc<Cfg>,
    pub(crate) link_cfg_tx: watch::Sender<Option<LinkCfg>>,
    pub(crate) disconnected_rx: watch::Receiver<DisconnectReason>,
    pub(crate) disconnect_tx: mpsc::Sender<()>,
    pub(crate) stats_rx: watch::Receiver<LinkStats>,
    pub(crate) remote_user_data: Arc<Vec<u8>>,
    pub(crate) blocked: Arc<AtomicBool>,
    pub(crate) blocked_changed_tx: mpsc::Sender<()>,
    pub(crate) blocked_changed_rx: watch::Receiver<()>,
    pub(crate) not_working_rx: watch::Receiver<Option<(Instant, NotWorkingReason)>>,
    pub(crate) remotely_blocked: Arc<AtomicBool>,
}

#[derive(Debug, Clone)]
#[allow(dead_code)]
pub struct LinkStats {
    pub established: Instant,
    pub total_sent: u64,
    pub total_recved: u64,
    pub sent_unacked: u64,
    pub unacked_limit: u64,
    pub roundtrip: Duration,
    pub hangs: usize,
    pub time_stats: Vec<LinkIntervalStats>,
}

#[derive(Debug, Clone)]
pub struct LinkIntervalStats {
    pub start: Instant,
    pub interval: Duration,
    pub sent: u64,
    pub recved: u64,
    pub busy: bool,
}

impl LinkIntervalStats {
    pub(crate) fn new(interval: Duration) -> Self {
        Self { start: Instant::now(), interval, sent: 0, recved: 0, busy: true }
    }
}

#[derive(Debug, Clone, Default)]
#[allow(dead_code)]
pub struct Stats {
    pub established: Option<Instant>,
    pub not_working_since: Option<Instant>,
    pub send_space: usize,
    pub sent_unacked: usize,
    pub sent_unconsumed: usize,
    pub sent_unconsumed_count: usize,
    pub sent_unconsumable: usize,
    pub resend_queue_len: usize,
    pub recved_unconsumed: usize,
    pub recved_unconsumed_count: usize,
}
