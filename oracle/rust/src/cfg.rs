//! Stand-in for cfg.rs: the settings that the four files read. Those that the port leaves to its host are set so that
//! nothing happens by itself.

use std::{
    io,
    num::{NonZeroU32, NonZeroUsize},
    time::Duration,
};

use byteorder::{BE, ReadBytesExt, WriteBytesExt};

/// No deadline of these is waited for.
const LONG: Duration = Duration::from_secs(3600);

#[derive(Debug, Clone)]
pub struct Cfg {
    pub io_write_size: NonZeroUsize,
    pub send_buffer: NonZeroU32,
    pub recv_buffer: NonZeroU32,
    pub no_link_timeout: Duration,
    pub termination_timeout: Duration,
    pub stats_intervals: Vec<Duration>,
    pub link_max_ping_spread: Option<NonZeroU32>,
    pub link: LinkCfg,
}

impl Cfg {
    /// Settings with this receive buffer. Without a spread, `check_link_limits` has no second pass.
    pub fn with(recv_buffer: NonZeroU32) -> Self {
        Self {
            io_write_size: NonZeroUsize::new(1024).unwrap(),
            send_buffer: NonZeroU32::MAX,
            recv_buffer,
            no_link_timeout: LONG,
            termination_timeout: LONG,
            stats_intervals: Vec::new(),
            link_max_ping_spread: None,
            link: LinkCfg::with(None, false),
        }
    }
}

#[derive(Debug, Clone)]
pub struct LinkCfg {
    pub ack_timeout_roundtrip_factor: NonZeroU32,
    pub ack_timeout_resent_factor: NonZeroU32,
    pub ack_timeout_unreliable_factor: NonZeroU32,
    pub ack_timeout_min: Duration,
    pub ack_timeout_max: Duration,
    pub ack_flush_interval: Option<Duration>,
    pub flush_delay: Duration,
    pub flush_interval: Option<Duration>,
    pub unflushed_limit: Option<NonZeroUsize>,
    pub max_ping: Option<Duration>,
    pub non_working_timeout: Duration,
    pub ping: LinkPing,
    pub ping_timeout: Duration,
    pub retest_interval: Duration,
    pub test_after_ack_timeout: bool,
    pub test_data_limit: usize,
    pub unacked_increase: Vec<UnackedIncrease>,
    pub unacked_increase_single_link: u32,
    pub unacked_init: NonZeroUsize,
    pub unacked_limit: NonZeroUsize,
}

impl LinkCfg {
    /// Settings of a link. The original starts a link unconfirmed exactly when it is to be tested with data.
    pub fn with(max_ping: Option<Duration>, unconfirmed: bool) -> Self {
        let one = NonZeroU32::new(1).unwrap();
        Self {
            ack_timeout_roundtrip_factor: one,
            ack_timeout_resent_factor: one,
            ack_timeout_unreliable_factor: one,
            ack_timeout_min: Duration::ZERO,
            ack_timeout_max: LONG,
            ack_flush_interval: None,
            flush_delay: LONG,
            flush_interval: None,
            unflushed_limit: None,
            max_ping,
            non_working_timeout: LONG,
            ping: LinkPing::WhenTimedOut,
            ping_timeout: LONG,
            retest_interval: LONG,
            test_after_ack_timeout: false,
            test_data_limit: unconfirmed.into(),
            unacked_increase: Vec::new(),
            unacked_increase_single_link: 100,
            unacked_init: NonZeroUsize::MAX,
            unacked_limit: NonZeroUsize::MAX,
        }
    }
}

#[derive(Debug, Clone, Copy)]
pub struct UnackedIncrease {
    pub consecutive: u32,
    pub percent: u32,
}

#[derive(Debug, Clone, Copy)]
#[allow(dead_code)] // the original asks for all three
pub enum LinkPing {
    Periodic(Duration),
    WhenIdle(Duration),
    WhenTimedOut,
}

/// What the ends tell each other in a handshake; its real form isn't among the documents.
#[derive(Debug, Clone)]
pub struct ExchangedCfg {
    pub recv_buffer: NonZeroU32,
}

impl ExchangedCfg {
    pub fn write(&self, mut to: impl io::Write) -> io::Result<()> {
        to.write_u32::<BE>(self.recv_buffer.get())
    }

    pub fn read(mut from: impl io::Read) -> io::Result<Self> {
        let recv_buffer = NonZeroU32::new(from.read_u32::<BE>()?).ok_or(io::ErrorKind::InvalidData)?;
        Ok(Self { recv_buffer })
    }
}
