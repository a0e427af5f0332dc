//! Stand-in for id.rs. A link's identity is the number that the driver names before the link is made.

use std::{
    fmt,
    num::NonZeroU128,
    sync::atomic::{AtomicU64, Ordering},
};

#[derive(Debug, Clone, Copy, PartialEq, Eq)]
pub struct ConnId(pub u128);

#[derive(Debug)]
pub struct OwnedConnId(ConnId);

impl OwnedConnId {
    pub fn new(id: ConnId) -> Self {
        Self(id)
    }

    pub fn get(&self) -> ConnId {
        self.0
    }
}

#[derive(Debug, Clone, Copy, PartialEq, Eq)]
pub struct ServerId(pub NonZeroU128);

#[derive(Debug, Clone, Copy, PartialEq, Eq)]
pub struct EncryptedConnId(pub u128);

#[derive(Debug, Clone, Copy, PartialEq, Eq)]
pub struct LinkId(pub u64);

static NEXT: AtomicU64 = AtomicU64::new(0);

impl LinkId {
    /// The identity of the link that is made next.
    pub fn name_next(identity: u64) {
        NEXT.store(identity, Ordering::Relaxed);
    }

    pub fn generate() -> Self {
        Self(NEXT.load(Ordering::Relaxed))
    }
}

impl fmt::Display for LinkId {
    fn fmt(&self, f: &mut fmt::Formatter) -> fmt::Result {
        write!(f, "{}", self.0)
    }
}
