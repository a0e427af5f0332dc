//! Stand-in for alc.rs: why reading from or writing to a channel ends.

#[derive(Debug, Clone, Copy, PartialEq, Eq)]
pub enum SendError {
    Closed,
    Dropped,
    AllLinksFailed,
    ProtocolError,
    ServerIdMismatch,
    TaskTerminated,
    AbortedByServer,
}

#[derive(Debug, Clone, Copy, PartialEq, Eq)]
pub enum RecvError {
    AllLinksFailed,
    ProtocolError,
    ServerIdMismatch,
    TaskTerminated,
    AbortedByServer,
}
