//! Stand-in for peekable_mpsc.rs: a receiver that looks at the next value before it takes it.

use tokio::sync::mpsc;

pub(crate) enum RecvIfError {
    NoMatch,
    Disconnected,
}

pub(crate) struct PeekableReceiver<T> {
    rx: mpsc::Receiver<T>,
    next: Option<T>,
}

impl<T> From<mpsc::Receiver<T>> for PeekableReceiver<T> {
    fn from(rx: mpsc::Receiver<T>) -> Self {
        Self { rx, next: None }
    }
}

impl<T> PeekableReceiver<T> {
    pub(crate) fn try_peek(&mut self) -> Result<&T, RecvIfError> {
        if self.next.is_none() {
            self.next = self.rx.try_recv().ok();
        }
        self.next.as_ref().ok_or(RecvIfError::NoMatch)
    }

    pub(crate) fn try_recv_if(&mut self, wanted: impl FnOnce(&T) -> bool) -> Result<T, RecvIfError> {
        if wanted(self.try_peek()?) { self.next.take().ok_or(RecvIfError::NoMatch) } else { Err(RecvIfError::NoMatch) }
    }

    pub(crate) async fn recv_if(&mut self, wanted: impl FnOnce(&T) -> bool) -> Result<T, RecvIfError> {
        if self.next.is_none() {
            self.next = self.rx.recv().await;
        }
        if self.next.is_none() { Err(RecvIfError::Disconnected) } else { self.try_recv_if(wanted) }
    }
}
