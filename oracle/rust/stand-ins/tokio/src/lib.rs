//! Stand-in for the crate tokio: Debian's, but for `sync::watch`, whose Sender can't be cloned in that version.

pub use debian_tokio::select;

pub mod sync {
    pub use debian_tokio::sync::{mpsc, oneshot};

    pub mod watch {
        use debian_tokio::sync::watch;
        use std::{ops::Deref, sync::Arc};

        pub use debian_tokio::sync::watch::Receiver;

        pub struct Sender<T>(Arc<watch::Sender<T>>);

        impl<T> Clone for Sender<T> {
            fn clone(&self) -> Self {
                Self(self.0.clone())
            }
        }

        impl<T> Deref for Sender<T> {
            type Target = watch::Sender<T>;
            fn deref(&self) -> &Self::Target {
                &self.0
            }
        }

        pub fn channel<T>(value: T) -> (Sender<T>, Receiver<T>) {
            let (tx, rx) = watch::channel(value);
            (Sender(Arc::new(tx)), rx)
        }
    }
}
