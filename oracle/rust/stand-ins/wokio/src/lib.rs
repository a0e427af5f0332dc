//! Stand-in for the crate wokio: a clock that stands still until the driver moves it.

pub mod time {
    use futures::{future, stream};
    use std::{future::Future, ops::Add, sync::atomic::AtomicU64, sync::atomic::Ordering, time::Duration};

    static NANOSECONDS: AtomicU64 = AtomicU64::new(0);

    /// Sets the present, in nanoseconds.
    pub fn set(nanoseconds: u64) {
        NANOSECONDS.store(nanoseconds, Ordering::Relaxed);
    }

    /// Nanoseconds since the clock's start. The sum with a deadline's length may pass 64 bits.
    #[derive(Debug, Clone, Copy, PartialEq, Eq, PartialOrd, Ord)]
    pub struct Instant(Duration);

    impl Instant {
        pub fn now() -> Self {
            Self(Duration::from_nanos(NANOSECONDS.load(Ordering::Relaxed)))
        }

        pub fn at(nanoseconds: u64) -> Self {
            Self(Duration::from_nanos(nanoseconds))
        }

        pub fn elapsed(&self) -> Duration {
            Self::now().0.saturating_sub(self.0)
        }

        pub fn nanoseconds(&self) -> u128 {
            self.0.as_nanos()
        }
    }

    impl Add<Duration> for Instant {
        type Output = Self;
        fn add(self, length: Duration) -> Self {
            Self(self.0 + length)
        }
    }

    // Nothing that the driver calls waits for a deadline, so none of these is ever reached in time.

    pub async fn sleep_until(_deadline: Instant) {
        future::pending().await
    }

    pub fn interval_stream(_interval: Duration) -> stream::Pending<()> {
        stream::pending()
    }

    pub async fn timeout<F: Future>(_length: Duration, work: F) -> Result<F::Output, Elapsed> {
        Ok(work.await)
    }

    #[derive(Debug)]
    pub struct Elapsed;
}
