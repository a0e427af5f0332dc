//! Stand-in for the crate atomic_refcell: a cell that can be shared between threads and panics when it is borrowed
//! against the rules.

use std::sync::{RwLock, RwLockReadGuard, RwLockWriteGuard, TryLockError};

#[derive(Debug)]
pub struct AtomicRefCell<T>(RwLock<T>);

#[derive(Debug)]
pub struct BorrowError;

impl<T> AtomicRefCell<T> {
    pub fn new(value: T) -> Self {
        Self(RwLock::new(value))
    }

    pub fn try_borrow(&self) -> Result<RwLockReadGuard<'_, T>, BorrowError> {
        match self.0.try_read() {
            Ok(guard) => Ok(guard),
            // A panic while it was lent leaves the value as it was then; the driver catches such panics.
            Err(TryLockError::Poisoned(guard)) => Ok(guard.into_inner()),
            Err(TryLockError::WouldBlock) => Err(BorrowError),
        }
    }

    pub fn borrow(&self) -> RwLockReadGuard<'_, T> {
        self.try_borrow().expect("already mutably borrowed")
    }

    pub fn borrow_mut(&self) -> RwLockWriteGuard<'_, T> {
        match self.0.try_write() {
            Ok(guard) => guard,
            Err(TryLockError::Poisoned(guard)) => guard.into_inner(),
            Err(TryLockError::WouldBlock) => panic!("already borrowed"),
        }
    }
}

impl<T: Clone> Clone for AtomicRefCell<T> {
    fn clone(&self) -> Self {
        Self::new(self.borrow().clone())
    }
}
