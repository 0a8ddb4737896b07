//! Words that threads share without sharing lines of the cache, for the plain program.

use std::ops::Deref;

/// What has its lines of the cache to itself.
#[repr(align(128))]
pub struct Apart<T>(pub T);

impl<T> Deref for Apart<T> {
    type Target = T;

    fn deref(&self) -> &T {
        &self.0
    }
}
