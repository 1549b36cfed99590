//! Bytes that are overwritten before they are freed.

use std::fmt;
use std::sync::atomic::{compiler_fence, Ordering};

/// Overwrites the vector's whole capacity.
pub(crate) fn wipe(bytes: &mut Vec<u8>) {
    bytes.clear();
    for byte in bytes.spare_capacity_mut() {
        // SAFETY: the place is valid for a write; a volatile one is not optimized away.
        unsafe { std::ptr::write_volatile(byte.as_mut_ptr(), 0) };
    }
    compiler_fence(Ordering::SeqCst);
}

/// A text that is not shown, and is overwritten when dropped.
pub struct Secret(Vec<u8>);

impl Secret {
    pub(crate) fn new(bytes: Vec<u8>) -> Secret {
        Secret(bytes)
    }

    /// The bytes.
    pub fn as_bytes(&self) -> &[u8] {
        &self.0
    }

    /// The text; empty if the bytes are not UTF-8. Passwords from a [`crate::Server`] always are.
    pub fn as_str(&self) -> &str {
        std::str::from_utf8(&self.0).unwrap_or_default()
    }
}

impl Drop for Secret {
    fn drop(&mut self) {
        wipe(&mut self.0);
    }
}

impl fmt::Debug for Secret {
    fn fmt(&self, f: &mut fmt::Formatter<'_>) -> fmt::Result {
        write!(f, "Secret(..)")
    }
}
