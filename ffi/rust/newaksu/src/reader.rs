//! A request that arrives in pieces.

use crate::error::Error;
use crate::handle::Handle;
use crate::request::TsRequest;
use newaksu_sys as sys;
use std::fmt;

/// A reader of one request, which is fed pieces of any size and keeps the fields that it has read,
/// not the bytes.
pub struct TsReader {
    handle: Handle,
}

impl TsReader {
    /// A reader that was fed nothing. [`Error::OutOfMemory`].
    pub fn new() -> Result<TsReader, Error> {
        // SAFETY: the handle is valid.
        let handle = Handle::made(|at| unsafe { sys::newaksu_reader_new(at) })?;
        Ok(TsReader { handle })
    }

    /// Feeds the next piece. [`Error::OutOfMemory`]: nothing was taken; the same piece may be fed
    /// again.
    pub fn feed(&mut self, piece: &[u8]) -> Result<(), Error> {
        // SAFETY: the handle and the piece are valid.
        Error::check(unsafe {
            sys::newaksu_reader_feed(self.handle.at(), piece.as_ptr(), piece.len())
        })
    }

    /// What [`TsRequest::decode`] returns for all that was fed.
    pub fn finish(self) -> Result<TsRequest, Error> {
        // SAFETY: the handle is valid.
        Error::check(unsafe { sys::newaksu_reader_finish(self.handle.at()) })?;
        TsRequest::of(&self.handle)
    }
}

impl fmt::Debug for TsReader {
    fn fmt(&self, f: &mut fmt::Formatter<'_>) -> fmt::Result {
        f.debug_struct("TsReader").finish_non_exhaustive()
    }
}
