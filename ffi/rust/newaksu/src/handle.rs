//! The owner of an object in the archive, and the calls that write bytes.

use crate::error::Error;
use newaksu_sys as sys;
use std::cell::UnsafeCell;

/// Owns one object, or none. Every call takes it exclusively, even one that only queries, so it is
/// not `Sync`.
pub(crate) struct Handle(UnsafeCell<sys::newaksu_handle>);

// SAFETY: an object is on the heap, belongs only to its handle and to no thread, and shares
// nothing with another.
unsafe impl Send for Handle {}

impl Handle {
    pub(crate) fn empty() -> Handle {
        Handle(UnsafeCell::new(sys::NEWAKSU_EMPTY))
    }

    /// The pointer that the archive takes. It is valid while `self` is, and no other call runs
    /// meanwhile: `Handle` is not `Sync` and no call re-enters.
    pub(crate) fn at(&self) -> *mut sys::newaksu_handle {
        self.0.get()
    }

    /// A handle in which this call made an object.
    pub(crate) fn made(
        make: impl FnOnce(*mut sys::newaksu_handle) -> u32,
    ) -> Result<Handle, Error> {
        let handle = Handle::empty();
        Error::check(make(handle.at()))?;
        Ok(handle)
    }
}

impl Drop for Handle {
    fn drop(&mut self) {
        // SAFETY: the handle is valid, and nothing else has it; an empty one is only refused.
        let _ = unsafe { sys::newaksu_release(self.at()) };
    }
}

/// What a call writes: it is asked for the size, and then given the room. `None` if there is
/// nothing to write.
pub(crate) fn written(
    mut write: impl FnMut(*mut u8, usize, *mut usize) -> u32,
) -> Result<Option<Vec<u8>>, Error> {
    let mut size = 0;
    let mut none = [0; 1];
    match write(none.as_mut_ptr(), 0, &mut size) {
        sys::NEWAKSU_OK => return Ok(Some(Vec::new())),
        sys::NEWAKSU_ABSENT => return Ok(None),
        sys::NEWAKSU_E_BUFFER_TOO_SMALL => {}
        status => return Err(Error::of(status)),
    }
    let mut bytes = Vec::new();
    bytes
        .try_reserve_exact(size)
        .map_err(|_| Error::OutOfMemory)?;
    bytes.resize(size, 0);
    Error::check(write(bytes.as_mut_ptr(), bytes.len(), &mut size))?;
    bytes.truncate(size);
    Ok(Some(bytes))
}

/// The same for what is always there.
pub(crate) fn written_whole(
    write: impl FnMut(*mut u8, usize, *mut usize) -> u32,
) -> Result<Vec<u8>, Error> {
    Ok(written(write)?.unwrap_or_default())
}
