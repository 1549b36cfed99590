//! The early user authorization result (MS-RDPBCGR 2.2.10.2).

use crate::error::Error;
use newaksu_sys as sys;

/// Whether the user may log on, which a server that supports HYBRID_EX says after the exchange.
#[derive(Clone, Copy, Debug, PartialEq, Eq)]
pub enum EarlyResult {
    /// The user may log on.
    Success,
    /// The user may not.
    AccessDenied,
}

impl EarlyResult {
    /// The four bytes that are sent.
    pub fn encode(self) -> [u8; 4] {
        let number = match self {
            EarlyResult::Success => sys::NEWAKSU_EARLY_SUCCESS,
            EarlyResult::AccessDenied => sys::NEWAKSU_EARLY_ACCESS_DENIED,
        };
        let (mut bytes, mut size) = ([0; 4], 0);
        // SAFETY: there is room for four bytes, and the count is valid. Both numbers are results,
        // so this is never refused.
        let _ = unsafe { sys::newaksu_early_encode(number, bytes.as_mut_ptr(), 4, &mut size) };
        bytes
    }

    /// The result that the bytes begin with. [`Error::UnexpectedEof`]: there are fewer than four.
    /// [`Error::InvalidData`]: they are not a result.
    pub fn decode(bytes: &[u8]) -> Result<EarlyResult, Error> {
        let mut number = 0;
        // SAFETY: the bytes and the number are valid.
        Error::check(unsafe {
            sys::newaksu_early_decode(bytes.as_ptr(), bytes.len(), &mut number)
        })?;
        Ok(match number {
            sys::NEWAKSU_EARLY_SUCCESS => EarlyResult::Success,
            _ => EarlyResult::AccessDenied,
        })
    }
}
