//! SSPI codes and the peer's codes, with their names.

use crate::handle::written_whole;
use newaksu_sys as sys;
use std::fmt;

/// A SECURITY_STATUS of winerror.h, with which SSPI refuses.
#[derive(Clone, Copy, PartialEq, Eq, Hash)]
pub struct SecurityStatus(pub u32);

impl SecurityStatus {
    /// Out of memory.
    pub const INSUFFICIENT_MEMORY: SecurityStatus =
        SecurityStatus(sys::NEWAKSU_E_INSUFFICIENT_MEMORY);
    /// The function is not supported.
    pub const UNSUPPORTED_FUNCTION: SecurityStatus =
        SecurityStatus(sys::NEWAKSU_E_UNSUPPORTED_FUNCTION);
    /// A fault not caused by any input.
    pub const INTERNAL_ERROR: SecurityStatus = SecurityStatus(sys::NEWAKSU_E_INTERNAL_ERROR);
    /// A token is malformed, or not the one expected.
    pub const INVALID_TOKEN: SecurityStatus = SecurityStatus(sys::NEWAKSU_E_INVALID_TOKEN);
    /// The logon failed.
    pub const LOGON_DENIED: SecurityStatus = SecurityStatus(sys::NEWAKSU_E_LOGON_DENIED);
    /// The credentials are not recognized, for example a name that mixes forms.
    pub const UNKNOWN_CREDENTIALS: SecurityStatus =
        SecurityStatus(sys::NEWAKSU_E_UNKNOWN_CREDENTIALS);
    /// There are no credentials.
    pub const NO_CREDENTIALS: SecurityStatus = SecurityStatus(sys::NEWAKSU_E_NO_CREDENTIALS);
    /// A message does not verify: it was altered, or another key made it.
    pub const MESSAGE_ALTERED: SecurityStatus = SecurityStatus(sys::NEWAKSU_E_MESSAGE_ALTERED);
    /// A message or a call came out of order.
    pub const OUT_OF_SEQUENCE: SecurityStatus = SecurityStatus(sys::NEWAKSU_E_OUT_OF_SEQUENCE);
    /// The context has expired.
    pub const CONTEXT_EXPIRED: SecurityStatus = SecurityStatus(sys::NEWAKSU_E_CONTEXT_EXPIRED);
    /// The peer's version is below the lowest accepted.
    pub const DOWNGRADE_DETECTED: SecurityStatus =
        SecurityStatus(sys::NEWAKSU_E_DOWNGRADE_DETECTED);
    /// An argument is not one that the call accepts.
    pub const INVALID_PARAMETER: SecurityStatus = SecurityStatus(sys::NEWAKSU_E_INVALID_PARAMETER);

    /// The name, such as `LogonDenied`; `None` if SSPI names no such error.
    pub fn name(self) -> Option<String> {
        // SAFETY: there is room for `capacity` bytes, and the count is valid.
        let name = written_whole(|out, capacity, size| unsafe {
            sys::newaksu_error_name(self.0, out, capacity, size)
        });
        String::from_utf8(name.ok()?).ok()
    }
}

impl fmt::Display for SecurityStatus {
    fn fmt(&self, f: &mut fmt::Formatter<'_>) -> fmt::Result {
        match self.name() {
            Some(name) => write!(f, "{name}"),
            None => write!(f, "{:#010x}", self.0),
        }
    }
}

impl fmt::Debug for SecurityStatus {
    fn fmt(&self, f: &mut fmt::Formatter<'_>) -> fmt::Result {
        write!(f, "SecurityStatus({:#010x})", self.0)
    }
}

impl std::error::Error for SecurityStatus {}

/// An NTSTATUS of ntstatus.h, with which a server reports a failure to its client (`errorCode`).
#[derive(Clone, Copy, PartialEq, Eq, Hash)]
pub struct NtStatus(pub u32);

impl NtStatus {
    /// The name, such as `STATUS_LOGON_FAILURE`; `None` if the code has none here.
    pub fn name(self) -> Option<String> {
        // SAFETY: as above.
        let name = crate::handle::written(|out, capacity, size| unsafe {
            sys::newaksu_nstatus_name(self.0, out, capacity, size)
        });
        String::from_utf8(name.ok()??).ok()
    }
}

impl fmt::Display for NtStatus {
    fn fmt(&self, f: &mut fmt::Formatter<'_>) -> fmt::Result {
        match self.name() {
            Some(name) => write!(f, "{name}"),
            None => write!(f, "{:#010x}", self.0),
        }
    }
}

impl fmt::Debug for NtStatus {
    fn fmt(&self, f: &mut fmt::Formatter<'_>) -> fmt::Result {
        write!(f, "NtStatus({:#010x})", self.0)
    }
}
