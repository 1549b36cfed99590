//! Why a call was refused.

use crate::status::{NtStatus, SecurityStatus};
use newaksu_sys as sys;
use std::fmt;

/// Why something was not read, written or made.
#[derive(Clone, Copy, Debug, PartialEq, Eq)]
#[non_exhaustive]
pub enum Error {
    /// The bytes end before the element does; for the outer header of a request, also any other
    /// fault.
    UnexpectedEof,
    /// A wrong tag or a refused length; when writing, a content of more than 1048576 bytes.
    InvalidData,
    /// Out of memory.
    OutOfMemory,
    /// Any other refusal.
    Refused(SecurityStatus),
}

impl Error {
    pub(crate) fn of(status: u32) -> Error {
        match status {
            sys::NEWAKSU_UNEXPECTED_EOF => Error::UnexpectedEof,
            sys::NEWAKSU_INVALID_DATA => Error::InvalidData,
            sys::NEWAKSU_E_INSUFFICIENT_MEMORY => Error::OutOfMemory,
            status => Error::Refused(SecurityStatus(status)),
        }
    }

    pub(crate) fn check(status: u32) -> Result<(), Error> {
        match status {
            sys::NEWAKSU_OK => Ok(()),
            status => Err(Error::of(status)),
        }
    }

    /// The SSPI code closest to this.
    pub fn status(self) -> SecurityStatus {
        match self {
            Error::UnexpectedEof | Error::InvalidData => SecurityStatus::INVALID_TOKEN,
            Error::OutOfMemory => SecurityStatus::INSUFFICIENT_MEMORY,
            Error::Refused(status) => status,
        }
    }
}

impl fmt::Display for Error {
    fn fmt(&self, f: &mut fmt::Formatter<'_>) -> fmt::Result {
        match self {
            Error::UnexpectedEof => write!(f, "the bytes end too early"),
            Error::InvalidData => write!(f, "a wrong tag or a refused length"),
            Error::OutOfMemory => write!(f, "there was no memory"),
            Error::Refused(status) => write!(f, "{status}"),
        }
    }
}

impl std::error::Error for Error {}

/// An exchange that is over: send `message`, if there is one, and close the channel.
#[derive(Clone, Debug, PartialEq, Eq)]
#[non_exhaustive]
pub struct Refusal {
    /// Why.
    pub status: SecurityStatus,
    /// The same as a sentence.
    pub reason: String,
    /// What the peer reported, if it refused.
    pub nstatus: Option<NtStatus>,
    /// On a server, what tells the client.
    pub message: Option<Vec<u8>>,
}

impl fmt::Display for Refusal {
    fn fmt(&self, f: &mut fmt::Formatter<'_>) -> fmt::Result {
        write!(f, "{}: {}", self.status, self.reason)?;
        match self.nstatus {
            Some(nstatus) => write!(f, "; status is {nstatus}"),
            None => Ok(()),
        }
    }
}

impl std::error::Error for Refusal {}

/// Why a message was not answered.
#[derive(Clone, Debug, PartialEq, Eq)]
#[non_exhaustive]
pub enum ProcessError {
    /// It is not a request, or not a whole one: the end is unchanged, and takes another.
    Unread(Error),
    /// The exchange is over.
    Refused(Refusal),
}

impl fmt::Display for ProcessError {
    fn fmt(&self, f: &mut fmt::Formatter<'_>) -> fmt::Result {
        match self {
            ProcessError::Unread(error) => write!(f, "the message is no request: {error}"),
            ProcessError::Refused(refusal) => write!(f, "{refusal}"),
        }
    }
}

impl std::error::Error for ProcessError {
    fn source(&self) -> Option<&(dyn std::error::Error + 'static)> {
        match self {
            ProcessError::Unread(error) => Some(error),
            ProcessError::Refused(refusal) => Some(refusal),
        }
    }
}

impl From<Refusal> for ProcessError {
    fn from(refusal: Refusal) -> ProcessError {
        ProcessError::Refused(refusal)
    }
}
