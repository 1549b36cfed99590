//! TSCredentials (MS-CSSP 2.2.1.2).

use crate::error::Error;
use crate::handle::{written_whole, Handle};
use crate::secret::Secret;
use newaksu_sys as sys;

/// The credentials of a password, as they are inside `authInfo`: three texts in UTF-16LE.
#[derive(Debug)]
pub struct TsCredentials {
    /// The domain; empty for a user principal name.
    pub domain: Vec<u8>,
    /// The user.
    pub user: Vec<u8>,
    /// The password.
    pub password: Secret,
}

impl TsCredentials {
    /// From texts.
    pub fn new(domain: &str, user: &str, password: &str) -> TsCredentials {
        TsCredentials {
            domain: utf16(domain),
            user: utf16(user),
            password: Secret::new(utf16(password)),
        }
    }

    /// The credentials that the bytes begin with. Refused with `INVALID_TOKEN` if there are none of
    /// a password, with `UNSUPPORTED_FUNCTION` for those of a smart card, with `INVALID_PARAMETER`
    /// if a text is not UTF-16.
    pub fn decode(bytes: &[u8]) -> Result<TsCredentials, Error> {
        // SAFETY: the handle and the bytes are valid.
        let handle = Handle::made(|at| unsafe {
            sys::newaksu_credentials_decode(at, bytes.as_ptr(), bytes.len())
        })?;
        Ok(TsCredentials {
            domain: text(&handle, sys::NEWAKSU_DOMAIN)?,
            user: text(&handle, sys::NEWAKSU_USER)?,
            password: Secret::new(text(&handle, sys::NEWAKSU_PASSWORD)?),
        })
    }

    /// The shortest encoding. Refused with `INVALID_PARAMETER` if a text is not UTF-16, with
    /// `INTERNAL_ERROR` if the content exceeds 1048576 bytes.
    pub fn encode(&self) -> Result<Secret, Error> {
        let password = self.password.as_bytes();
        // SAFETY: the handle and the three texts are valid.
        let handle = Handle::made(|at| unsafe {
            sys::newaksu_credentials_new(
                at,
                self.domain.as_ptr(),
                self.domain.len(),
                self.user.as_ptr(),
                self.user.len(),
                password.as_ptr(),
                password.len(),
            )
        })?;
        // SAFETY: the handle is valid, and there is room for `capacity` bytes.
        let bytes = written_whole(|out, capacity, size| unsafe {
            sys::newaksu_credentials_encode(handle.at(), out, capacity, size)
        })?;
        Ok(Secret::new(bytes))
    }
}

fn utf16(text: &str) -> Vec<u8> {
    let mut bytes = Vec::with_capacity(2 * text.len());
    bytes.extend(text.encode_utf16().flat_map(u16::to_le_bytes));
    bytes
}

fn text(handle: &Handle, which: u32) -> Result<Vec<u8>, Error> {
    // SAFETY: the handle is valid, and there is room for `capacity` bytes.
    written_whole(|out, capacity, size| unsafe {
        sys::newaksu_credentials_text(handle.at(), which, out, capacity, size)
    })
}
