//! TSRequest (MS-CSSP 2.2.1).

use crate::error::Error;
use crate::handle::{written, written_whole, Handle};
use crate::status::NtStatus;
use newaksu_sys as sys;

/// The message that carries everything in CredSSP (TSRequest).
#[derive(Clone, Debug, Default, PartialEq, Eq)]
pub struct TsRequest {
    /// The CredSSP version that the sender offers; of a larger number the low 32 bits are read.
    pub version: u32,
    /// The first token of `negoTokens`; further tokens are not read.
    pub nego_tokens: Option<Vec<u8>>,
    /// The sealed TSCredentials (`authInfo`).
    pub auth_info: Option<Vec<u8>>,
    /// The sealed proof of the server's public key (`pubKeyAuth`).
    pub pub_key_auth: Option<Vec<u8>>,
    /// The status of a failure. It is read from version 3 on, and written from version 3 on except
    /// at 5.
    pub error_code: Option<NtStatus>,
    /// The 32 bytes of `clientNonce`, which are read and written from version 5 on.
    pub client_nonce: Option<[u8; 32]>,
}

impl TsRequest {
    /// The request that the bytes begin with; what follows it is ignored. [`Error::UnexpectedEof`]
    /// if the header is bad, there are fewer bytes than it announces, or the content ends inside an
    /// element; [`Error::InvalidData`] if an element is not encoded as it must be;
    /// [`Error::OutOfMemory`].
    pub fn decode(bytes: &[u8]) -> Result<TsRequest, Error> {
        // SAFETY: the handle and the bytes are valid; a slice's pointer is never null.
        let handle = Handle::made(|at| unsafe {
            sys::newaksu_request_decode(at, bytes.as_ptr(), bytes.len())
        })?;
        TsRequest::of(&handle)
    }

    /// The size of the request that the bytes begin with, read from its header alone; five bytes
    /// are enough for any header. `None` if the header is incomplete or invalid.
    pub fn size(bytes: &[u8]) -> Option<usize> {
        let mut size = 0;
        // SAFETY: the bytes and the count are valid.
        let status = unsafe { sys::newaksu_request_size(bytes.as_ptr(), bytes.len(), &mut size) };
        (status == sys::NEWAKSU_OK).then_some(size)
    }

    /// The shortest encoding. [`Error::InvalidData`] if the content exceeds 1048576 bytes,
    /// [`Error::OutOfMemory`].
    pub fn encode(&self) -> Result<Vec<u8>, Error> {
        let handle = self.to_handle()?;
        // SAFETY: the handle is valid, and there is room for `capacity` bytes.
        written_whole(|out, capacity, size| unsafe {
            sys::newaksu_request_encode(handle.at(), out, capacity, size)
        })
    }

    pub(crate) fn of(handle: &Handle) -> Result<TsRequest, Error> {
        let mut version = 0;
        // SAFETY: the handle and the number are valid.
        Error::check(unsafe { sys::newaksu_request_version(handle.at(), &mut version) })?;
        let nonce = field(handle, sys::NEWAKSU_CLIENT_NONCE)?;
        Ok(TsRequest {
            version,
            nego_tokens: field(handle, sys::NEWAKSU_NEGO_TOKENS)?,
            auth_info: field(handle, sys::NEWAKSU_AUTH_INFO)?,
            pub_key_auth: field(handle, sys::NEWAKSU_PUB_KEY_AUTH)?,
            error_code: error_code(handle)?,
            client_nonce: nonce.and_then(|nonce| nonce.try_into().ok()),
        })
    }

    fn to_handle(&self) -> Result<Handle, Error> {
        // SAFETY: the handle and each slice are valid.
        let handle = Handle::made(|at| unsafe { sys::newaksu_request_new(at, self.version) })?;
        let fields = [
            (sys::NEWAKSU_NEGO_TOKENS, self.nego_tokens.as_deref()),
            (sys::NEWAKSU_AUTH_INFO, self.auth_info.as_deref()),
            (sys::NEWAKSU_PUB_KEY_AUTH, self.pub_key_auth.as_deref()),
            (
                sys::NEWAKSU_CLIENT_NONCE,
                self.client_nonce.as_ref().map(|nonce| nonce.as_slice()),
            ),
        ];
        for (field, octets) in fields {
            if let Some(octets) = octets {
                // SAFETY: as above.
                Error::check(unsafe {
                    sys::newaksu_request_set_field(
                        handle.at(),
                        field,
                        octets.as_ptr(),
                        octets.len(),
                    )
                })?;
            }
        }
        if let Some(code) = self.error_code {
            // SAFETY: as above.
            Error::check(unsafe { sys::newaksu_request_set_error_code(handle.at(), code.0) })?;
        }
        Ok(handle)
    }
}

fn field(handle: &Handle, field: u32) -> Result<Option<Vec<u8>>, Error> {
    // SAFETY: the handle is valid, and there is room for `capacity` bytes.
    written(|out, capacity, size| unsafe {
        sys::newaksu_request_field(handle.at(), field, out, capacity, size)
    })
}

fn error_code(handle: &Handle) -> Result<Option<NtStatus>, Error> {
    let mut code = 0;
    // SAFETY: the handle and the number are valid.
    match unsafe { sys::newaksu_request_error_code(handle.at(), &mut code) } {
        sys::NEWAKSU_ABSENT => Ok(None),
        status => Error::check(status).map(|()| Some(NtStatus(code))),
    }
}

/// The requests that follow one another in the bytes. They end with the bytes, or with the error
/// of the first part that is not a whole request.
pub fn requests(bytes: &[u8]) -> Requests<'_> {
    Requests { left: bytes }
}

/// An iterator over requests that follow one another.
#[derive(Clone, Debug)]
pub struct Requests<'a> {
    left: &'a [u8],
}

impl<'a> Requests<'a> {
    /// The bytes after the requests that were taken.
    pub fn remainder(&self) -> &'a [u8] {
        self.left
    }
}

impl Iterator for Requests<'_> {
    type Item = Result<TsRequest, Error>;

    fn next(&mut self) -> Option<Result<TsRequest, Error>> {
        if self.left.is_empty() {
            return None;
        }
        let request = TsRequest::decode(self.left);
        self.left = match TsRequest::size(self.left) {
            Some(size) if request.is_ok() => &self.left[size.min(self.left.len())..],
            _ => &[],
        };
        Some(request)
    }
}
