//! The tokens of SPNEGO (RFC 4178 4.2).

use crate::error::Error;
use crate::handle::{written, written_whole, Handle};
use newaksu_sys as sys;

/// Which mechanism an identifier is.
#[derive(Clone, Copy, Debug, PartialEq, Eq)]
pub enum MechKind {
    /// Kerberos by the identifier that Windows sends first.
    MsKerberos,
    /// Kerberos.
    Kerberos,
    /// NTLM.
    Ntlm,
    /// Any other.
    Other,
}

/// A mechanism: the content of an OBJECT IDENTIFIER.
#[derive(Clone, Debug, PartialEq, Eq)]
pub struct Oid(pub Vec<u8>);

impl Oid {
    /// Which one it is.
    pub fn kind(&self) -> MechKind {
        let mut kind = sys::NEWAKSU_MECH_OTHER;
        // SAFETY: the bytes and the number are valid. The call always succeeds.
        let _ = unsafe { sys::newaksu_mech_kind(self.0.as_ptr(), self.0.len(), &mut kind) };
        match kind {
            sys::NEWAKSU_MECH_MS_KERBEROS => MechKind::MsKerberos,
            sys::NEWAKSU_MECH_KERBEROS => MechKind::Kerberos,
            sys::NEWAKSU_MECH_NTLM => MechKind::Ntlm,
            _ => MechKind::Other,
        }
    }
}

/// What a client offers (NegTokenInit), in the frame of the mechanism SPNEGO.
#[derive(Clone, Debug, Default, PartialEq, Eq)]
pub struct NegTokenInit {
    /// The mechanisms, the preferred one first.
    pub mech_types: Option<Vec<Oid>>,
    /// The preferred one's first token.
    pub mech_token: Option<Vec<u8>>,
}

impl NegTokenInit {
    /// The token that the bytes begin with. Refused with `INVALID_TOKEN` if there is none.
    pub fn decode(bytes: &[u8]) -> Result<NegTokenInit, Error> {
        // SAFETY: the handle and the bytes are valid.
        let handle = Handle::made(|at| unsafe {
            sys::newaksu_init_decode(at, bytes.as_ptr(), bytes.len())
        })?;
        let token = written(|out, capacity, size| unsafe {
            sys::newaksu_init_token(handle.at(), out, capacity, size)
        })?;
        Ok(NegTokenInit {
            mech_types: mechs(&handle)?,
            mech_token: token,
        })
    }

    /// The shortest encoding. Refused with `INTERNAL_ERROR` if a content exceeds 1048576 bytes.
    pub fn encode(&self) -> Result<Vec<u8>, Error> {
        let handle = self.to_handle()?;
        // SAFETY: the handle is valid, and there is room for `capacity` bytes.
        written_whole(|out, capacity, size| unsafe {
            sys::newaksu_init_encode(handle.at(), out, capacity, size)
        })
    }

    /// Only the list of mechanisms, as the SEQUENCE over which MICs are made; `None` if there is no
    /// list.
    pub fn mech_list(&self) -> Result<Option<Vec<u8>>, Error> {
        let handle = self.to_handle()?;
        // SAFETY: as above.
        written(|out, capacity, size| unsafe {
            sys::newaksu_init_mech_list(handle.at(), out, capacity, size)
        })
    }

    /// A list without mechanisms becomes none, since it has no encoding of its own here.
    fn to_handle(&self) -> Result<Handle, Error> {
        // SAFETY: the handle and each slice are valid.
        let handle = Handle::made(|at| unsafe { sys::newaksu_init_new(at) })?;
        for oid in self.mech_types.iter().flatten() {
            Error::check(unsafe {
                sys::newaksu_init_add_mech(handle.at(), oid.0.as_ptr(), oid.0.len())
            })?;
        }
        if let Some(token) = &self.mech_token {
            Error::check(unsafe {
                sys::newaksu_init_set_token(handle.at(), token.as_ptr(), token.len())
            })?;
        }
        Ok(handle)
    }
}

fn mechs(handle: &Handle) -> Result<Option<Vec<Oid>>, Error> {
    let mut count = 0;
    // SAFETY: the handle and the count are valid.
    match unsafe { sys::newaksu_init_mech_count(handle.at(), &mut count) } {
        sys::NEWAKSU_ABSENT => return Ok(None),
        status => Error::check(status)?,
    }
    let mut list = Vec::new();
    for index in 0..count {
        // SAFETY: the handle is valid, and there is room for `capacity` bytes.
        list.push(Oid(written_whole(|out, capacity, size| unsafe {
            sys::newaksu_init_mech(handle.at(), index, out, capacity, size)
        })?));
    }
    Ok(Some(list))
}

/// How far a negotiation is (negState).
#[derive(Clone, Copy, Debug, PartialEq, Eq)]
pub enum NegState {
    /// accept-completed
    AcceptCompleted,
    /// accept-incomplete
    AcceptIncomplete,
    /// Any other.
    Other,
}

/// What both ends reply (NegTokenResp).
#[derive(Clone, Debug, Default, PartialEq, Eq)]
pub struct NegTokenResp {
    /// negState
    pub neg_state: Option<NegState>,
    /// The mechanism that the server selected.
    pub supported_mech: Option<Oid>,
    /// That mechanism's token.
    pub response_token: Option<Vec<u8>>,
    /// The MIC over the list of mechanisms.
    pub mech_list_mic: Option<Vec<u8>>,
}

impl NegTokenResp {
    /// The token that the bytes begin with. Refused with `INVALID_TOKEN` if there is none.
    pub fn decode(bytes: &[u8]) -> Result<NegTokenResp, Error> {
        // SAFETY: the handle and the bytes are valid.
        let handle = Handle::made(|at| unsafe {
            sys::newaksu_targ_decode(at, bytes.as_ptr(), bytes.len())
        })?;
        Ok(NegTokenResp {
            neg_state: state(&handle)?,
            supported_mech: field(&handle, sys::NEWAKSU_SUPPORTED_MECH)?.map(Oid),
            response_token: field(&handle, sys::NEWAKSU_RESPONSE_TOKEN)?,
            mech_list_mic: field(&handle, sys::NEWAKSU_MECH_LIST_MIC)?,
        })
    }

    /// The shortest encoding. Refused with `INTERNAL_ERROR` if a content exceeds 1048576 bytes.
    pub fn encode(&self) -> Result<Vec<u8>, Error> {
        // SAFETY: the handle and each slice are valid.
        let handle = Handle::made(|at| unsafe { sys::newaksu_targ_new(at) })?;
        if let Some(state) = self.neg_state {
            Error::check(unsafe { sys::newaksu_targ_set_state(handle.at(), number_of(state)) })?;
        }
        let fields = [
            (
                sys::NEWAKSU_SUPPORTED_MECH,
                self.supported_mech.as_ref().map(|oid| &oid.0),
            ),
            (sys::NEWAKSU_RESPONSE_TOKEN, self.response_token.as_ref()),
            (sys::NEWAKSU_MECH_LIST_MIC, self.mech_list_mic.as_ref()),
        ];
        for (field, octets) in fields {
            if let Some(octets) = octets {
                Error::check(unsafe {
                    sys::newaksu_targ_set_field(handle.at(), field, octets.as_ptr(), octets.len())
                })?;
            }
        }
        written_whole(|out, capacity, size| unsafe {
            sys::newaksu_targ_encode(handle.at(), out, capacity, size)
        })
    }
}

fn number_of(state: NegState) -> u32 {
    match state {
        NegState::AcceptCompleted => sys::NEWAKSU_ACCEPT_COMPLETED,
        NegState::AcceptIncomplete => sys::NEWAKSU_ACCEPT_INCOMPLETE,
        NegState::Other => sys::NEWAKSU_OTHER_STATE,
    }
}

fn state(handle: &Handle) -> Result<Option<NegState>, Error> {
    let mut state = 0;
    // SAFETY: the handle and the number are valid.
    match unsafe { sys::newaksu_targ_state(handle.at(), &mut state) } {
        sys::NEWAKSU_ABSENT => Ok(None),
        status => Error::check(status).map(|()| {
            Some(match state {
                sys::NEWAKSU_ACCEPT_COMPLETED => NegState::AcceptCompleted,
                sys::NEWAKSU_ACCEPT_INCOMPLETE => NegState::AcceptIncomplete,
                _ => NegState::Other,
            })
        }),
    }
}

fn field(handle: &Handle, field: u32) -> Result<Option<Vec<u8>>, Error> {
    // SAFETY: the handle is valid, and there is room for `capacity` bytes.
    written(|out, capacity, size| unsafe {
        sys::newaksu_targ_field(handle.at(), field, out, capacity, size)
    })
}
