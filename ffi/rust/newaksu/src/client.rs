//! The client (MS-CSSP 3.1.5.1).

use crate::below::One;
use crate::end::{Acts, End, Made, State};
use crate::error::{Error, ProcessError};
use crate::handle::Handle;
use crate::mechanism::Mechanism;
use crate::status::SecurityStatus;
use newaksu_sys as sys;
use std::ffi::{c_int, c_void};
use std::fmt;

extern "C" {
    /// From the C library (POSIX.1-2024): random bytes, at most 256.
    fn getentropy(buffer: *mut c_void, length: usize) -> c_int;
}

/// What a client delegates.
#[derive(Clone, Copy, Debug, Default, PartialEq, Eq)]
pub enum Delegation {
    /// Its credentials.
    #[default]
    WithCredentials,
    /// Three empty texts in their place (restricted admin).
    CredentialLess,
}

/// What a client knows before the first message.
#[derive(Clone)]
pub struct ClientSettings<'a> {
    /// The version of CredSSP that it speaks: 2 to 6.
    pub version: u32,
    /// The lowest version accepted from a server: 2 to 6, or 0 for any. Below 5, whoever relays the
    /// exchange can choose the proof.
    pub least_version: u32,
    /// What is delegated.
    pub delegation: Delegation,
    /// The SubjectPublicKey of the certificate that the TLS channel's server showed (MS-CSSP
    /// 3.1.5).
    pub public_key: &'a [u8],
    /// Whose credentials are delegated: `DOMAIN\user`, `user@domain` or `user`.
    pub user: &'a str,
    /// The password.
    pub password: &'a str,
    /// What goes into the proofs from version 5 on: 32 fresh bytes from a cryptographic generator.
    /// `None` lets the client draw them.
    pub nonce: Option<[u8; 32]>,
}

impl<'a> ClientSettings<'a> {
    /// Uses version 6, accepts servers from version 5 on, delegates its credentials and draws its
    /// nonce.
    pub fn new(public_key: &'a [u8], user: &'a str, password: &'a str) -> ClientSettings<'a> {
        ClientSettings {
            version: 6,
            least_version: 5,
            delegation: Delegation::WithCredentials,
            public_key,
            user,
            password,
            nonce: None,
        }
    }
}

impl fmt::Debug for ClientSettings<'_> {
    fn fmt(&self, f: &mut fmt::Formatter<'_>) -> fmt::Result {
        f.debug_struct("ClientSettings")
            .field("version", &self.version)
            .field("least_version", &self.least_version)
            .field("delegation", &self.delegation)
            .field("user", &self.user)
            .finish_non_exhaustive()
    }
}

/// The result of a client's turn.
#[derive(Clone, Debug, PartialEq, Eq)]
pub enum ClientTurn {
    /// A message for the server, whose answer is due.
    Reply(Vec<u8>),
    /// The last message, which carries the credentials.
    Final(Vec<u8>),
}

impl From<Made> for ClientTurn {
    fn from(made: Made) -> ClientTurn {
        match made {
            Made::Final(message) => ClientTurn::Final(message),
            Made::Reply(message) => ClientTurn::Reply(message),
            Made::Finished => ClientTurn::Final(Vec::new()),
        }
    }
}

/// A client over a mechanism. It delegates its credentials at most once, and only to a server that
/// has proved over that mechanism that it speaks over the channel with the same public key.
pub struct Client<M> {
    end: End,
    mechanism: M,
}

impl<M: Mechanism> Client<M> {
    /// A client that has said nothing yet. Refused with `INVALID_PARAMETER` if a version is not one
    /// allowed in the settings; with `UNKNOWN_CREDENTIALS` if the user's name mixes the forms; with
    /// `INTERNAL_ERROR` if no randomness was available.
    pub fn new(settings: &ClientSettings<'_>, mechanism: M) -> Result<Client<M>, Error> {
        Ok(Client {
            end: end_of(settings, sys::NEWAKSU_HOST)?,
            mechanism,
        })
    }

    /// Makes the first message.
    pub fn start(&mut self) -> Result<ClientTurn, ProcessError> {
        self.process(&[])
    }

    /// Takes one whole message from the server, and makes the next one. After
    /// [`ProcessError::Refused`] the exchange is over, and each further call is refused with
    /// `OUT_OF_SEQUENCE`.
    pub fn process(&mut self, message: &[u8]) -> Result<ClientTurn, ProcessError> {
        let mut below = One {
            mechanism: &mut self.mechanism,
            naming: None,
        };
        Ok(self.end.turn(&mut below, message)?.into())
    }
}

impl<M> fmt::Debug for Client<M> {
    fn fmt(&self, f: &mut fmt::Formatter<'_>) -> fmt::Result {
        f.debug_struct("Client")
            .field("state", &self.state())
            .finish_non_exhaustive()
    }
}

impl<M> Client<M> {
    /// What it waits for.
    pub fn state(&self) -> State {
        self.end.state()
    }

    /// What the last turn did with the mechanism.
    pub fn last_acts(&self) -> Acts {
        self.end.acts()
    }

    /// The mechanism below.
    pub fn mechanism(&self) -> &M {
        &self.mechanism
    }

    /// Gives the mechanism back.
    pub fn into_mechanism(self) -> M {
        self.mechanism
    }
}

/// A client's end over the host's mechanism, or over those with this number, which it negotiates.
pub(crate) fn end_of(settings: &ClientSettings<'_>, mechanisms: u32) -> Result<End, Error> {
    let options = sys::newaksu_client_options {
        mechanism: mechanisms,
        version: settings.version,
        least_version: settings.least_version,
        delegation: match settings.delegation {
            Delegation::WithCredentials => sys::NEWAKSU_WITH_CREDENTIALS,
            Delegation::CredentialLess => sys::NEWAKSU_CREDENTIAL_LESS,
        },
    };
    let nonce = match settings.nonce {
        Some(nonce) => nonce,
        None => drawn()?,
    };
    let make = match mechanisms {
        sys::NEWAKSU_HOST => sys::newaksu_client_new,
        _ => sys::newaksu_client_negotiating,
    };
    // SAFETY: the handle, the options and the slices are valid; a slice's pointer is never null.
    let handle = Handle::made(|at| unsafe {
        make(
            at,
            &options,
            settings.public_key.as_ptr(),
            settings.public_key.len(),
            [].as_ptr(),
            0,
            nonce.as_ptr(),
            nonce.len(),
            settings.user.as_ptr(),
            settings.user.len(),
            settings.password.as_ptr(),
            settings.password.len(),
        )
    })?;
    Ok(End::new(handle, settings.version))
}

fn drawn() -> Result<[u8; 32], Error> {
    let mut nonce = [0; 32];
    // SAFETY: there is room for 32 bytes.
    match unsafe { getentropy(nonce.as_mut_ptr().cast(), nonce.len()) } {
        0 => Ok(nonce),
        _ => Err(Error::Refused(SecurityStatus::INTERNAL_ERROR)),
    }
}
