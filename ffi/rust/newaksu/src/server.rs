//! The server (MS-CSSP 3.1.5.2).

use crate::below::One;
use crate::end::{Acts, End, Made, State};
use crate::error::{Error, ProcessError, Refusal};
use crate::handle::{written, Handle};
use crate::mechanism::Acceptor;
use crate::secret::Secret;
use crate::status::SecurityStatus;
use newaksu_sys as sys;
use std::fmt;

/// What a server knows before the first message.
#[derive(Clone, Debug)]
pub struct ServerSettings<'a> {
    /// The version of CredSSP that it speaks: 2 to 6.
    pub version: u32,
    /// The lowest version accepted from a client: 2 to 6, or 0 for any. Below 5, whoever relays the
    /// exchange can choose the proof.
    pub least_version: u32,
    /// The SubjectPublicKey of the TLS channel's certificate (MS-CSSP 3.1.5).
    pub public_key: &'a [u8],
    /// The users whom it accepts, compared ignoring the case of ASCII letters; nobody if the list
    /// is empty. `None` accepts anyone whom the mechanism names.
    pub users: Option<&'a [&'a str]>,
}

impl<'a> ServerSettings<'a> {
    /// Uses version 6, accepts clients from version 5 on, and any user whom the mechanism names.
    pub fn new(public_key: &'a [u8]) -> ServerSettings<'a> {
        ServerSettings {
            version: 6,
            least_version: 5,
            public_key,
            users: None,
        }
    }
}

/// The credentials that a client delegated. Nothing has checked this password: the mechanism
/// authenticated the user, and the delegated credentials may be another's.
#[derive(Debug)]
pub struct Identity {
    /// The whole name: `DOMAIN\user`, `user@domain` or `user`.
    pub name: String,
    /// The domain, if the name has one.
    pub domain: Option<String>,
    /// The account, without the domain.
    pub account: String,
    /// The password.
    pub password: Secret,
}

/// The result of a server's turn.
#[derive(Debug)]
pub enum ServerTurn {
    /// A message for the client, whose answer is due.
    Reply(Vec<u8>),
    /// The credentials arrived, and the exchange is over.
    Finished(Identity),
}

/// A server over a mechanism. It returns credentials only after the proof of a client that it
/// speaks over the channel with the same public key.
pub struct Server<M> {
    end: End,
    mechanism: M,
}

impl<M: Acceptor> Server<M> {
    /// A server that has received nothing yet. Refused with `INVALID_PARAMETER` if a version is not
    /// one allowed in the settings; with `UNKNOWN_CREDENTIALS` if a user's name mixes the forms.
    pub fn new(settings: &ServerSettings<'_>, mechanism: M) -> Result<Server<M>, Error> {
        Ok(Server {
            end: end_of(settings, sys::NEWAKSU_HOST)?,
            mechanism,
        })
    }

    /// Takes one whole client message. After [`ProcessError::Refused`] the exchange is over:
    /// send the refusal's message and close the channel. Each further call is refused with
    /// `OUT_OF_SEQUENCE`.
    pub fn process(&mut self, message: &[u8]) -> Result<ServerTurn, ProcessError> {
        let mut below = One {
            mechanism: &mut self.mechanism,
            naming: Some(M::peer),
        };
        let made = self.end.turn(&mut below, message)?;
        concluded(&self.end, made)
    }
}

impl<M> fmt::Debug for Server<M> {
    fn fmt(&self, f: &mut fmt::Formatter<'_>) -> fmt::Result {
        f.debug_struct("Server")
            .field("state", &self.state())
            .finish_non_exhaustive()
    }
}

impl<M> Server<M> {
    /// What it waits for.
    pub fn state(&self) -> State {
        self.end.state()
    }

    /// What the last turn did with the mechanism.
    pub fn last_acts(&self) -> Acts {
        self.end.acts()
    }

    /// The mechanism below.
    pub fn mechanism(&self) -> &M {
        &self.mechanism
    }

    /// Gives the mechanism back.
    pub fn into_mechanism(self) -> M {
        self.mechanism
    }
}

/// A server's end over the host's mechanism, or over those with this number, which it negotiates.
pub(crate) fn end_of(settings: &ServerSettings<'_>, mechanisms: u32) -> Result<End, Error> {
    let options = sys::newaksu_server_options {
        mechanism: mechanisms,
        version: settings.version,
        least_version: settings.least_version,
        peers: match settings.users {
            Some(_) => sys::NEWAKSU_PEERS_LISTED,
            None => sys::NEWAKSU_PEERS_ANYONE,
        },
    };
    let known = identities(settings.users)?;
    let (key, length) = (settings.public_key.as_ptr(), settings.public_key.len());
    // SAFETY: the handles, the options and the slices are valid; a slice's pointer is never null.
    let handle = Handle::made(|at| unsafe {
        match mechanisms {
            sys::NEWAKSU_HOST => {
                sys::newaksu_server_new(at, known.at(), &options, key, length, [].as_ptr(), 0)
            }
            _ => sys::newaksu_server_negotiating(at, known.at(), &options, key, length),
        }
    })?;
    Ok(End::new(handle, settings.version))
}

/// The result of a server's turn.
pub(crate) fn concluded(end: &End, made: Made) -> Result<ServerTurn, ProcessError> {
    match made {
        Made::Reply(message) | Made::Final(message) => Ok(ServerTurn::Reply(message)),
        Made::Finished => match identity(end) {
            Ok(identity) => Ok(ServerTurn::Finished(identity)),
            Err(error) => Err(unkept(error).into()),
        },
    }
}

fn identity(end: &End) -> Result<Identity, Error> {
    let text = |which| text(end, which)?.map(string).transpose();
    Ok(Identity {
        name: text(sys::NEWAKSU_IDENTITY_NAME)?.unwrap_or_default(),
        domain: text(sys::NEWAKSU_IDENTITY_DOMAIN)?,
        account: text(sys::NEWAKSU_IDENTITY_ACCOUNT)?.unwrap_or_default(),
        password: Secret::new(self::text(end, sys::NEWAKSU_IDENTITY_PASSWORD)?.unwrap_or_default()),
    })
}

fn text(end: &End, which: u32) -> Result<Option<Vec<u8>>, Error> {
    // SAFETY: the handle is valid, and there is room for `capacity` bytes.
    written(|out, capacity, size| unsafe {
        sys::newaksu_server_identity(end.handle().at(), which, out, capacity, size)
    })
}

/// The list of users, if there is one.
fn identities(users: Option<&[&str]>) -> Result<Handle, Error> {
    let Some(users) = users else {
        return Ok(Handle::empty());
    };
    // SAFETY: the handle and the slices are valid.
    let known = Handle::made(|at| unsafe { sys::newaksu_identities_new(at) })?;
    for user in users {
        Error::check(unsafe {
            sys::newaksu_identities_add(known.at(), user.as_ptr(), user.len(), [].as_ptr(), 0)
        })?;
    }
    Ok(known)
}

fn string(bytes: Vec<u8>) -> Result<String, Error> {
    String::from_utf8(bytes).map_err(|_| Error::Refused(SecurityStatus::INTERNAL_ERROR))
}

/// There was no memory for the received credentials.
fn unkept(error: Error) -> Refusal {
    Refusal {
        status: error.status(),
        reason: error.to_string(),
        nstatus: None,
        message: None,
    }
}
