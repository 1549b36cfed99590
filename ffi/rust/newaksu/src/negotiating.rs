//! The two ends that negotiate (RFC 4178, MS-SPNG).

use crate::below::One;
use crate::client::{self, ClientSettings, ClientTurn};
use crate::end::{Acts, End, State};
use crate::error::{Error, ProcessError};
use crate::mechanism::{Acceptor, Signer};
use crate::negotiation::{Mechanisms, Negotiation};
use crate::request::TsRequest;
use crate::server::{self, ServerSettings, ServerTurn};
use newaksu_sys as sys;
use std::fmt;

/// What NTLM's own first token begins with, without SPNEGO around it.
const BARE_NTLM: &[u8] = b"NTLMSSP\0";

/// A [`crate::Client`] that offers its mechanisms through this library's proved SPNEGO.
///
/// It never falls back by itself: if its Kerberos refuses the first step, the exchange is refused,
/// and the program may make a client with only NTLM.
///
/// It always requires a MIC from its server, which sends one for NTLM, for a choice that is not the
/// client's first, and for a context that is user-to-user ([`Signer::is_user_to_user`]). So if both
/// ends prefer Kerberos, it must be user-to-user, or of three tokens in DCE style. Any other is
/// refused there before any credentials leave; use it alone, or the system's SPNEGO, below a
/// [`crate::Client`].
pub struct NegotiatingClient<N, K> {
    end: End,
    below: Negotiation<N, K>,
}

impl<N: Signer, K: Signer> NegotiatingClient<N, K> {
    /// A client that has said nothing yet. Refused as [`crate::Client::new`].
    pub fn new(
        settings: &ClientSettings<'_>,
        mechanisms: Mechanisms<N, K>,
    ) -> Result<NegotiatingClient<N, K>, Error> {
        Ok(NegotiatingClient {
            end: client::end_of(settings, mechanisms.number())?,
            below: Negotiation::new(mechanisms, None)?,
        })
    }

    /// Makes the first message.
    pub fn start(&mut self) -> Result<ClientTurn, ProcessError> {
        self.process(&[])
    }

    /// Takes one whole message from the server, and makes the next one. After
    /// [`ProcessError::Refused`] the exchange is over, and each further call is refused with
    /// `OUT_OF_SEQUENCE`.
    pub fn process(&mut self, message: &[u8]) -> Result<ClientTurn, ProcessError> {
        Ok(self.end.turn(&mut self.below, message)?.into())
    }
}

/// A [`crate::Server`] that selects one of its mechanisms through this library's proved SPNEGO. It
/// also accepts NTLM without SPNEGO, if it has NTLM.
pub struct NegotiatingServer<N, K> {
    end: End,
    /// The end that accepts NTLM without SPNEGO.
    bare: Option<End>,
    is_bare: bool,
    below: Negotiation<N, K>,
}

impl<N: Signer + Acceptor, K: Signer + Acceptor> NegotiatingServer<N, K> {
    /// A server that has received nothing yet. Refused as [`crate::Server::new`]. Its settings
    /// should list the users: if anyone is accepted, a negotiation that needs a MIC is refused with
    /// `NO_CREDENTIALS`.
    pub fn new(
        settings: &ServerSettings<'_>,
        mechanisms: Mechanisms<N, K>,
    ) -> Result<NegotiatingServer<N, K>, Error> {
        let bare = match mechanisms.ntlm {
            Some(_) => Some(server::end_of(settings, sys::NEWAKSU_HOST)?),
            None => None,
        };
        Ok(NegotiatingServer {
            end: server::end_of(settings, mechanisms.number())?,
            bare,
            is_bare: false,
            below: Negotiation::new(mechanisms, Some((Some(N::peer), Some(K::peer))))?,
        })
    }

    /// Takes one whole client message. After [`ProcessError::Refused`] the exchange is over:
    /// send the refusal's message and close the channel. Each further call is refused with
    /// `OUT_OF_SEQUENCE`.
    pub fn process(&mut self, message: &[u8]) -> Result<ServerTurn, ProcessError> {
        if !self.end.is_started() && is_bare(message) {
            if let Some(bare) = self.bare.take() {
                self.end = bare;
                self.is_bare = true;
            }
        }
        let made = match (self.is_bare, &mut self.below.mechanisms.ntlm) {
            (true, Some(ntlm)) => {
                let naming = Some(N::peer as _);
                let mut below = One {
                    mechanism: ntlm,
                    naming,
                };
                self.end.turn(&mut below, message)?
            }
            _ => self.end.turn(&mut self.below, message)?,
        };
        server::concluded(&self.end, made)
    }
}

/// Whether a request has NTLM's own first token.
fn is_bare(message: &[u8]) -> bool {
    TsRequest::decode(message)
        .ok()
        .and_then(|request| request.nego_tokens)
        .is_some_and(|token| token.starts_with(BARE_NTLM))
}

macro_rules! asked {
    ($end:ident, $name:literal) => {
        impl<N, K> fmt::Debug for $end<N, K> {
            fn fmt(&self, f: &mut fmt::Formatter<'_>) -> fmt::Result {
                f.debug_struct($name)
                    .field("state", &self.state())
                    .finish_non_exhaustive()
            }
        }

        impl<N, K> $end<N, K> {
            /// What it waits for.
            pub fn state(&self) -> State {
                self.end.state()
            }

            /// What the last turn did with the mechanism.
            pub fn last_acts(&self) -> Acts {
                self.end.acts()
            }

            /// Gives the mechanisms back.
            pub fn into_mechanisms(self) -> Mechanisms<N, K> {
                self.below.mechanisms
            }
        }
    };
}

asked!(NegotiatingClient, "NegotiatingClient");
asked!(NegotiatingServer, "NegotiatingServer");
