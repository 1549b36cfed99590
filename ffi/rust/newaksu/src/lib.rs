//! CredSSP (MS-CSSP) over a mechanism of your own, and the codec of its messages: the safe
//! interface of libnewaksu, whose functions are proved.
//!
//! - [`Client`] and [`Server`]: the ends of the exchange. Each takes one message from its peer per
//!   call, over a [`Mechanism`] of the program's, such as NTLM or Kerberos.
//! - [`NegotiatingClient`] and [`NegotiatingServer`]: the same over two mechanisms, through this
//!   library's SPNEGO (RFC 4178).
//! - [`TsRequest`], [`TsReader`] and [`requests`]: the messages, whole, in pieces, and one after
//!   another.
//! - [`TsCredentials`], [`EarlyResult`], [`NegTokenInit`] and [`NegTokenResp`]: what else is read
//!   and written.
//!
//! A client delegates its credentials only once the server has proved that it speaks over the same
//! channel:
//!
//! ```no_run
//! use newaksu::{Client, ClientSettings, ClientTurn, Mechanism};
//!
//! fn log_on<M: Mechanism>(
//!     ntlm: M,
//!     public_key: &[u8],
//!     mut exchange: impl FnMut(&[u8]) -> Vec<u8>,
//! ) -> Result<Vec<u8>, Box<dyn std::error::Error>> {
//!     let settings = ClientSettings::new(public_key, "DOMAIN\\ann", "password");
//!     let mut client = Client::new(&settings, ntlm)?;
//!     let mut turn = client.start()?;
//!     loop {
//!         match turn {
//!             ClientTurn::Reply(message) => turn = client.process(&exchange(&message))?,
//!             ClientTurn::Final(message) => return Ok(message),
//!         }
//!     }
//! }
//! ```
//!
//! Nothing here reads or writes a channel. An end may be sent to another thread, and is used by one
//! thread at a time.

#![warn(missing_docs, missing_debug_implementations)]

mod below;
mod client;
mod credentials;
mod early;
mod end;
mod error;
mod handle;
mod mechanism;
mod negotiating;
mod negotiation;
mod reader;
mod request;
mod secret;
mod server;
mod spnego;
mod status;

pub use client::{Client, ClientSettings, ClientTurn, Delegation};
pub use credentials::TsCredentials;
pub use early::EarlyResult;
pub use end::{Acts, State};
pub use error::{Error, ProcessError, Refusal};
pub use mechanism::{Acceptor, Mechanism, Signer, Step};
pub use negotiating::{NegotiatingClient, NegotiatingServer};
pub use negotiation::Mechanisms;
pub use reader::TsReader;
pub use request::{requests, Requests, TsRequest};
pub use secret::Secret;
pub use server::{Identity, Server, ServerSettings, ServerTurn};
pub use spnego::{MechKind, NegState, NegTokenInit, NegTokenResp, Oid};
pub use status::{NtStatus, SecurityStatus};

/// The version of the linked archive: major, minor and patch.
pub fn version() -> (u8, u8, u8) {
    // SAFETY: the call has no arguments.
    let number = unsafe { newaksu_sys::newaksu_version() };
    ((number >> 16) as u8, (number >> 8) as u8, number as u8)
}
