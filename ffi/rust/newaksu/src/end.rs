//! What both ends do with a message: the part of the mechanism below, and the end's.

use crate::below::Below;
use crate::error::{Error, ProcessError, Refusal};
use crate::handle::{written, Handle};
use crate::request::TsRequest;
use crate::secret::Secret;
use crate::status::{NtStatus, SecurityStatus};
use newaksu_sys as sys;

/// A sealed blob has at least its signature.
const SIGNATURE: usize = 16;

/// What an end waits for.
#[derive(Clone, Copy, Debug, PartialEq, Eq)]
pub enum State {
    /// A token of the authentication.
    NegoToken,
    /// On a server: the client's proof of the channel's key.
    PubKeyInfo,
    /// On a client the server's proof, on a server the client's credentials.
    AuthInfo,
    /// Nothing more.
    Final,
}

/// What the last turn did with the mechanism, even if it was refused.
#[derive(Clone, Copy, Debug, Default, PartialEq, Eq)]
pub struct Acts {
    /// A step was made.
    pub negotiated: bool,
    /// The end's proof of the channel's key was sealed.
    pub proved: bool,
    /// The peer's proof was opened, right or wrong.
    pub checked: bool,
    /// The client's credentials were sealed.
    pub sealed: bool,
    /// The server opened them.
    pub opened: bool,
}

/// The result of a turn.
pub(crate) enum Made {
    Reply(Vec<u8>),
    Final(Vec<u8>),
    Finished,
}

/// What the mechanism made of a message, as the proved end takes it.
#[derive(Default)]
struct Findings {
    envelope: Vec<u8>,
    opened: Option<(u32, Secret)>,
}

/// An end of the archive.
pub(crate) struct End {
    handle: Handle,
    version: u32,
    is_started: bool,
    is_refused: bool,
}

impl End {
    pub(crate) fn new(handle: Handle, version: u32) -> End {
        End {
            handle,
            version,
            is_started: false,
            is_refused: false,
        }
    }

    pub(crate) fn is_started(&self) -> bool {
        self.is_started
    }

    pub(crate) fn handle(&self) -> &Handle {
        &self.handle
    }

    pub(crate) fn state(&self) -> State {
        let mut state = sys::NEWAKSU_STATE_FINAL;
        // SAFETY: the handle and the number are valid. For a handle that holds an end the call
        // always succeeds.
        let _ = unsafe { sys::newaksu_end_state(self.handle.at(), &mut state) };
        match state {
            sys::NEWAKSU_STATE_NEGO_TOKEN => State::NegoToken,
            sys::NEWAKSU_STATE_PUB_KEY_INFO => State::PubKeyInfo,
            sys::NEWAKSU_STATE_AUTH_INFO => State::AuthInfo,
            _ => State::Final,
        }
    }

    /// What the archive reports of the last turn.
    fn told_acts(&self) -> sys::newaksu_acts {
        let mut acts = sys::newaksu_acts::default();
        // SAFETY: as above.
        let _ = unsafe { sys::newaksu_end_acts(self.handle.at(), &mut acts) };
        acts
    }

    pub(crate) fn acts(&self) -> Acts {
        let acts = self.told_acts();
        Acts {
            negotiated: acts.negotiated != 0,
            proved: acts.proved != 0,
            checked: acts.checked != 0,
            sealed: acts.sealed != 0,
            opened: acts.opened != 0,
        }
    }

    /// Takes one message from the peer; none in a client's first turn.
    pub(crate) fn turn<B: Below>(
        &mut self,
        below: &mut B,
        message: &[u8],
    ) -> Result<Made, ProcessError> {
        if self.is_refused {
            return Err(self.refusal(SecurityStatus::OUT_OF_SEQUENCE).into());
        }
        let is_first = !below.is_server() && !self.is_started && message.is_empty();
        let request = match is_first {
            true => None,
            false => Some(TsRequest::decode(message).map_err(ProcessError::Unread)?),
        };
        self.is_started = true;
        let made = self
            .findings(below, request.as_ref())
            .and_then(|findings| self.process(below.is_server(), message, &findings))
            .and_then(|()| self.conclude(below));
        Ok(made.map_err(|status| self.refuse(below.is_server(), status))?)
    }

    /// Steps and opens what is due in the end's state. Other fields are left sealed.
    fn findings<B: Below>(
        &self,
        below: &mut B,
        request: Option<&TsRequest>,
    ) -> Result<Findings, SecurityStatus> {
        let mut findings = Findings::default();
        // a client that is told an error refuses before anything else, so its mechanism is left
        // alone
        if !below.is_server() && tells_error(request) {
            return Ok(findings);
        }
        let state = self.state();
        let mut has_ended = false;
        if state == State::NegoToken {
            (findings.envelope, has_ended) = below.step(request)?;
        }
        let (proof, credentials) = match request {
            Some(request) => (&request.pub_key_auth, &request.auth_info),
            None => return Ok(findings),
        };
        findings.opened = match (state, below.is_server()) {
            (State::NegoToken, true) if has_ended => open(below, sys::NEWAKSU_PUB_KEY_AUTH, proof)?,
            (State::PubKeyInfo, _) | (State::AuthInfo, false) => {
                open(below, sys::NEWAKSU_PUB_KEY_AUTH, proof)?
            }
            (State::AuthInfo, true) => open(below, sys::NEWAKSU_AUTH_INFO, credentials)?,
            (State::NegoToken, _) | (State::Final, _) => None,
        };
        Ok(findings)
    }

    fn process(
        &self,
        is_server: bool,
        message: &[u8],
        findings: &Findings,
    ) -> Result<(), SecurityStatus> {
        let (field, opened) = match &findings.opened {
            Some((field, text)) => (*field, text.as_bytes()),
            None => (0, &[][..]),
        };
        let process = match is_server {
            true => sys::newaksu_server_process,
            false => sys::newaksu_client_process,
        };
        // SAFETY: the handle and the three slices are valid; a slice's pointer is never null.
        let status = unsafe {
            process(
                self.handle.at(),
                message.as_ptr(),
                message.len(),
                findings.envelope.as_ptr(),
                findings.envelope.len(),
                field,
                opened.as_ptr(),
                opened.len(),
            )
        };
        checked(status)
    }

    fn outcome(&self) -> u32 {
        let mut outcome = sys::NEWAKSU_OUTCOME_NONE;
        // SAFETY: the handle and the number are valid. For a handle that holds an end the call
        // always succeeds.
        let _ = unsafe { sys::newaksu_end_outcome(self.handle.at(), &mut outcome) };
        outcome
    }

    /// The end's result: its message, with the text in it sealed.
    fn conclude<B: Below>(&self, below: &mut B) -> Result<Made, SecurityStatus> {
        let acts = self.told_acts();
        if acts.stepped != 0 {
            below.go_on(acts.status)?;
        }
        match self.outcome() {
            sys::NEWAKSU_OUTCOME_FINISHED => Ok(Made::Finished),
            sys::NEWAKSU_OUTCOME_FINAL => Ok(Made::Final(self.sealed_message(below)?)),
            _ => Ok(Made::Reply(self.sealed_message(below)?)),
        }
    }

    fn sealed_message<B: Below>(&self, below: &mut B) -> Result<Vec<u8>, SecurityStatus> {
        let blob = match self.text_to_seal()? {
            None => Vec::new(),
            Some(text) => sealed(below, text.as_bytes())?,
        };
        let message = self.message(&blob).map_err(Error::status)?;
        below.signed(message.ok_or(SecurityStatus::INTERNAL_ERROR)?)
    }

    fn text_to_seal(&self) -> Result<Option<Secret>, SecurityStatus> {
        let mut field = 0;
        // SAFETY: the handle and the number are valid, and there is room for `capacity` bytes.
        let text = written(|out, capacity, size| unsafe {
            sys::newaksu_end_sealing(self.handle.at(), &mut field, out, capacity, size)
        });
        Ok(text.map_err(Error::status)?.map(Secret::new))
    }

    fn message(&self, blob: &[u8]) -> Result<Option<Vec<u8>>, Error> {
        // SAFETY: the handle and the blob are valid, and there is room for `capacity` bytes.
        written(|out, capacity, size| unsafe {
            sys::newaksu_end_message(
                self.handle.at(),
                blob.as_ptr(),
                blob.len(),
                out,
                capacity,
                size,
            )
        })
    }

    /// Ends the exchange. A server tells its client why: with the end's message if the end refused,
    /// not with what it said before something else failed.
    fn refuse(&mut self, is_server: bool, status: SecurityStatus) -> Refusal {
        self.is_refused = true;
        let mut refusal = self.refusal(status);
        if is_server {
            let told = match self.outcome() {
                sys::NEWAKSU_OUTCOME_REFUSED => self.message(&[]).unwrap_or(None),
                _ => None,
            };
            refusal.message = told.or_else(|| self.telling(status));
        }
        refusal
    }

    /// A message that tells a client what the end could not: that a text to be sealed was not.
    fn telling(&self, status: SecurityStatus) -> Option<Vec<u8>> {
        let request = TsRequest {
            version: self.version,
            error_code: Some(NtStatus((status.0 & 0xffff) | 0xc007_0000)),
            ..TsRequest::default()
        };
        request.encode().ok()
    }

    /// Why: as the end says, if it was the end that refused.
    fn refusal(&self, status: SecurityStatus) -> Refusal {
        let (mut kind, mut has_nstatus, mut nstatus) = (0, 0, 0);
        // SAFETY: the handle and the numbers are valid.
        let told = unsafe {
            sys::newaksu_end_refusal(self.handle.at(), &mut kind, &mut has_nstatus, &mut nstatus)
        };
        let is_of_the_end = told == sys::NEWAKSU_OK && kind == status.0;
        let reason = match is_of_the_end {
            true => self.reason(),
            false => None,
        };
        Refusal {
            status,
            reason: reason
                .unwrap_or_else(|| "the mechanism or the host could not go on".to_owned()),
            nstatus: (is_of_the_end && has_nstatus == 1).then_some(NtStatus(nstatus)),
            message: None,
        }
    }

    fn reason(&self) -> Option<String> {
        // SAFETY: the handle is valid, and there is room for `capacity` bytes.
        let reason = written(|out, capacity, size| unsafe {
            sys::newaksu_end_reason(self.handle.at(), out, capacity, size)
        });
        String::from_utf8(reason.ok()??).ok()
    }
}

fn checked(status: u32) -> Result<(), SecurityStatus> {
    Error::check(status).map_err(Error::status)
}

fn tells_error(request: Option<&TsRequest>) -> bool {
    request
        .and_then(|request| request.error_code)
        .is_some_and(|code| code.0 != 0)
}

/// Opens a field. One that is absent, too short, or does not open, is left for the end to report.
fn open<B: Below>(
    below: &mut B,
    field: u32,
    blob: &Option<Vec<u8>>,
) -> Result<Option<(u32, Secret)>, SecurityStatus> {
    match blob {
        Some(blob) if blob.len() >= SIGNATURE => match below.unseal(blob) {
            Ok(text) => Ok(Some((field, Secret::new(text)))),
            Err(SecurityStatus::INSUFFICIENT_MEMORY) => Err(SecurityStatus::INSUFFICIENT_MEMORY),
            Err(_) => Ok(None),
        },
        _ => Ok(None),
    }
}

fn sealed<B: Below>(below: &mut B, text: &[u8]) -> Result<Vec<u8>, SecurityStatus> {
    let blob = below.seal(text)?;
    match blob.len() >= SIGNATURE {
        true => Ok(blob),
        false => Err(SecurityStatus::INTERNAL_ERROR),
    }
}
