//! What is below an end: one mechanism here, and two that are negotiated in `negotiation`.

use crate::mechanism::{Mechanism, Step};
use crate::request::TsRequest;
use crate::status::SecurityStatus;

/// How a server names the peer whom its mechanism authenticated; a client does not.
pub(crate) type Naming<M> = Option<fn(&mut M) -> Result<String, SecurityStatus>>;

/// What an end requires of what is below it.
pub(crate) trait Below {
    fn is_server(&self) -> bool;

    /// Steps with the token of a request; without a request it is a client's first step. Returns
    /// what the end is passed of the step, and whether the context is complete.
    fn step(&mut self, request: Option<&TsRequest>) -> Result<(Vec<u8>, bool), SecurityStatus>;

    fn seal(&mut self, text: &[u8]) -> Result<Vec<u8>, SecurityStatus>;

    fn unseal(&mut self, blob: &[u8]) -> Result<Vec<u8>, SecurityStatus>;

    /// Called after the end's step answered with this status.
    fn go_on(&mut self, _status: u32) -> Result<(), SecurityStatus> {
        Ok(())
    }

    /// The message, with the mechanism's MIC if the end made one.
    fn signed(&mut self, message: Vec<u8>) -> Result<Vec<u8>, SecurityStatus> {
        Ok(message)
    }
}

/// One mechanism.
pub(crate) struct One<'a, M> {
    pub(crate) mechanism: &'a mut M,
    pub(crate) naming: Naming<M>,
}

impl<M: Mechanism> Below for One<'_, M> {
    fn is_server(&self) -> bool {
        self.naming.is_some()
    }

    fn step(&mut self, request: Option<&TsRequest>) -> Result<(Vec<u8>, bool), SecurityStatus> {
        let token = request.and_then(|request| request.nego_tokens.as_deref());
        let token = token.unwrap_or_default();
        Ok(step(self.mechanism, self.naming, |_| false, token))
    }

    fn seal(&mut self, text: &[u8]) -> Result<Vec<u8>, SecurityStatus> {
        self.mechanism.seal(text)
    }

    fn unseal(&mut self, blob: &[u8]) -> Result<Vec<u8>, SecurityStatus> {
        self.mechanism.unseal(blob)
    }
}

/// The envelope of a step, and whether the context is complete.
pub(crate) fn step<M: Mechanism>(
    mechanism: &mut M,
    naming: Naming<M>,
    is_user_to_user: fn(&M) -> bool,
    token: &[u8],
) -> (Vec<u8>, bool) {
    let step = mechanism.step(token);
    let named = match (&step, naming) {
        (Ok(Step::Done(_)), Some(peer)) => peer(mechanism).and_then(|name| counted(&name)),
        (_, Some(_)) => Ok(vec![0, 0]),
        (_, None) => Ok(Vec::new()),
    };
    let (mut envelope, step) = match named {
        Ok(name) => (name, step),
        Err(status) => (vec![0, 0], Err(status)),
    };
    let has_ended = matches!(step, Ok(Step::Done(_)));
    match step {
        Ok(Step::Done(token)) => append(&mut envelope, 0, &token),
        Ok(Step::Continue(token)) if is_user_to_user(mechanism) => append(&mut envelope, 3, &token),
        Ok(Step::Continue(token)) => append(&mut envelope, 1, &token),
        Err(status) => append(&mut envelope, 2, &status.0.to_le_bytes()),
    }
    (envelope, has_ended)
}

fn append(envelope: &mut Vec<u8>, status: u8, rest: &[u8]) {
    envelope.push(status);
    envelope.extend_from_slice(rest);
}

/// A name in UTF-16LE, after the count of its bytes.
fn counted(name: &str) -> Result<Vec<u8>, SecurityStatus> {
    let bytes: Vec<u8> = name.encode_utf16().flat_map(u16::to_le_bytes).collect();
    let count = u16::try_from(bytes.len()).map_err(|_| SecurityStatus::INVALID_PARAMETER)?;
    Ok([&count.to_le_bytes()[..], &bytes].concat())
}
