//! Two mechanisms below an end that negotiates (RFC 4178): which one steps, and the MICs.

use crate::below::{step, Below, Naming};
use crate::error::Error;
use crate::handle::{written, written_whole, Handle};
use crate::mechanism::Signer;
use crate::request::TsRequest;
use crate::status::SecurityStatus;
use newaksu_sys as sys;
use std::fmt;

/// The mechanisms of an end that negotiates (RFC 4178, MS-SPNG): NTLM, Kerberos, or both, with
/// Kerberos preferred.
pub struct Mechanisms<N, K> {
    pub(crate) ntlm: Option<N>,
    pub(crate) kerberos: Option<K>,
}

impl<M> Mechanisms<M, M> {
    /// Only NTLM.
    pub fn ntlm(ntlm: M) -> Mechanisms<M, M> {
        Mechanisms {
            ntlm: Some(ntlm),
            kerberos: None,
        }
    }

    /// Only Kerberos.
    pub fn kerberos(kerberos: M) -> Mechanisms<M, M> {
        Mechanisms {
            ntlm: None,
            kerberos: Some(kerberos),
        }
    }
}

impl<N, K> Mechanisms<N, K> {
    /// Both.
    pub fn both(ntlm: N, kerberos: K) -> Mechanisms<N, K> {
        Mechanisms {
            ntlm: Some(ntlm),
            kerberos: Some(kerberos),
        }
    }

    /// The mechanisms, NTLM first.
    pub fn into_parts(self) -> (Option<N>, Option<K>) {
        (self.ntlm, self.kerberos)
    }

    /// Their number in the C interface.
    pub(crate) fn number(&self) -> u32 {
        match (&self.ntlm, &self.kerberos) {
            (Some(_), Some(_)) => sys::NEWAKSU_NTLM_AND_KERBEROS,
            (Some(_), None) => sys::NEWAKSU_NTLM_ALONE,
            (None, _) => sys::NEWAKSU_KERBEROS_ALONE,
        }
    }
}

impl<N, K> fmt::Debug for Mechanisms<N, K> {
    fn fmt(&self, f: &mut fmt::Formatter<'_>) -> fmt::Result {
        f.debug_struct("Mechanisms")
            .field("ntlm", &self.ntlm.is_some())
            .field("kerberos", &self.kerberos.is_some())
            .finish()
    }
}

/// The mechanism that steps, seals and signs.
#[derive(Clone, Copy)]
enum Due {
    Ntlm,
    Kerberos,
}

/// What is below an end that negotiates, and what is known of its negotiation.
pub(crate) struct Negotiation<N, K> {
    pub(crate) mechanisms: Mechanisms<N, K>,
    naming: Option<(Naming<N>, Naming<K>)>,
    course: Handle,
    due: Due,
    has_ended: bool,
    has_stepped: bool,
    has_offered: bool,
}

impl<N: Signer, K: Signer> Negotiation<N, K> {
    /// `naming` is for a server.
    pub(crate) fn new(
        mechanisms: Mechanisms<N, K>,
        naming: Option<(Naming<N>, Naming<K>)>,
    ) -> Result<Negotiation<N, K>, Error> {
        // SAFETY: the handle is valid.
        let course =
            Handle::made(|at| unsafe { sys::newaksu_course_new(at, mechanisms.number(), 0) })?;
        let due = match mechanisms.kerberos {
            Some(_) => Due::Kerberos,
            None => Due::Ntlm,
        };
        Ok(Negotiation {
            mechanisms,
            naming,
            course,
            due,
            has_ended: false,
            has_stepped: false,
            has_offered: false,
        })
    }

    fn signer(&mut self) -> Result<&mut dyn Signer, SecurityStatus> {
        let one: Option<&mut dyn Signer> = match self.due {
            Due::Ntlm => self
                .mechanisms
                .ntlm
                .as_mut()
                .map(|it| it as &mut dyn Signer),
            Due::Kerberos => self
                .mechanisms
                .kerberos
                .as_mut()
                .map(|it| it as &mut dyn Signer),
        };
        one.ok_or(SecurityStatus::INTERNAL_ERROR)
    }

    /// The envelope of the step of the mechanism that is due with this token.
    fn step_due(&mut self, due: Due, token: &[u8]) -> Result<Vec<u8>, SecurityStatus> {
        let (ntlm, kerberos) = self.naming.unwrap_or((None, None));
        self.due = due;
        let stepped = match (due, &mut self.mechanisms) {
            (Due::Ntlm, Mechanisms { ntlm: Some(it), .. }) => {
                step(it, ntlm, N::is_user_to_user, token)
            }
            (
                Due::Kerberos,
                Mechanisms {
                    kerberos: Some(it), ..
                },
            ) => step(it, kerberos, K::is_user_to_user, token),
            _ => return Err(SecurityStatus::INTERNAL_ERROR),
        };
        self.has_ended = stepped.1;
        Ok(stepped.0)
    }

    /// A client's first step, which is passed in unchanged.
    fn first(&mut self) -> Result<Vec<u8>, SecurityStatus> {
        // SAFETY: the handle and the number are valid.
        let due = told(|due| unsafe { sys::newaksu_course_first(self.course.at(), due) })?;
        self.step_due(due.ok_or(SecurityStatus::INTERNAL_ERROR)?, &[])
    }

    /// The client's offer, as it is passed to the server.
    fn offer(&mut self, init: &Handle) -> Result<Vec<u8>, SecurityStatus> {
        // SAFETY: the handles and the number are valid.
        let due =
            told(|due| unsafe { sys::newaksu_course_offer(self.course.at(), init.at(), due) })?;
        let envelope = match due {
            None => Vec::new(),
            Some(due) => {
                // SAFETY: the handle is valid, and there is room for `capacity` bytes.
                let token = written(|out, capacity, size| unsafe {
                    sys::newaksu_init_token(init.at(), out, capacity, size)
                });
                self.step_due(due, &token.map_err(Error::status)?.unwrap_or_default())?
            }
        };
        // SAFETY: the handle and the envelope are valid.
        check(unsafe { sys::newaksu_init_hand(init.at(), envelope.as_ptr(), envelope.len()) })?;
        // SAFETY: the handle is valid, and there is room for `capacity` bytes.
        whole(|out, capacity, size| unsafe {
            sys::newaksu_init_encode(init.at(), out, capacity, size)
        })
    }

    /// A later token, as it is passed to the end.
    fn response(&mut self, targ: &Handle) -> Result<Vec<u8>, SecurityStatus> {
        let ask = match self.naming {
            Some(_) => sys::newaksu_course_continuation,
            None => sys::newaksu_course_answer,
        };
        // SAFETY: the handles and the number are valid.
        let due = told(|due| unsafe { ask(self.course.at(), targ.at(), due) })?;
        let envelope = match due {
            None => Vec::new(),
            Some(due) => {
                let token = field(targ, sys::NEWAKSU_RESPONSE_TOKEN)?;
                self.step_due(due, &token.unwrap_or_default())?
            }
        };
        let list = self.list()?;
        let is_good = self.is_good(targ, &list)?;
        // SAFETY: the handle, the envelope and the list are valid.
        check(unsafe {
            sys::newaksu_targ_hand(
                targ.at(),
                envelope.as_ptr(),
                envelope.len(),
                is_good as u32,
                list.as_ptr(),
                list.len(),
            )
        })?;
        encoded(targ)
    }

    /// Whether the received MIC is the peer's, over the list as this end knows it.
    fn is_good(&mut self, targ: &Handle, list: &[u8]) -> Result<bool, SecurityStatus> {
        match field(targ, sys::NEWAKSU_MECH_LIST_MIC)? {
            Some(mic) if self.has_ended => Ok(self.signer()?.verify(list, &mic).is_ok()),
            _ => Ok(false),
        }
    }

    fn list(&self) -> Result<Vec<u8>, SecurityStatus> {
        // SAFETY: the handle is valid, and there is room for `capacity` bytes.
        whole(|out, capacity, size| unsafe {
            sys::newaksu_course_list(self.course.at(), out, capacity, size)
        })
    }

    /// What the end is passed in place of a token. One of another form is left out, and the end
    /// reports it.
    fn handed(&mut self, token: &[u8]) -> Result<Vec<u8>, SecurityStatus> {
        let offers = self.naming.is_some() && !self.has_stepped;
        let decode = match offers {
            true => sys::newaksu_init_decode,
            false => sys::newaksu_targ_decode,
        };
        // SAFETY: the handle and the token are valid.
        let read = Handle::made(|at| unsafe { decode(at, token.as_ptr(), token.len()) });
        match read.map_err(Error::status) {
            Ok(init) if offers => self.offer(&init),
            Ok(targ) => self.response(&targ),
            Err(SecurityStatus::INVALID_TOKEN) => Ok(Vec::new()),
            Err(status) => Err(status),
        }
    }

    /// The token with the mechanism's MIC, if the end signed.
    fn signed_token(&mut self, token: &[u8]) -> Result<Option<Vec<u8>>, SecurityStatus> {
        // SAFETY: the handle and the token are valid.
        let targ = match Handle::made(|at| unsafe {
            sys::newaksu_targ_decode(at, token.as_ptr(), token.len())
        }) {
            Ok(targ) => targ,
            Err(Error::Refused(SecurityStatus::INVALID_TOKEN)) => return Ok(None),
            Err(error) => return Err(error.status()),
        };
        // SAFETY: the handle is valid, and there is room for `capacity` bytes.
        let list = written(|out, capacity, size| unsafe {
            sys::newaksu_targ_signing(targ.at(), out, capacity, size)
        });
        let Some(list) = list.map_err(Error::status)? else {
            return Ok(None);
        };
        let mic = self.signer()?.sign(&list)?;
        // SAFETY: the handle and the MIC are valid.
        check(unsafe {
            sys::newaksu_targ_set_field(
                targ.at(),
                sys::NEWAKSU_MECH_LIST_MIC,
                mic.as_ptr(),
                mic.len(),
            )
        })?;
        encoded(&targ).map(Some)
    }
}

impl<N: Signer, K: Signer> Below for Negotiation<N, K> {
    fn is_server(&self) -> bool {
        self.naming.is_some()
    }

    fn step(&mut self, request: Option<&TsRequest>) -> Result<(Vec<u8>, bool), SecurityStatus> {
        let handed = match request {
            None => self.first()?,
            Some(request) => match &request.nego_tokens {
                Some(token) => self.handed(token)?,
                None => Vec::new(),
            },
        };
        self.has_stepped = true;
        Ok((handed, self.has_ended))
    }

    fn seal(&mut self, text: &[u8]) -> Result<Vec<u8>, SecurityStatus> {
        self.signer()?.seal(text)
    }

    fn unseal(&mut self, blob: &[u8]) -> Result<Vec<u8>, SecurityStatus> {
        self.signer()?.unseal(blob)
    }

    fn go_on(&mut self, status: u32) -> Result<(), SecurityStatus> {
        let offers = self.naming.is_none() && !self.has_offered;
        self.has_offered = true;
        // SAFETY: the handle is valid.
        check(unsafe {
            match offers {
                true => sys::newaksu_course_offered(self.course.at()),
                false => sys::newaksu_course_go_on(self.course.at(), self.has_ended as u32, status),
            }
        })
    }

    fn signed(&mut self, message: Vec<u8>) -> Result<Vec<u8>, SecurityStatus> {
        let mut request = TsRequest::decode(&message).map_err(Error::status)?;
        let signed = match &request.nego_tokens {
            Some(token) => self.signed_token(token)?,
            None => None,
        };
        match signed {
            None => Ok(message),
            Some(token) => {
                request.nego_tokens = Some(token);
                request.encode().map_err(Error::status)
            }
        }
    }
}

fn check(status: u32) -> Result<(), SecurityStatus> {
    Error::check(status).map_err(Error::status)
}

/// The mechanism that a call says steps, if any.
fn told(ask: impl FnOnce(&mut u32) -> u32) -> Result<Option<Due>, SecurityStatus> {
    let mut due = sys::NEWAKSU_MECH_OTHER;
    check(ask(&mut due))?;
    Ok(match due {
        sys::NEWAKSU_MECH_NTLM => Some(Due::Ntlm),
        sys::NEWAKSU_MECH_KERBEROS => Some(Due::Kerberos),
        _ => None,
    })
}

fn whole(write: impl FnMut(*mut u8, usize, *mut usize) -> u32) -> Result<Vec<u8>, SecurityStatus> {
    written_whole(write).map_err(Error::status)
}

fn field(targ: &Handle, field: u32) -> Result<Option<Vec<u8>>, SecurityStatus> {
    // SAFETY: the handle is valid, and there is room for `capacity` bytes.
    let octets = written(|out, capacity, size| unsafe {
        sys::newaksu_targ_field(targ.at(), field, out, capacity, size)
    });
    octets.map_err(Error::status)
}

fn encoded(targ: &Handle) -> Result<Vec<u8>, SecurityStatus> {
    // SAFETY: the handle is valid, and there is room for `capacity` bytes.
    whole(|out, capacity, size| unsafe { sys::newaksu_targ_encode(targ.at(), out, capacity, size) })
}
