//! What an end authenticates by and seals with.

use crate::status::SecurityStatus;

/// What a step made.
#[derive(Clone, Debug, PartialEq, Eq)]
pub enum Step {
    /// The authentication continues: another token from the peer is due. This one is for it.
    Continue(Vec<u8>),
    /// It is complete on this end. The token, which may be empty, is for the peer.
    Done(Vec<u8>),
}

/// A security context of the program's own, such as NTLM or Kerberos through SSPI or GSSAPI, below
/// a [`crate::Client`] or, with [`Acceptor`], a [`crate::Server`].
///
/// A refusal is the SECURITY_STATUS of its kind; a number that SSPI does not name as an error
/// counts as `INVALID_TOKEN`. Once a call has refused, no other is made.
pub trait Mechanism {
    /// Takes the peer's token and makes its own. The peer's is empty in a client's first step, and
    /// whenever the peer's message has none: a mechanism must then refuse, and not start again. Not
    /// called again once it was [`Step::Done`].
    fn step(&mut self, token: &[u8]) -> Result<Step, SecurityStatus>;

    /// Seals a text as this end's next message, with its signature in front: the layout of SSPI's
    /// EncryptMessage with the buffers Token and Data, of gss_wrap with NTLM, and of gss_wrap_iov
    /// (header and data) with Kerberos. The blob has at least 16 bytes.
    fn seal(&mut self, text: &[u8]) -> Result<Vec<u8>, SecurityStatus>;

    /// Opens the peer's next message, of at least 16 bytes, or refuses it: `MESSAGE_ALTERED` if its
    /// signature is not the peer's. A client's credentials depend on this answer.
    fn unseal(&mut self, blob: &[u8]) -> Result<Vec<u8>, SecurityStatus>;
}

/// A server's mechanism.
pub trait Acceptor: Mechanism {
    /// The name of the user whom it authenticated: `DOMAIN\user`, `user@domain` or `user`. Called
    /// once, after the step that was [`Step::Done`].
    fn peer(&mut self) -> Result<String, SecurityStatus>;
}

/// A mechanism that is negotiated (RFC 4178), and so protects the list of mechanisms with MICs.
pub trait Signer: Mechanism {
    /// The MIC of a list of mechanisms as this end's next (GSS_GetMIC). Called once the
    /// authentication is complete on this end.
    fn sign(&mut self, list: &[u8]) -> Result<Vec<u8>, SecurityStatus>;

    /// Whether this is the peer's next MIC of this list, otherwise `MESSAGE_ALTERED`. What was
    /// agreed on depends on this answer.
    fn verify(&mut self, list: &[u8], mic: &[u8]) -> Result<(), SecurityStatus>;

    /// Whether a server's context, whose last step was [`Step::Continue`], authenticates
    /// user-to-user or in DCE style. If both ends prefer Kerberos, MICs from both are needed only
    /// then.
    fn is_user_to_user(&self) -> bool {
        false
    }
}

macro_rules! forwarded {
    ($pointer:ty) => {
        impl<M: Mechanism + ?Sized> Mechanism for $pointer {
            fn step(&mut self, token: &[u8]) -> Result<Step, SecurityStatus> {
                (**self).step(token)
            }

            fn seal(&mut self, text: &[u8]) -> Result<Vec<u8>, SecurityStatus> {
                (**self).seal(text)
            }

            fn unseal(&mut self, blob: &[u8]) -> Result<Vec<u8>, SecurityStatus> {
                (**self).unseal(blob)
            }
        }

        impl<M: Signer + ?Sized> Signer for $pointer {
            fn sign(&mut self, list: &[u8]) -> Result<Vec<u8>, SecurityStatus> {
                (**self).sign(list)
            }

            fn verify(&mut self, list: &[u8], mic: &[u8]) -> Result<(), SecurityStatus> {
                (**self).verify(list, mic)
            }

            fn is_user_to_user(&self) -> bool {
                (**self).is_user_to_user()
            }
        }

        impl<M: Acceptor + ?Sized> Acceptor for $pointer {
            fn peer(&mut self) -> Result<String, SecurityStatus> {
                (**self).peer()
            }
        }
    };
}

forwarded!(&mut M);
forwarded!(Box<M>);
