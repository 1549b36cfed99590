//! The C interface of libnewaksu, as in `newaksu.h`, which says what each call does, its errors and
//! what the caller must ensure. The crate `newaksu` is the safe interface over it.

#![no_std]
#![allow(non_camel_case_types)]

use core::ffi::c_void;

/// One word that owns an object; `at` is null if it is empty. It may be moved but must not be
/// copied.
#[repr(C)]
#[derive(Debug)]
pub struct newaksu_handle {
    /// Where the object is.
    pub at: *mut c_void,
}

/// A handle that holds nothing.
pub const NEWAKSU_EMPTY: newaksu_handle = newaksu_handle {
    at: core::ptr::null_mut(),
};

/// A client's options.
#[repr(C)]
#[derive(Clone, Copy, Debug, Default, PartialEq, Eq)]
pub struct newaksu_client_options {
    /// `NEWAKSU_HOST` or `NEWAKSU_PLAIN_NTLM`.
    pub mechanism: u32,
    /// The version of CredSSP that the end speaks, 2 to 6.
    pub version: u32,
    /// The least version of a peer that it takes, 2 to 6, or 0 for every.
    pub least_version: u32,
    /// `NEWAKSU_WITH_CREDENTIALS` or `NEWAKSU_CREDENTIAL_LESS`.
    pub delegation: u32,
}

/// A server's options.
#[repr(C)]
#[derive(Clone, Copy, Debug, Default, PartialEq, Eq)]
pub struct newaksu_server_options {
    /// `NEWAKSU_HOST` or `NEWAKSU_PLAIN_NTLM`.
    pub mechanism: u32,
    /// The version of CredSSP that the end speaks, 2 to 6.
    pub version: u32,
    /// The least version of a peer that it takes, 2 to 6, or 0 for every.
    pub least_version: u32,
    /// `NEWAKSU_PEERS_LISTED` or `NEWAKSU_PEERS_ANYONE`.
    pub peers: u32,
}

/// What the last turn did with the context; each but `status` is 0 or 1.
#[repr(C)]
#[derive(Clone, Copy, Debug, Default, PartialEq, Eq)]
pub struct newaksu_acts {
    /// A step answered, with `status`.
    pub stepped: u32,
    /// The step's status.
    pub status: u32,
    /// A step was made.
    pub negotiated: u32,
    /// The end sealed its proof of the channel's key.
    pub proved: u32,
    /// It opened the peer's proof, right or wrong.
    pub checked: u32,
    /// The client sealed its credentials.
    pub sealed: u32,
    /// The server opened them.
    pub opened: u32,
}

/// Success.
pub const NEWAKSU_OK: u32 = 0;
/// The bytes end before the element does.
pub const NEWAKSU_UNEXPECTED_EOF: u32 = 1;
/// A wrong tag or a refused length; from an encoder, a content of more than 1048576 bytes.
pub const NEWAKSU_INVALID_DATA: u32 = 2;
/// A source failed: no call here has one.
pub const NEWAKSU_READ_FAULT: u32 = 3;
/// A sink failed: no call here has one.
pub const NEWAKSU_WRITE_FAULT: u32 = 4;
/// There is no such field, text, message, identity or refusal.
pub const NEWAKSU_ABSENT: u32 = 6;
/// Out of memory.
pub const NEWAKSU_E_INSUFFICIENT_MEMORY: u32 = 0x8009_0300;
/// The handle is empty, or holds an object of another kind.
pub const NEWAKSU_E_INVALID_HANDLE: u32 = 0x8009_0301;
/// SEC_E_UNSUPPORTED_FUNCTION of winerror.h.
pub const NEWAKSU_E_UNSUPPORTED_FUNCTION: u32 = 0x8009_0302;
/// SEC_E_INTERNAL_ERROR of winerror.h.
pub const NEWAKSU_E_INTERNAL_ERROR: u32 = 0x8009_0304;
/// SEC_E_INVALID_TOKEN of winerror.h.
pub const NEWAKSU_E_INVALID_TOKEN: u32 = 0x8009_0308;
/// SEC_E_LOGON_DENIED of winerror.h.
pub const NEWAKSU_E_LOGON_DENIED: u32 = 0x8009_030c;
/// SEC_E_UNKNOWN_CREDENTIALS of winerror.h.
pub const NEWAKSU_E_UNKNOWN_CREDENTIALS: u32 = 0x8009_030d;
/// SEC_E_NO_CREDENTIALS of winerror.h.
pub const NEWAKSU_E_NO_CREDENTIALS: u32 = 0x8009_030e;
/// SEC_E_MESSAGE_ALTERED of winerror.h.
pub const NEWAKSU_E_MESSAGE_ALTERED: u32 = 0x8009_030f;
/// SEC_E_OUT_OF_SEQUENCE of winerror.h.
pub const NEWAKSU_E_OUT_OF_SEQUENCE: u32 = 0x8009_0310;
/// SEC_E_CONTEXT_EXPIRED of winerror.h.
pub const NEWAKSU_E_CONTEXT_EXPIRED: u32 = 0x8009_0317;
/// The buffer is too small, and `*written` is the capacity needed.
pub const NEWAKSU_E_BUFFER_TOO_SMALL: u32 = 0x8009_0321;
/// SEC_E_DOWNGRADE_DETECTED of winerror.h.
pub const NEWAKSU_E_DOWNGRADE_DETECTED: u32 = 0x8009_0350;
/// A number that is not one of those listed, a text that is not valid in its encoding, or a length
/// that is not allowed.
pub const NEWAKSU_E_INVALID_PARAMETER: u32 = 0x8009_035d;
/// Not an error: a step of a mechanism needs another token (SEC_I_CONTINUE_NEEDED).
pub const NEWAKSU_CONTINUE_NEEDED: u32 = 0x0009_0312;
/// The handle is empty.
pub const NEWAKSU_KIND_EMPTY: u32 = 0;
/// A TSRequest.
pub const NEWAKSU_KIND_REQUEST: u32 = 1;
/// A reader of a TSRequest.
pub const NEWAKSU_KIND_READER: u32 = 2;
/// A NegTokenInit.
pub const NEWAKSU_KIND_INIT: u32 = 3;
/// A NegTokenResp.
pub const NEWAKSU_KIND_TARG: u32 = 4;
/// TSCredentials.
pub const NEWAKSU_KIND_CREDENTIALS: u32 = 5;
/// A list of users.
pub const NEWAKSU_KIND_IDENTITIES: u32 = 6;
/// A client over the caller's mechanism.
pub const NEWAKSU_KIND_CLIENT: u32 = 7;
/// A server over the caller's mechanism.
pub const NEWAKSU_KIND_SERVER: u32 = 8;
/// A client over plain NTLM.
pub const NEWAKSU_KIND_PLAIN_CLIENT: u32 = 9;
/// A server over plain NTLM.
pub const NEWAKSU_KIND_PLAIN_SERVER: u32 = 10;
/// What the caller knows of its end's negotiation.
pub const NEWAKSU_KIND_COURSE: u32 = 11;
/// The caller has an NTLM and no Kerberos.
pub const NEWAKSU_NTLM_ALONE: u32 = 1;
/// The caller has a Kerberos and no NTLM.
pub const NEWAKSU_KERBEROS_ALONE: u32 = 2;
/// The caller has both, Kerberos first.
pub const NEWAKSU_NTLM_AND_KERBEROS: u32 = 3;
/// The first token; further ones are not read.
pub const NEWAKSU_NEGO_TOKENS: u32 = 1;
/// The sealed TSCredentials.
pub const NEWAKSU_AUTH_INFO: u32 = 2;
/// The sealed proof of the channel's key.
pub const NEWAKSU_PUB_KEY_AUTH: u32 = 3;
/// An NTSTATUS; it has its own calls.
pub const NEWAKSU_ERROR_CODE: u32 = 4;
/// 32 bytes.
pub const NEWAKSU_CLIENT_NONCE: u32 = 5;
/// The domain of TSCredentials.
pub const NEWAKSU_DOMAIN: u32 = 0;
/// The user of TSCredentials.
pub const NEWAKSU_USER: u32 = 1;
/// The password of TSCredentials.
pub const NEWAKSU_PASSWORD: u32 = 2;
/// The user may log on (MS-RDPBCGR 2.2.10.2).
pub const NEWAKSU_EARLY_SUCCESS: u32 = 0;
/// The user may not log on.
pub const NEWAKSU_EARLY_ACCESS_DENIED: u32 = 5;
/// negState accept-completed.
pub const NEWAKSU_ACCEPT_COMPLETED: u32 = 0;
/// negState accept-incomplete.
pub const NEWAKSU_ACCEPT_INCOMPLETE: u32 = 1;
/// Any other negState.
pub const NEWAKSU_OTHER_STATE: u32 = 2;
/// The mechanism that the server selected.
pub const NEWAKSU_SUPPORTED_MECH: u32 = 1;
/// The token of that mechanism.
pub const NEWAKSU_RESPONSE_TOKEN: u32 = 2;
/// The MIC over the list of mechanisms.
pub const NEWAKSU_MECH_LIST_MIC: u32 = 3;
/// Another mechanism.
pub const NEWAKSU_MECH_OTHER: u32 = 0;
/// Kerberos, by the identifier that Windows sends first.
pub const NEWAKSU_MECH_MS_KERBEROS: u32 = 1;
/// Kerberos.
pub const NEWAKSU_MECH_KERBEROS: u32 = 2;
/// NTLM.
pub const NEWAKSU_MECH_NTLM: u32 = 3;
/// The caller's mechanism.
pub const NEWAKSU_HOST: u32 = 0;
/// For tests: NTLM's messages, and nothing is hidden.
pub const NEWAKSU_PLAIN_NTLM: u32 = 1;
/// A server accepts only the users of its list.
pub const NEWAKSU_PEERS_LISTED: u32 = 0;
/// A server accepts anyone whom the caller's mechanism names.
pub const NEWAKSU_PEERS_ANYONE: u32 = 1;
/// The client delegates its credentials.
pub const NEWAKSU_WITH_CREDENTIALS: u32 = 0;
/// Three empty texts in place of the credentials (restricted admin).
pub const NEWAKSU_CREDENTIAL_LESS: u32 = 1;
/// A token of the authentication is due.
pub const NEWAKSU_STATE_NEGO_TOKEN: u32 = 0;
/// On a server the client's proof is due.
pub const NEWAKSU_STATE_PUB_KEY_INFO: u32 = 1;
/// On a client the server's proof is due, on a server the credentials.
pub const NEWAKSU_STATE_AUTH_INFO: u32 = 2;
/// Nothing more is due.
pub const NEWAKSU_STATE_FINAL: u32 = 3;
/// No turn yet.
pub const NEWAKSU_OUTCOME_NONE: u32 = 0;
/// A message for the peer, whose answer the end waits for.
pub const NEWAKSU_OUTCOME_REPLY: u32 = 1;
/// A client's last message, with the credentials.
pub const NEWAKSU_OUTCOME_FINAL: u32 = 2;
/// A server has the identity, and no message.
pub const NEWAKSU_OUTCOME_FINISHED: u32 = 3;
/// A server has a message for the client.
pub const NEWAKSU_OUTCOME_REFUSED: u32 = 4;
/// A client waits for a KDC: never over these mechanisms.
pub const NEWAKSU_OUTCOME_ASKS: u32 = 5;
/// The domain.
pub const NEWAKSU_IDENTITY_DOMAIN: u32 = 0;
/// The account, without the domain.
pub const NEWAKSU_IDENTITY_ACCOUNT: u32 = 1;
/// The password.
pub const NEWAKSU_IDENTITY_PASSWORD: u32 = 2;
/// The whole name: DOMAIN\user, user@domain or user.
pub const NEWAKSU_IDENTITY_NAME: u32 = 3;

/// The version of the header, to compare with `newaksu_version`.
pub const NEWAKSU_VERSION_NUMBER: u32 = 0x00_01_00;

extern "C" {
    /// The version of the archive, to compare with NEWAKSU_VERSION_NUMBER.
    pub fn newaksu_version() -> u32;
    /// The name of a SECURITY_STATUS, such as "LogonDenied".
    pub fn newaksu_error_name(
        status: u32,
        out: *mut u8,
        capacity: usize,
        written: *mut usize,
    ) -> u32;
    /// The name of an NTSTATUS, such as "STATUS_LOGON_FAILURE".
    pub fn newaksu_nstatus_name(
        code: u32,
        out: *mut u8,
        capacity: usize,
        written: *mut usize,
    ) -> u32;
    /// Frees the object and empties the handle.
    pub fn newaksu_release(handle: *mut newaksu_handle) -> u32;
    /// Which kind of object the handle holds.
    pub fn newaksu_kind(handle: *mut newaksu_handle, kind: *mut u32) -> u32;
    /// The size of the request that `bytes` begin with, header and content, read from its header
    /// alone; five bytes are enough for any header.
    pub fn newaksu_request_size(bytes: *const u8, length: usize, size: *mut usize) -> u32;
    /// A request with this version and no other field.
    pub fn newaksu_request_new(request: *mut newaksu_handle, version: u32) -> u32;
    /// The request that the bytes begin with; what follows it is ignored.
    pub fn newaksu_request_decode(
        request: *mut newaksu_handle,
        bytes: *const u8,
        length: usize,
    ) -> u32;
    /// The shortest encoding.
    pub fn newaksu_request_encode(
        request: *mut newaksu_handle,
        out: *mut u8,
        capacity: usize,
        written: *mut usize,
    ) -> u32;
    /// See `newaksu.h`.
    pub fn newaksu_request_version(request: *mut newaksu_handle, version: *mut u32) -> u32;
    /// See `newaksu.h`.
    pub fn newaksu_request_set_version(request: *mut newaksu_handle, version: u32) -> u32;
    /// A field's octets.
    pub fn newaksu_request_field(
        request: *mut newaksu_handle,
        field: u32,
        out: *mut u8,
        capacity: usize,
        written: *mut usize,
    ) -> u32;
    /// Sets the field to these octets, which are copied.
    pub fn newaksu_request_set_field(
        request: *mut newaksu_handle,
        field: u32,
        bytes: *const u8,
        length: usize,
    ) -> u32;
    /// Removes a field, 1 to 5.
    pub fn newaksu_request_clear_field(request: *mut newaksu_handle, field: u32) -> u32;
    /// NEWAKSU_ABSENT: there is no code.
    pub fn newaksu_request_error_code(request: *mut newaksu_handle, code: *mut u32) -> u32;
    /// See `newaksu.h`.
    pub fn newaksu_request_set_error_code(request: *mut newaksu_handle, code: u32) -> u32;
    /// A reader of one request that arrives in pieces; it keeps the fields and not the bytes.
    pub fn newaksu_reader_new(reader: *mut newaksu_handle) -> u32;
    /// Feeds the next piece.
    pub fn newaksu_reader_feed(reader: *mut newaksu_handle, piece: *const u8, length: usize)
        -> u32;
    /// What newaksu_request_decode returns for all that was fed. On NEWAKSU_OK the handle holds the
    /// request instead of the reader; on NEWAKSU_UNEXPECTED_EOF and NEWAKSU_INVALID_DATA, a reader
    /// that was fed nothing.
    pub fn newaksu_reader_finish(reader: *mut newaksu_handle) -> u32;
    /// Three texts in UTF-16LE, which are copied.
    pub fn newaksu_credentials_new(
        credentials: *mut newaksu_handle,
        domain: *const u8,
        domain_length: usize,
        user: *const u8,
        user_length: usize,
        password: *const u8,
        password_length: usize,
    ) -> u32;
    /// NEWAKSU_E_INVALID_TOKEN: the bytes do not begin with TSCredentials of a password.
    pub fn newaksu_credentials_decode(
        credentials: *mut newaksu_handle,
        bytes: *const u8,
        length: usize,
    ) -> u32;
    /// NEWAKSU_E_INTERNAL_ERROR: the content exceeds 1048576 bytes.
    pub fn newaksu_credentials_encode(
        credentials: *mut newaksu_handle,
        out: *mut u8,
        capacity: usize,
        written: *mut usize,
    ) -> u32;
    /// One of the texts, in UTF-16LE.
    pub fn newaksu_credentials_text(
        credentials: *mut newaksu_handle,
        which: u32,
        out: *mut u8,
        capacity: usize,
        written: *mut usize,
    ) -> u32;
    /// Its four bytes.
    pub fn newaksu_early_encode(
        result: u32,
        out: *mut u8,
        capacity: usize,
        written: *mut usize,
    ) -> u32;
    /// NEWAKSU_UNEXPECTED_EOF: fewer than four bytes.
    pub fn newaksu_early_decode(bytes: *const u8, length: usize, result: *mut u32) -> u32;
    /// One without a list or token.
    pub fn newaksu_init_new(init: *mut newaksu_handle) -> u32;
    /// NEWAKSU_E_INVALID_TOKEN: the bytes do not begin with one.
    pub fn newaksu_init_decode(init: *mut newaksu_handle, bytes: *const u8, length: usize) -> u32;
    /// NEWAKSU_E_INTERNAL_ERROR: a content exceeds 1048576 bytes.
    pub fn newaksu_init_encode(
        init: *mut newaksu_handle,
        out: *mut u8,
        capacity: usize,
        written: *mut usize,
    ) -> u32;
    /// NEWAKSU_ABSENT: there are no mechTypes.
    pub fn newaksu_init_mech_count(init: *mut newaksu_handle, count: *mut usize) -> u32;
    /// `index` counts from 0. NEWAKSU_ABSENT: there is no such mechanism.
    pub fn newaksu_init_mech(
        init: *mut newaksu_handle,
        index: usize,
        out: *mut u8,
        capacity: usize,
        written: *mut usize,
    ) -> u32;
    /// Appends a mechanism to the list, and makes the list if there is none.
    pub fn newaksu_init_add_mech(init: *mut newaksu_handle, oid: *const u8, length: usize) -> u32;
    /// The mechToken.
    pub fn newaksu_init_token(
        init: *mut newaksu_handle,
        out: *mut u8,
        capacity: usize,
        written: *mut usize,
    ) -> u32;
    /// See `newaksu.h`.
    pub fn newaksu_init_set_token(
        init: *mut newaksu_handle,
        bytes: *const u8,
        length: usize,
    ) -> u32;
    /// Only the mechTypes, as the SEQUENCE over which MICs are made.
    pub fn newaksu_init_mech_list(
        init: *mut newaksu_handle,
        out: *mut u8,
        capacity: usize,
        written: *mut usize,
    ) -> u32;
    /// NegTokenResp (RFC 4178 4.2.2); the calls are like those of NegTokenInit.
    pub fn newaksu_targ_new(targ: *mut newaksu_handle) -> u32;
    /// See `newaksu.h`.
    pub fn newaksu_targ_decode(targ: *mut newaksu_handle, bytes: *const u8, length: usize) -> u32;
    /// See `newaksu.h`.
    pub fn newaksu_targ_encode(
        targ: *mut newaksu_handle,
        out: *mut u8,
        capacity: usize,
        written: *mut usize,
    ) -> u32;
    /// The negState.
    pub fn newaksu_targ_state(targ: *mut newaksu_handle, state: *mut u32) -> u32;
    /// NEWAKSU_E_INVALID_PARAMETER: `state` is above 2.
    pub fn newaksu_targ_set_state(targ: *mut newaksu_handle, state: u32) -> u32;
    /// NEWAKSU_ABSENT: there is no such field.
    pub fn newaksu_targ_field(
        targ: *mut newaksu_handle,
        field: u32,
        out: *mut u8,
        capacity: usize,
        written: *mut usize,
    ) -> u32;
    /// See `newaksu.h`.
    pub fn newaksu_targ_set_field(
        targ: *mut newaksu_handle,
        field: u32,
        bytes: *const u8,
        length: usize,
    ) -> u32;
    /// Which mechanism the content of an OBJECT IDENTIFIER names.
    pub fn newaksu_mech_kind(oid: *const u8, length: usize, kind: *mut u32) -> u32;
    /// An empty list.
    pub fn newaksu_identities_new(identities: *mut newaksu_handle) -> u32;
    /// Adds a user: DOMAIN\user, user@domain or user, and a password; both are copied.
    pub fn newaksu_identities_add(
        identities: *mut newaksu_handle,
        name: *const u8,
        name_length: usize,
        password: *const u8,
        password_length: usize,
    ) -> u32;
    /// A client that has received nothing yet; all is copied.
    pub fn newaksu_client_new(
        client: *mut newaksu_handle,
        options: *const newaksu_client_options,
        key: *const u8,
        key_length: usize,
        target: *const u8,
        target_length: usize,
        nonce: *const u8,
        nonce_length: usize,
        name: *const u8,
        name_length: usize,
        password: *const u8,
        password_length: usize,
    ) -> u32;
    /// A server that has received nothing yet; all is copied, including the identities, which may
    /// therefore serve many servers.
    pub fn newaksu_server_new(
        server: *mut newaksu_handle,
        identities: *mut newaksu_handle,
        options: *const newaksu_server_options,
        key: *const u8,
        key_length: usize,
        challenge: *const u8,
        challenge_length: usize,
    ) -> u32;
    /// See `newaksu.h`.
    pub fn newaksu_end_state(end: *mut newaksu_handle, state: *mut u32) -> u32;
    /// One turn: takes the peer's message, and what the caller's mechanism made of it.
    pub fn newaksu_client_process(
        client: *mut newaksu_handle,
        message: *const u8,
        length: usize,
        step: *const u8,
        step_length: usize,
        opened_field: u32,
        opened: *const u8,
        opened_length: usize,
    ) -> u32;
    /// See `newaksu.h`.
    pub fn newaksu_server_process(
        server: *mut newaksu_handle,
        message: *const u8,
        length: usize,
        step: *const u8,
        step_length: usize,
        opened_field: u32,
        opened: *const u8,
        opened_length: usize,
    ) -> u32;
    /// The outcome of the last turn.
    pub fn newaksu_end_outcome(end: *mut newaksu_handle, outcome: *mut u32) -> u32;
    /// The text that the caller must seal now, and its field: NEWAKSU_PUB_KEY_AUTH or
    /// NEWAKSU_AUTH_INFO. `*field` is set whenever there is a text, also on
    /// NEWAKSU_E_BUFFER_TOO_SMALL.
    pub fn newaksu_end_sealing(
        end: *mut newaksu_handle,
        field: *mut u32,
        out: *mut u8,
        capacity: usize,
        written: *mut usize,
    ) -> u32;
    /// The message for the peer, with the sealed blob in place of the text.
    pub fn newaksu_end_message(
        end: *mut newaksu_handle,
        sealed: *const u8,
        sealed_length: usize,
        out: *mut u8,
        capacity: usize,
        written: *mut usize,
    ) -> u32;
    /// See `newaksu.h`.
    pub fn newaksu_end_acts(end: *mut newaksu_handle, acts: *mut newaksu_acts) -> u32;
    /// Why the last turn was refused: its kind, a SECURITY_STATUS, and, if `*has_nstatus` is 1, the
    /// NTSTATUS that the peer sent.
    pub fn newaksu_end_refusal(
        end: *mut newaksu_handle,
        kind: *mut u32,
        has_nstatus: *mut u32,
        nstatus: *mut u32,
    ) -> u32;
    /// The same as a sentence.
    pub fn newaksu_end_reason(
        end: *mut newaksu_handle,
        out: *mut u8,
        capacity: usize,
        written: *mut usize,
    ) -> u32;
    /// The delegated credentials, in UTF-8.
    pub fn newaksu_server_identity(
        server: *mut newaksu_handle,
        which: u32,
        out: *mut u8,
        capacity: usize,
        written: *mut usize,
    ) -> u32;
    /// A client that negotiates over two of the caller's mechanisms.
    pub fn newaksu_client_negotiating(
        client: *mut newaksu_handle,
        options: *const newaksu_client_options,
        key: *const u8,
        key_length: usize,
        target: *const u8,
        target_length: usize,
        nonce: *const u8,
        nonce_length: usize,
        name: *const u8,
        name_length: usize,
        password: *const u8,
        password_length: usize,
    ) -> u32;
    /// A server that negotiates over two of the caller's mechanisms.
    pub fn newaksu_server_negotiating(
        server: *mut newaksu_handle,
        identities: *mut newaksu_handle,
        options: *const newaksu_server_options,
        key: *const u8,
        key_length: usize,
    ) -> u32;
    /// What the caller knows of the negotiation of an end that has made no step.
    pub fn newaksu_course_new(course: *mut newaksu_handle, mechanisms: u32, by_address: u32)
        -> u32;
    /// Which mechanism makes a client's first step.
    pub fn newaksu_course_first(course: *mut newaksu_handle, mechanism: *mut u32) -> u32;
    /// Which mechanism steps with the token of an offer.
    pub fn newaksu_course_offer(
        course: *mut newaksu_handle,
        init: *mut newaksu_handle,
        mechanism: *mut u32,
    ) -> u32;
    /// Which mechanism steps with a server's token on a client.
    pub fn newaksu_course_answer(
        course: *mut newaksu_handle,
        targ: *mut newaksu_handle,
        mechanism: *mut u32,
    ) -> u32;
    /// Which mechanism steps with a client's later token on a server.
    pub fn newaksu_course_continuation(
        course: *mut newaksu_handle,
        targ: *mut newaksu_handle,
        mechanism: *mut u32,
    ) -> u32;
    /// A client's offer was made.
    pub fn newaksu_course_offered(course: *mut newaksu_handle) -> u32;
    /// A step answered in any other call.
    pub fn newaksu_course_go_on(course: *mut newaksu_handle, ended: u32, status: u32) -> u32;
    /// The list over which each MIC is made and verified.
    pub fn newaksu_course_list(
        course: *mut newaksu_handle,
        out: *mut u8,
        capacity: usize,
        written: *mut usize,
    ) -> u32;
    /// The offer as it is passed to a server.
    pub fn newaksu_init_hand(init: *mut newaksu_handle, step: *const u8, step_length: usize)
        -> u32;
    /// A later token as it is passed to an end.
    pub fn newaksu_targ_hand(
        targ: *mut newaksu_handle,
        step: *const u8,
        step_length: usize,
        good: u32,
        list: *const u8,
        list_length: usize,
    ) -> u32;
    /// The list that the caller signs for a token that its end made.
    pub fn newaksu_targ_signing(
        targ: *mut newaksu_handle,
        out: *mut u8,
        capacity: usize,
        written: *mut usize,
    ) -> u32;
}
