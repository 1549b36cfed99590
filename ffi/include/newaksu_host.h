/* One end of CredSSP over a mechanism of the caller's, such as NTLM or Kerberos through SSPI or
 * GSSAPI.
 *
 * A host is a proved end of libnewaksu and, below it, the caller's mechanism: a table with at least
 * three functions. Each call of `newaksu_host_process` takes one whole message from the peer and
 * returns the message to send. It steps the mechanism, opens what the peer sealed, lets the proved
 * end decide, and seals what the end made. It neither reads from a channel nor writes to one: the
 * caller has the TLS channel, and passes only whole messages (`newaksu_request_size` says where one
 * ends).
 *
 * Each host is used by one thread at a time; hosts share nothing, so different ones may run in
 * different threads at once. No call may come from a signal handler.
 *
 * A host overwrites the credentials, opened texts and messages that it holds before it is released,
 * and each opened text as soon as its call is over. */
#ifndef NEWAKSU_HOST_H
#define NEWAKSU_HOST_H

#include <stddef.h>
#include <stdint.h>

#include "newaksu.h"

#ifdef __cplusplus
extern "C" {
#endif

/* Octets written by a function of the mechanism. They belong to the host. */
typedef struct newaksu_bytes newaksu_bytes;

/* Appends `length` bytes to those that are there; `data` may be null if `length` is 0. NEWAKSU_OK,
 * or NEWAKSU_E_INSUFFICIENT_MEMORY, and then nothing was appended: return that as the mechanism's
 * status. */
uint32_t newaksu_bytes_append(newaksu_bytes *bytes, const void *data, size_t length);

/* What is below an end. Each function gets the pointer that the host was made with. It returns
 * NEWAKSU_OK, or the SECURITY_STATUS (winerror.h) of its refusal, such as NEWAKSU_E_INVALID_TOKEN,
 * NEWAKSU_E_LOGON_DENIED or NEWAKSU_E_MESSAGE_ALTERED; a number that SSPI does not name as an error
 * counts as NEWAKSU_E_INVALID_TOKEN. What it wrote before a refusal is dropped. The inputs are
 * valid only during the call, and never null. No function may call the host that calls it. */
typedef struct newaksu_mechanism {
    /* Takes the peer's token and writes its own, which may be empty. The peer's is empty in a
     * client's first step, and whenever the peer's message has none: a mechanism must then refuse
     * with NEWAKSU_E_INVALID_TOKEN, and not start again. NEWAKSU_OK if the authentication is
     * complete on this end, NEWAKSU_CONTINUE_NEEDED if it needs another token. Not called again
     * after it completed or refused. */
    uint32_t (*step)(void *context, const uint8_t *token, size_t length, newaksu_bytes *output);

    /* Server only, called once, after the step that completed: writes the name of the user whom it
     * authenticated, in UTF-8, as DOMAIN\user or user@domain. A client's may be null. */
    uint32_t (*peer)(void *context, newaksu_bytes *name);

    /* Seals a text as this end's next message, with its signature in front: the layout of SSPI's
     * EncryptMessage with the buffers Token and Data, of gss_wrap with NTLM, and of gss_wrap_iov
     * (header and data) with Kerberos. The blob has at least 16 bytes. */
    uint32_t (*seal)(void *context, const uint8_t *text, size_t length, newaksu_bytes *blob);

    /* Opens the peer's next message, of at least 16 bytes, or refuses it: NEWAKSU_E_MESSAGE_ALTERED
     * if its signature is not the peer's. A client's credentials depend on this answer. */
    uint32_t (*unseal)(void *context, const uint8_t *blob, size_t length, newaksu_bytes *text);

    /* Called once with the pointer, when the host is released; may be null. */
    void (*release)(void *context);

    /* Only for a mechanism that is negotiated, otherwise null. Writes the MIC of a list of
     * mechanisms (GSS_GetMIC, RFC 4178 section 5) as this end's next, once the authentication is
     * complete here. */
    uint32_t (*sign)(void *context, const uint8_t *list, size_t length, newaksu_bytes *mic);

    /* Likewise: NEWAKSU_OK if this is the peer's next MIC of this list, otherwise
     * NEWAKSU_E_MESSAGE_ALTERED. What was agreed on depends on this answer. */
    uint32_t (*verify)(void *context, const uint8_t *list, size_t length, const uint8_t *mic,
                       size_t mic_length);

    /* For a server's mechanism that is negotiated, or null, which means never. Called after a step
     * that returned NEWAKSU_CONTINUE_NEEDED: 1 if the context authenticates user-to-user or in DCE
     * style (GSS_C_DCE_STYLE), otherwise 0. If both ends prefer Kerberos, MICs from both are needed
     * only then. */
    uint32_t (*user_to_user)(void *context);
} newaksu_mechanism;

/* A client's settings. `newaksu_client_settings_init` sets each to its usual value; all that they
 * point to is copied. */
typedef struct newaksu_client_settings {
    /* The version of CredSSP that the client speaks: 2 to 6. Usually 6. */
    uint32_t version;
    /* The lowest version accepted from a server: 2 to 6, or 0 for any. Usually 5: below it, whoever
     * relays the exchange can choose the proof (MS-CSSP 3.1.5). */
    uint32_t least_version;
    /* NEWAKSU_WITH_CREDENTIALS, the usual value, or NEWAKSU_CREDENTIAL_LESS: delegates three empty
     * texts (restricted admin). */
    uint32_t delegation;
    /* The SubjectPublicKey of the certificate that the TLS channel's server showed, without the BIT
     * STRING's header and its count of unused bits (MS-CSSP 3.1.5). */
    const uint8_t *public_key;
    size_t public_key_length;
    /* Whose credentials are delegated, in UTF-8: DOMAIN\user, user@domain or user. May be null if
     * `user_length` is 0. */
    const char *user;
    size_t user_length;
    /* The password, in UTF-8. */
    const char *password;
    size_t password_length;
    /* 32 bytes from a cryptographic generator, fresh for each client; null, the usual value, lets
     * the host draw them (getentropy). */
    const uint8_t *nonce;
} newaksu_client_settings;

/* A server's settings. */
typedef struct newaksu_server_settings {
    /* As a client's: 2 to 6, usually 6, and the least version of a client, usually 5. */
    uint32_t version;
    uint32_t least_version;
    const uint8_t *public_key;
    size_t public_key_length;
    /* NEWAKSU_PEERS_LISTED, the usual value: the server accepts the users below, and nobody if
     * there are none. NEWAKSU_PEERS_ANYONE: anyone whom the mechanism names; then list none. */
    uint32_t peers;
    /* The users whom the server accepts, in UTF-8, compared ignoring the case of ASCII letters. */
    const char *const *users;
    const size_t *user_lengths;
    size_t users_count;
} newaksu_server_settings;

void newaksu_client_settings_init(newaksu_client_settings *options);
void newaksu_server_settings_init(newaksu_server_settings *options);

/* An end over a mechanism. */
typedef struct newaksu_host newaksu_host;

/* The result of one message. The bytes belong to the host and stay until its next call. */
typedef struct newaksu_turn {
    /* What to send to the peer; nothing if `send_length` is 0. A server that refuses has a message
     * too: it tells the client the error code, from version 3 on but not at version 5. */
    const uint8_t *send;
    size_t send_length;
    /* NEWAKSU_CONTINUES: another message from the peer is due. NEWAKSU_FINISHED: on a client,
     * `send` carries the credentials and is its last message; on a server, they arrived, and
     * `newaksu_host_identity` has them. NEWAKSU_REFUSED: the exchange is over. NEWAKSU_UNREAD: what
     * was passed is not a request, and the host is unchanged. */
    uint32_t progress;
} newaksu_turn;

#define NEWAKSU_CONTINUES 0u
#define NEWAKSU_FINISHED 1u
#define NEWAKSU_REFUSED 2u
#define NEWAKSU_UNREAD 3u

/* Makes an end over a mechanism. The table is copied; on NEWAKSU_OK the host owns `context` from
 * then on. NEWAKSU_E_INVALID_PARAMETER: a version is not one of those above, a text is not UTF-8, a
 * pointer is null that may not be, or users are listed with NEWAKSU_PEERS_ANYONE.
 * NEWAKSU_E_UNKNOWN_CREDENTIALS: a user's name mixes the forms. NEWAKSU_E_INSUFFICIENT_MEMORY.
 * NEWAKSU_E_INTERNAL_ERROR: no randomness was available. On each of these `*host` is null. */
uint32_t newaksu_host_client(const newaksu_client_settings *options,
                             const newaksu_mechanism *mechanism, void *context,
                             newaksu_host **host);
uint32_t newaksu_host_server(const newaksu_server_settings *options,
                             const newaksu_mechanism *mechanism, void *context,
                             newaksu_host **host);

/* The mechanisms of an end that negotiates (RFC 4178, MS-SPNG), each with its context: one of them,
 * and the other null; or both, Kerberos preferred. */
typedef struct newaksu_mechanisms {
    const newaksu_mechanism *ntlm;
    void *ntlm_context;
    const newaksu_mechanism *kerberos;
    void *kerberos_context;
} newaksu_mechanisms;

/* Makes an end that negotiates, by this library's proved SPNEGO. Returns as the two above, and
 * NEWAKSU_E_INVALID_PARAMETER also if there is no mechanism, or one without `sign` or `verify`.
 *
 * A client offers what it has, with a Kerberos token if it has Kerberos. It never falls back by
 * itself: if its Kerberos refuses the first step, the exchange is refused, and the caller may make
 * a client with only NTLM. A server that has NTLM also accepts it without SPNEGO: the first token
 * then begins with the octets "NTLMSSP" and a zero.
 *
 * A server that accepts anyone whom its mechanism names finds no user for a MIC, and refuses with
 * NEWAKSU_E_NO_CREDENTIALS if one is needed: list the users.
 *
 * A client always requires a MIC from its server. A server sends one for NTLM, for a choice that is
 * not the client's first, and for a context that is `user_to_user`. So if both ends prefer
 * Kerberos, it must be user-to-user, or of three tokens in DCE style. Any other is refused there
 * with NEWAKSU_E_INVALID_TOKEN, before any credentials leave; for such ends use it alone, or the
 * system's SPNEGO, below newaksu_host_client.
 *
 * NTLM whose `sign` or `verify` was called restarts its cipher and its counters, in both directions
 * (MS-SPNG 3.3.5.1). */
uint32_t newaksu_host_negotiating_client(const newaksu_client_settings *options,
                                         const newaksu_mechanisms *mechanisms, newaksu_host **host);
uint32_t newaksu_host_negotiating_server(const newaksu_server_settings *options,
                                         const newaksu_mechanisms *mechanisms, newaksu_host **host);

/* Takes one whole message from the peer; a client's first call takes none (`length` 0), and starts
 * the exchange. NEWAKSU_OK: the turn is made, and `turn` says how to go on. Otherwise the status of
 * the refusal, and `turn` is written all the same: send what it has, if anything, and close the
 * channel. After a refusal each further call is refused with NEWAKSU_E_OUT_OF_SEQUENCE, and the
 * mechanism is not called again. NEWAKSU_E_INVALID_PARAMETER if `message` is null and `length` is
 * not 0: NEWAKSU_UNREAD. */
uint32_t newaksu_host_process(newaksu_host *host, const uint8_t *message, size_t length,
                              newaksu_turn *turn);

/* The credentials that a finished server received, in UTF-8; they stay until the host is released.
 * NEWAKSU_E_OUT_OF_SEQUENCE if there are none. Nothing has checked this password: the mechanism
 * authenticated the user, and the delegated credentials may be another's. */
uint32_t newaksu_host_identity(const newaksu_host *host, const char **user, size_t *user_length,
                               const char **password, size_t *password_length);

/* Why the last message was refused. */
typedef struct newaksu_refusal {
    /* The kind, a SECURITY_STATUS, and its name, such as "MessageAltered". */
    uint32_t status;
    const char *name;
    /* A fixed sentence. */
    const char *reason;
    /* 1 if the peer sent an NTSTATUS (errorCode), which is `nstatus`. */
    uint32_t has_nstatus;
    uint32_t nstatus;
} newaksu_refusal;

/* NEWAKSU_E_OUT_OF_SEQUENCE if nothing was refused. The texts belong to the host. */
uint32_t newaksu_host_refusal(const newaksu_host *host, newaksu_refusal *refusal);

/* The end itself, for the calls that only query it: newaksu_end_state, newaksu_end_acts and
 * newaksu_end_outcome. It belongs to the host. */
newaksu_handle *newaksu_host_end(newaksu_host *host);

/* Overwrites and releases the host, and the mechanism through its `release`. Null is allowed. */
void newaksu_host_release(newaksu_host *host);

#ifdef __cplusplus
}
#endif

#endif
