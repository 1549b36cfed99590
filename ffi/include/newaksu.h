/* newaksu.h: CredSSP (MS-CSSP) and the tokens of SPNEGO (RFC 4178) for C.
 *
 * libnewaksu has an exact codec for the messages, and both ends of the exchange; each function is
 * proved. A mechanism, such as NTLM or Kerberos, is not part of it. The caller has one, steps it,
 * seals and opens with it, and reports the results to the end. newaksu_host.h does this for any
 * mechanism, and is what most programs need; this header is the layer below it.
 *
 * Conventions of every call:
 *
 * Status. Every call but `newaksu_version` returns a status: NEWAKSU_OK, or why it did nothing.
 *
 * Input bytes are a pointer and a count. The pointer must not be null, even if the count is 0.
 * Texts are UTF-8 without a terminating zero, unless the call says UTF-16LE.
 *
 * Output bytes take a buffer of the caller's, its capacity, and `written`. On NEWAKSU_OK `*written`
 * bytes were written. On NEWAKSU_E_BUFFER_TOO_SMALL none were, and `*written` is the capacity
 * needed: a call with capacity 0 asks for it. On any other status `*written` is 0. Nothing is ever
 * written past the capacity.
 *
 * Output numbers are written only on NEWAKSU_OK, unless the call says otherwise.
 *
 * The caller must pass valid pointers. No output may overlap another argument. No call may come
 * from a signal handler, and a handle may be in only one call at a time. Calls on different handles
 * may run in different threads at once. Nothing else is required: any bytes, any numbers and any
 * order of calls get a status.
 *
 * Memory comes from malloc. What an object holds is overwritten before it is freed. */
#ifndef NEWAKSU_H
#define NEWAKSU_H

#include <stddef.h>
#include <stdint.h>

#ifdef __cplusplus
extern "C" {
#endif

#define NEWAKSU_VERSION_MAJOR 0
#define NEWAKSU_VERSION_MINOR 1
#define NEWAKSU_VERSION_PATCH 0
#define NEWAKSU_VERSION_NUMBER                                                      \
    ((uint32_t)NEWAKSU_VERSION_MAJOR << 16 | (uint32_t)NEWAKSU_VERSION_MINOR << 8 | \
     (uint32_t)NEWAKSU_VERSION_PATCH)

/* The version of the archive, to be compared with NEWAKSU_VERSION_NUMBER. */
uint32_t newaksu_version(void);

/* Statuses. Those below 16 are the library's own; the others are SECURITY_STATUS codes from
 * winerror.h. newaksu_error_name knows all of those that SSPI names as errors. */

#define NEWAKSU_OK 0u
/* The bytes end before the element does. */
#define NEWAKSU_UNEXPECTED_EOF 1u
/* A wrong tag or a refused length; from an encoder, a content of more than 1048576 bytes. */
#define NEWAKSU_INVALID_DATA 2u
/* A source or a sink failed: no call here has one. */
#define NEWAKSU_READ_FAULT 3u
#define NEWAKSU_WRITE_FAULT 4u
/* There is no such field, text, message, identity or refusal. */
#define NEWAKSU_ABSENT 6u

/* Out of memory. */
#define NEWAKSU_E_INSUFFICIENT_MEMORY 0x80090300u
/* The handle is empty, or holds an object of another kind. */
#define NEWAKSU_E_INVALID_HANDLE 0x80090301u
#define NEWAKSU_E_UNSUPPORTED_FUNCTION 0x80090302u
#define NEWAKSU_E_INTERNAL_ERROR 0x80090304u
#define NEWAKSU_E_INVALID_TOKEN 0x80090308u
#define NEWAKSU_E_LOGON_DENIED 0x8009030cu
#define NEWAKSU_E_UNKNOWN_CREDENTIALS 0x8009030du
#define NEWAKSU_E_NO_CREDENTIALS 0x8009030eu
#define NEWAKSU_E_MESSAGE_ALTERED 0x8009030fu
#define NEWAKSU_E_OUT_OF_SEQUENCE 0x80090310u
#define NEWAKSU_E_CONTEXT_EXPIRED 0x80090317u
/* The buffer is too small, and `*written` is the capacity needed. */
#define NEWAKSU_E_BUFFER_TOO_SMALL 0x80090321u
#define NEWAKSU_E_DOWNGRADE_DETECTED 0x80090350u
/* A number that is not one of those listed, a text that is not valid in its encoding, or a length
 * that is not allowed. */
#define NEWAKSU_E_INVALID_PARAMETER 0x8009035du

/* Not an error: a step of a mechanism needs another token (SEC_I_CONTINUE_NEEDED). */
#define NEWAKSU_CONTINUE_NEEDED 0x00090312u

/* The name of a SECURITY_STATUS, such as "LogonDenied". NEWAKSU_E_INVALID_PARAMETER: SSPI does not
 * name it as an error. */
uint32_t newaksu_error_name(uint32_t status, uint8_t *out, size_t capacity, size_t *written);

/* The name of an NTSTATUS, such as "STATUS_LOGON_FAILURE". NEWAKSU_ABSENT: it has none here. */
uint32_t newaksu_nstatus_name(uint32_t code, uint8_t *out, size_t capacity, size_t *written);

/* A handle is one word that holds an object, and is zero when empty. Start with NEWAKSU_EMPTY, pass
 * its address, and never copy it: the handle owns its object. A call that makes or decodes an
 * object puts it into the handle and releases what was in it, but only on NEWAKSU_OK. A released
 * handle is empty, so using or releasing it again only returns NEWAKSU_E_INVALID_HANDLE, as using
 * a handle of another kind does. The prototypes below do not repeat this. */
typedef struct newaksu_handle {
    void *at;
} newaksu_handle;

#define NEWAKSU_EMPTY \
    { NULL }

/* Frees the object and empties the handle. NEWAKSU_E_INVALID_HANDLE: it is empty. */
uint32_t newaksu_release(newaksu_handle *handle);

/* Which kind of object the handle holds. Always NEWAKSU_OK. */
uint32_t newaksu_kind(newaksu_handle *handle, uint32_t *kind);

#define NEWAKSU_KIND_EMPTY 0u
#define NEWAKSU_KIND_REQUEST 1u
#define NEWAKSU_KIND_READER 2u
#define NEWAKSU_KIND_INIT 3u
#define NEWAKSU_KIND_TARG 4u
#define NEWAKSU_KIND_CREDENTIALS 5u
#define NEWAKSU_KIND_IDENTITIES 6u
#define NEWAKSU_KIND_CLIENT 7u
#define NEWAKSU_KIND_SERVER 8u
#define NEWAKSU_KIND_PLAIN_CLIENT 9u
#define NEWAKSU_KIND_PLAIN_SERVER 10u
#define NEWAKSU_KIND_COURSE 11u

/* TSRequest (MS-CSSP 2.2.1). */

/* The size of the request that `bytes` begin with, header and content, read from its header alone;
 * five bytes are enough for any header. At most 1048581. NEWAKSU_UNEXPECTED_EOF: the header is
 * incomplete or invalid. */
uint32_t newaksu_request_size(const uint8_t *bytes, size_t length, size_t *size);

/* A request with this version and no other field. NEWAKSU_E_INSUFFICIENT_MEMORY. */
uint32_t newaksu_request_new(newaksu_handle *request, uint32_t version);

/* The request that the bytes begin with; what follows it is ignored. NEWAKSU_UNEXPECTED_EOF: the
 * header is bad, there are fewer bytes than it announces, or the content ends inside an element.
 * NEWAKSU_INVALID_DATA: an element is not encoded as it must be. NEWAKSU_E_INSUFFICIENT_MEMORY. */
uint32_t newaksu_request_decode(newaksu_handle *request, const uint8_t *bytes, size_t length);

/* The shortest encoding. The error code is left out below version 3 and at version 5, the nonce
 * below version 5. NEWAKSU_INVALID_DATA: the content exceeds 1048576 bytes.
 * NEWAKSU_E_INSUFFICIENT_MEMORY. */
uint32_t newaksu_request_encode(newaksu_handle *request, uint8_t *out, size_t capacity,
                                size_t *written);

uint32_t newaksu_request_version(newaksu_handle *request, uint32_t *version);
uint32_t newaksu_request_set_version(newaksu_handle *request, uint32_t version);

/* The fields, by their ASN.1 tags. */
#define NEWAKSU_NEGO_TOKENS 1u  /* the first token; further ones are not read */
#define NEWAKSU_AUTH_INFO 2u    /* the sealed TSCredentials */
#define NEWAKSU_PUB_KEY_AUTH 3u /* the sealed proof of the channel's key */
#define NEWAKSU_ERROR_CODE 4u   /* an NTSTATUS; it has its own calls */
#define NEWAKSU_CLIENT_NONCE 5u /* 32 bytes */

/* A field's octets. NEWAKSU_ABSENT: the request lacks it. NEWAKSU_E_INVALID_PARAMETER: `field` is
 * not 1, 2, 3 or 5. */
uint32_t newaksu_request_field(newaksu_handle *request, uint32_t field, uint8_t *out,
                               size_t capacity, size_t *written);

/* Sets the field to these octets, which are copied. NEWAKSU_E_INVALID_PARAMETER: as above, or a
 * nonce is not 32 bytes. */
uint32_t newaksu_request_set_field(newaksu_handle *request, uint32_t field, const uint8_t *bytes,
                                   size_t length);

/* Removes a field, 1 to 5. NEWAKSU_E_INVALID_PARAMETER: any other number. */
uint32_t newaksu_request_clear_field(newaksu_handle *request, uint32_t field);

/* NEWAKSU_ABSENT: there is no code. */
uint32_t newaksu_request_error_code(newaksu_handle *request, uint32_t *code);
uint32_t newaksu_request_set_error_code(newaksu_handle *request, uint32_t code);

/* A reader of one request that arrives in pieces; it keeps the fields and not the bytes.
 * NEWAKSU_E_INSUFFICIENT_MEMORY. */
uint32_t newaksu_reader_new(newaksu_handle *reader);

/* Feeds the next piece. NEWAKSU_E_INSUFFICIENT_MEMORY: nothing was taken; the same piece may be fed
 * again. */
uint32_t newaksu_reader_feed(newaksu_handle *reader, const uint8_t *piece, size_t length);

/* What newaksu_request_decode returns for all that was fed. On NEWAKSU_OK the handle holds the
 * request instead of the reader; on NEWAKSU_UNEXPECTED_EOF and NEWAKSU_INVALID_DATA, a reader that
 * was fed nothing. */
uint32_t newaksu_reader_finish(newaksu_handle *reader);

/* TSCredentials of a password (MS-CSSP 2.2.1.2). */

/* Three texts in UTF-16LE, which are copied. NEWAKSU_E_INVALID_PARAMETER: one is not UTF-16.
 * NEWAKSU_E_INSUFFICIENT_MEMORY. */
uint32_t newaksu_credentials_new(newaksu_handle *credentials, const uint8_t *domain,
                                 size_t domain_length, const uint8_t *user, size_t user_length,
                                 const uint8_t *password, size_t password_length);

/* NEWAKSU_E_INVALID_TOKEN: the bytes do not begin with TSCredentials of a password.
 * NEWAKSU_E_UNSUPPORTED_FUNCTION: they are of a smart card. NEWAKSU_E_INVALID_PARAMETER: a text is
 * not UTF-16. NEWAKSU_E_INSUFFICIENT_MEMORY. */
uint32_t newaksu_credentials_decode(newaksu_handle *credentials, const uint8_t *bytes,
                                    size_t length);

/* NEWAKSU_E_INTERNAL_ERROR: the content exceeds 1048576 bytes. NEWAKSU_E_INSUFFICIENT_MEMORY. */
uint32_t newaksu_credentials_encode(newaksu_handle *credentials, uint8_t *out, size_t capacity,
                                    size_t *written);

#define NEWAKSU_DOMAIN 0u
#define NEWAKSU_USER 1u
#define NEWAKSU_PASSWORD 2u

/* One of the texts, in UTF-16LE. NEWAKSU_E_INVALID_PARAMETER: `which` is above 2. */
uint32_t newaksu_credentials_text(newaksu_handle *credentials, uint32_t which, uint8_t *out,
                                  size_t capacity, size_t *written);

/* The early user authorization result (MS-RDPBCGR 2.2.10.2), which a HYBRID_EX server sends after
 * the exchange. */
#define NEWAKSU_EARLY_SUCCESS 0u
#define NEWAKSU_EARLY_ACCESS_DENIED 5u

/* Its four bytes. NEWAKSU_E_INVALID_PARAMETER: `result` is neither. */
uint32_t newaksu_early_encode(uint32_t result, uint8_t *out, size_t capacity, size_t *written);

/* NEWAKSU_UNEXPECTED_EOF: fewer than four bytes. NEWAKSU_INVALID_DATA: the number is neither. */
uint32_t newaksu_early_decode(const uint8_t *bytes, size_t length, uint32_t *result);

/* NegTokenInit (RFC 4178 4.2.1), in the frame of the SPNEGO mechanism. A mechanism is given as the
 * content of its OBJECT IDENTIFIER. */

/* One without a list or token. NEWAKSU_E_INSUFFICIENT_MEMORY. */
uint32_t newaksu_init_new(newaksu_handle *init);

/* NEWAKSU_E_INVALID_TOKEN: the bytes do not begin with one. NEWAKSU_E_INSUFFICIENT_MEMORY. */
uint32_t newaksu_init_decode(newaksu_handle *init, const uint8_t *bytes, size_t length);

/* NEWAKSU_E_INTERNAL_ERROR: a content exceeds 1048576 bytes. NEWAKSU_E_INSUFFICIENT_MEMORY. */
uint32_t newaksu_init_encode(newaksu_handle *init, uint8_t *out, size_t capacity, size_t *written);

/* NEWAKSU_ABSENT: there are no mechTypes. */
uint32_t newaksu_init_mech_count(newaksu_handle *init, size_t *count);

/* `index` counts from 0. NEWAKSU_ABSENT: there is no such mechanism. */
uint32_t newaksu_init_mech(newaksu_handle *init, size_t index, uint8_t *out, size_t capacity,
                           size_t *written);

/* Appends a mechanism to the list, and makes the list if there is none.
 * NEWAKSU_E_INSUFFICIENT_MEMORY. */
uint32_t newaksu_init_add_mech(newaksu_handle *init, const uint8_t *oid, size_t length);

/* The mechToken. NEWAKSU_ABSENT: there is none. */
uint32_t newaksu_init_token(newaksu_handle *init, uint8_t *out, size_t capacity, size_t *written);
uint32_t newaksu_init_set_token(newaksu_handle *init, const uint8_t *bytes, size_t length);

/* Only the mechTypes, as the SEQUENCE over which MICs are made. NEWAKSU_ABSENT: there are none. */
uint32_t newaksu_init_mech_list(newaksu_handle *init, uint8_t *out, size_t capacity,
                                size_t *written);

/* NegTokenResp (RFC 4178 4.2.2); the calls are like those of NegTokenInit. */
uint32_t newaksu_targ_new(newaksu_handle *targ);
uint32_t newaksu_targ_decode(newaksu_handle *targ, const uint8_t *bytes, size_t length);
uint32_t newaksu_targ_encode(newaksu_handle *targ, uint8_t *out, size_t capacity, size_t *written);

#define NEWAKSU_ACCEPT_COMPLETED 0u
#define NEWAKSU_ACCEPT_INCOMPLETE 1u
#define NEWAKSU_OTHER_STATE 2u

/* The negState. NEWAKSU_ABSENT: there is none. */
uint32_t newaksu_targ_state(newaksu_handle *targ, uint32_t *state);

/* NEWAKSU_E_INVALID_PARAMETER: `state` is above 2. */
uint32_t newaksu_targ_set_state(newaksu_handle *targ, uint32_t state);

#define NEWAKSU_SUPPORTED_MECH 1u
#define NEWAKSU_RESPONSE_TOKEN 2u
#define NEWAKSU_MECH_LIST_MIC 3u

/* NEWAKSU_ABSENT: there is no such field. NEWAKSU_E_INVALID_PARAMETER: `field` is any other
 * number. */
uint32_t newaksu_targ_field(newaksu_handle *targ, uint32_t field, uint8_t *out, size_t capacity,
                            size_t *written);
uint32_t newaksu_targ_set_field(newaksu_handle *targ, uint32_t field, const uint8_t *bytes,
                                size_t length);

#define NEWAKSU_MECH_OTHER 0u
#define NEWAKSU_MECH_MS_KERBEROS 1u
#define NEWAKSU_MECH_KERBEROS 2u
#define NEWAKSU_MECH_NTLM 3u

/* Which mechanism the content of an OBJECT IDENTIFIER names. NEWAKSU_E_INSUFFICIENT_MEMORY. */
uint32_t newaksu_mech_kind(const uint8_t *oid, size_t length, uint32_t *kind);

/* The users that a server knows. */

/* An empty list. NEWAKSU_E_INSUFFICIENT_MEMORY. */
uint32_t newaksu_identities_new(newaksu_handle *identities);

/* Adds a user: DOMAIN\user, user@domain or user, and a password; both are copied. A server over the
 * caller's mechanism looks up only the name, by form, account and domain, ignoring the case of
 * ASCII letters. The mechanism has checked the password. NEWAKSU_E_UNKNOWN_CREDENTIALS: the name
 * mixes the forms. NEWAKSU_E_INVALID_PARAMETER: a text is not UTF-8.
 * NEWAKSU_E_INSUFFICIENT_MEMORY. */
uint32_t newaksu_identities_add(newaksu_handle *identities, const uint8_t *name, size_t name_length,
                                const uint8_t *password, size_t password_length);

/* The ends (MS-CSSP 3.1.5). */

#define NEWAKSU_HOST 0u       /* the caller's mechanism */
#define NEWAKSU_PLAIN_NTLM 1u /* for tests: NTLM's messages, and nothing is hidden */

#define NEWAKSU_WITH_CREDENTIALS 0u
/* Three empty texts in place of the credentials (restricted admin). */
#define NEWAKSU_CREDENTIAL_LESS 1u

typedef struct newaksu_client_options {
    uint32_t mechanism;
    /* The version of CredSSP that the end speaks, 2 to 6 (MS-CSSP 2.2.1); usually 6. */
    uint32_t version;
    /* The lowest version that it accepts from a peer, 2 to 6; usually 5. 0 accepts any. */
    uint32_t least_version;
    uint32_t delegation;
} newaksu_client_options;

/* Whom a server accepts: only the users of its list, so nobody if that is empty; or anyone whom the
 * caller's mechanism names. */
#define NEWAKSU_PEERS_LISTED 0u
#define NEWAKSU_PEERS_ANYONE 1u

typedef struct newaksu_server_options {
    uint32_t mechanism;
    uint32_t version;
    uint32_t least_version;
    uint32_t peers;
} newaksu_server_options;

/* A client that has received nothing yet; all is copied. `key` is the SubjectPublicKey of the TLS
 * certificate, `target` the service's name, such as TERMSRV/host (ignored over the caller's
 * mechanism). `nonce` is exactly 32 fresh random bytes, `name` as for newaksu_identities_add.
 * NEWAKSU_E_INVALID_PARAMETER: a number is not one of those above, a text is not UTF-8, or the
 * nonce is not 32 bytes. NEWAKSU_E_UNKNOWN_CREDENTIALS, NEWAKSU_E_INSUFFICIENT_MEMORY. */
uint32_t newaksu_client_new(newaksu_handle *client, const newaksu_client_options *options,
                            const uint8_t *key, size_t key_length, const uint8_t *target,
                            size_t target_length, const uint8_t *nonce, size_t nonce_length,
                            const uint8_t *name, size_t name_length, const uint8_t *password,
                            size_t password_length);

/* A server that has received nothing yet; all is copied, including the identities, which may
 * therefore serve many servers. With NEWAKSU_PEERS_LISTED `identities` holds a list; with
 * NEWAKSU_PEERS_ANYONE it is empty, and the mechanism is the caller's. `challenge` is exactly 8
 * bytes over plain NTLM, and is ignored over the caller's mechanism.
 * NEWAKSU_E_INVALID_PARAMETER: a number is not one of those above, the challenge is not 8 bytes, or
 * NEWAKSU_PEERS_ANYONE is used over plain NTLM or with a handle that is not empty.
 * NEWAKSU_E_INVALID_HANDLE: a list is needed, and `identities` is empty or holds another object.
 * NEWAKSU_E_INSUFFICIENT_MEMORY. */
uint32_t newaksu_server_new(newaksu_handle *server, newaksu_handle *identities,
                            const newaksu_server_options *options, const uint8_t *key,
                            size_t key_length, const uint8_t *challenge, size_t challenge_length);

/* What the end waits for, which decides what the caller does with the peer's message before the
 * next call of process:
 *
 *              client                          server
 *     state 0  steps with the token, which     steps with the token; if that completes the context
 *              is empty at first               and the message has pubKeyAuth, opens that
 *     state 1                                  opens pubKeyAuth
 *     state 2  opens pubKeyAuth                opens authInfo
 *     state 3  nothing                         nothing
 */
uint32_t newaksu_end_state(newaksu_handle *end, uint32_t *state);

#define NEWAKSU_STATE_NEGO_TOKEN 0u
#define NEWAKSU_STATE_PUB_KEY_INFO 1u
#define NEWAKSU_STATE_AUTH_INFO 2u
#define NEWAKSU_STATE_FINAL 3u

/* One turn: takes the peer's message, and what the caller's mechanism made of it.
 *
 * `message` is the TSRequest as received; of length 0 in a client's first call.
 *
 * `step` is the envelope of the step that was made, of length 0 if none was made. A client's is:
 *
 *     00 token    the context is complete
 *     01 token    it continues
 *     02 code     the step was refused: a SECURITY_STATUS, four bytes, little-endian
 *     03 token    it continues, and authenticates user-to-user or in DCE style
 *
 * A server's begins with the peer's name: its length in bytes (two bytes, little-endian), then its
 * UTF-16LE text; 0000 if not known. The step that completes the context must name the peer.
 *
 * `opened_field` is NEWAKSU_PUB_KEY_AUTH or NEWAKSU_AUTH_INFO if that field was opened, and
 * `opened` is its text; 0 and no bytes if none was opened or opening failed.
 *
 * Over plain NTLM the end steps and opens by itself, and both are empty.
 *
 * Nothing in the message is ever taken for an envelope or an opened text.
 * NEWAKSU_UNEXPECTED_EOF, NEWAKSU_INVALID_DATA: the message is not a request, and the end is
 * unchanged. NEWAKSU_E_INVALID_PARAMETER: another `opened_field`, or arguments that this end does
 * not take. Otherwise the end's refusal: it keeps its state, and newaksu_end_refusal has the cause.
 * On a server newaksu_end_message has the message that tells the client. */
uint32_t newaksu_client_process(newaksu_handle *client, const uint8_t *message, size_t length,
                                const uint8_t *step, size_t step_length, uint32_t opened_field,
                                const uint8_t *opened, size_t opened_length);
uint32_t newaksu_server_process(newaksu_handle *server, const uint8_t *message, size_t length,
                                const uint8_t *step, size_t step_length, uint32_t opened_field,
                                const uint8_t *opened, size_t opened_length);

/* The outcome of the last turn. */
uint32_t newaksu_end_outcome(newaksu_handle *end, uint32_t *outcome);

#define NEWAKSU_OUTCOME_NONE 0u     /* there was none yet */
#define NEWAKSU_OUTCOME_REPLY 1u    /* a message for the peer, whose answer the end waits for */
#define NEWAKSU_OUTCOME_FINAL 2u    /* a client's last message, with the credentials */
#define NEWAKSU_OUTCOME_FINISHED 3u /* a server has the identity, and no message */
#define NEWAKSU_OUTCOME_REFUSED 4u  /* a server has a message for the client */
#define NEWAKSU_OUTCOME_ASKS 5u     /* a client waits for a KDC: never over these mechanisms */

/* The text that the caller must seal now, and its field: NEWAKSU_PUB_KEY_AUTH or NEWAKSU_AUTH_INFO.
 * `*field` is set whenever there is a text, also on NEWAKSU_E_BUFFER_TOO_SMALL. NEWAKSU_ABSENT:
 * there is none. A client's AUTH_INFO is the credentials in clear: it comes only after the turn in
 * which the opened text was exactly the proof that the server owes. */
uint32_t newaksu_end_sealing(newaksu_handle *end, uint32_t *field, uint8_t *out, size_t capacity,
                             size_t *written);

/* The message for the peer, with the sealed blob in place of the text.
 * NEWAKSU_E_INVALID_PARAMETER: there is a text to seal and the blob has fewer than 16 bytes, or
 * there is none and the blob is not empty. NEWAKSU_ABSENT: there is no message.
 * NEWAKSU_INVALID_DATA: it is too long. The call may be repeated until the next turn. No field that
 * the peer sent goes back except its nonce; over plain NTLM the message is the end's, unchanged. */
uint32_t newaksu_end_message(newaksu_handle *end, const uint8_t *sealed, size_t sealed_length,
                             uint8_t *out, size_t capacity, size_t *written);

/* What the last turn did with the context, even if refused. Each but `status` is 0 or 1. */
typedef struct newaksu_acts {
    uint32_t stepped; /* a step answered, with `status` */
    uint32_t status;
    uint32_t negotiated; /* a step was made */
    uint32_t proved;     /* the end sealed its proof of the channel's key */
    uint32_t checked;    /* it opened the peer's proof, right or wrong */
    uint32_t sealed;     /* the client sealed its credentials */
    uint32_t opened;     /* the server opened them */
} newaksu_acts;

uint32_t newaksu_end_acts(newaksu_handle *end, newaksu_acts *acts);

/* Why the last turn was refused: its kind, a SECURITY_STATUS, and, if `*has_nstatus` is 1, the
 * NTSTATUS that the peer sent. NEWAKSU_ABSENT: it was not. */
uint32_t newaksu_end_refusal(newaksu_handle *end, uint32_t *kind, uint32_t *has_nstatus,
                             uint32_t *nstatus);

/* The same as a sentence. */
uint32_t newaksu_end_reason(newaksu_handle *end, uint8_t *out, size_t capacity, size_t *written);

#define NEWAKSU_IDENTITY_DOMAIN 0u
#define NEWAKSU_IDENTITY_ACCOUNT 1u
#define NEWAKSU_IDENTITY_PASSWORD 2u
#define NEWAKSU_IDENTITY_NAME 3u /* the whole name: DOMAIN\user, user@domain or user */

/* The delegated credentials, in UTF-8. NEWAKSU_ABSENT: the server has none yet, the end
 * is a client, or the name has no domain. NEWAKSU_E_INVALID_PARAMETER: `which` is above 3. */
uint32_t newaksu_server_identity(newaksu_handle *server, uint32_t which, uint8_t *out,
                                 size_t capacity, size_t *written);

/* Ends that negotiate (RFC 4178, MS-SPNG) over two of the caller's mechanisms, in the roles of NTLM
 * and Kerberos. The proved end selects one, and protects the selection by MICs; the caller steps,
 * seals, opens, signs and verifies with that one. A course is what the caller knows of its end's
 * negotiation. It is kept alongside the end, and says before each call which mechanism steps. */

#define NEWAKSU_NTLM_ALONE 1u
#define NEWAKSU_KERBEROS_ALONE 2u
#define NEWAKSU_NTLM_AND_KERBEROS 3u /* Kerberos first */

/* As newaksu_client_new and newaksu_server_new, but the options' `mechanism` is one of these three,
 * otherwise NEWAKSU_E_INVALID_PARAMETER. `target` is used: an IP address after its last slash means
 * NTLM, if that may be used. A server accepts a MIC only from the users of its list. */
uint32_t newaksu_client_negotiating(newaksu_handle *client, const newaksu_client_options *options,
                                    const uint8_t *key, size_t key_length, const uint8_t *target,
                                    size_t target_length, const uint8_t *nonce, size_t nonce_length,
                                    const uint8_t *name, size_t name_length,
                                    const uint8_t *password, size_t password_length);
uint32_t newaksu_server_negotiating(newaksu_handle *server, newaksu_handle *identities,
                                    const newaksu_server_options *options, const uint8_t *key,
                                    size_t key_length);

/* For an end that has made no step: its mechanisms, and whether a client's target is named by IP
 * address (0 if not). NEWAKSU_E_INVALID_PARAMETER: `mechanisms` is not one of the three above.
 * NEWAKSU_E_INSUFFICIENT_MEMORY. */
uint32_t newaksu_course_new(newaksu_handle *course, uint32_t mechanisms, uint32_t by_address);

/* Before a call of the end. Each sets `*mechanism` to the one that steps, NEWAKSU_MECH_KERBEROS or
 * NEWAKSU_MECH_NTLM, or to NEWAKSU_MECH_OTHER if none does.
 *
 * first          a client's first call: the mechanism steps with no token, and its envelope itself
 *                is passed to newaksu_client_process
 * offer          a server's first: the mechanism steps with the token of the offer
 * answer         a client's later ones: with the responseToken, or no token if there is none.
 *                NEWAKSU_E_INVALID_TOKEN: the server chose what may not be used
 * continuation   a server's later ones: likewise
 *
 * NEWAKSU_E_INSUFFICIENT_MEMORY, from an offer. */
uint32_t newaksu_course_first(newaksu_handle *course, uint32_t *mechanism);
uint32_t newaksu_course_offer(newaksu_handle *course, newaksu_handle *init, uint32_t *mechanism);
uint32_t newaksu_course_answer(newaksu_handle *course, newaksu_handle *targ, uint32_t *mechanism);
uint32_t newaksu_course_continuation(newaksu_handle *course, newaksu_handle *targ,
                                     uint32_t *mechanism);

/* After that call, if it was not refused. A client's offer was made; or, for any other call whose
 * step answered: whether the mechanism's context is complete, and the `status` of newaksu_end_acts.
 * NEWAKSU_E_INSUFFICIENT_MEMORY, from an offer. */
uint32_t newaksu_course_offered(newaksu_handle *course);
uint32_t newaksu_course_go_on(newaksu_handle *course, uint32_t ended, uint32_t status);

/* The list over which each MIC is made and verified, as newaksu_init_mech_list gives it. */
uint32_t newaksu_course_list(newaksu_handle *course, uint8_t *out, size_t capacity,
                             size_t *written);

/* The token as it is passed to the end. The step's envelope replaces the mechanism's token; it has
 * length 0 if no step was made. If `good` is not 0, the list over which the mechanism verified a
 * MIC replaces it; otherwise no MIC verifies, whatever was received.
 * NEWAKSU_E_INSUFFICIENT_MEMORY. */
uint32_t newaksu_init_hand(newaksu_handle *init, const uint8_t *step, size_t step_length);
uint32_t newaksu_targ_hand(newaksu_handle *targ, const uint8_t *step, size_t step_length,
                           uint32_t good, const uint8_t *list, size_t list_length);

/* The list that the caller signs for a token that its end made. newaksu_targ_set_field then puts
 * the MIC in its place, before the token is sent. NEWAKSU_ABSENT: the token has no MIC. */
uint32_t newaksu_targ_signing(newaksu_handle *targ, uint8_t *out, size_t capacity, size_t *written);

#ifdef __cplusplus
}
#endif

#endif
