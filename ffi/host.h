/* A host as its own files see it: newaksu.c has its turns, making.c how it is made and released,
 * and negotiation.c what it does if its end negotiates. */
#ifndef NEWAKSU_HOST_PRIVATE_H
#define NEWAKSU_HOST_PRIVATE_H

#include "bytes.h"

/* A mechanism of the caller, by its role: NTLM or Kerberos. */
typedef struct side {
    newaksu_mechanism mechanism;
    void *context;
    int there;
} side;

struct newaksu_host {
    newaksu_handle end;
    /* The mechanism that steps, seals and opens: if the end negotiates, the one that is due. */
    newaksu_mechanism mechanism;
    void *context;
    int is_server;
    uint32_t version;
    int started;
    int refused;
    int finished;
    newaksu_bytes send;
    newaksu_bytes user;
    newaksu_bytes password;
    newaksu_refusal refusal;
    char name[64];
    char reason[128];
    /* If the end negotiates: what is known of that, its mechanisms, a server for NTLM without
     * SPNEGO, and whether the context of `mechanism` is complete. */
    newaksu_handle course;
    side ntlm, kerberos;
    newaksu_handle bare;
    int ended;
    int offered;
};

/* What the mechanism made of a message: what one call of process is passed along with it. */
typedef struct findings {
    newaksu_bytes envelope;
    uint32_t opened_field;
    newaksu_bytes opened;
    uint32_t status; /* why it could not go on */
} findings;

/* A pointer that the archive accepts, which is never null; and whether one is there for this many
 * octets. */
const uint8_t *octets(const void *at);
int is_there(const void *at, size_t length);

/* What a call of the archive writes: it is asked for the size first. */
typedef uint32_t (*writer)(newaksu_handle *handle, uint32_t which, uint8_t *out, size_t capacity,
                           size_t *written);
uint32_t fetch(writer write, newaksu_handle *handle, uint32_t which, newaksu_bytes *bytes);
uint32_t write_request(newaksu_handle *request, uint32_t which, uint8_t *out, size_t capacity,
                       size_t *written);

/* Steps the host's mechanism with a token, and writes the envelope of the step. 1 if its context is
 * complete. */
int step_with(newaksu_host *host, const newaksu_bytes *token, newaksu_bytes *envelope);

/* Whether the end negotiates. */
int negotiates(const newaksu_host *host);

/* A server whose first token is NTLM's own goes on without SPNEGO. */
void choose_form(newaksu_host *host, newaksu_handle *request);

/* Makes the step that is due with the request's token, and what the end is passed in its place. 1
 * if the mechanism's context is complete. */
int negotiate(newaksu_host *host, newaksu_handle *request, findings *found);

/* Called after a call of the end that was not refused. */
uint32_t go_on(newaksu_host *host);

/* Puts the mechanism's MIC into the message to be sent, if the end signed. */
uint32_t sign_message(newaksu_host *host);

#endif
