/* A mechanism for the tests, with three tokens like NTLM or two like Kerberos, which really
 * encrypts (ChaCha20-Poly1305). Both ends derive the key from the password and what each drew. */
#ifndef MECHANISM_H
#define MECHANISM_H

#include <stddef.h>
#include <stdint.h>

#include "newaksu_host.h"

#define PARTY_NAME 1024

struct party {
    int is_server;
    /* Whose password this is. A server knows one user. */
    char name[PARTY_NAME];
    char password[64];
    /* What it draws: the caller's choice, so that a test can be repeated. */
    uint8_t own[16];

    int stage;
    uint8_t peer[16];
    uint8_t key[32];
    char peer_name[PARTY_NAME];
    uint64_t seals;
    uint64_t unseals;
    uint64_t signs;
    uint64_t verified;

    /* How often each was called. */
    unsigned steps_asked, seals_asked, unseals_asked, peers_asked, verifies_asked, releases;
    /* A text given to it to seal held the password, in UTF-16LE. */
    int saw_password;
    /* Statuses to refuse with instead of an answer; 0 for none. */
    uint32_t refuse_step, refuse_seal, refuse_unseal, refuse_peer;
    /* It seals less than a signature. */
    int seals_short;
    /* Two tokens, like Kerberos: the server's completes it on both sides. */
    int two_tokens;
    /* A client's only step completes it. */
    int ends_at_once;
    /* It says that it authenticates user-to-user. */
    int pairs;
};

/* A client's or a server's party, which draws `drawn` and zeros. */
void party_init(struct party *party, int is_server, const char *name, const char *password,
                uint8_t drawn);

extern const newaksu_mechanism party_mechanism;

#endif
