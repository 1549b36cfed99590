/* A client and a server over the tests' mechanism, and the messages that they send each other. */
#ifndef EXCHANGE_H
#define EXCHANGE_H

#include <stddef.h>
#include <stdint.h>

#include "mechanism.h"

#define MOST_MESSAGES 8
#define LONGEST_MESSAGE 8192

/* How the two are made. */
struct setup {
    uint32_t client_version, server_version, client_least, server_least, delegation;
    const char *name, *password, *server_password;
    const char *client_key, *server_key;
    /* The one user whom the server accepts, or null for anyone whom its mechanism names. */
    const char *user;
};

struct exchange {
    struct party parties[2];
    newaksu_host *ends[2];
    uint8_t messages[MOST_MESSAGES][LONGEST_MESSAGE];
    size_t lengths[MOST_MESSAGES];
    int sent;
    /* Of each end's last call, and of the last message that each refused. */
    uint32_t status[2], progress[2];
    newaksu_refusal refusals[2];
};

#define THE_CLIENT 0
#define THE_SERVER 1

/* Changes message `number` on its way, counted from 0. */
typedef void (*tamper)(void *context, int number, uint8_t *message, size_t *length);

struct setup usual_setup(void);

/* Makes both ends. */
void exchange_make(struct exchange *exchange, const struct setup *setup);

/* Has them send each other messages until one finishes or refuses, and what that one sent is
 * delivered. */
void exchange_run(struct exchange *exchange, tamper change, void *context);

/* One call of an end. What it sends is kept as the next message. */
void exchange_turn(struct exchange *exchange, int end, const uint8_t *message, size_t length);

void exchange_release(struct exchange *exchange);

/* The server has these credentials, the client is done, and the password did not go over the
 * channel in clear. */
void check_delegated(const struct exchange *exchange, const char *name, const char *password);

/* The server has no credentials, and the client's were never given out, not even to its mechanism.
 */
void check_withheld(const struct exchange *exchange);

#endif
