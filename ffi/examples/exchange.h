/* One CredSSP exchange over a channel, whichever end the host is. */
#ifndef NEWAKSU_EXAMPLE_EXCHANGE_H
#define NEWAKSU_EXAMPLE_EXCHANGE_H

#include <stdbool.h>

#include "channel.h"
#include "newaksu_host.h"

/* The longest request that is read. Kerberos tokens have up to 48000 bytes if there are many
 * groups. */
enum { EXCHANGE_BYTES = 65536 };

struct exchange {
    bool trace;            /* whether each message is shown on standard error, in hexadecimal */
    uint32_t peer_version; /* of CredSSP, as in the peer's first request; 0 if none came */
    uint32_t status;       /* NEWAKSU_OK, or the status of the host's refusal */
};

/* Carries requests until the host has finished or refused, and sends the peer what the host has to
 * say before it returns. FAULT_NONE: `status` has the outcome. Any other fault: the channel failed,
 * and the exchange has no outcome. */
enum fault exchange_run(struct exchange *exchange, struct channel *channel, newaksu_host *host,
                        bool client);

/* Prints the refusal on standard error: its kind, its reason, and what the peer reported. */
void exchange_print_refusal(const newaksu_host *host);

#endif
