/* The X.224 connection request and confirm, by which RDP ends agree on what secures the
 * connection (MS-RDPBCGR 2.2.1.1, 2.2.1.2). */
#ifndef NEWAKSU_EXAMPLE_X224_H
#define NEWAKSU_EXAMPLE_X224_H

#include <stdbool.h>

#include "channel.h"

/* The protocols that a request names, as bits, and the one that a confirm selects. */
enum {
    X224_TLS = 1,
    X224_HYBRID = 2,   /* CredSSP */
    X224_HYBRID_EX = 8 /* CredSSP, and after it the early user authorization result */
};

/* Requests the protocols, and reads which one the server selects: one of those, or FAULT_NO_NLA.
 * `restricted` says that the client will delegate no credentials (restricted admin mode). */
enum fault x224_connect(struct channel *, uint32_t protocols, bool restricted, uint32_t *selected);

/* Reads a request, and confirms the best protocol that it and `offered` share. If none, it tells
 * the client that CredSSP is required, and returns FAULT_NO_NLA. */
enum fault x224_accept(struct channel *, uint32_t offered, uint32_t *selected);

/* "TLS", "HYBRID", "HYBRID_EX" or "none". */
const char *x224_name(uint32_t protocol);

#endif
