/* A host's turns over a descriptor. */
#ifndef TURNS_H
#define TURNS_H

#include "newaksu_host.h"

/* Passes the host what arrives over the channel, and sends what it returns, until the exchange is
 * over. NEWAKSU_OK: a client has sent its credentials, or a server has them. NEWAKSU_READ_FAULT,
 * NEWAKSU_WRITE_FAULT: the channel failed. Otherwise the host's refusal. A real program uses TLS
 * instead of read and write. */
uint32_t make_turns(newaksu_host *host, int channel, int is_client);

#endif
