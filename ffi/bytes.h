/* A host's octets, which grow and are overwritten before they are freed. */
#ifndef NEWAKSU_BYTES_H
#define NEWAKSU_BYTES_H

#include "newaksu_host.h"

struct newaksu_bytes {
    uint8_t *at;
    size_t length;
    size_t capacity;
    int failed;
};

/* Overwrites the memory, whatever the compiler makes of it. */
void wipe(void *at, size_t length);

/* Overwrites and frees what is there, leaving it empty. */
void bytes_release(newaksu_bytes *bytes);

/* Makes room for that many more bytes. NEWAKSU_OK or NEWAKSU_E_INSUFFICIENT_MEMORY. */
uint32_t bytes_reserve(newaksu_bytes *bytes, size_t more);

/* Appends a UTF-8 text as UTF-16LE. NEWAKSU_E_INVALID_PARAMETER if it is not UTF-8 (RFC 3629), or
 * NEWAKSU_E_INSUFFICIENT_MEMORY; part of it may then be there. */
uint32_t append_utf16(newaksu_bytes *bytes, const uint8_t *text, size_t length);

#endif
