/* Decodes or encodes the request in a line of hex many times, so that an instruction counter can
 * show what one costs.
 *
 *     cost decode|encode TIMES
 *
 * docs/PERFORMANCE.md says how it is measured. */
#include <stdio.h>
#include <stdlib.h>
#include <string.h>

#include "check.h"
#include "newaksu.h"

#define LONGEST 1048581

static uint8_t bytes[LONGEST], out[LONGEST];
static char line[2 * LONGEST + 2];

/* Inline, so that only the calls are counted. */
static inline void must(uint32_t status) {
    if (status != NEWAKSU_OK)
        exit(1);
}

static void decode(size_t length, unsigned long times) {
    newaksu_handle request = NEWAKSU_EMPTY;
    for (unsigned long i = 0; i < times; i++)
        must(newaksu_request_decode(&request, bytes, length));
    must(newaksu_release(&request));
}

static void encode(size_t length, unsigned long times) {
    newaksu_handle request = NEWAKSU_EMPTY;
    size_t written = 0;
    must(newaksu_request_decode(&request, bytes, length));
    for (unsigned long i = 0; i < times; i++)
        must(newaksu_request_encode(&request, out, sizeof out, &written));
    must(newaksu_release(&request));
}

int main(int count, char **words) {
    size_t length;
    if (count != 3 || fgets(line, sizeof line, stdin) == NULL) {
        fprintf(stderr, "cost decode|encode TIMES, and a line of hex\n");
        return 2;
    }
    line[strcspn(line, "\n")] = 0;
    length = from_hex(line, bytes, sizeof bytes);
    (strcmp(words[1], "decode") == 0 ? decode : encode)(length, strtoul(words[2], NULL, 10));
    return 0;
}
