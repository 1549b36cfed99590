/* Reads a TSRequest. */
#include <newaksu.h>
#include <stdio.h>

int main(void) {
    /* what a client sends first: version 6 and the token "N1" */
    static const uint8_t message[] =
        "\x30\x11\xa0\x03\x02\x01\x06\xa1\x0a\x30\x08\x30\x06\xa0\x04\x04\x02N1";
    newaksu_handle request = NEWAKSU_EMPTY;
    uint8_t token[64];
    uint32_t version = 0;
    size_t length = 0;
    if (newaksu_request_decode(&request, message, sizeof message - 1) != NEWAKSU_OK)
        return 1;
    newaksu_request_version(&request, &version);
    newaksu_request_field(&request, NEWAKSU_NEGO_TOKENS, token, sizeof token, &length);
    printf("version %u, a token of %zu bytes\n", (unsigned)version, length);
    return newaksu_release(&request) == NEWAKSU_OK ? 0 : 1;
}
