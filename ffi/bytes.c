/* Octets of a host, and texts among them. */
#include "bytes.h"

#include <stdlib.h>
#include <string.h>

void wipe(void *at, size_t length) {
    if (length != 0)
        memset(at, 0, length);
    __asm__ __volatile__("" : : "r"(at) : "memory");
}

void bytes_release(newaksu_bytes *bytes) {
    if (bytes->at != NULL)
        wipe(bytes->at, bytes->capacity);
    free(bytes->at);
    *bytes = (newaksu_bytes){0};
}

/* Room for that many more bytes. Not with realloc, which would leave a copy behind. */
uint32_t bytes_reserve(newaksu_bytes *bytes, size_t more) {
    size_t capacity = bytes->capacity < 64 ? 64 : bytes->capacity;
    uint8_t *moved;
    if (more <= bytes->capacity - bytes->length)
        return NEWAKSU_OK;
    while (capacity - bytes->length < more)
        if (capacity > SIZE_MAX / 2)
            return NEWAKSU_E_INSUFFICIENT_MEMORY;
        else
            capacity *= 2;
    moved = malloc(capacity);
    if (moved == NULL)
        return NEWAKSU_E_INSUFFICIENT_MEMORY;
    if (bytes->at != NULL) {
        memcpy(moved, bytes->at, bytes->length);
        wipe(bytes->at, bytes->capacity);
        free(bytes->at);
    }
    bytes->at = moved;
    bytes->capacity = capacity;
    return NEWAKSU_OK;
}

uint32_t newaksu_bytes_append(newaksu_bytes *bytes, const void *data, size_t length) {
    uint32_t status = bytes_reserve(bytes, length);
    if (status != NEWAKSU_OK) {
        bytes->failed = 1;
        return status;
    }
    if (length != 0)
        memcpy(bytes->at + bytes->length, data, length);
    bytes->length += length;
    return NEWAKSU_OK;
}

/* The code point that the text begins with, and how many bytes it takes; 0 bytes if there is none.
 */
static size_t next_code_point(const uint8_t *text, size_t length, uint32_t *point) {
    static const uint32_t least[] = {0, 0x80, 0x800, 0x10000};
    size_t more = text[0] < 0x80   ? 0
                  : text[0] < 0xc2 ? length
                  : text[0] < 0xe0 ? 1
                  : text[0] < 0xf0 ? 2
                  : text[0] < 0xf5 ? 3
                                   : length;
    if (more >= length)
        return 0;
    *point = more == 0 ? text[0] : text[0] & (0x3fu >> more);
    for (size_t i = 1; i <= more; i++) {
        if ((text[i] & 0xc0) != 0x80)
            return 0;
        *point = *point << 6 | (text[i] & 0x3fu);
    }
    if (*point < least[more] || *point > 0x10ffff || (*point >= 0xd800 && *point < 0xe000))
        return 0;
    return more + 1;
}

static void append_unit(newaksu_bytes *bytes, uint32_t unit) {
    uint8_t two[2] = {(uint8_t)unit, (uint8_t)(unit >> 8)};
    newaksu_bytes_append(bytes, two, sizeof two);
}

uint32_t append_utf16(newaksu_bytes *bytes, const uint8_t *text, size_t length) {
    size_t at = 0;
    while (at < length) {
        uint32_t point = 0;
        size_t taken = next_code_point(text + at, length - at, &point);
        if (taken == 0)
            return NEWAKSU_E_INVALID_PARAMETER;
        if (point >= 0x10000) {
            append_unit(bytes, 0xd800 + ((point - 0x10000) >> 10));
            append_unit(bytes, 0xdc00 + ((point - 0x10000) & 0x3ff));
        } else {
            append_unit(bytes, point);
        }
        at += taken;
    }
    return bytes->failed ? NEWAKSU_E_INSUFFICIENT_MEMORY : NEWAKSU_OK;
}
