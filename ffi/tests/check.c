/* The checks of the tests. */
#include "check.h"

#include <stdatomic.h>
#include <stdio.h>
#include <stdlib.h>
#include <string.h>

static atomic_ulong held;

void check(int holds, const char *what, const char *file, int line) {
    if (!holds) {
        fprintf(stderr, "%s:%d: not so: %s\n", file, line, what);
        exit(1);
    }
    atomic_fetch_add_explicit(&held, 1, memory_order_relaxed);
}

void check_status(uint32_t given, uint32_t wanted, const char *what, const char *file, int line) {
    if (given != wanted)
        fprintf(stderr, "%s:%d: %#x where %#x is wanted\n", file, line, (unsigned)given,
                (unsigned)wanted);
    check(given == wanted, what, file, line);
}

static int digit(char c) {
    return c >= '0' && c <= '9' ? c - '0' : c >= 'a' && c <= 'f' ? c - 'a' + 10 : -1;
}

size_t from_hex(const char *digits, uint8_t *bytes, size_t capacity) {
    size_t count = 0;
    while (*digits != 0) {
        if (*digits == ' ') {
            digits++;
            continue;
        }
        if (count == capacity || digit(digits[0]) < 0 || digit(digits[1]) < 0)
            check(0, digits, __FILE__, __LINE__);
        bytes[count++] = (uint8_t)(digit(digits[0]) << 4 | digit(digits[1]));
        digits += 2;
    }
    return count;
}

void check_bytes(const void *at, size_t length, const char *digits, const char *file, int line) {
    static _Thread_local uint8_t wanted[1 << 16];
    size_t count = from_hex(digits, wanted, sizeof wanted);
    if (count != length || (length != 0 && memcmp(at, wanted, length) != 0)) {
        for (size_t i = 0; i < length; i++)
            fprintf(stderr, "%02x", ((const uint8_t *)at)[i]);
        fputc('\n', stderr);
        check(0, digits, file, line);
    }
    check(1, digits, file, line);
}

int holds_utf16(const uint8_t *bytes, size_t length, const char *text) {
    size_t units = strlen(text);
    for (size_t at = 0; at + 2 * units <= length; at++) {
        size_t same = 0;
        while (same < units && bytes[at + 2 * same] == (uint8_t)text[same] &&
               bytes[at + 2 * same + 1] == 0)
            same++;
        if (same == units)
            return 1;
    }
    return 0;
}

int checks_done(const char *program) {
    printf("%s: %lu checks\n", program, atomic_load(&held));
    return 0;
}
