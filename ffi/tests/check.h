/* What the tests check with: a check that fails says where and ends the program. */
#ifndef CHECK_H
#define CHECK_H

#include <stddef.h>
#include <stdint.h>

#define CHECK(holds) check((holds) ? 1 : 0, #holds, __FILE__, __LINE__)
#define CHECK_STATUS(call, status) check_status((call), (status), #call, __FILE__, __LINE__)
#define CHECK_BYTES(at, length, digits) check_bytes((at), (length), (digits), __FILE__, __LINE__)

void check(int holds, const char *what, const char *file, int line);
void check_status(uint32_t given, uint32_t wanted, const char *what, const char *file, int line);

/* The bytes are those of the hex digits, which blanks may separate. */
void check_bytes(const void *at, size_t length, const char *digits, const char *file, int line);

/* Writes the bytes of the digits, and returns how many there are; there is room for `capacity`. */
size_t from_hex(const char *digits, uint8_t *bytes, size_t capacity);

/* Whether the bytes hold this text in UTF-16LE. */
int holds_utf16(const uint8_t *bytes, size_t length, const char *text);

/* Prints how many checks held, and returns the exit status. */
int checks_done(const char *program);

#endif
