/* Mutated requests, and what the archive's codec reads from them.
 *
 *     mutated inputs SEED COUNT    writes COUNT requests, a line of hex each
 *     mutated answers              reads such lines, and writes a line for each: version,
 * negoTokens, authInfo, pubKeyAuth, code, nonce and the shortest encoding of the request that it
 * begins with, or the fault
 *
 * The answers are those of `sspi_bench show COUNT`, line by line. */
#include <stdio.h>
#include <stdlib.h>
#include <string.h>

#include "check.h"
#include "newaksu.h"

#define LONGEST 4096

/* A request that is being changed: its content; a header is put in front of it later. */
struct text {
    uint8_t bytes[LONGEST];
    size_t length;
};

/* xorshift64* */
static uint64_t state;

static uint32_t draw(uint32_t below) {
    state ^= state >> 12;
    state ^= state << 25;
    state ^= state >> 27;
    return (uint32_t)((state * 0x2545f4914f6cdd1du) >> 33) % below;
}

/* The fields of a request in their order, by several versions. */
static const char *const versions[] = {"a003020102", "a003020103",       "a003020104", "a003020105",
                                       "a003020106", "a006020400000006", "a003020100"};
static const char *const tokens[] = {"a108 3006 3004 a002 0400", "a10a 3008 3006 a004 0402 4e31",
                                     "a114 3012 3006 a004 0402 4e31 3008 a006 0404 4e324e32"};
static const char *const infos[] = {"a202 0400", "a207 0405 0102030405",
                                    "a219 0417 3015a003020101a10e040c300aa0020400a1020400a202"};
static const char *const keys[] = {"a306 0404 deadbeef",
                                   "a312 0410 000102030405060708090a0b0c0d0e0f"};
static const char *const codes[] = {"a406 0204 c0070308", "a403 0201 00", "a404 0202 0102"};
static const char *const nonce =
    "a522 0420 f88dd4b7559a94e5e87f2b2f94c23858a984fc07697df85776c957a31512eb32";
static const uint8_t telling[] = {0x30, 0x02, 0x04, 0xa0, 0xa1, 0xa2, 0xa3, 0xa4, 0xa5,
                                  0x80, 0x81, 0x82, 0x83, 0x84, 0x00, 0x7f, 0xff};

#define PICK(list) (list)[draw(sizeof(list) / sizeof *(list))]

static void add(struct text *text, const char *digits) {
    text->length += from_hex(digits, text->bytes + text->length, LONGEST - text->length);
}

/* Each field is there or not, and now and then one occurs twice or in another place. */
static void build(struct text *text) {
    text->length = 0;
    if (draw(20) != 0)
        add(text, PICK(versions));
    for (int round = draw(30) == 0 ? 0 : 1; round < 2; round++) {
        if (draw(2))
            add(text, PICK(tokens));
        if (draw(2))
            add(text, PICK(infos));
        if (draw(2))
            add(text, PICK(keys));
        if (draw(2))
            add(text, PICK(codes));
        if (draw(2))
            add(text, nonce);
    }
}

/* Replaces the `taken` bytes at a place by `more` others. */
static void splice(struct text *text, size_t at, size_t taken, const uint8_t *put, size_t more) {
    memmove(text->bytes + at + more, text->bytes + at + taken, text->length - at - taken);
    memcpy(text->bytes + at, put, more);
    text->length += more - taken;
}

static void change(struct text *text) {
    uint8_t put[16];
    size_t at = draw((uint32_t)text->length + 1), left = text->length - at, some = draw(16);
    for (size_t i = 0; i < sizeof put; i++)
        put[i] = (uint8_t)(draw(3) == 0 ? PICK(telling) : draw(256));
    switch (draw(8)) {
    case 0:
        if (left != 0)
            text->bytes[at] ^= (uint8_t)(1u << draw(8));
        break;
    case 1:
        if (left != 0)
            text->bytes[at] = PICK(telling);
        break;
    case 2:
        if (left != 0)
            text->bytes[at] = (uint8_t)(text->bytes[at] + 1 - 2 * draw(2));
        break;
    case 3:
        splice(text, at, 0, put, some);
        break;
    case 4:
        splice(text, at, some < left ? some : left, put, 0);
        break;
    case 5:
        splice(text, at, some < left ? some : left, put, some);
        break;
    case 6:
        memcpy(put, text->bytes + at, some < left ? some : left);
        splice(text, at, 0, put, some);
        break;
    default:
        text->length = at;
    }
}

/* The header of the content, in one of the forms of a length. */
static void frame(struct text *text) {
    uint8_t header[5] = {0x30, (uint8_t)text->length};
    size_t octets = draw(4) == 0 ? draw(4) : text->length < 0x80 ? 0 : text->length < 0x100 ? 1 : 2;
    if (octets != 0) {
        header[1] = (uint8_t)(0x80 + octets);
        for (size_t i = 0; i < octets; i++)
            header[2 + i] = (uint8_t)(text->length >> 8 * (octets - 1 - i));
    }
    splice(text, 0, 0, header, 2 + octets);
}

static void put_hex(const uint8_t *bytes, size_t length) {
    for (size_t i = 0; i < length; i++)
        printf("%02x", bytes[i]);
}

static void write_inputs(uint32_t count) {
    static struct text text;
    for (uint32_t i = 0; i < count; i++) {
        build(&text);
        for (uint32_t changes = draw(4); changes != 0; changes--)
            change(&text);
        frame(&text);
        if (draw(4) == 0)
            change(&text);
        if (text.length == 0)
            text.bytes[text.length++] = 0x30;
        put_hex(text.bytes, text.length);
        putchar('\n');
    }
}

static void put_octets(uint32_t status, const uint8_t *bytes, size_t length) {
    if (status != NEWAKSU_OK) {
        printf(" -");
        return;
    }
    printf(" =");
    put_hex(bytes, length);
}

static void put_field(newaksu_handle *request, uint32_t field) {
    uint8_t octets[LONGEST];
    size_t written;
    uint32_t status = newaksu_request_field(request, field, octets, sizeof octets, &written);
    CHECK(status == NEWAKSU_OK || status == NEWAKSU_ABSENT);
    put_octets(status, octets, written);
}

static void put_request(newaksu_handle *request) {
    uint8_t octets[LONGEST];
    uint32_t version, code, status;
    size_t written;
    CHECK_STATUS(newaksu_request_version(request, &version), NEWAKSU_OK);
    printf("%lu", (unsigned long)version);
    put_field(request, NEWAKSU_NEGO_TOKENS);
    put_field(request, NEWAKSU_AUTH_INFO);
    put_field(request, NEWAKSU_PUB_KEY_AUTH);
    if (newaksu_request_error_code(request, &code) == NEWAKSU_OK)
        printf(" %lu", (unsigned long)code);
    else
        printf(" -");
    put_field(request, NEWAKSU_CLIENT_NONCE);
    status = newaksu_request_encode(request, octets, sizeof octets, &written);
    put_octets(status, octets, written);
}

/* The same bytes give the same in pieces as whole. */
static void check_pieces(newaksu_handle *whole, uint32_t status, const uint8_t *bytes,
                         size_t length) {
    newaksu_handle reader = NEWAKSU_EMPTY;
    uint8_t first[LONGEST], second[LONGEST];
    size_t written[2], size = 1 + draw(20);
    CHECK_STATUS(newaksu_reader_new(&reader), NEWAKSU_OK);
    for (size_t at = 0; at < length; at += size)
        CHECK_STATUS(
            newaksu_reader_feed(&reader, bytes + at, length - at < size ? length - at : size),
            NEWAKSU_OK);
    CHECK_STATUS(newaksu_reader_finish(&reader), status);
    if (status == NEWAKSU_OK) {
        CHECK_STATUS(newaksu_request_encode(whole, first, sizeof first, &written[0]), NEWAKSU_OK);
        CHECK_STATUS(newaksu_request_encode(&reader, second, sizeof second, &written[1]),
                     NEWAKSU_OK);
        CHECK(written[0] == written[1] && memcmp(first, second, written[0]) == 0);
    }
    CHECK_STATUS(newaksu_release(&reader), NEWAKSU_OK);
}

static void answer(const char *line) {
    static uint8_t all[LONGEST];
    size_t length = from_hex(line, all, sizeof all);
    uint8_t *bytes = malloc(length == 0 ? 1 : length);
    newaksu_handle request = NEWAKSU_EMPTY;
    uint32_t status;
    CHECK(bytes != NULL);
    memcpy(bytes, all, length);
    status = newaksu_request_decode(&request, bytes, length);
    if (status == NEWAKSU_OK)
        put_request(&request);
    else
        printf("%s", status == NEWAKSU_UNEXPECTED_EOF ? "UnexpectedEof"
                     : status == NEWAKSU_INVALID_DATA ? "InvalidData"
                                                      : "another");
    putchar('\n');
    check_pieces(&request, status, bytes, length);
    CHECK_STATUS(newaksu_release(&request),
                 status == NEWAKSU_OK ? NEWAKSU_OK : NEWAKSU_E_INVALID_HANDLE);
    free(bytes);
}

int main(int count, char **words) {
    static char line[2 * LONGEST + 2];
    state = count == 4 ? strtoull(words[2], NULL, 10) : 0;
    state = state * 0x9e3779b97f4a7c15u + 1;
    if (count == 4 && strcmp(words[1], "inputs") == 0) {
        write_inputs((uint32_t)strtoul(words[3], NULL, 10));
        return 0;
    }
    if (count != 2 || strcmp(words[1], "answers") != 0) {
        fprintf(stderr, "mutated inputs SEED COUNT, or mutated answers\n");
        return 2;
    }
    while (fgets(line, sizeof line, stdin) != NULL) {
        line[strcspn(line, "\n")] = 0;
        answer(line);
    }
    return 0;
}
