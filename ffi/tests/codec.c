/* The codec: requests, credentials, the early result and the tokens of SPNEGO, with vectors encoded
 * by hand or by other implementations, and buffers of every size. */
#include <stdlib.h>
#include <string.h>

#include "check.h"
#include "newaksu.h"

#define BYTES_16 "000102030405060708090a0b0c0d0e0f"

static const uint8_t empty[1];

/* A call that writes bytes, at every capacity: nothing is written if they do not fit, and never
 * anything after them. */
#define CHECK_WRITES(call, digits)                                                         \
    do {                                                                                   \
        uint8_t wanted[4096], out[4096 + 1];                                               \
        size_t size = from_hex(digits, wanted, sizeof wanted), written;                    \
        for (size_t capacity = 0; capacity <= size + 1; capacity++) {                      \
            memset(out, 0xc9, sizeof out);                                                 \
            written = 12345;                                                               \
            CHECK_STATUS(call, capacity < size ? NEWAKSU_E_BUFFER_TOO_SMALL : NEWAKSU_OK); \
            CHECK(written == size && out[capacity < size ? 0 : size] == 0xc9);             \
            if (capacity >= size)                                                          \
                CHECK_BYTES(out, written, digits);                                         \
        }                                                                                  \
    } while (0)

static size_t bytes_of(const char *digits, uint8_t **bytes) {
    static uint8_t all[1 << 12];
    size_t length = from_hex(digits, all, sizeof all);
    /* a block of its own, so that a read past it is detected */
    *bytes = malloc(length == 0 ? 1 : length);
    CHECK(*bytes != NULL);
    memcpy(*bytes, all, length);
    return length;
}

static uint32_t decode(newaksu_handle *request, const char *digits) {
    uint8_t *bytes;
    size_t length = bytes_of(digits, &bytes);
    uint32_t status = newaksu_request_decode(request, bytes, length);
    free(bytes);
    return status;
}

static void check_field(newaksu_handle *request, uint32_t field, const char *digits) {
    uint8_t out[4];
    size_t written = 7;
    if (digits != NULL) {
        CHECK_WRITES(newaksu_request_field(request, field, out, capacity, &written), digits);
        return;
    }
    CHECK_STATUS(newaksu_request_field(request, field, out, sizeof out, &written), NEWAKSU_ABSENT);
    CHECK(written == 0);
}

struct vector {
    const char *bytes;
    uint32_t version;
    const char *token, *auth, *key, *code, *nonce;
};

static const struct vector vectors[] = {
    /* a client's first request, and the forms of a length */
    {"3005 a003020106", 6, NULL, NULL, NULL, NULL, NULL},
    {"300f a003020102 a108 3006 3004 a002 0400", 2, "", NULL, NULL, NULL, NULL},
    {"3011 a003020106 a10a 3008 3006 a004 0402 4e31", 6, "4e31", NULL, NULL, NULL, NULL},
    {"300d a003020106 a406 0204 c0070308", 6, NULL, NULL, NULL, "c0070308", NULL},
    /* from the tests of another implementation: version 6, a sealed proof, the code of a failed
       logon, a nonce */
    {"3065 a003020106 a332 0430 "
     "01000000d8b30c7e37512184000000006c47c8e302599219d199dfbd0ff571613adf7403effca52316233755ff912"
     "0d8"
     "a406 0204 c00700ea a522 0420 "
     "f88dd4b7559a94e5e87f2b2f94c23858a984fc07697df85776c957a31512eb32",
     6, NULL, NULL,
     "01000000d8b30c7e37512184000000006c47c8e302599219d199dfbd0ff571613adf7403effca52316233755ff912"
     "0d8",
     "c00700ea", "f88dd4b7559a94e5e87f2b2f94c23858a984fc07697df85776c957a31512eb32"},
    /* version 3 has a code and no nonce */
    {"301f a003020103 a212 0410" BYTES_16 "a404 0202 0102", 3, NULL, BYTES_16, NULL, "00000102",
     NULL},
};

static void check_request(newaksu_handle *request, const struct vector *vector) {
    uint32_t version = 99, code = 99;
    uint8_t wanted[4];
    CHECK_STATUS(newaksu_request_version(request, &version), NEWAKSU_OK);
    CHECK(version == vector->version);
    check_field(request, NEWAKSU_NEGO_TOKENS, vector->token);
    check_field(request, NEWAKSU_AUTH_INFO, vector->auth);
    check_field(request, NEWAKSU_PUB_KEY_AUTH, vector->key);
    check_field(request, NEWAKSU_CLIENT_NONCE, vector->nonce);
    if (vector->code == NULL) {
        CHECK_STATUS(newaksu_request_error_code(request, &code), NEWAKSU_ABSENT);
        CHECK(code == 99);
    } else {
        from_hex(vector->code, wanted, sizeof wanted);
        CHECK_STATUS(newaksu_request_error_code(request, &code), NEWAKSU_OK);
        CHECK(code == ((uint32_t)wanted[0] << 24 | (uint32_t)wanted[1] << 16 |
                       (uint32_t)wanted[2] << 8 | wanted[3]));
    }
}

static void set_field(newaksu_handle *request, uint32_t field, const char *digits) {
    uint8_t *bytes;
    size_t length;
    if (digits == NULL)
        return;
    length = bytes_of(digits, &bytes);
    CHECK_STATUS(newaksu_request_set_field(request, field, bytes, length), NEWAKSU_OK);
    free(bytes);
}

/* The same request, from its fields. */
static void build(newaksu_handle *request, const struct vector *vector) {
    uint8_t code[4];
    CHECK_STATUS(newaksu_request_new(request, 99), NEWAKSU_OK);
    CHECK_STATUS(newaksu_request_set_version(request, vector->version), NEWAKSU_OK);
    set_field(request, NEWAKSU_NEGO_TOKENS, vector->token);
    set_field(request, NEWAKSU_AUTH_INFO, vector->auth);
    set_field(request, NEWAKSU_PUB_KEY_AUTH, vector->key);
    set_field(request, NEWAKSU_CLIENT_NONCE, vector->nonce);
    if (vector->code == NULL)
        return;
    from_hex(vector->code, code, sizeof code);
    CHECK_STATUS(newaksu_request_set_error_code(request, (uint32_t)code[0] << 24 |
                                                             (uint32_t)code[1] << 16 |
                                                             (uint32_t)code[2] << 8 | code[3]),
                 NEWAKSU_OK);
}

static void requests_are_read_and_written(void) {
    newaksu_handle request = NEWAKSU_EMPTY;
    for (size_t i = 0; i < sizeof vectors / sizeof *vectors; i++) {
        CHECK_STATUS(decode(&request, vectors[i].bytes), NEWAKSU_OK);
        check_request(&request, &vectors[i]);
        CHECK_WRITES(newaksu_request_encode(&request, out, capacity, &written), vectors[i].bytes);
        build(&request, &vectors[i]);
        check_request(&request, &vectors[i]);
        CHECK_WRITES(newaksu_request_encode(&request, out, capacity, &written), vectors[i].bytes);
    }
    CHECK_STATUS(newaksu_release(&request), NEWAKSU_OK);
}

/* Longer forms of a length are read, and the shortest is written. */
static void forms_of_a_length(void) {
    static const char *const forms[] = {"8105", "820005", "83000005"};
    newaksu_handle request = NEWAKSU_EMPTY;
    for (size_t i = 0; i < sizeof forms / sizeof *forms; i++) {
        char digits[64] = "30";
        strcat(strcat(digits, forms[i]), "a003020106");
        CHECK_STATUS(decode(&request, digits), NEWAKSU_OK);
        CHECK_WRITES(newaksu_request_encode(&request, out, capacity, &written), vectors[0].bytes);
    }
    CHECK_STATUS(newaksu_release(&request), NEWAKSU_OK);
}

/* A code is not written below version 3 and at version 5, nor a nonce below version 5. */
static void what_a_version_leaves_out(void) {
    static const char *const written_at[] = {"3005 a003020102",
                                             "300d a003020103 a406 0204 c0070308",
                                             "300d a003020104 a406 0204 c0070308"};
    newaksu_handle request = NEWAKSU_EMPTY;
    uint8_t nonce[32] = {0};
    CHECK_STATUS(newaksu_request_new(&request, 2), NEWAKSU_OK);
    CHECK_STATUS(newaksu_request_set_error_code(&request, 0xc0070308), NEWAKSU_OK);
    CHECK_STATUS(newaksu_request_set_field(&request, NEWAKSU_CLIENT_NONCE, nonce, sizeof nonce),
                 NEWAKSU_OK);
    for (uint32_t version = 2; version <= 4; version++) {
        CHECK_STATUS(newaksu_request_set_version(&request, version), NEWAKSU_OK);
        CHECK_WRITES(newaksu_request_encode(&request, out, capacity, &written),
                     written_at[version - 2]);
    }
    CHECK_STATUS(newaksu_request_set_version(&request, 5), NEWAKSU_OK);
    CHECK_WRITES(newaksu_request_encode(&request, out, capacity, &written),
                 "3029 a003020105 a522 0420 "
                 "0000000000000000000000000000000000000000000000000000000000000000");
    CHECK_STATUS(newaksu_request_clear_field(&request, NEWAKSU_CLIENT_NONCE), NEWAKSU_OK);
    CHECK_STATUS(newaksu_request_clear_field(&request, NEWAKSU_ERROR_CODE), NEWAKSU_OK);
    CHECK_WRITES(newaksu_request_encode(&request, out, capacity, &written), "3005 a003020105");
    CHECK_STATUS(newaksu_release(&request), NEWAKSU_OK);
}

/* Faults, the first of each kind in the grammar; the handle keeps what it had. */
static void faults(void) {
    static const char *const ends[] = {"",
                                       "31",
                                       "30",
                                       "3080",
                                       "308400000001",
                                       "308310000100",
                                       "3003 a003",
                                       "300f a003020102 a108 3006 3004 a002 04",
                                       "3008 a003020106 a28a"};
    static const char *const invalid[] = {"3007 a003020106 a28a",
                                          "300f a003020102 a108 3006 3004 a002 0500", "3003 a10100",
                                          "3005 a003040106"};
    newaksu_handle request = NEWAKSU_EMPTY;
    CHECK_STATUS(decode(&request, vectors[2].bytes), NEWAKSU_OK);
    for (size_t i = 0; i < sizeof ends / sizeof *ends; i++)
        CHECK_STATUS(decode(&request, ends[i]), NEWAKSU_UNEXPECTED_EOF);
    for (size_t i = 0; i < sizeof invalid / sizeof *invalid; i++)
        CHECK_STATUS(decode(&request, invalid[i]), NEWAKSU_INVALID_DATA);
    check_request(&request, &vectors[2]);
    CHECK_STATUS(newaksu_release(&request), NEWAKSU_OK);
}

static void check_size(const char *digits, uint32_t status, size_t wanted) {
    uint8_t *bytes;
    size_t length = bytes_of(digits, &bytes), size = 77;
    CHECK_STATUS(newaksu_request_size(bytes, length, &size), status);
    CHECK(size == wanted);
    free(bytes);
}

static void sizes(void) {
    check_size("3011", NEWAKSU_OK, 19);
    check_size("308192", NEWAKSU_OK, 149);
    check_size("8105", NEWAKSU_UNEXPECTED_EOF, 77);
    check_size("3083100000", NEWAKSU_OK, 1048581);
    check_size("3083100001", NEWAKSU_UNEXPECTED_EOF, 77);
    check_size("30831000", NEWAKSU_UNEXPECTED_EOF, 77);
    check_size("3084", NEWAKSU_UNEXPECTED_EOF, 77);
    check_size("", NEWAKSU_UNEXPECTED_EOF, 77);
}

static uint32_t read_pieces(newaksu_handle *reader, const char *digits, size_t size) {
    uint8_t *bytes;
    size_t length = bytes_of(digits, &bytes);
    uint32_t status;
    CHECK_STATUS(newaksu_reader_new(reader), NEWAKSU_OK);
    for (size_t at = 0; at < length; at += size)
        CHECK_STATUS(
            newaksu_reader_feed(reader, bytes + at, length - at < size ? length - at : size),
            NEWAKSU_OK);
    CHECK_STATUS(newaksu_reader_feed(reader, empty, 0), NEWAKSU_OK);
    status = newaksu_reader_finish(reader);
    free(bytes);
    return status;
}

static void requests_in_pieces(void) {
    newaksu_handle reader = NEWAKSU_EMPTY;
    for (size_t i = 0; i < sizeof vectors / sizeof *vectors; i++)
        for (size_t size = 1; size <= 9; size++) {
            CHECK_STATUS(read_pieces(&reader, vectors[i].bytes, size), NEWAKSU_OK);
            check_request(&reader, &vectors[i]);
        }
    CHECK_STATUS(read_pieces(&reader, "3007 a003020106 a28a", 1), NEWAKSU_INVALID_DATA);
    CHECK_STATUS(newaksu_reader_finish(&reader), NEWAKSU_UNEXPECTED_EOF);
    CHECK_STATUS(read_pieces(&reader, "3008 a003020106 a28a", 1), NEWAKSU_UNEXPECTED_EOF);
    CHECK_STATUS(read_pieces(&reader, "", 1), NEWAKSU_UNEXPECTED_EOF);
    CHECK_STATUS(newaksu_release(&reader), NEWAKSU_OK);
}

/* Content of 1048576 bytes is written and read; with one more it is neither. */
static void the_longest_request(void) {
    const size_t most = 1048576 - 5 - 5 - 5;
    uint8_t *octets = calloc(most + 1, 1), *out = malloc(1048581);
    newaksu_handle request = NEWAKSU_EMPTY;
    size_t written = 0;
    CHECK(octets != NULL && out != NULL);
    CHECK_STATUS(newaksu_request_new(&request, 6), NEWAKSU_OK);
    CHECK_STATUS(newaksu_request_set_field(&request, NEWAKSU_AUTH_INFO, octets, most), NEWAKSU_OK);
    CHECK_STATUS(newaksu_request_encode(&request, out, 1048581, &written), NEWAKSU_OK);
    CHECK(written == 1048581);
    CHECK_BYTES(out, 25, "3083100000 a003020106 a2830ffff6 04830ffff1 0000000000");
    CHECK_STATUS(newaksu_request_decode(&request, out, written), NEWAKSU_OK);
    CHECK_STATUS(newaksu_request_field(&request, NEWAKSU_AUTH_INFO, out, 0, &written),
                 NEWAKSU_E_BUFFER_TOO_SMALL);
    CHECK(written == most);
    CHECK_STATUS(newaksu_request_set_field(&request, NEWAKSU_AUTH_INFO, octets, most + 1),
                 NEWAKSU_OK);
    CHECK_STATUS(newaksu_request_encode(&request, out, 1048581, &written), NEWAKSU_INVALID_DATA);
    CHECK(written == 0);
    CHECK_STATUS(newaksu_release(&request), NEWAKSU_OK);
    free(octets);
    free(out);
}

/* The user `a`, and the example of MS-CSSP 2.2.1.2 encoded by hand. */
static void credentials(void) {
    static const char *const user_a =
        "3019 a003020101 a112 0410 300e a002 0400 a104 0402 6100 a202 0400";
    static const char *const whole = "3027 a003020101 a120 041e 301c a008 0406 44004f004d00 a108 "
                                     "0406 61006e006e00 a206 0404 70007700";
    newaksu_handle held = NEWAKSU_EMPTY;
    uint8_t *bytes;
    size_t length = bytes_of(whole, &bytes);
    CHECK_STATUS(newaksu_credentials_decode(&held, bytes, length), NEWAKSU_OK);
    free(bytes);
    CHECK_WRITES(newaksu_credentials_text(&held, NEWAKSU_DOMAIN, out, capacity, &written),
                 "44004f004d00");
    CHECK_WRITES(newaksu_credentials_text(&held, NEWAKSU_USER, out, capacity, &written),
                 "61006e006e00");
    CHECK_WRITES(newaksu_credentials_text(&held, NEWAKSU_PASSWORD, out, capacity, &written),
                 "70007700");
    CHECK_WRITES(newaksu_credentials_encode(&held, out, capacity, &written), whole);
    CHECK_STATUS(newaksu_credentials_new(&held, empty, 0, (const uint8_t *)"a\0", 2, empty, 0),
                 NEWAKSU_OK);
    CHECK_WRITES(newaksu_credentials_encode(&held, out, capacity, &written), user_a);
    CHECK_STATUS(newaksu_credentials_new(&held, empty, 0, (const uint8_t *)"a", 1, empty, 0),
                 NEWAKSU_E_INVALID_PARAMETER);
    CHECK_STATUS(newaksu_credentials_new(&held, empty, 0, (const uint8_t *)"\x00\xd8", 2, empty, 0),
                 NEWAKSU_E_INVALID_PARAMETER);
    CHECK_WRITES(newaksu_credentials_encode(&held, out, capacity, &written), user_a);
    CHECK_STATUS(newaksu_release(&held), NEWAKSU_OK);
}

/* Each refusal of credentials. */
static void credentials_that_are_none(void) {
    static const struct {
        const char *bytes;
        uint32_t status;
    } cases[] = {{"", NEWAKSU_E_INVALID_TOKEN},
                 {"3019 a003020102 a112 0410 300e a002 0400 a104 0402 6100 a202 0400",
                  NEWAKSU_E_UNSUPPORTED_FUNCTION},
                 {"3019 a003020103 a112 0410 300e a002 0400 a104 0402 6100 a202 0400",
                  NEWAKSU_E_INVALID_TOKEN},
                 {"3018 a003020101 a111 040f 300d a002 0400 a103 0401 61 a202 0400",
                  NEWAKSU_E_INVALID_PARAMETER},
                 {"3019 a003020101 a112 0410 300e a002 0400 a104 0402 00d8 a202 0400",
                  NEWAKSU_E_INVALID_PARAMETER}};
    newaksu_handle held = NEWAKSU_EMPTY;
    for (size_t i = 0; i < sizeof cases / sizeof *cases; i++) {
        uint8_t *bytes;
        size_t length = bytes_of(cases[i].bytes, &bytes);
        CHECK_STATUS(newaksu_credentials_decode(&held, bytes, length), cases[i].status);
        CHECK(held.at == NULL);
        free(bytes);
    }
}

static void early_results(void) {
    uint32_t result = 9;
    CHECK_WRITES(newaksu_early_encode(NEWAKSU_EARLY_SUCCESS, out, capacity, &written), "00000000");
    CHECK_WRITES(newaksu_early_encode(NEWAKSU_EARLY_ACCESS_DENIED, out, capacity, &written),
                 "05000000");
    CHECK_STATUS(newaksu_early_decode((const uint8_t *)"\5\0\0\1", 4, &result),
                 NEWAKSU_INVALID_DATA);
    CHECK_STATUS(newaksu_early_decode((const uint8_t *)"\5\0\0", 3, &result),
                 NEWAKSU_UNEXPECTED_EOF);
    CHECK(result == 9);
    CHECK_STATUS(newaksu_early_decode((const uint8_t *)"\5\0\0\0", 4, &result), NEWAKSU_OK);
    CHECK(result == NEWAKSU_EARLY_ACCESS_DENIED);
    CHECK_STATUS(newaksu_early_decode((const uint8_t *)"\0\0\0\0and more", 12, &result),
                 NEWAKSU_OK);
    CHECK(result == NEWAKSU_EARLY_SUCCESS);
}

static void names_and_the_version(void) {
    uint8_t out[64];
    size_t written = 0;
    CHECK(newaksu_version() == NEWAKSU_VERSION_NUMBER && newaksu_version() == 0x000100);
    CHECK_STATUS(newaksu_error_name(NEWAKSU_E_LOGON_DENIED, out, sizeof out, &written), NEWAKSU_OK);
    CHECK(written == 11 && memcmp(out, "LogonDenied", 11) == 0);
    CHECK_STATUS(newaksu_error_name(7, out, sizeof out, &written), NEWAKSU_E_INVALID_PARAMETER);
    CHECK_STATUS(newaksu_nstatus_name(0xc000006d, out, sizeof out, &written), NEWAKSU_OK);
    CHECK(written == 20 && memcmp(out, "STATUS_LOGON_FAILURE", 20) == 0);
    CHECK_STATUS(newaksu_nstatus_name(0xc7654321, out, sizeof out, &written), NEWAKSU_ABSENT);
}

int main(void) {
    requests_are_read_and_written();
    forms_of_a_length();
    what_a_version_leaves_out();
    faults();
    sizes();
    requests_in_pieces();
    the_longest_request();
    credentials();
    credentials_that_are_none();
    early_results();
    names_and_the_version();
    return checks_done("codec");
}
