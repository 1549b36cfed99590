/* Any call with any arguments on any handle, a given number of times: each gets a status, writes no
 * more than its capacity, and leaves the handle unchanged if it was refused for it.
 *
 *     random [COUNT] */
#include <stdlib.h>
#include <string.h>

#include "check.h"
#include "newaksu.h"

#define HANDLES 6
#define ROOM 64
#define CALLS 300000ul

/* xorshift64* */
static uint64_t state = 0x9e3779b97f4a7c15u;

static uint32_t draw(uint32_t below) {
    state ^= state >> 12;
    state ^= state << 25;
    state ^= state >> 27;
    return (uint32_t)((state * 0x2545f4914f6cdd1du) >> 33) % below;
}

/* What calls are given: bytes in a block of their own. */
struct given {
    uint8_t *at;
    size_t length;
};

static const char *const texts[] = {
    "",
    "3011 a003020106 a10a 3008 3006 a004 0402 4e31",
    "3065 a003020106 a332 0430 "
    "01000000d8b30c7e37512184000000006c47c8e302599219d199dfbd0ff571613adf7403effca52316233755ff9120"
    "d8 a406 0204 c00700ea a522 0420 "
    "f88dd4b7559a94e5e87f2b2f94c23858a984fc07697df85776c957a31512eb32",
    "3027 a003020101 a120 041e 301c a008 0406 44004f004d00 a108 0406 61006e006e00 a206 0404 "
    "70007700",
    "6022 0606 2b0601050502 a018 3016 a00e 300c 060a 2b06010401823702020a a204 0402 4e31",
    "a122 3020 a003 0a0101 a10c 060a 2b06010401823702020a a204 0402 4e32 a305 0403 010000",
    "0e00 44004f004d005c0061006e006e00 00 4e33",
    "0000 01 4e32",
    "00 4e33",
    "01 4e31",
    "02 0c030980",
    "616e6e",
    "444f4d5c616e6e",
    "05000000",
    "0000000000000000000000000000000000000000000000000000000000000000",
};

static struct given give(void) {
    uint8_t bytes[256];
    struct given given;
    given.length = from_hex(texts[draw(sizeof texts / sizeof *texts)], bytes, sizeof bytes);
    for (uint32_t changes = draw(3) == 0 ? draw(4) : 0; changes != 0 && given.length != 0;
         changes--)
        bytes[draw((uint32_t)given.length)] = (uint8_t)draw(256);
    if (draw(8) == 0 && given.length != 0)
        given.length = draw((uint32_t)given.length);
    given.at = malloc(given.length == 0 ? 1 : given.length);
    CHECK(given.at != NULL);
    memcpy(given.at, bytes, given.length);
    return given;
}

/* Where a call writes. */
struct taken {
    uint8_t out[ROOM + 8];
    size_t capacity, written, size;
    uint32_t numbers[3];
    newaksu_acts acts;
};

static uint32_t make(newaksu_handle *h, newaksu_handle *other, const struct given *g, uint32_t n) {
    const newaksu_client_options client = {draw(3), draw(8), draw(7), draw(3)};
    const newaksu_server_options server = {draw(3), draw(8), draw(7), draw(3)};
    switch (draw(12)) {
    case 0:
        return newaksu_request_new(h, n);
    case 1:
        return newaksu_request_decode(h, g[0].at, g[0].length);
    case 2:
        return newaksu_reader_new(h);
    case 3:
        return newaksu_credentials_new(h, g[0].at, g[0].length, g[1].at, g[1].length, g[2].at,
                                       g[2].length);
    case 4:
        return newaksu_credentials_decode(h, g[0].at, g[0].length);
    case 5:
        return draw(2) ? newaksu_init_new(h) : newaksu_init_decode(h, g[0].at, g[0].length);
    case 6:
        return draw(2) ? newaksu_targ_new(h) : newaksu_targ_decode(h, g[0].at, g[0].length);
    case 7:
        return newaksu_identities_new(h);
    case 8:
    case 9:
        return newaksu_client_new(h, &client, g[0].at, g[0].length, g[1].at, g[1].length,
                                  (const uint8_t *)"0123456789abcdef0123456789abcdef",
                                  32 - draw(8) / 7, g[2].at, g[2].length, g[3].at, g[3].length);
    default:
        return newaksu_server_new(h, other, &server, g[0].at, g[0].length, g[1].at,
                                  draw(2) ? 0 : g[1].length);
    }
}

static uint32_t ask(newaksu_handle *h, const struct given *g, uint32_t n, struct taken *t) {
    uint8_t *out = t->out;
    switch (draw(20)) {
    case 0:
        return newaksu_request_encode(h, out, t->capacity, &t->written);
    case 1:
        return newaksu_request_field(h, n, out, t->capacity, &t->written);
    case 2:
        return newaksu_request_error_code(h, &t->numbers[0]);
    case 3:
        return newaksu_credentials_encode(h, out, t->capacity, &t->written);
    case 4:
        return newaksu_credentials_text(h, n, out, t->capacity, &t->written);
    case 5:
        return newaksu_init_encode(h, out, t->capacity, &t->written);
    case 6:
        return newaksu_init_mech(h, n, out, t->capacity, &t->written);
    case 7:
        return newaksu_init_mech_list(h, out, t->capacity, &t->written);
    case 8:
        return newaksu_init_token(h, out, t->capacity, &t->written);
    case 9:
        return newaksu_targ_encode(h, out, t->capacity, &t->written);
    case 10:
        return newaksu_targ_field(h, n, out, t->capacity, &t->written);
    case 11:
        return newaksu_targ_state(h, &t->numbers[0]);
    case 12:
        return newaksu_end_state(h, &t->numbers[0]);
    case 13:
        return newaksu_end_sealing(h, &t->numbers[0], out, t->capacity, &t->written);
    case 14:
        return newaksu_end_message(h, g[0].at, draw(2) ? g[0].length : 0, out, t->capacity,
                                   &t->written);
    case 15:
        return newaksu_end_acts(h, &t->acts);
    case 16:
        return newaksu_end_refusal(h, &t->numbers[0], &t->numbers[1], &t->numbers[2]);
    case 17:
        return newaksu_end_reason(h, out, t->capacity, &t->written);
    case 18:
        return newaksu_server_identity(h, n, out, t->capacity, &t->written);
    default:
        return newaksu_init_mech_count(h, &t->size);
    }
}

static uint32_t change(newaksu_handle *h, const struct given *g, uint32_t n) {
    switch (draw(16)) {
    case 0:
        return newaksu_request_set_field(h, n, g[0].at, g[0].length);
    case 1:
        return newaksu_request_clear_field(h, n);
    case 2:
        return newaksu_request_set_error_code(h, n);
    case 3:
        return newaksu_request_set_version(h, n);
    case 4:
    case 5:
        return newaksu_reader_feed(h, g[0].at, g[0].length);
    case 6:
        return newaksu_reader_finish(h);
    case 7:
        return newaksu_init_add_mech(h, g[0].at, g[0].length);
    case 8:
        return newaksu_init_set_token(h, g[0].at, g[0].length);
    case 9:
        return newaksu_targ_set_state(h, n);
    case 10:
        return newaksu_targ_set_field(h, n, g[0].at, g[0].length);
    case 11:
        return newaksu_identities_add(h, g[0].at, g[0].length, g[1].at, g[1].length);
    case 12:
        return newaksu_release(h);
    case 13:
        return newaksu_client_process(h, g[0].at, draw(2) ? g[0].length : 0, g[1].at, g[1].length,
                                      draw(2) ? 0 : n, g[2].at, draw(2) ? g[2].length : 0);
    default:
        return newaksu_server_process(h, g[0].at, g[0].length, g[1].at, g[1].length,
                                      draw(2) ? 0 : n, g[2].at, draw(2) ? g[2].length : 0);
    }
}

static int is_status(uint32_t status) {
    return status <= NEWAKSU_ABSENT || (status >= 0x80090300u && status <= 0x80090400u);
}

static void check_taken(uint32_t status, const struct taken *taken) {
    uint8_t untouched[sizeof taken->out];
    memset(untouched, 0xc9, sizeof untouched);
    CHECK(memcmp(taken->out + taken->capacity, untouched, sizeof untouched - taken->capacity) == 0);
    if (status == NEWAKSU_OK && taken->written != 0xc9c9)
        CHECK(taken->written <= taken->capacity);
    if (status == NEWAKSU_E_BUFFER_TOO_SMALL)
        CHECK(taken->written > taken->capacity);
    if (status != NEWAKSU_OK)
        CHECK(taken->capacity == 0 || taken->out[0] == 0xc9);
}

int main(int count, char **words) {
    static newaksu_handle handles[HANDLES];
    unsigned long calls = count > 1 ? strtoul(words[1], NULL, 10) : CALLS, done = 0;
    for (unsigned long i = 0; i < calls; i++) {
        struct given given[4];
        struct taken taken;
        newaksu_handle *handle = &handles[draw(HANDLES)], *other = &handles[draw(HANDLES)];
        void *at = handle->at;
        uint32_t status, kind = draw(4), n = draw(10) == 0 ? draw(0x7fffffff) : draw(7);
        memset(&taken, 0xc9, sizeof taken);
        taken.capacity = draw(ROOM + 1);
        taken.written = 0xc9c9;
        for (int j = 0; j < 4; j++)
            given[j] = give();
        /* no handle is passed twice to one call */
        if (other == handle)
            other = &handles[(handle - handles + 1) % HANDLES];
        status = kind == 0   ? make(handle, other, given, n)
                 : kind == 1 ? ask(handle, given, n, &taken)
                             : change(handle, given, n);
        CHECK(is_status(status));
        CHECK(status != NEWAKSU_E_INVALID_HANDLE || handle->at == at);
        check_taken(status, &taken);
        done += status == NEWAKSU_OK;
        for (int j = 0; j < 4; j++)
            free(given[j].at);
    }
    for (int i = 0; i < HANDLES; i++)
        (void)newaksu_release(&handles[i]);
    CHECK(done > calls / 10);
    return checks_done("random");
}
