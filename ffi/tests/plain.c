/* The exchange of docs/WIRE.md, "An exchange by hand", over the plain mechanism: its five
 * messages byte by byte, and what each turn reports. */
#include <string.h>

#include "check.h"
#include "newaksu.h"

#define ZEROS_16 "00000000000000000000000000000000"
#define ZEROS_32 ZEROS_16 ZEROS_16

static const char *const messages[5] = {
    "3011 a003020106 a10a 3008 3006 a004 0402 4e31",
    "3019 a003020106 a112 3010 300e a00c 040a 4e32 0000000000000000",
    "308192 a003020106 a133 3031 302f a02d 042b 4e33 0700 444f4d5c616e6e"
    "34ddc90ba7ffb071634b466e4d8ecefc8e57189f71f0576ac2bb6e173cf15e3f"
    "a332 0430 507e00ce75d8eebf639da627511157b3 "
    "e1e0e7bbbd1efcbe459a5253b2f0839a676027203f86155c53b75ceb87f89c4c"
    "a522 0420" ZEROS_32,
    "305d a003020106 a332 0430 78cc8c57f30bd91a89321eab210cec4e"
    "b4f2c13c3a9badf1d36d23a85d33afc979a1ffec6a9fcc3e9b7026299ad0c77e a522 0420" ZEROS_32,
    "3066 a003020106 a23b 0439 a5410dbaf6a0ebe3683e10cab62877af 3027 a003020101 a120 041e"
    "301c a008 0406 44004f004d00 a108 0406 61006e006e00 a206 0404 70007700 a522 0420" ZEROS_32,
};

/* What a server's NTLM answers to the name and its proof: it must still be told who the peer may
 * be (SEC_I_COMPLETE_NEEDED). */
#define COMPLETE_NEEDED 0x00090313u

/* What each turn does. */
static const newaksu_acts acts[6] = {
    {.stepped = 1, .status = NEWAKSU_CONTINUE_NEEDED, .negotiated = 1},
    {.stepped = 1, .status = NEWAKSU_CONTINUE_NEEDED, .negotiated = 1},
    {.stepped = 1, .negotiated = 1, .proved = 1},
    {.stepped = 1, .status = COMPLETE_NEEDED, .negotiated = 1, .proved = 1, .checked = 1},
    {.checked = 1, .sealed = 1},
    {.opened = 1},
};

static const uint8_t empty[1];
static const uint8_t key[3] = {1, 2, 3};

static void make_client(newaksu_handle *client) {
    static const newaksu_client_options options = {NEWAKSU_PLAIN_NTLM, 6, 5,
                                                   NEWAKSU_WITH_CREDENTIALS};
    static const uint8_t nonce[32];
    CHECK_STATUS(newaksu_client_new(client, &options, key, sizeof key,
                                    (const uint8_t *)"TERMSRV/host", 12, nonce, sizeof nonce,
                                    (const uint8_t *)"DOM\\ann", 7, (const uint8_t *)"pw", 2),
                 NEWAKSU_OK);
}

static void make_server(newaksu_handle *server, const char *password) {
    static const newaksu_server_options options = {NEWAKSU_PLAIN_NTLM, 6, 5, NEWAKSU_PEERS_LISTED};
    static const uint8_t challenge[8];
    newaksu_handle known = NEWAKSU_EMPTY;
    CHECK_STATUS(newaksu_identities_new(&known), NEWAKSU_OK);
    CHECK_STATUS(newaksu_identities_add(&known, (const uint8_t *)"DOM\\ann", 7,
                                        (const uint8_t *)password, strlen(password)),
                 NEWAKSU_OK);
    CHECK_STATUS(
        newaksu_server_new(server, &known, &options, key, sizeof key, challenge, sizeof challenge),
        NEWAKSU_OK);
    CHECK_STATUS(newaksu_release(&known), NEWAKSU_OK);
}

static void check_acts(newaksu_handle *end, const newaksu_acts *wanted) {
    newaksu_acts given;
    CHECK_STATUS(newaksu_end_acts(end, &given), NEWAKSU_OK);
    CHECK(given.stepped == wanted->stepped && given.status == wanted->status &&
          given.negotiated == wanted->negotiated);
    CHECK(given.proved == wanted->proved && given.checked == wanted->checked);
    CHECK(given.sealed == wanted->sealed && given.opened == wanted->opened);
}

static uint32_t outcome_of(newaksu_handle *end) {
    uint32_t outcome = 99;
    CHECK_STATUS(newaksu_end_outcome(end, &outcome), NEWAKSU_OK);
    return outcome;
}

static uint32_t state_of(newaksu_handle *end) {
    uint32_t state = 99;
    CHECK_STATUS(newaksu_end_state(end, &state), NEWAKSU_OK);
    return state;
}

static size_t message_of(newaksu_handle *end, uint8_t *message, size_t capacity) {
    size_t written = 0;
    CHECK_STATUS(newaksu_end_message(end, empty, 0, message, capacity, &written), NEWAKSU_OK);
    return written;
}

static void check_identity(newaksu_handle *server, uint32_t which, const char *wanted) {
    uint8_t text[64];
    size_t written = 99;
    CHECK_STATUS(newaksu_server_identity(server, which, text, sizeof text, &written), NEWAKSU_OK);
    CHECK(written == strlen(wanted) && memcmp(text, wanted, written) == 0);
}

static void the_five_messages(void) {
    newaksu_handle ends[2] = {NEWAKSU_EMPTY, NEWAKSU_EMPTY};
    static const uint32_t states[6] = {0, 0, 2, 2, 3, 3};
    uint8_t message[512];
    size_t length = 0;
    make_client(&ends[0]);
    make_server(&ends[1], "pw");
    CHECK(outcome_of(&ends[0]) == NEWAKSU_OUTCOME_NONE &&
          outcome_of(&ends[1]) == NEWAKSU_OUTCOME_NONE);
    for (int i = 0; i < 6; i++) {
        newaksu_handle *end = &ends[i % 2];
        uint32_t status = i % 2 == 0
                              ? newaksu_client_process(end, message, length, empty, 0, 0, empty, 0)
                              : newaksu_server_process(end, message, length, empty, 0, 0, empty, 0);
        uint32_t field;
        size_t written;
        CHECK_STATUS(status, NEWAKSU_OK);
        check_acts(end, &acts[i]);
        CHECK(state_of(end) == states[i]);
        CHECK_STATUS(newaksu_end_sealing(end, &field, message, sizeof message, &written),
                     NEWAKSU_ABSENT);
        if (i == 5)
            break;
        CHECK(outcome_of(end) == (i == 4 ? NEWAKSU_OUTCOME_FINAL : NEWAKSU_OUTCOME_REPLY));
        length = message_of(end, message, sizeof message);
        CHECK_BYTES(message, length, messages[i]);
    }
    CHECK(outcome_of(&ends[1]) == NEWAKSU_OUTCOME_FINISHED);
    check_identity(&ends[1], NEWAKSU_IDENTITY_DOMAIN, "DOM");
    check_identity(&ends[1], NEWAKSU_IDENTITY_ACCOUNT, "ann");
    check_identity(&ends[1], NEWAKSU_IDENTITY_PASSWORD, "pw");
    check_identity(&ends[1], NEWAKSU_IDENTITY_NAME, "DOM\\ann");
    CHECK_STATUS(newaksu_release(&ends[0]), NEWAKSU_OK);
    CHECK_STATUS(newaksu_release(&ends[1]), NEWAKSU_OK);
}

/* Each number goes to the place passed for it, wherever that is, and to no other. */
static void check_refusal(newaksu_handle *end, uint32_t kind) {
    uint32_t places[7] = {9, 9, 9, 9, 9, 9, 9};
    CHECK_STATUS(newaksu_end_refusal(end, &places[5], &places[3], &places[1]), NEWAKSU_OK);
    CHECK(places[5] == kind && places[3] == 0 && places[1] == 0);
    CHECK(places[0] == 9 && places[2] == 9 && places[4] == 9 && places[6] == 9);
}

/* The first message repeated, and a server that knows another password (by hand: version 6 and the
 * code). */
static void refused(const char *password, int replays, uint32_t kind, const char *answer,
                    const char *reason) {
    newaksu_handle ends[2] = {NEWAKSU_EMPTY, NEWAKSU_EMPTY};
    uint8_t message[512], text[128];
    size_t length = 0, written = 0;
    uint32_t given = 0, has_nstatus = 9, nstatus = 9;
    make_client(&ends[0]);
    make_server(&ends[1], password);
    for (int i = 0; i < 3; i++) {
        CHECK_STATUS(i % 2 == 0
                         ? newaksu_client_process(&ends[0], message, length, empty, 0, 0, empty, 0)
                         : newaksu_server_process(&ends[1], message, length, empty, 0, 0, empty, 0),
                     NEWAKSU_OK);
        CHECK_STATUS(newaksu_end_refusal(&ends[i % 2], &given, &has_nstatus, &nstatus),
                     NEWAKSU_ABSENT);
        CHECK_STATUS(newaksu_end_reason(&ends[i % 2], text, sizeof text, &written), NEWAKSU_ABSENT);
        length = message_of(&ends[i % 2], message, sizeof message);
    }
    if (replays)
        length = from_hex(messages[0], message, sizeof message);
    CHECK_STATUS(newaksu_server_process(&ends[1], message, length, empty, 0, 0, empty, 0), kind);
    CHECK(outcome_of(&ends[1]) == NEWAKSU_OUTCOME_REFUSED &&
          state_of(&ends[1]) == NEWAKSU_STATE_NEGO_TOKEN);
    check_refusal(&ends[1], kind);
    CHECK_STATUS(newaksu_end_reason(&ends[1], text, sizeof text, &written), NEWAKSU_OK);
    CHECK(written == strlen(reason) && memcmp(text, reason, written) == 0);
    CHECK_STATUS(
        newaksu_server_identity(&ends[1], NEWAKSU_IDENTITY_NAME, text, sizeof text, &written),
        NEWAKSU_ABSENT);
    if (answer != NULL)
        CHECK_BYTES(message, message_of(&ends[1], message, sizeof message), answer);
    (void)newaksu_release(&ends[0]);
    (void)newaksu_release(&ends[1]);
}

int main(void) {
    the_five_messages();
    refused("pw", 1, NEWAKSU_E_INVALID_TOKEN, "300d a003020106 a406 0204 c0070308",
            "the token is malformed");
    refused("other", 0, NEWAKSU_E_LOGON_DENIED, NULL, "no candidate matches the proof");
    return checks_done("plain");
}
