/* Handles that are empty, released, or of another kind; invalid numbers; impossible settings. Each
 * gets a status, and nothing is written. */
#include <string.h>

#include "check.h"
#include "mechanism.h"
#include "newaksu.h"

#define KINDS 11
#define KIND(kind) (1u << NEWAKSU_KIND_##kind)
#define ENDS (KIND(CLIENT) | KIND(SERVER) | KIND(PLAIN_CLIENT) | KIND(PLAIN_SERVER))
#define SERVERS (KIND(SERVER) | KIND(PLAIN_SERVER))
#define CLIENTS (KIND(CLIENT) | KIND(PLAIN_CLIENT))

static const uint8_t empty[32];

/* Where a call may write. */
struct outputs {
    uint8_t bytes[64];
    size_t written;
    size_t size;
    uint32_t numbers[3];
    newaksu_acts acts;
};

/* Each call that uses an object, by the kinds that it takes. */
#define CALLS(X)                                                                               \
    X(KIND(REQUEST), newaksu_request_encode(h, o->bytes, 64, &o->written))                     \
    X(KIND(REQUEST), newaksu_request_version(h, &o->numbers[0]))                               \
    X(KIND(REQUEST), newaksu_request_set_version(h, 6))                                        \
    X(KIND(REQUEST), newaksu_request_field(h, NEWAKSU_AUTH_INFO, o->bytes, 64, &o->written))   \
    X(KIND(REQUEST), newaksu_request_set_field(h, NEWAKSU_AUTH_INFO, empty, 3))                \
    X(KIND(REQUEST), newaksu_request_clear_field(h, NEWAKSU_AUTH_INFO))                        \
    X(KIND(REQUEST), newaksu_request_error_code(h, &o->numbers[0]))                            \
    X(KIND(REQUEST), newaksu_request_set_error_code(h, 7))                                     \
    X(KIND(READER), newaksu_reader_feed(h, empty, 3))                                          \
    X(KIND(READER), newaksu_reader_finish(h))                                                  \
    X(KIND(CREDENTIALS), newaksu_credentials_encode(h, o->bytes, 64, &o->written))             \
    X(KIND(CREDENTIALS), newaksu_credentials_text(h, NEWAKSU_USER, o->bytes, 64, &o->written)) \
    X(KIND(INIT), newaksu_init_encode(h, o->bytes, 64, &o->written))                           \
    X(KIND(INIT), newaksu_init_mech_count(h, &o->size))                                        \
    X(KIND(INIT), newaksu_init_mech(h, 0, o->bytes, 64, &o->written))                          \
    X(KIND(INIT), newaksu_init_add_mech(h, empty, 3))                                          \
    X(KIND(INIT), newaksu_init_token(h, o->bytes, 64, &o->written))                            \
    X(KIND(INIT), newaksu_init_set_token(h, empty, 3))                                         \
    X(KIND(INIT), newaksu_init_mech_list(h, o->bytes, 64, &o->written))                        \
    X(KIND(TARG), newaksu_targ_encode(h, o->bytes, 64, &o->written))                           \
    X(KIND(TARG), newaksu_targ_state(h, &o->numbers[0]))                                       \
    X(KIND(TARG), newaksu_targ_set_state(h, 1))                                                \
    X(KIND(TARG), newaksu_targ_field(h, NEWAKSU_RESPONSE_TOKEN, o->bytes, 64, &o->written))    \
    X(KIND(TARG), newaksu_targ_set_field(h, NEWAKSU_RESPONSE_TOKEN, empty, 3))                 \
    X(KIND(IDENTITIES), newaksu_identities_add(h, (const uint8_t *)"ann", 3, empty, 0))        \
    X(CLIENTS, newaksu_client_process(h, empty, 0, empty, 0, 0, empty, 0))                     \
    X(SERVERS, newaksu_server_process(h, empty, 0, empty, 0, 0, empty, 0))                     \
    X(ENDS, newaksu_end_state(h, &o->numbers[0]))                                              \
    X(ENDS, newaksu_end_outcome(h, &o->numbers[0]))                                            \
    X(ENDS, newaksu_end_sealing(h, &o->numbers[0], o->bytes, 64, &o->written))                 \
    X(ENDS, newaksu_end_message(h, empty, 0, o->bytes, 64, &o->written))                       \
    X(ENDS, newaksu_end_acts(h, &o->acts))                                                     \
    X(ENDS, newaksu_end_refusal(h, &o->numbers[0], &o->numbers[1], &o->numbers[2]))            \
    X(ENDS, newaksu_end_reason(h, o->bytes, 64, &o->written))                                  \
    X(ENDS, newaksu_server_identity(h, NEWAKSU_IDENTITY_NAME, o->bytes, 64, &o->written))

#define COUNT(kinds, expression) +1
#define NUMBER_OF_CALLS (0 CALLS(COUNT))

static uint32_t kinds_of(int which) {
#define KINDS_OF(kinds, expression) kinds,
    static const uint32_t all[] = {CALLS(KINDS_OF)};
    return all[which];
}

static uint32_t call(int which, newaksu_handle *h, struct outputs *o) {
    int at = 0;
#define CALL(kinds, expression) \
    if (which == at++)          \
        return expression;
    CALLS(CALL)
    return 0;
}

static void new_end(newaksu_handle *handle, uint32_t kind) {
    static const newaksu_client_options client[2] = {{NEWAKSU_HOST, 6, 5, 0},
                                                     {NEWAKSU_PLAIN_NTLM, 6, 5, 0}};
    static const newaksu_server_options server[2] = {
        {NEWAKSU_HOST, 6, 5, NEWAKSU_PEERS_LISTED},
        {NEWAKSU_PLAIN_NTLM, 6, 5, NEWAKSU_PEERS_LISTED}};
    newaksu_handle known = NEWAKSU_EMPTY;
    int plain = kind == NEWAKSU_KIND_PLAIN_CLIENT || kind == NEWAKSU_KIND_PLAIN_SERVER;
    if (kind == NEWAKSU_KIND_CLIENT || kind == NEWAKSU_KIND_PLAIN_CLIENT) {
        CHECK_STATUS(newaksu_client_new(handle, &client[plain], empty, 3, empty, 0, empty, 32,
                                        (const uint8_t *)"ann", 3, empty, 0),
                     NEWAKSU_OK);
        return;
    }
    CHECK_STATUS(newaksu_identities_new(&known), NEWAKSU_OK);
    CHECK_STATUS(newaksu_server_new(handle, &known, &server[plain], empty, 3, empty, 8),
                 NEWAKSU_OK);
    CHECK_STATUS(newaksu_release(&known), NEWAKSU_OK);
}

/* Puts an object of this kind into the handle. */
static void make(newaksu_handle *handle, uint32_t kind) {
    uint32_t found = 99;
    switch (kind) {
    case NEWAKSU_KIND_EMPTY:
        (void)newaksu_release(handle);
        break;
    case NEWAKSU_KIND_REQUEST:
        CHECK_STATUS(newaksu_request_new(handle, 6), NEWAKSU_OK);
        break;
    case NEWAKSU_KIND_READER:
        CHECK_STATUS(newaksu_reader_new(handle), NEWAKSU_OK);
        break;
    case NEWAKSU_KIND_INIT:
        CHECK_STATUS(newaksu_init_new(handle), NEWAKSU_OK);
        break;
    case NEWAKSU_KIND_TARG:
        CHECK_STATUS(newaksu_targ_new(handle), NEWAKSU_OK);
        break;
    case NEWAKSU_KIND_CREDENTIALS:
        CHECK_STATUS(newaksu_credentials_new(handle, empty, 0, empty, 0, empty, 0), NEWAKSU_OK);
        break;
    case NEWAKSU_KIND_IDENTITIES:
        CHECK_STATUS(newaksu_identities_new(handle), NEWAKSU_OK);
        break;
    default:
        new_end(handle, kind);
    }
    CHECK_STATUS(newaksu_kind(handle, &found), NEWAKSU_OK);
    CHECK(found == kind && (handle->at == NULL) == (kind == NEWAKSU_KIND_EMPTY));
}

/* Nothing was written, except that `written` is 0 if the call has one. */
static void check_untouched(const struct outputs *outputs) {
    struct outputs before;
    memset(&before, 0xc9, sizeof before);
    CHECK(memcmp(outputs->bytes, before.bytes, sizeof before.bytes) == 0);
    CHECK(outputs->written == 0 || outputs->written == before.written);
    CHECK(outputs->size == before.size &&
          memcmp(outputs->numbers, before.numbers, sizeof before.numbers) == 0);
    CHECK(memcmp(&outputs->acts, &before.acts, sizeof before.acts) == 0);
}

static const char *name_of(int which) {
#define NAME_OF(kinds, expression) #expression,
    static const char *const all[] = {CALLS(NAME_OF)};
    return all[which];
}

static void check_invalid(int which, newaksu_handle *handle) {
    struct outputs outputs;
    void *at = handle->at;
    memset(&outputs, 0xc9, sizeof outputs);
    check_status(call(which, handle, &outputs), NEWAKSU_E_INVALID_HANDLE, name_of(which), __FILE__,
                 __LINE__);
    check_untouched(&outputs);
    CHECK(handle->at == at);
}

/* Every call with an object of every kind that it does not take, with none, and with a released
 * one. */
static void every_call_with_every_kind(void) {
    newaksu_handle handle = NEWAKSU_EMPTY;
    for (uint32_t kind = 0; kind < KINDS; kind++)
        for (int which = 0; which < NUMBER_OF_CALLS; which++) {
            struct outputs outputs;
            if ((kinds_of(which) & 1u << kind) == 0) {
                make(&handle, kind);
                check_invalid(which, &handle);
                continue;
            }
            make(&handle, kind);
            CHECK(call(which, &handle, &outputs) != NEWAKSU_E_INVALID_HANDLE);
            make(&handle, kind);
            CHECK_STATUS(newaksu_release(&handle), NEWAKSU_OK);
            check_invalid(which, &handle);
            CHECK_STATUS(newaksu_release(&handle), NEWAKSU_E_INVALID_HANDLE);
        }
    (void)newaksu_release(&handle);
}

/* CredSSP has versions 2 to 6; the least may be 0. */
static int is_version(uint32_t number) {
    return number >= 2 && number <= 6;
}

static void versions_of_an_end(void) {
    static const uint32_t numbers[] = {0, 1, 2, 3, 4, 5, 6, 7, 8, 258, UINT32_MAX};
    enum { COUNT = sizeof numbers / sizeof numbers[0] };
    newaksu_handle known = NEWAKSU_EMPTY;
    const uint8_t *ann = (const uint8_t *)"ann";
    make(&known, NEWAKSU_KIND_IDENTITIES);
    for (uint32_t mechanism = NEWAKSU_HOST; mechanism <= NEWAKSU_PLAIN_NTLM; mechanism++)
        for (int i = 0; i < COUNT * COUNT; i++) {
            uint32_t version = numbers[i / COUNT], least = numbers[i % COUNT];
            newaksu_client_options client = {mechanism, version, least, NEWAKSU_WITH_CREDENTIALS};
            newaksu_server_options server = {mechanism, version, least, NEWAKSU_PEERS_LISTED};
            newaksu_handle handle = NEWAKSU_EMPTY;
            int good = is_version(version) && (least == 0 || is_version(least));
            uint32_t status = good ? NEWAKSU_OK : NEWAKSU_E_INVALID_PARAMETER;
            CHECK_STATUS(
                newaksu_client_new(&handle, &client, empty, 0, empty, 0, empty, 32, ann, 3, ann, 3),
                status);
            CHECK((handle.at != NULL) == good);
            if (good)
                CHECK_STATUS(newaksu_release(&handle), NEWAKSU_OK);
            CHECK_STATUS(newaksu_server_new(&handle, &known, &server, empty, 0, empty, 8), status);
            CHECK((handle.at != NULL) == good);
            if (good)
                CHECK_STATUS(newaksu_release(&handle), NEWAKSU_OK);
        }
    CHECK_STATUS(newaksu_release(&known), NEWAKSU_OK);
}

/* If an object cannot be made, the handle keeps what it had. */
static void what_cannot_be_made(void) {
    newaksu_handle handle = NEWAKSU_EMPTY, known = NEWAKSU_EMPTY, nothing = NEWAKSU_EMPTY;
    newaksu_client_options client = {NEWAKSU_HOST, 6, 5, 0};
    newaksu_server_options server = {7, 6, 5, NEWAKSU_PEERS_LISTED};
    const uint8_t *ann = (const uint8_t *)"ann", *mixed = (const uint8_t *)"D\\a@b",
                  *bad = (const uint8_t *)"\xff";
    void *at;
    make(&handle, NEWAKSU_KIND_REQUEST);
    make(&known, NEWAKSU_KIND_IDENTITIES);
    at = handle.at;
    CHECK_STATUS(
        newaksu_client_new(&handle, &client, empty, 0, empty, 0, empty, 31, ann, 3, ann, 3),
        NEWAKSU_E_INVALID_PARAMETER);
    CHECK_STATUS(
        newaksu_client_new(&handle, &client, empty, 0, empty, 0, empty, 32, bad, 1, ann, 3),
        NEWAKSU_E_INVALID_PARAMETER);
    CHECK_STATUS(
        newaksu_client_new(&handle, &client, empty, 0, empty, 0, empty, 32, ann, 3, bad, 1),
        NEWAKSU_E_INVALID_PARAMETER);
    CHECK_STATUS(newaksu_client_new(&handle, &client, empty, 0, bad, 1, empty, 32, ann, 3, ann, 3),
                 NEWAKSU_E_INVALID_PARAMETER);
    CHECK_STATUS(
        newaksu_client_new(&handle, &client, empty, 0, empty, 0, empty, 32, mixed, 5, ann, 3),
        NEWAKSU_E_UNKNOWN_CREDENTIALS);
    client.delegation = 2;
    CHECK_STATUS(
        newaksu_client_new(&handle, &client, empty, 0, empty, 0, empty, 32, ann, 3, ann, 3),
        NEWAKSU_E_INVALID_PARAMETER);
    client.delegation = 0, client.mechanism = 2;
    CHECK_STATUS(
        newaksu_client_new(&handle, &client, empty, 0, empty, 0, empty, 32, ann, 3, ann, 3),
        NEWAKSU_E_INVALID_PARAMETER);
    CHECK_STATUS(newaksu_server_new(&handle, &known, &server, empty, 0, empty, 8),
                 NEWAKSU_E_INVALID_PARAMETER);
    server.mechanism = NEWAKSU_PLAIN_NTLM;
    CHECK_STATUS(newaksu_server_new(&handle, &known, &server, empty, 0, empty, 7),
                 NEWAKSU_E_INVALID_PARAMETER);
    CHECK_STATUS(newaksu_server_new(&handle, &nothing, &server, empty, 0, empty, 8),
                 NEWAKSU_E_INVALID_HANDLE);
    server.peers = NEWAKSU_PEERS_ANYONE;
    CHECK_STATUS(newaksu_server_new(&handle, &nothing, &server, empty, 0, empty, 8),
                 NEWAKSU_E_INVALID_PARAMETER);
    server.mechanism = NEWAKSU_HOST;
    CHECK_STATUS(newaksu_server_new(&handle, &known, &server, empty, 0, empty, 0),
                 NEWAKSU_E_INVALID_PARAMETER);
    server.peers = 2;
    CHECK_STATUS(newaksu_server_new(&handle, &nothing, &server, empty, 0, empty, 0),
                 NEWAKSU_E_INVALID_PARAMETER);
    server.peers = NEWAKSU_PEERS_LISTED;
    CHECK_STATUS(newaksu_server_new(&handle, &nothing, &server, empty, 0, empty, 0),
                 NEWAKSU_E_INVALID_HANDLE);
    CHECK_STATUS(newaksu_server_new(&known, &handle, &server, empty, 0, empty, 0),
                 NEWAKSU_E_INVALID_HANDLE);
    CHECK_STATUS(newaksu_identities_add(&known, mixed, 5, empty, 0), NEWAKSU_E_UNKNOWN_CREDENTIALS);
    CHECK_STATUS(newaksu_identities_add(&known, bad, 1, empty, 0), NEWAKSU_E_INVALID_PARAMETER);
    CHECK_STATUS(newaksu_identities_add(&known, ann, 3, bad, 1), NEWAKSU_E_INVALID_PARAMETER);
    CHECK(handle.at == at && known.at != NULL);
    CHECK_STATUS(newaksu_release(&handle), NEWAKSU_OK);
    CHECK_STATUS(newaksu_release(&known), NEWAKSU_OK);
}

static void numbers_that_are_none(void) {
    newaksu_handle request = NEWAKSU_EMPTY, targ = NEWAKSU_EMPTY, credentials = NEWAKSU_EMPTY;
    uint8_t out[8];
    size_t written;
    make(&request, NEWAKSU_KIND_REQUEST);
    make(&targ, NEWAKSU_KIND_TARG);
    make(&credentials, NEWAKSU_KIND_CREDENTIALS);
    CHECK_STATUS(newaksu_request_field(&request, 0, out, 8, &written), NEWAKSU_E_INVALID_PARAMETER);
    CHECK_STATUS(newaksu_request_field(&request, NEWAKSU_ERROR_CODE, out, 8, &written),
                 NEWAKSU_E_INVALID_PARAMETER);
    CHECK_STATUS(newaksu_request_field(&request, 6, out, 8, &written), NEWAKSU_E_INVALID_PARAMETER);
    CHECK_STATUS(newaksu_request_set_field(&request, 6, empty, 1), NEWAKSU_E_INVALID_PARAMETER);
    CHECK_STATUS(newaksu_request_set_field(&request, NEWAKSU_ERROR_CODE, empty, 1),
                 NEWAKSU_E_INVALID_PARAMETER);
    CHECK_STATUS(newaksu_request_set_field(&request, NEWAKSU_CLIENT_NONCE, empty, 31),
                 NEWAKSU_E_INVALID_PARAMETER);
    CHECK_STATUS(newaksu_request_clear_field(&request, 6), NEWAKSU_E_INVALID_PARAMETER);
    CHECK_STATUS(newaksu_targ_set_state(&targ, 3), NEWAKSU_E_INVALID_PARAMETER);
    CHECK_STATUS(newaksu_targ_field(&targ, 4, out, 8, &written), NEWAKSU_E_INVALID_PARAMETER);
    CHECK_STATUS(newaksu_targ_set_field(&targ, 0, empty, 1), NEWAKSU_E_INVALID_PARAMETER);
    CHECK_STATUS(newaksu_credentials_text(&credentials, 3, out, 8, &written),
                 NEWAKSU_E_INVALID_PARAMETER);
    CHECK_STATUS(newaksu_early_encode(1, out, 8, &written), NEWAKSU_E_INVALID_PARAMETER);
    CHECK_STATUS(newaksu_release(&request), NEWAKSU_OK);
    CHECK_STATUS(newaksu_release(&targ), NEWAKSU_OK);
    CHECK_STATUS(newaksu_release(&credentials), NEWAKSU_OK);
}

/* A turn whose arguments do not go together is refused, and the end is unchanged. */
static void arguments_of_a_turn(void) {
    static const uint8_t envelope[] = {1, 'T'};
    newaksu_handle client = NEWAKSU_EMPTY, plain = NEWAKSU_EMPTY;
    uint8_t out[64];
    size_t written;
    uint32_t outcome = 9;
    make(&client, NEWAKSU_KIND_CLIENT);
    make(&plain, NEWAKSU_KIND_PLAIN_CLIENT);
    CHECK_STATUS(newaksu_client_process(&client, empty, 0, envelope, 2, 0, empty, 1),
                 NEWAKSU_E_INVALID_PARAMETER);
    CHECK_STATUS(newaksu_client_process(&client, empty, 0, envelope, 2, 1, empty, 1),
                 NEWAKSU_E_INVALID_PARAMETER);
    CHECK_STATUS(newaksu_client_process(&plain, empty, 0, envelope, 2, 0, empty, 0),
                 NEWAKSU_E_INVALID_PARAMETER);
    CHECK_STATUS(newaksu_client_process(&client, empty, 3, envelope, 2, 0, empty, 0),
                 NEWAKSU_UNEXPECTED_EOF);
    CHECK_STATUS(newaksu_end_outcome(&client, &outcome), NEWAKSU_OK);
    CHECK(outcome == NEWAKSU_OUTCOME_NONE);
    CHECK_STATUS(newaksu_client_process(&client, empty, 0, envelope, 2, 0, empty, 0), NEWAKSU_OK);
    /* nothing is to be sealed, so no blob is taken */
    CHECK_STATUS(newaksu_end_message(&client, empty, 16, out, sizeof out, &written),
                 NEWAKSU_E_INVALID_PARAMETER);
    /* by hand: version 6 and the token 54 */
    CHECK_STATUS(newaksu_end_message(&client, empty, 0, out, 17, &written),
                 NEWAKSU_E_BUFFER_TOO_SMALL);
    CHECK(written == 18);
    CHECK_STATUS(newaksu_end_message(&client, empty, 0, out, sizeof out, &written), NEWAKSU_OK);
    CHECK_BYTES(out, written, "3010 a003020106 a109 3007 3005 a003 0401 54");
    CHECK_STATUS(newaksu_release(&client), NEWAKSU_OK);
    CHECK_STATUS(newaksu_release(&plain), NEWAKSU_OK);
}

/* The users of a server's list, and a list when anyone is accepted. */
static void users_of_a_host(struct party *party) {
    const char *users[2] = {"ann", NULL};
    size_t lengths[2] = {3, 40};
    newaksu_server_settings server;
    newaksu_host *host;
    newaksu_server_settings_init(&server);
    CHECK(server.peers == NEWAKSU_PEERS_LISTED);
    server.users = users, server.user_lengths = lengths, server.users_count = 2;
    CHECK_STATUS(newaksu_host_server(&server, &party_mechanism, party, &host),
                 NEWAKSU_E_INVALID_PARAMETER);
    server.users_count = 1, server.peers = NEWAKSU_PEERS_ANYONE;
    CHECK_STATUS(newaksu_host_server(&server, &party_mechanism, party, &host),
                 NEWAKSU_E_INVALID_PARAMETER);
    users[0] = "D\\a@b", lengths[0] = 5, server.peers = NEWAKSU_PEERS_LISTED;
    CHECK_STATUS(newaksu_host_server(&server, &party_mechanism, party, &host),
                 NEWAKSU_E_UNKNOWN_CREDENTIALS);
    CHECK(host == NULL);
}

/* The host's settings, and null if the length is 0. */
static void settings_of_a_host(void) {
    newaksu_client_settings client;
    newaksu_server_settings server;
    newaksu_mechanism mechanism = party_mechanism;
    newaksu_host *host = (newaksu_host *)&client;
    newaksu_turn turn;
    struct party party;
    party_init(&party, 0, "ann", "pw", 1);
    newaksu_client_settings_init(&client);
    newaksu_server_settings_init(&server);
    client.user = "ann", client.user_length = 3;
    client.public_key_length = 1;
    CHECK_STATUS(newaksu_host_client(&client, &party_mechanism, &party, &host),
                 NEWAKSU_E_INVALID_PARAMETER);
    client.public_key_length = 0, client.password_length = 1;
    CHECK_STATUS(newaksu_host_client(&client, &party_mechanism, &party, &host),
                 NEWAKSU_E_INVALID_PARAMETER);
    client.password = "\xc0", client.password_length = 1;
    CHECK_STATUS(newaksu_host_client(&client, &party_mechanism, &party, &host),
                 NEWAKSU_E_INVALID_PARAMETER);
    client.password = NULL, client.password_length = 0, client.delegation = 7;
    CHECK_STATUS(newaksu_host_client(&client, &party_mechanism, &party, &host),
                 NEWAKSU_E_INVALID_PARAMETER);
    client.delegation = NEWAKSU_WITH_CREDENTIALS, client.version = server.version = 7;
    CHECK_STATUS(newaksu_host_client(&client, &party_mechanism, &party, &host),
                 NEWAKSU_E_INVALID_PARAMETER);
    CHECK_STATUS(newaksu_host_server(&server, &party_mechanism, &party, &host),
                 NEWAKSU_E_INVALID_PARAMETER);
    client.version = server.version = 6, client.least_version = server.least_version = 1;
    CHECK_STATUS(newaksu_host_client(&client, &party_mechanism, &party, &host),
                 NEWAKSU_E_INVALID_PARAMETER);
    CHECK_STATUS(newaksu_host_server(&server, &party_mechanism, &party, &host),
                 NEWAKSU_E_INVALID_PARAMETER);
    client.least_version = server.least_version = 5, mechanism.unseal = NULL;
    CHECK_STATUS(newaksu_host_client(&client, &mechanism, &party, &host),
                 NEWAKSU_E_INVALID_PARAMETER);
    mechanism = party_mechanism, mechanism.peer = NULL;
    CHECK_STATUS(newaksu_host_server(&server, &mechanism, &party, &host),
                 NEWAKSU_E_INVALID_PARAMETER);
    users_of_a_host(&party);
    CHECK(host == NULL && party.releases == 0);
    CHECK_STATUS(newaksu_host_client(&client, &mechanism, &party, &host), NEWAKSU_OK);
    CHECK_STATUS(newaksu_host_process(host, NULL, 1, &turn), NEWAKSU_E_INVALID_PARAMETER);
    CHECK(turn.progress == NEWAKSU_UNREAD && turn.send_length == 0);
    CHECK(newaksu_host_end(host)->at != NULL && party.steps_asked == 0);
    newaksu_host_release(host);
    newaksu_host_release(NULL);
    CHECK(party.releases == 1);
}

int main(void) {
    every_call_with_every_kind();
    versions_of_an_end();
    what_cannot_be_made();
    numbers_that_are_none();
    arguments_of_a_turn();
    settings_of_a_host();
    return checks_done("misuse");
}
