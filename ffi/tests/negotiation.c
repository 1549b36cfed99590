/* Both ends with the library's negotiation over mechanisms that really encrypt: which one is
 * selected, MICs both ways, and a list or a MIC that somebody in between changes. */
#include <string.h>

#include "check.h"
#include "mechanism.h"

#define THE_CLIENT 0
#define THE_SERVER 1
#define LONGEST 8192
#define MOST 12

static const char key[] = "the channel's key", name[] = "DOM\\ann", password[] = "pass word";

struct pair {
    struct party ntlm[2], kerberos[2];
    newaksu_host *ends[2];
    uint32_t status[2], progress[2];
    uint8_t message[LONGEST];
    size_t length;
    int sent, leaked;
};

/* Changes message `number` on its way, counted from 0. */
typedef void (*tamper)(int number, newaksu_handle *request);

/* Two ends of these mechanisms; `ntlm` has the calls of NTLM on both. */
static void make_with(struct pair *pair, const newaksu_mechanism *ntlm, uint32_t client,
                      uint32_t server) {
    newaksu_client_settings ours;
    newaksu_server_settings theirs;
    newaksu_mechanisms mechanisms[2];
    const char *user = name;
    size_t user_length = strlen(name);
    memset(pair, 0, sizeof *pair);
    for (int end = 0; end < 2; end++) {
        uint32_t has = end == THE_CLIENT ? client : server;
        party_init(&pair->ntlm[end], end, name, password, (uint8_t)(1 + end));
        party_init(&pair->kerberos[end], end, name, password, (uint8_t)(3 + end));
        pair->kerberos[end].two_tokens = 1;
        mechanisms[end] = (newaksu_mechanisms){
            has & NEWAKSU_NTLM_ALONE ? ntlm : NULL, &pair->ntlm[end],
            has & NEWAKSU_KERBEROS_ALONE ? &party_mechanism : NULL, &pair->kerberos[end]};
    }
    newaksu_client_settings_init(&ours);
    ours.public_key = (const uint8_t *)key;
    ours.public_key_length = strlen(key);
    ours.user = name;
    ours.user_length = strlen(name);
    ours.password = password;
    ours.password_length = strlen(password);
    CHECK_STATUS(newaksu_host_negotiating_client(&ours, &mechanisms[0], &pair->ends[0]),
                 NEWAKSU_OK);
    newaksu_server_settings_init(&theirs);
    theirs.public_key = (const uint8_t *)key;
    theirs.public_key_length = strlen(key);
    theirs.users = &user;
    theirs.user_lengths = &user_length;
    theirs.users_count = 1;
    CHECK_STATUS(newaksu_host_negotiating_server(&theirs, &mechanisms[1], &pair->ends[1]),
                 NEWAKSU_OK);
}

static void make(struct pair *pair, uint32_t client, uint32_t server) {
    make_with(pair, &party_mechanism, client, server);
}

static void pass_on(struct pair *pair, tamper change) {
    newaksu_handle request = NEWAKSU_EMPTY;
    if (change == NULL)
        return;
    CHECK_STATUS(newaksu_request_decode(&request, pair->message, pair->length), NEWAKSU_OK);
    change(pair->sent - 1, &request);
    CHECK_STATUS(newaksu_request_encode(&request, pair->message, LONGEST, &pair->length),
                 NEWAKSU_OK);
    CHECK_STATUS(newaksu_release(&request), NEWAKSU_OK);
}

static void run(struct pair *pair, tamper change) {
    for (int end = THE_CLIENT;; end = 1 - end) {
        newaksu_turn turn;
        pair->status[end] =
            newaksu_host_process(pair->ends[end], pair->message, pair->length, &turn);
        pair->progress[end] = turn.progress;
        if (turn.send_length == 0 || pair->sent == MOST)
            return;
        CHECK(turn.send_length <= LONGEST);
        memcpy(pair->message, turn.send, turn.send_length);
        pair->length = turn.send_length;
        pair->leaked |= holds_utf16(pair->message, pair->length, password);
        pair->sent++;
        if (end == THE_CLIENT && turn.progress == NEWAKSU_REFUSED)
            return;
        pass_on(pair, change);
    }
}

static void release(struct pair *pair) {
    newaksu_host_release(pair->ends[THE_CLIENT]);
    newaksu_host_release(pair->ends[THE_SERVER]);
}

static void check_delegated(const struct pair *pair, int messages) {
    const char *user, *secret;
    size_t user_length, secret_length;
    CHECK_STATUS(pair->status[THE_CLIENT], NEWAKSU_OK);
    CHECK_STATUS(pair->status[THE_SERVER], NEWAKSU_OK);
    CHECK(pair->progress[THE_SERVER] == NEWAKSU_FINISHED && pair->sent == messages);
    CHECK_STATUS(
        newaksu_host_identity(pair->ends[THE_SERVER], &user, &user_length, &secret, &secret_length),
        NEWAKSU_OK);
    CHECK(user_length == strlen(name) && memcmp(user, name, user_length) == 0);
    CHECK(secret_length == strlen(password) && memcmp(secret, password, secret_length) == 0);
    CHECK(!pair->leaked);
}

/* No credentials, and the client gave none to a mechanism. */
static void check_withheld(const struct pair *pair) {
    const char *user, *secret;
    size_t user_length, secret_length;
    CHECK(pair->progress[THE_CLIENT] != NEWAKSU_FINISHED);
    CHECK(!pair->ntlm[THE_CLIENT].saw_password && !pair->kerberos[THE_CLIENT].saw_password);
    CHECK_STATUS(
        newaksu_host_identity(pair->ends[THE_SERVER], &user, &user_length, &secret, &secret_length),
        NEWAKSU_E_OUT_OF_SEQUENCE);
    CHECK(!pair->leaked);
}

static void check_mics(const struct party parties[2], uint64_t each) {
    for (int end = 0; end < 2; end++)
        CHECK(parties[end].signs == each && parties[end].verified == each);
}

/* NTLM and a MIC from each end: four messages from the client and three from the server. */
static void ntlm_alone(void) {
    struct pair pair;
    make(&pair, NEWAKSU_NTLM_ALONE, NEWAKSU_NTLM_ALONE);
    run(&pair, NULL);
    check_delegated(&pair, 7);
    check_mics(pair.ntlm, 1);
    release(&pair);
    CHECK(pair.ntlm[0].releases == 1 && pair.ntlm[1].releases == 1);
}

/* The client prefers Kerberos, and the server has NTLM: the Kerberos token is dropped, and the
 * server's Kerberos is never called. */
static void ntlm_is_picked(void) {
    struct pair pair;
    make(&pair, NEWAKSU_NTLM_AND_KERBEROS, NEWAKSU_NTLM_ALONE);
    run(&pair, NULL);
    check_delegated(&pair, 9);
    check_mics(pair.ntlm, 1);
    CHECK(pair.kerberos[THE_CLIENT].steps_asked == 1 && pair.kerberos[THE_SERVER].steps_asked == 0);
    CHECK(pair.kerberos[THE_CLIENT].seals_asked == 0 && pair.ntlm[THE_CLIENT].seals_asked == 2);
    release(&pair);
}

/* Kerberos of two tokens is the first choice of both, and NTLM is never called. A server needs no
 * MIC there, and sends none, while a client always requires one. */
static void kerberos_is_picked(void) {
    struct pair pair;
    make(&pair, NEWAKSU_NTLM_AND_KERBEROS, NEWAKSU_NTLM_AND_KERBEROS);
    run(&pair, NULL);
    check_withheld(&pair);
    CHECK_STATUS(pair.status[THE_SERVER], NEWAKSU_E_INVALID_TOKEN);
    CHECK(pair.ntlm[THE_CLIENT].steps_asked == 0 && pair.ntlm[THE_SERVER].steps_asked == 0);
    CHECK(pair.kerberos[THE_CLIENT].seals_asked == 0);
    release(&pair);
}

/* The same if Kerberos has three tokens and says it is user-to-user: a MIC from each end. */
static void make_user_to_user(struct pair *pair) {
    make(pair, NEWAKSU_NTLM_AND_KERBEROS, NEWAKSU_NTLM_AND_KERBEROS);
    for (int end = 0; end < 2; end++) {
        pair->kerberos[end].two_tokens = 0;
        pair->kerberos[end].pairs = 1;
    }
}

static void user_to_user_is_picked(void) {
    struct pair pair;
    make_user_to_user(&pair);
    run(&pair, NULL);
    check_delegated(&pair, 7);
    check_mics(pair.kerberos, 1);
    CHECK(pair.ntlm[THE_CLIENT].steps_asked == 0 && pair.ntlm[THE_SERVER].steps_asked == 0);
    release(&pair);
}

/* The offer without Kerberos, which the client prefers. */
static void shorten_list(int number, newaksu_handle *request) {
    static const uint8_t ntlm_oid[] = {0x2b, 6, 1, 4, 1, 0x82, 0x37, 2, 2, 10};
    newaksu_handle init = NEWAKSU_EMPTY;
    uint8_t token[LONGEST];
    size_t length;
    if (number != 0)
        return;
    CHECK_STATUS(newaksu_init_new(&init), NEWAKSU_OK);
    CHECK_STATUS(newaksu_init_add_mech(&init, ntlm_oid, sizeof ntlm_oid), NEWAKSU_OK);
    CHECK_STATUS(newaksu_init_encode(&init, token, sizeof token, &length), NEWAKSU_OK);
    CHECK_STATUS(newaksu_request_set_field(request, NEWAKSU_NEGO_TOKENS, token, length),
                 NEWAKSU_OK);
    CHECK_STATUS(newaksu_release(&init), NEWAKSU_OK);
}

/* Somebody takes Kerberos off the list: both ends have it, NTLM is selected, the MICs show it. */
static void a_list_is_shortened(void) {
    struct pair pair;
    make(&pair, NEWAKSU_NTLM_AND_KERBEROS, NEWAKSU_NTLM_AND_KERBEROS);
    run(&pair, shorten_list);
    check_withheld(&pair);
    CHECK_STATUS(pair.status[THE_SERVER], NEWAKSU_E_MESSAGE_ALTERED);
    CHECK(pair.progress[THE_CLIENT] == NEWAKSU_REFUSED);
    CHECK(pair.ntlm[THE_SERVER].verified == 0 && pair.ntlm[THE_CLIENT].seals_asked == 0);
    release(&pair);
}

/* The token without its MIC, or with one of zeros. */
static void change_mic(newaksu_handle *request, int strip) {
    static const uint8_t zeros[64];
    newaksu_handle targ = NEWAKSU_EMPTY, other = NEWAKSU_EMPTY;
    uint8_t token[LONGEST], field[LONGEST];
    size_t length, size;
    uint32_t state;
    if (newaksu_request_field(request, NEWAKSU_NEGO_TOKENS, token, sizeof token, &length) !=
            NEWAKSU_OK ||
        newaksu_targ_decode(&targ, token, length) != NEWAKSU_OK)
        return;
    if (newaksu_targ_field(&targ, NEWAKSU_MECH_LIST_MIC, field, sizeof field, &size) ==
        NEWAKSU_OK) {
        CHECK_STATUS(newaksu_targ_new(&other), NEWAKSU_OK);
        CHECK_STATUS(newaksu_targ_state(&targ, &state), NEWAKSU_OK);
        CHECK_STATUS(newaksu_targ_set_state(&other, state), NEWAKSU_OK);
        if (newaksu_targ_field(&targ, NEWAKSU_RESPONSE_TOKEN, field, sizeof field, &size) ==
            NEWAKSU_OK)
            CHECK_STATUS(newaksu_targ_set_field(&other, NEWAKSU_RESPONSE_TOKEN, field, size),
                         NEWAKSU_OK);
        if (!strip)
            CHECK_STATUS(newaksu_targ_set_field(&other, NEWAKSU_MECH_LIST_MIC, zeros, sizeof zeros),
                         NEWAKSU_OK);
        CHECK_STATUS(newaksu_targ_encode(&other, token, sizeof token, &length), NEWAKSU_OK);
        CHECK_STATUS(newaksu_request_set_field(request, NEWAKSU_NEGO_TOKENS, token, length),
                     NEWAKSU_OK);
        CHECK_STATUS(newaksu_release(&other), NEWAKSU_OK);
    }
    CHECK_STATUS(newaksu_release(&targ), NEWAKSU_OK);
}

/* The client's messages have even numbers, the server's odd ones. */
static void strip_the_clients(int number, newaksu_handle *request) {
    if (number % 2 == 0)
        change_mic(request, 1);
}

static void strip_the_servers(int number, newaksu_handle *request) {
    if (number % 2 == 1)
        change_mic(request, 1);
}

static void zero_the_clients(int number, newaksu_handle *request) {
    if (number % 2 == 0)
        change_mic(request, 0);
}

static void zero_the_servers(int number, newaksu_handle *request) {
    if (number % 2 == 1)
        change_mic(request, 0);
}

/* Sixteen zeros are what the end reads as a good MIC; from the channel they are not. */
static void a_mic_is_changed(void) {
    static const tamper changes[] = {strip_the_clients, strip_the_servers, zero_the_clients,
                                     zero_the_servers};
    for (size_t i = 0; i < sizeof changes / sizeof *changes; i++) {
        struct pair pair;
        make(&pair, NEWAKSU_NTLM_AND_KERBEROS, NEWAKSU_NTLM_ALONE);
        run(&pair, changes[i]);
        check_withheld(&pair);
        CHECK(pair.progress[THE_CLIENT] == NEWAKSU_REFUSED ||
              pair.progress[THE_SERVER] == NEWAKSU_REFUSED);
        CHECK(pair.ntlm[i % 2 == 0 ? THE_SERVER : THE_CLIENT].verified == 0);
        CHECK(pair.ntlm[THE_CLIENT].seals_asked == 0 || pair.ntlm[THE_SERVER].seals_asked == 0);
        release(&pair);
    }
}

static void a_mic_of_kerberos_is_changed(void) {
    static const tamper changes[] = {strip_the_clients, strip_the_servers, zero_the_clients,
                                     zero_the_servers};
    for (size_t i = 0; i < sizeof changes / sizeof *changes; i++) {
        struct pair pair;
        make_user_to_user(&pair);
        run(&pair, changes[i]);
        check_withheld(&pair);
        CHECK(pair.progress[THE_CLIENT] == NEWAKSU_REFUSED ||
              pair.progress[THE_SERVER] == NEWAKSU_REFUSED);
        CHECK(pair.kerberos[i % 2 == 0 ? THE_SERVER : THE_CLIENT].verified == 0);
        release(&pair);
    }
}

/* NTLM itself, whose tokens begin with its signature (MS-NLMP 2.2.1). The server's second step
 * has none. */
static uint32_t bare_step(void *context, const uint8_t *token, size_t length,
                          newaksu_bytes *output) {
    static const uint8_t signature[8] = {'N', 'T', 'L', 'M', 'S', 'S', 'P', 0};
    const struct party *party = context;
    size_t head = length == 0 ? 0 : sizeof signature;
    if (length < head || memcmp(token, signature, head) != 0)
        return NEWAKSU_E_INVALID_TOKEN;
    if (!party->is_server || party->stage == 0)
        newaksu_bytes_append(output, signature, sizeof signature);
    return party_mechanism.step(context, token + head, length - head, output);
}

/* A client of NTLM alone, which sends its tokens without SPNEGO. */
static void make_bare_client(struct pair *pair, const newaksu_mechanism *mechanism) {
    newaksu_client_settings settings;
    newaksu_host_release(pair->ends[THE_CLIENT]);
    party_init(&pair->ntlm[THE_CLIENT], THE_CLIENT, name, password, 1);
    newaksu_client_settings_init(&settings);
    settings.public_key = (const uint8_t *)key;
    settings.public_key_length = strlen(key);
    settings.user = name;
    settings.user_length = strlen(name);
    settings.password = password;
    settings.password_length = strlen(password);
    CHECK_STATUS(
        newaksu_host_client(&settings, mechanism, &pair->ntlm[THE_CLIENT], &pair->ends[THE_CLIENT]),
        NEWAKSU_OK);
}

/* A server that negotiates accepts it with its NTLM if it has one, without MICs. Three messages
 * from the client and two from the server. */
static void bare_ntlm_is_taken(void) {
    newaksu_mechanism bare = party_mechanism;
    struct pair pair;
    bare.step = bare_step;
    make_with(&pair, &bare, NEWAKSU_NTLM_AND_KERBEROS, NEWAKSU_NTLM_AND_KERBEROS);
    make_bare_client(&pair, &bare);
    run(&pair, NULL);
    check_delegated(&pair, 5);
    check_mics(pair.ntlm, 0);
    CHECK(pair.kerberos[THE_SERVER].steps_asked == 0);
    release(&pair);
    CHECK(pair.ntlm[THE_SERVER].releases == 1 && pair.kerberos[THE_SERVER].releases == 1);
}

/* And refuses it if it has only Kerberos, as a token that it does not know. */
static void bare_ntlm_is_refused(void) {
    newaksu_mechanism bare = party_mechanism;
    struct pair pair;
    bare.step = bare_step;
    make_with(&pair, &bare, NEWAKSU_KERBEROS_ALONE, NEWAKSU_KERBEROS_ALONE);
    make_bare_client(&pair, &bare);
    run(&pair, NULL);
    check_withheld(&pair);
    CHECK_STATUS(pair.status[THE_SERVER], NEWAKSU_E_INVALID_TOKEN);
    CHECK(pair.ntlm[THE_SERVER].steps_asked == 0 && pair.kerberos[THE_SERVER].steps_asked == 0);
    release(&pair);
}

static void misuse(void) {
    newaksu_client_settings settings;
    newaksu_mechanism unable = party_mechanism;
    newaksu_mechanisms none = {NULL, NULL, NULL, NULL}, poor = {&unable, NULL, NULL, NULL};
    newaksu_host *host;
    unable.verify = NULL;
    newaksu_client_settings_init(&settings);
    CHECK_STATUS(newaksu_host_negotiating_client(&settings, &none, &host),
                 NEWAKSU_E_INVALID_PARAMETER);
    CHECK_STATUS(newaksu_host_negotiating_client(&settings, &poor, &host),
                 NEWAKSU_E_INVALID_PARAMETER);
    CHECK(host == NULL);
}

int main(void) {
    ntlm_alone();
    ntlm_is_picked();
    kerberos_is_picked();
    user_to_user_is_picked();
    a_list_is_shortened();
    a_mic_is_changed();
    a_mic_of_kerberos_is_changed();
    bare_ntlm_is_taken();
    bare_ntlm_is_refused();
    misuse();
    return checks_done("negotiation");
}
