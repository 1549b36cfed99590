/* Two ends over the tests' mechanism. */
#include "exchange.h"

#include <stdlib.h>
#include <string.h>

#include "check.h"

struct setup usual_setup(void) {
    return (struct setup){.client_version = 6,
                          .server_version = 6,
                          .client_least = 5,
                          .server_least = 5,
                          .name = "DOM\\ann",
                          .password = "pass word",
                          .server_password = "pass word",
                          .client_key = "the channel's key",
                          .server_key = "the channel's key"};
}

static void make_client(struct exchange *exchange, const struct setup *setup) {
    newaksu_client_settings settings;
    newaksu_client_settings_init(&settings);
    CHECK(settings.version == 6 && settings.least_version == 5);
    settings.version = setup->client_version;
    settings.least_version = setup->client_least;
    settings.delegation = setup->delegation;
    settings.public_key = (const uint8_t *)setup->client_key;
    settings.public_key_length = strlen(setup->client_key);
    settings.user = setup->name;
    settings.user_length = strlen(setup->name);
    settings.password = setup->password;
    settings.password_length = strlen(setup->password);
    CHECK_STATUS(newaksu_host_client(&settings, &party_mechanism, &exchange->parties[THE_CLIENT],
                                     &exchange->ends[THE_CLIENT]),
                 NEWAKSU_OK);
}

static void make_server(struct exchange *exchange, const struct setup *setup) {
    newaksu_server_settings settings;
    size_t user_length = setup->user == NULL ? 0 : strlen(setup->user);
    newaksu_server_settings_init(&settings);
    CHECK(settings.version == 6 && settings.least_version == 5);
    settings.version = setup->server_version;
    settings.least_version = setup->server_least;
    settings.public_key = (const uint8_t *)setup->server_key;
    settings.public_key_length = strlen(setup->server_key);
    settings.users = &setup->user;
    settings.user_lengths = &user_length;
    settings.users_count = setup->user == NULL ? 0 : 1;
    settings.peers = setup->user == NULL ? NEWAKSU_PEERS_ANYONE : NEWAKSU_PEERS_LISTED;
    CHECK_STATUS(newaksu_host_server(&settings, &party_mechanism, &exchange->parties[THE_SERVER],
                                     &exchange->ends[THE_SERVER]),
                 NEWAKSU_OK);
}

void exchange_make(struct exchange *exchange, const struct setup *setup) {
    memset(exchange, 0, sizeof *exchange);
    party_init(&exchange->parties[THE_CLIENT], 0, setup->name, setup->password, 1);
    party_init(&exchange->parties[THE_SERVER], 1, setup->name, setup->server_password, 2);
    make_client(exchange, setup);
    make_server(exchange, setup);
}

void exchange_turn(struct exchange *exchange, int end, const uint8_t *message, size_t length) {
    newaksu_turn turn = {message, 1, 99};
    /* a block of its own, if there is memory, so that a read past the message is detected */
    uint8_t *alone = length == 0 ? NULL : malloc(length);
    if (alone != NULL)
        memcpy(alone, message, length);
    CHECK(exchange->sent < MOST_MESSAGES);
    exchange->status[end] = newaksu_host_process(
        exchange->ends[end], alone != NULL || length == 0 ? alone : message, length, &turn);
    exchange->progress[end] = turn.progress;
    free(alone);
    CHECK((exchange->status[end] == NEWAKSU_OK) ==
          (turn.progress == NEWAKSU_CONTINUES || turn.progress == NEWAKSU_FINISHED));
    if (turn.progress == NEWAKSU_REFUSED)
        CHECK_STATUS(newaksu_host_refusal(exchange->ends[end], &exchange->refusals[end]),
                     NEWAKSU_OK);
    if (turn.send_length == 0)
        return;
    CHECK(turn.send_length <= LONGEST_MESSAGE);
    memcpy(exchange->messages[exchange->sent], turn.send, turn.send_length);
    exchange->lengths[exchange->sent++] = turn.send_length;
}

void exchange_run(struct exchange *exchange, tamper change, void *context) {
    uint8_t delivered[2 * LONGEST_MESSAGE];
    size_t length = 0;
    for (int end = THE_CLIENT;; end = 1 - end) {
        int before = exchange->sent;
        exchange_turn(exchange, end, delivered, length);
        if (exchange->sent == before ||
            (end == THE_CLIENT && exchange->progress[end] == NEWAKSU_REFUSED))
            return;
        length = exchange->lengths[before];
        memcpy(delivered, exchange->messages[before], length);
        if (change != NULL)
            change(context, before, delivered, &length);
    }
}

void exchange_release(struct exchange *exchange) {
    for (int end = 0; end < 2; end++) {
        newaksu_host_release(exchange->ends[end]);
        CHECK(exchange->parties[end].releases == 1);
    }
}

static int is_text(const char *at, size_t length, const char *text) {
    return length == strlen(text) && (length == 0 || memcmp(at, text, length) == 0);
}

void check_delegated(const struct exchange *exchange, const char *name, const char *password) {
    const char *user, *secret;
    size_t user_length, secret_length;
    CHECK_STATUS(exchange->status[THE_CLIENT], NEWAKSU_OK);
    CHECK_STATUS(exchange->status[THE_SERVER], NEWAKSU_OK);
    CHECK(exchange->progress[THE_CLIENT] == NEWAKSU_FINISHED &&
          exchange->progress[THE_SERVER] == NEWAKSU_FINISHED);
    CHECK_STATUS(newaksu_host_identity(exchange->ends[THE_SERVER], &user, &user_length, &secret,
                                       &secret_length),
                 NEWAKSU_OK);
    CHECK(is_text(user, user_length, name) && is_text(secret, secret_length, password));
    CHECK_STATUS(newaksu_host_identity(exchange->ends[THE_CLIENT], &user, &user_length, &secret,
                                       &secret_length),
                 NEWAKSU_E_OUT_OF_SEQUENCE);
    for (int i = 0; i < exchange->sent; i++)
        CHECK(password[0] == 0 ||
              !holds_utf16(exchange->messages[i], exchange->lengths[i], password));
}

void check_withheld(const struct exchange *exchange) {
    const char *user, *secret;
    size_t user_length, secret_length;
    CHECK(!exchange->parties[THE_CLIENT].saw_password);
    CHECK(exchange->progress[THE_CLIENT] != NEWAKSU_FINISHED);
    CHECK_STATUS(newaksu_host_identity(exchange->ends[THE_SERVER], &user, &user_length, &secret,
                                       &secret_length),
                 NEWAKSU_E_OUT_OF_SEQUENCE);
    for (int i = 0; i < exchange->sent; i++)
        CHECK(!holds_utf16(exchange->messages[i], exchange->lengths[i],
                           exchange->parties[THE_CLIENT].password));
}
