/* Exchanges that go wrong: another channel key, a wrong password, changed, truncated and replayed
 * messages, a mechanism that fails. Each is refused as the proved ends refuse, and no client
 * releases credentials before the server's proof. */
#include <string.h>

#include "check.h"
#include "exchange.h"

#define ERROR_CODE(status) (((status)&0xffffu) | 0xc0070000u)

/* The server refused with this, and the client was told so. */
static void check_server_refused(const struct exchange *exchange, uint32_t status) {
    check_withheld(exchange);
    CHECK_STATUS(exchange->status[THE_SERVER], status);
    CHECK(exchange->progress[THE_SERVER] == NEWAKSU_REFUSED);
    CHECK_STATUS(exchange->status[THE_CLIENT], NEWAKSU_E_INVALID_TOKEN);
    CHECK(exchange->refusals[THE_CLIENT].has_nstatus == 1 &&
          exchange->refusals[THE_CLIENT].nstatus == ERROR_CODE(status));
    CHECK(exchange->refusals[THE_SERVER].status == status &&
          exchange->refusals[THE_SERVER].has_nstatus == 0);
    CHECK(exchange->refusals[THE_SERVER].reason[0] != 0);
}

static void check_client_refused(const struct exchange *exchange, uint32_t status) {
    check_withheld(exchange);
    CHECK_STATUS(exchange->status[THE_CLIENT], status);
    CHECK(exchange->refusals[THE_CLIENT].status == status &&
          exchange->refusals[THE_CLIENT].has_nstatus == 0);
}

/* Whoever is between two channels has another key on each. */
static void another_key_of_the_channel(void) {
    struct setup setup = usual_setup();
    struct exchange exchange;
    setup.server_key = "the other's key";
    exchange_make(&exchange, &setup);
    exchange_run(&exchange, NULL, NULL);
    check_server_refused(&exchange, NEWAKSU_E_MESSAGE_ALTERED);
    CHECK(strcmp(exchange.refusals[THE_SERVER].name, "MessageAltered") == 0);
    CHECK(strcmp(exchange.refusals[THE_SERVER].reason, "could not verify a public key hash") == 0);
    exchange_release(&exchange);
}

static void a_wrong_password(void) {
    struct setup setup = usual_setup();
    struct exchange exchange;
    setup.server_password = "another";
    exchange_make(&exchange, &setup);
    exchange_run(&exchange, NULL, NULL);
    check_server_refused(&exchange, NEWAKSU_E_LOGON_DENIED);
    CHECK(exchange.parties[THE_SERVER].unseals_asked == 0 &&
          exchange.parties[THE_SERVER].peers_asked == 0);
    exchange_release(&exchange);
}

struct flip {
    int number;
    size_t at;
    uint8_t bits;
};

static void flip(void *context, int number, uint8_t *message, size_t *length) {
    const struct flip *flip = context;
    if (number == flip->number && flip->at < *length)
        message[flip->at] ^= flip->bits;
}

/* The sealed octets of pubKeyAuth follow a3 LL 04 LL, and those of authInfo the same with a2: the
 * place of the last one. */
static size_t last_of_blob(const uint8_t *message, size_t length, uint8_t tag) {
    for (size_t at = 0; at + 4 < length; at++)
        if (message[at] == tag && message[at + 2] == 0x04 &&
            message[at + 1] == message[at + 3] + 2 && message[at + 3] >= 48)
            return at + 3 + message[at + 3];
    CHECK(!"no blob");
    return 0;
}

static void changed_blob(int number, uint8_t tag, uint32_t version, uint32_t status) {
    struct setup setup = usual_setup();
    struct exchange exchange;
    struct flip change = {number, 0, 1};
    setup.client_version = setup.server_version = version;
    setup.client_least = setup.server_least = 0;
    exchange_make(&exchange, &setup);
    exchange_run(&exchange, NULL, NULL);
    change.at = last_of_blob(exchange.messages[number], exchange.lengths[number], tag);
    exchange_release(&exchange);
    exchange_make(&exchange, &setup);
    exchange_run(&exchange, flip, &change);
    if (number == 2)
        check_server_refused(&exchange, status);
    else
        check_client_refused(&exchange, status);
    exchange_release(&exchange);
}

/* A proof that was changed on the way does not open. */
static void changed_proofs(void) {
    for (uint32_t version = 5; version <= 6; version++)
        changed_blob(3, 0xa3, version, NEWAKSU_E_MESSAGE_ALTERED);
    changed_blob(2, 0xa3, 6, NEWAKSU_E_MESSAGE_ALTERED);
}

/* The client's credentials were changed: they were sent, since the server had proved itself, and
 * the server has none. */
static void changed_credentials(void) {
    struct setup setup = usual_setup();
    struct exchange exchange;
    struct flip change = {4, 0, 1};
    exchange_make(&exchange, &setup);
    exchange_run(&exchange, NULL, NULL);
    change.at = last_of_blob(exchange.messages[4], exchange.lengths[4], 0xa2);
    exchange_release(&exchange);
    exchange_make(&exchange, &setup);
    exchange_run(&exchange, flip, &change);
    CHECK_STATUS(exchange.status[THE_SERVER], NEWAKSU_E_MESSAGE_ALTERED);
    CHECK(exchange.parties[THE_CLIENT].saw_password && exchange.sent == 6);
    CHECK(!holds_utf16(exchange.messages[5], exchange.lengths[5], setup.password));
    exchange_release(&exchange);
}

/* One byte of one message is changed. Either the credentials arrive as sent, or they are withheld,
 * unless the message was the one that carries them. */
static void every_byte_changed(void) {
    static const uint8_t bits[] = {0x01, 0x80, 0xff};
    struct setup setup = usual_setup();
    struct exchange exchange;
    for (int number = 0; number < 5; number++)
        for (size_t at = 0; at < 200; at++)
            for (size_t i = 0; i < sizeof bits; i++) {
                struct flip change = {number, at, bits[i]};
                exchange_make(&exchange, &setup);
                exchange_run(&exchange, flip, &change);
                if (exchange.progress[THE_SERVER] == NEWAKSU_FINISHED)
                    check_delegated(&exchange, setup.name, setup.password);
                else if (number < 4)
                    check_withheld(&exchange);
                exchange_release(&exchange);
            }
}

/* A message that is cut anywhere has not arrived yet: the end is unchanged, and takes it once it is
 * whole. */
static void every_message_cut(void) {
    struct setup setup = usual_setup();
    struct exchange exchange;
    exchange_make(&exchange, &setup);
    exchange_turn(&exchange, THE_CLIENT, NULL, 0);
    for (int number = 0, end = THE_SERVER; number < exchange.sent; number++, end = 1 - end) {
        uint8_t message[LONGEST_MESSAGE];
        size_t length = exchange.lengths[number];
        memcpy(message, exchange.messages[number], length);
        for (size_t cut = 0; cut < length; cut++) {
            exchange_turn(&exchange, end, message, cut);
            CHECK_STATUS(exchange.status[end], NEWAKSU_UNEXPECTED_EOF);
            CHECK(exchange.progress[end] == NEWAKSU_UNREAD && exchange.sent == number + 1);
        }
        exchange_turn(&exchange, end, message, length);
    }
    check_delegated(&exchange, setup.name, setup.password);
    exchange_release(&exchange);
}

/* Has an end take message `number` again when the one after `until` is due. */
static void replay(int until, int number, int end, uint32_t status, const char *answer) {
    struct setup setup = usual_setup();
    struct exchange exchange;
    const uint8_t *last;
    exchange_make(&exchange, &setup);
    exchange_turn(&exchange, THE_CLIENT, NULL, 0);
    for (int i = 0; i < until; i++)
        exchange_turn(&exchange, i % 2 == 0 ? THE_SERVER : THE_CLIENT, exchange.messages[i],
                      exchange.lengths[i]);
    exchange_turn(&exchange, end, exchange.messages[number], exchange.lengths[number]);
    CHECK_STATUS(exchange.status[end], status);
    CHECK(exchange.progress[end] == NEWAKSU_REFUSED);
    last = exchange.messages[exchange.sent - 1];
    if (answer != NULL)
        CHECK_BYTES(last, 15, answer);
    if (until < 4)
        check_withheld(&exchange);
    exchange_turn(&exchange, end, exchange.messages[0], exchange.lengths[0]);
    CHECK_STATUS(exchange.status[end], NEWAKSU_E_OUT_OF_SEQUENCE);
    exchange_release(&exchange);
}

static void replayed_messages(void) {
    /* by hand: version 6 and the code, in a SEQUENCE of 13 bytes */
    replay(1, 0, THE_SERVER, NEWAKSU_E_INVALID_TOKEN, "300d a003020106 a406 0204 c0070308");
    replay(3, 2, THE_SERVER, NEWAKSU_E_INVALID_TOKEN, NULL);
    replay(2, 1, THE_CLIENT, NEWAKSU_E_INVALID_TOKEN, NULL);
    replay(5, 4, THE_SERVER, NEWAKSU_E_UNSUPPORTED_FUNCTION, NULL);
    replay(4, 3, THE_CLIENT, NEWAKSU_E_OUT_OF_SEQUENCE, NULL);
}

/* A finished server keeps what it was given, even if it then refuses. */
static void an_identity_stays(void) {
    struct setup setup = usual_setup();
    struct exchange exchange;
    exchange_make(&exchange, &setup);
    exchange_run(&exchange, NULL, NULL);
    check_delegated(&exchange, setup.name, setup.password);
    exchange_turn(&exchange, THE_SERVER, exchange.messages[4], exchange.lengths[4]);
    CHECK(exchange.progress[THE_SERVER] == NEWAKSU_REFUSED);
    exchange.status[THE_SERVER] = NEWAKSU_OK, exchange.progress[THE_SERVER] = NEWAKSU_FINISHED;
    check_delegated(&exchange, setup.name, setup.password);
    exchange_release(&exchange);
}

/* A message of one exchange goes to an end of another, which drew other values. */
static void messages_of_another_exchange(void) {
    struct setup setup = usual_setup();
    struct exchange one, two;
    exchange_make(&one, &setup);
    exchange_run(&one, NULL, NULL);
    exchange_make(&two, &setup);
    two.parties[THE_SERVER].own[0] = 77;
    exchange_turn(&two, THE_CLIENT, NULL, 0);
    exchange_turn(&two, THE_SERVER, two.messages[0], two.lengths[0]);
    exchange_turn(&two, THE_SERVER, one.messages[2], one.lengths[2]);
    CHECK_STATUS(two.status[THE_SERVER], NEWAKSU_E_LOGON_DENIED);
    check_withheld(&two);
    exchange_release(&one);
    exchange_release(&two);
}

struct failing {
    uint32_t step, seal, unseal, peer;
};

static void run_failing(int end, const struct failing *failing, int seals_short,
                        struct exchange *exchange) {
    struct setup setup = usual_setup();
    struct party *party;
    exchange_make(exchange, &setup);
    party = &exchange->parties[end];
    party->refuse_step = failing->step;
    party->refuse_seal = failing->seal;
    party->refuse_unseal = failing->unseal;
    party->refuse_peer = failing->peer;
    party->seals_short = seals_short;
    exchange_run(exchange, NULL, NULL);
}

/* A mechanism that fails ends its exchange, and what a server reports of it has the mechanism's
 * code. */
static void a_server_whose_mechanism_fails(void) {
    static const struct failing cases[] = {
        {NEWAKSU_E_INTERNAL_ERROR, 0, 0, 0},      {NEWAKSU_E_LOGON_DENIED, 0, 0, 0},
        {NEWAKSU_E_INSUFFICIENT_MEMORY, 0, 0, 0}, {0, NEWAKSU_E_CONTEXT_EXPIRED, 0, 0},
        {0, 0, NEWAKSU_E_MESSAGE_ALTERED, 0},     {0, 0, 0, NEWAKSU_E_NO_CREDENTIALS},
    };
    struct exchange exchange;
    for (size_t i = 0; i < sizeof cases / sizeof *cases; i++) {
        run_failing(THE_SERVER, &cases[i], 0, &exchange);
        check_server_refused(&exchange,
                             cases[i].step | cases[i].seal | cases[i].unseal | cases[i].peer);
        exchange_release(&exchange);
    }
    run_failing(THE_SERVER, &(struct failing){0, 0, 0, 0}, 1, &exchange);
    check_server_refused(&exchange, NEWAKSU_E_INTERNAL_ERROR);
    exchange_release(&exchange);
    /* whatever the mechanism says of what it cannot open, the end says that it was altered */
    run_failing(THE_SERVER, &(struct failing){0, 0, NEWAKSU_E_CONTEXT_EXPIRED, 0}, 0, &exchange);
    check_server_refused(&exchange, NEWAKSU_E_MESSAGE_ALTERED);
    exchange_release(&exchange);
    /* a number that is not an SSPI error */
    run_failing(THE_SERVER, &(struct failing){12345, 0, 0, 0}, 0, &exchange);
    check_server_refused(&exchange, NEWAKSU_E_INVALID_TOKEN);
    exchange_release(&exchange);
}

static void a_client_whose_mechanism_fails(void) {
    static const struct failing cases[] = {{NEWAKSU_E_NO_CREDENTIALS, 0, 0, 0},
                                           {0, NEWAKSU_E_CONTEXT_EXPIRED, 0, 0},
                                           {0, 0, NEWAKSU_E_MESSAGE_ALTERED, 0}};
    struct exchange exchange;
    for (size_t i = 0; i < sizeof cases / sizeof *cases; i++) {
        run_failing(THE_CLIENT, &cases[i], 0, &exchange);
        check_client_refused(&exchange, cases[i].step | cases[i].seal | cases[i].unseal);
        exchange_release(&exchange);
    }
    run_failing(THE_CLIENT, &(struct failing){0, 0, 0, 0}, 1, &exchange);
    check_client_refused(&exchange, NEWAKSU_E_INTERNAL_ERROR);
    exchange_release(&exchange);
}

/* If a server reports an error, the client does not step with what else it says. */
static void a_server_that_tells_an_error(void) {
    struct setup setup = usual_setup();
    struct exchange exchange;
    uint8_t told[64];
    size_t length = from_hex("301b a003020106 a10c 300a 3008 a006 0404 54320000 a406 0204 c000006d",
                             told, sizeof told);
    exchange_make(&exchange, &setup);
    exchange_turn(&exchange, THE_CLIENT, NULL, 0);
    exchange_turn(&exchange, THE_CLIENT, told, length);
    CHECK_STATUS(exchange.status[THE_CLIENT], NEWAKSU_E_INVALID_TOKEN);
    CHECK(exchange.refusals[THE_CLIENT].has_nstatus == 1 &&
          exchange.refusals[THE_CLIENT].nstatus == 0xc000006du);
    CHECK(exchange.parties[THE_CLIENT].steps_asked == 1);
    check_withheld(&exchange);
    exchange_release(&exchange);
}

int main(void) {
    another_key_of_the_channel();
    a_wrong_password();
    changed_proofs();
    changed_credentials();
    every_byte_changed();
    every_message_cut();
    replayed_messages();
    an_identity_stays();
    messages_of_another_exchange();
    a_server_whose_mechanism_fails();
    a_client_whose_mechanism_fails();
    a_server_that_tells_an_error();
    return checks_done("refusals");
}
