/* Each allocation of an exchange fails in turn, and no freed block still holds the password. The
 * linker substitutes the calls of this file for malloc, calloc and free, in the archive too. */
#define _GNU_SOURCE
#include <malloc.h>
#include <stdlib.h>
#include <string.h>

#include "check.h"
#include "exchange.h"

void *__real_malloc(size_t size);
void *__real_calloc(size_t count, size_t size);
void __real_free(void *block);
void *__wrap_malloc(size_t size);
void *__wrap_calloc(size_t count, size_t size);
void __wrap_free(void *block);

/* The number of the allocation that fails, from 1, and how many there were. */
static unsigned long failing, counted;
/* The freed blocks that held the password in UTF-8 or UTF-16LE. */
static unsigned long leaking;
static const char *secret = "";

static int fails(void) {
    return ++counted == failing;
}

void *__wrap_malloc(size_t size) {
    return fails() ? NULL : __real_malloc(size);
}

void *__wrap_calloc(size_t count, size_t size) {
    return fails() ? NULL : __real_calloc(count, size);
}

void __wrap_free(void *block) {
    size_t length = block == NULL ? 0 : malloc_usable_size(block);
    if (length != 0 && secret[0] != 0 &&
        (memmem(block, length, secret, strlen(secret)) != NULL ||
         holds_utf16(block, length, secret)))
        leaking++;
    __real_free(block);
}

static struct setup setup_of_secret(void) {
    struct setup setup = usual_setup();
    setup.password = setup.server_password = secret = "a password that is looked for";
    return setup;
}

static void nothing_is_left_behind(void) {
    struct setup setup = setup_of_secret();
    struct exchange exchange;
    char *volatile block; /* so that the compiler keeps the block */
    exchange_make(&exchange, &setup);
    exchange_run(&exchange, NULL, NULL);
    check_delegated(&exchange, setup.name, setup.password);
    exchange_release(&exchange);
    CHECK(leaking == 0);
    /* and it would have been detected */
    block = malloc(100);
    CHECK(block != NULL);
    strcpy(block, secret);
    free(block);
    CHECK(leaking == 1);
    leaking = 0;
}

/* The ends are made with enough memory; then an allocation fails. */
static void run_with(const struct setup *setup, struct exchange *exchange, unsigned long number) {
    exchange_make(exchange, setup);
    counted = 0;
    failing = number;
    exchange_run(exchange, NULL, NULL);
    failing = 0;
}

static int is_memory(uint32_t status) {
    return status == NEWAKSU_E_INSUFFICIENT_MEMORY;
}

/* Whichever allocation fails, an end says so and goes no further, unless the failure costs nothing.
 */
static void each_allocation_fails(void) {
    struct setup setup = setup_of_secret();
    struct exchange exchange;
    unsigned long refused = 0;
    for (unsigned long number = 1;; number++) {
        run_with(&setup, &exchange, number);
        if (counted < number) {
            check_delegated(&exchange, setup.name, setup.password);
            exchange_release(&exchange);
            break;
        }
        if (exchange.progress[THE_SERVER] != NEWAKSU_FINISHED) {
            CHECK(is_memory(exchange.status[THE_SERVER]) || is_memory(exchange.status[THE_CLIENT]));
            refused++;
        }
        exchange_release(&exchange);
        CHECK(leaking == 0);
    }
    CHECK(refused > 20);
}

static void making_fails(void) {
    struct party parties[2];
    newaksu_client_settings client;
    newaksu_server_settings server;
    const char *user = "ann";
    size_t length = 3;
    newaksu_client_settings_init(&client);
    newaksu_server_settings_init(&server);
    client.user = user, client.user_length = length, client.password = secret,
    client.password_length = strlen(secret);
    server.users = &user, server.user_lengths = &length, server.users_count = 1;
    for (int end = 0; end < 2; end++) {
        party_init(&parties[end], end, "ann", secret, 1);
        for (unsigned long number = 1;; number++) {
            newaksu_host *host = (newaksu_host *)&parties;
            uint32_t status;
            counted = 0, failing = number;
            status = end == THE_CLIENT
                         ? newaksu_host_client(&client, &party_mechanism, &parties[end], &host)
                         : newaksu_host_server(&server, &party_mechanism, &parties[end], &host);
            failing = 0;
            if (counted < number) {
                CHECK_STATUS(status, NEWAKSU_OK);
                newaksu_host_release(host);
                CHECK(parties[end].releases == 1);
                break;
            }
            CHECK(is_memory(status) && host == NULL && parties[end].releases == 0);
        }
    }
    CHECK(leaking == 0);
}

int main(void) {
    nothing_is_left_behind();
    each_allocation_fails();
    making_fails();
    return checks_done("memory");
}
