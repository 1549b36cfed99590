/* The turns of examples/turns.c: a client and a server, each in a thread, with a socket pair
 * between them. */
#include <pthread.h>
#include <string.h>
#include <sys/socket.h>
#include <unistd.h>

#include "../examples/turns.h"
#include "check.h"
#include "exchange.h"

static newaksu_host *client;
static int sockets[2];
static uint32_t client_status;

static void *connect_to_server(void *argument) {
    (void)argument;
    client_status = make_turns(client, sockets[0], 1);
    close(sockets[0]);
    return NULL;
}

/* The result of the server's turns; it then reads what is left in the client's channel. */
static uint32_t run(struct exchange *exchange, const struct setup *setup) {
    pthread_t thread;
    uint32_t status;
    uint8_t rest[16];
    exchange_make(exchange, setup);
    client = exchange->ends[THE_CLIENT];
    CHECK(socketpair(AF_UNIX, SOCK_STREAM, 0, sockets) == 0);
    CHECK(pthread_create(&thread, NULL, connect_to_server, NULL) == 0);
    status = make_turns(exchange->ends[THE_SERVER], sockets[1], 0);
    CHECK(shutdown(sockets[1], SHUT_WR) == 0 && read(sockets[1], rest, sizeof rest) == 0);
    close(sockets[1]);
    CHECK(pthread_join(thread, NULL) == 0);
    return status;
}

static void delegations(void) {
    struct setup setup = usual_setup();
    struct exchange exchange;
    const char *user, *password;
    size_t user_length, password_length;
    CHECK_STATUS(run(&exchange, &setup), NEWAKSU_OK);
    CHECK_STATUS(client_status, NEWAKSU_OK);
    CHECK_STATUS(newaksu_host_identity(exchange.ends[THE_SERVER], &user, &user_length, &password,
                                       &password_length),
                 NEWAKSU_OK);
    CHECK(user_length == strlen(setup.name) && memcmp(user, setup.name, user_length) == 0);
    CHECK(password_length == strlen(setup.password) &&
          memcmp(password, setup.password, password_length) == 0);
    exchange_release(&exchange);
}

static void refusals(void) {
    struct setup setup = usual_setup();
    struct exchange exchange;
    setup.server_password = "another";
    CHECK_STATUS(run(&exchange, &setup), NEWAKSU_E_LOGON_DENIED);
    CHECK_STATUS(client_status, NEWAKSU_E_INVALID_TOKEN);
    CHECK(!exchange.parties[THE_CLIENT].saw_password);
    exchange_release(&exchange);
}

/* What is not a request, and a channel that ends. */
static void faults(const char *sent, size_t length, uint32_t status) {
    struct setup setup = usual_setup();
    struct exchange exchange;
    int pair[2];
    exchange_make(&exchange, &setup);
    CHECK(socketpair(AF_UNIX, SOCK_STREAM, 0, pair) == 0);
    CHECK(write(pair[0], sent, length) == (ssize_t)length && shutdown(pair[0], SHUT_WR) == 0);
    CHECK_STATUS(make_turns(exchange.ends[THE_SERVER], pair[1], 0), status);
    close(pair[0]);
    close(pair[1]);
    exchange_release(&exchange);
}

int main(void) {
    delegations();
    refusals();
    faults("GET / HTTP/1.1", 14, NEWAKSU_INVALID_DATA);
    faults("\x30\x05\xa0\x03", 4, NEWAKSU_READ_FAULT);
    faults("\x30\x05\xa1\x03\x02\x01\x06", 7, NEWAKSU_INVALID_DATA);
    return checks_done("channel");
}
