/* A CredSSP server: accepts one connection, lets its user in or refuses, and says which. It
 * stops where a desktop would begin.
 *
 * Standard output: `listening`, then `protocol` and `version` as far as they are known, then
 * `authenticated NAME`, whom the mechanism vouches for, `identity NAME`, whose credentials were
 * delegated, and, if requested, `password TEXT`. Standard error: the refusal or the fault by name.
 * Exit status: 0 if the user is let in, 1 for a refusal, 2 for wrong arguments, 3 for a fault. */
#define _GNU_SOURCE
#include <signal.h>
#include <stdio.h>
#include <string.h>
#include <strings.h>
#include <unistd.h>

#include "arguments.h"
#include "below.h"
#include "channel.h"
#include "exchange.h"
#include "newaksu.h"
#include "x224.h"

struct settings {
    const char *address, *port;
    const char *certificate, *key, *users, *mechanism;
    const char *admit; /* the one user who may log on; NULL for everyone who was authenticated */
    uint32_t version, least_version, seconds;
    bool negotiate, early, show_password, trace;
};

#define PLACE(name, kind, member) \
    { name, kind, offsetof(struct settings, member) }

static const struct argument arguments[] = {
    PLACE("certificate", ARGUMENT_TEXT, certificate),
    PLACE("key", ARGUMENT_TEXT, key),
    PLACE("users", ARGUMENT_TEXT, users),
    PLACE("address", ARGUMENT_TEXT, address),
    PLACE("port", ARGUMENT_TEXT, port),
    PLACE("mechanism", ARGUMENT_TEXT, mechanism),
    PLACE("negotiate", ARGUMENT_FLAG, negotiate),
    PLACE("version", ARGUMENT_NUMBER, version),
    PLACE("least-version", ARGUMENT_NUMBER, least_version),
    PLACE("seconds", ARGUMENT_NUMBER, seconds),
    PLACE("admit", ARGUMENT_TEXT, admit),
    PLACE("early", ARGUMENT_FLAG, early),
    PLACE("show-password", ARGUMENT_FLAG, show_password),
    PLACE("trace", ARGUMENT_FLAG, trace),
    {NULL, ARGUMENT_FLAG, 0},
};

static int usage(void) {
    fputs(
        "usage: credssp-server --certificate FILE --key FILE [--users FILE] [--address HOST]\n"
        "    [--port PORT] [--mechanism ntlm|kerberos|spnego|both] [--negotiate] [--version N]\n"
        "    [--least-version N] [--seconds N] [--early] [--admit USER] [--show-password]\n"
        "    [--trace]\n"
        "FILE of --users has lines DOMAIN:user:password, and user@REALM for Kerberos. --negotiate\n"
        "has this library's SPNEGO take the mechanism, or both, from users of that file alone;\n"
        "spnego is that of GSSAPI. --seconds is how long the exchange may take in all, from the\n"
        "connection on, 60 if left out. --early offers HYBRID_EX too. --trace shows each "
        "message.\n",
        stderr);
    return 2;
}

static bool read_arguments(char **words, struct settings *settings) {
    return arguments_read(words, arguments, settings) && settings->certificate && settings->key &&
           below_knows(settings->mechanism, settings->negotiate) &&
           (settings->users || !settings->negotiate);
}

/* A host over GSSAPI, bound to the key of the channel. */
static enum fault make_host(const struct settings *settings, const struct channel *channel,
                            struct below *below, newaksu_host **host) {
    newaksu_server_settings options;
    struct users users = {0};
    newaksu_server_settings_init(&options);
    options.version = settings->version;
    options.least_version = settings->least_version;
    enum fault fault = tls_server_key(channel, &options.public_key, &options.public_key_length);
    if (fault == FAULT_NONE)
        fault = below_server(below, settings->mechanism, settings->users);
    if (fault == FAULT_NONE && settings->negotiate)
        fault = users_read(&users, settings->users);
    if (fault == FAULT_NONE)
        fault = below_make_server(below, &options, &users, host);
    users_release(&users);
    return fault;
}

static bool is_admitted(const struct settings *settings, const char *user) {
    return !settings->admit || strcasecmp(settings->admit, user) == 0;
}

/* Prints one line, whatever the peer wrote: control characters are printed by number. */
static void print_line(const char *label, const char *text, size_t length) {
    printf("%s ", label);
    for (size_t i = 0; i < length; i++) {
        unsigned char byte = (unsigned char)text[i];
        if (byte < 0x20 || byte == 0x7f)
            printf("\\x%02x", byte);
        else
            putchar(byte);
    }
    putchar('\n');
}

/* Prints who came, and tells the client whether the user may log on, if it asked for that. This is
 * decided by whom the mechanism authenticated: the delegated name and password are only the
 * client's word. */
static int let_in(const struct settings *settings, struct channel *channel, uint32_t protocol,
                  const newaksu_host *host, const char *authenticated) {
    const char *user, *password;
    size_t user_length, password_length, written;
    uint8_t result[4];
    if (newaksu_host_identity(host, &user, &user_length, &password, &password_length) != NEWAKSU_OK)
        return 1;
    print_line("authenticated", authenticated, strlen(authenticated));
    print_line("identity", user, user_length);
    if (settings->show_password)
        print_line("password", password, password_length);
    bool admitted = is_admitted(settings, authenticated);
    if (protocol == X224_HYBRID_EX) {
        newaksu_early_encode(admitted ? 0 : 5, result, sizeof result, &written);
        enum fault fault = channel_write(channel, result, sizeof result);
        if (fault != FAULT_NONE)
            return fault_report(fault, "early user authorization result");
        printf("early %s\n", admitted ? "success" : "denied");
    }
    if (!admitted)
        fputs("refused: the user is not admitted\n", stderr);
    return admitted ? 0 : 1;
}

static int delegate(const struct settings *settings, struct channel *channel, uint32_t protocol) {
    struct exchange exchange = {.trace = settings->trace};
    struct below below = {.negotiates = settings->negotiate};
    newaksu_host *host = NULL;
    enum fault fault = make_host(settings, channel, &below, &host);
    if (fault != FAULT_NONE) {
        below_print_failures(&below);
        below_release(&below);
        return fault_report(fault, settings->mechanism);
    }
    fault = exchange_run(&exchange, channel, host, false);
    if (exchange.peer_version)
        printf("version %u\n", (unsigned int)exchange.peer_version);
    int status = 1;
    if (fault != FAULT_NONE)
        status = fault_report(fault, "CredSSP");
    else if (exchange.status == NEWAKSU_OK)
        status = let_in(settings, channel, protocol, host, below_authenticated(&below));
    else
        exchange_print_refusal(host);
    below_print_failures(&below);
    newaksu_host_release(host);
    return status;
}

/* X.224, TLS, CredSSP. */
static int serve(const struct settings *settings, struct channel *channel) {
    uint32_t protocol;
    enum fault fault =
        x224_accept(channel, X224_HYBRID | (settings->early ? X224_HYBRID_EX : 0), &protocol);
    if (fault != FAULT_NONE)
        return fault_report(fault, "X.224");
    printf("protocol %s\n", x224_name(protocol));
    fault = tls_accept(channel, settings->certificate, settings->key);
    return fault == FAULT_NONE ? delegate(settings, channel, protocol) : fault_report(fault, "TLS");
}

int main(int count, char **words) {
    (void)count;
    struct settings settings = {.address = "127.0.0.1",
                                .port = "3389",
                                .mechanism = "ntlm",
                                .version = 6,
                                .least_version = 5,
                                .seconds = EXCHANGE_SECONDS};
    struct channel channel;
    int listener;
    signal(SIGPIPE, SIG_IGN);
    setvbuf(stdout, NULL, _IOLBF, 0);
    if (!read_arguments(words, &settings))
        return usage();
    enum fault fault = channel_listen(&listener, settings.address, settings.port);
    if (fault != FAULT_NONE)
        return fault_report(fault, settings.address);
    printf("listening %s:%s\n", settings.address, settings.port);
    fault = channel_accept(&channel, listener, settings.seconds);
    close(listener);
    if (fault != FAULT_NONE)
        return fault_report(fault, "accept");
    int status = serve(&settings, &channel);
    channel_close(&channel);
    return status;
}
