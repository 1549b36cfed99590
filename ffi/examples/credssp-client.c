/* A CredSSP client: authenticates a user to a server, delegates the credentials, and prints what
 * it was told.
 *
 * Standard output: `protocol`, `version`, `delegated`, and, if requested, `early success` or
 * `early denied`. Standard error: the refusal or the fault by name. Exit status: 0 if the
 * credentials were sent and no early result denied the user, 1 for a refusal, 2 for wrong
 * arguments, 3 for a fault. */
#define _GNU_SOURCE
#include <signal.h>
#include <stdio.h>
#include <string.h>

#include "arguments.h"
#include "below.h"
#include "channel.h"
#include "exchange.h"
#include "newaksu.h"
#include "secret.h"
#include "x224.h"

enum { NO_DESCRIPTOR = UINT16_MAX };

struct settings {
    const char *host, *port, *user, *mechanism;
    struct trust trust;
    uint32_t password_fd; /* NO_DESCRIPTOR: the password is asked for */
    uint32_t version, least_version, seconds;
    bool negotiate, early, credential_less, trace;
};

#define PLACE(name, kind, member) \
    { name, kind, offsetof(struct settings, member) }

static const struct argument arguments[] = {
    PLACE("host", ARGUMENT_TEXT, host),
    PLACE("port", ARGUMENT_TEXT, port),
    PLACE("user", ARGUMENT_TEXT, user),
    PLACE("certificate", ARGUMENT_TEXT, trust.file),
    PLACE("fingerprint", ARGUMENT_TEXT, trust.fingerprint),
    PLACE("password-fd", ARGUMENT_NUMBER, password_fd),
    PLACE("mechanism", ARGUMENT_TEXT, mechanism),
    PLACE("negotiate", ARGUMENT_FLAG, negotiate),
    PLACE("version", ARGUMENT_NUMBER, version),
    PLACE("least-version", ARGUMENT_NUMBER, least_version),
    PLACE("seconds", ARGUMENT_NUMBER, seconds),
    PLACE("early", ARGUMENT_FLAG, early),
    PLACE("credential-less", ARGUMENT_FLAG, credential_less),
    PLACE("trace", ARGUMENT_FLAG, trace),
    {NULL, ARGUMENT_FLAG, 0},
};

static int usage(void) {
    fputs("usage: credssp-client --host HOST --user USER (--certificate FILE | --fingerprint "
          "SHA256)\n"
          "    [--port PORT] [--password-fd N] [--mechanism ntlm|kerberos|spnego|both]\n"
          "    [--negotiate] [--version N] [--least-version N] [--seconds N] [--early]\n"
          "    [--credential-less] [--trace]\n"
          "--negotiate has this library's SPNEGO offer the mechanism, or both. spnego is that of\n"
          "GSSAPI.\n"
          "USER is DOMAIN\\user, user@domain or user. The password is the next line of the file\n"
          "descriptor, or is asked for. --seconds is how long the exchange may take in all, 60 if "
          "left\n"
          "out, once before the password and once behind it. --early asks for HYBRID_EX.\n"
          "--credential-less sends no password. --trace shows each message.\n",
          stderr);
    return 2;
}

static bool read_arguments(char **words, struct settings *settings) {
    return arguments_read(words, arguments, settings) && settings->host && settings->user &&
           !settings->trust.file != !settings->trust.fingerprint &&
           below_knows(settings->mechanism, settings->negotiate) &&
           settings->password_fd <= NO_DESCRIPTOR;
}

/* A host over GSSAPI, bound to the key of the channel. It and GSSAPI keep copies of the
 * password. */
static enum fault make_host(const struct settings *settings, const struct channel *channel,
                            struct below *below, newaksu_host **host) {
    int descriptor = settings->password_fd == NO_DESCRIPTOR ? -1 : (int)settings->password_fd;
    char password[PASSWORD_BYTES + 1] = "";
    newaksu_client_settings options;
    newaksu_client_settings_init(&options);
    options.version = settings->version;
    options.least_version = settings->least_version;
    options.delegation =
        settings->credential_less ? NEWAKSU_CREDENTIAL_LESS : NEWAKSU_WITH_CREDENTIALS;
    options.user = settings->user;
    options.user_length = strlen(settings->user);
    enum fault fault = tls_server_key(channel, &options.public_key, &options.public_key_length);
    if (fault == FAULT_NONE)
        fault = read_password(descriptor, "Password: ", password);
    if (fault == FAULT_NONE)
        fault = below_client(below, settings->mechanism, settings->host, settings->user, password);
    options.password = password;
    options.password_length = strlen(password);
    if (fault == FAULT_NONE)
        fault = below_make_client(below, &options, host);
    explicit_bzero(password, sizeof password);
    return fault;
}

/* What the server says after the delegation. */
static int hear(struct channel *channel) {
    uint8_t bytes[4];
    uint32_t result;
    enum fault fault = channel_read(channel, bytes, sizeof bytes);
    if (fault != FAULT_NONE)
        return fault_report(fault, "early user authorization result");
    if (newaksu_early_decode(bytes, sizeof bytes, &result) != NEWAKSU_OK)
        return fault_report(FAULT_NOT_A_REQUEST, "early user authorization result");
    printf("early %s\n", result == 0 ? "success" : "denied");
    return result == 0 ? 0 : 1;
}

static int delegate(const struct settings *settings, struct channel *channel, uint32_t protocol) {
    struct exchange exchange = {.trace = settings->trace};
    struct below below = {.negotiates = settings->negotiate};
    newaksu_host *host = NULL;
    enum fault fault = make_host(settings, channel, &below, &host);
    int status = 1;
    if (fault == FAULT_NONE) {
        /* typing a password takes time */
        channel_set_deadline(channel, settings->seconds);
        fault = exchange_run(&exchange, channel, host, true);
        if (exchange.peer_version)
            printf("version %u\n", (unsigned int)exchange.peer_version);
    }
    if (fault != FAULT_NONE) {
        status = fault_report(fault, "CredSSP");
    } else if (exchange.status != NEWAKSU_OK) {
        exchange_print_refusal(host);
    } else {
        puts("delegated");
        status = protocol == X224_HYBRID_EX ? hear(channel) : 0;
    }
    below_print_failures(&below);
    if (host)
        newaksu_host_release(host);
    else
        below_release(&below);
    return status;
}

/* X.224, TLS, CredSSP. */
static int log_on(const struct settings *settings, struct channel *channel) {
    uint32_t protocol;
    uint32_t wanted = X224_TLS | X224_HYBRID | (settings->early ? X224_HYBRID_EX : 0);
    enum fault fault = x224_connect(channel, wanted, settings->credential_less, &protocol);
    if (fault != FAULT_NONE)
        return fault_report(fault, "X.224");
    printf("protocol %s\n", x224_name(protocol));
    fault = tls_connect(channel, settings->host, &settings->trust);
    return fault == FAULT_NONE ? delegate(settings, channel, protocol) : fault_report(fault, "TLS");
}

int main(int count, char **words) {
    (void)count;
    struct settings settings = {.port = "3389",
                                .mechanism = "ntlm",
                                .password_fd = NO_DESCRIPTOR,
                                .version = 6,
                                .least_version = 5,
                                .seconds = EXCHANGE_SECONDS};
    struct channel channel;
    signal(SIGPIPE, SIG_IGN);
    setvbuf(stdout, NULL, _IOLBF, 0);
    if (!read_arguments(words, &settings))
        return usage();
    enum fault fault = channel_connect(&channel, settings.host, settings.port, settings.seconds);
    if (fault != FAULT_NONE)
        return fault_report(fault, settings.host);
    int status = log_on(&settings, &channel);
    channel_close(&channel);
    return status;
}
