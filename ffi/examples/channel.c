/* Sockets, and TLS over them by OpenSSL. */
#define _GNU_SOURCE
#include "channel.h"

#include <ctype.h>
#include <errno.h>
#include <fcntl.h>
#include <netdb.h>
#include <openssl/evp.h>
#include <openssl/x509v3.h>
#include <poll.h>
#include <string.h>
#include <sys/socket.h>
#include <sys/time.h>
#include <time.h>
#include <unistd.h>

enum { MILLISECONDS = 1000 };

static int64_t now(void) {
    struct timespec time;
    clock_gettime(CLOCK_MONOTONIC, &time);
    return (int64_t)time.tv_sec * MILLISECONDS + time.tv_nsec / 1000000;
}

void channel_set_deadline(struct channel *channel, uint32_t seconds) {
    channel->deadline = now() + (int64_t)seconds * MILLISECONDS;
}

static enum fault check_deadline(const struct channel *channel) {
    return now() < channel->deadline ? FAULT_NONE : FAULT_DEADLINE;
}

/* Waits until the socket can be read or written. */
static enum fault await(const struct channel *channel, short events) {
    struct pollfd ready = {.fd = channel->socket, .events = events};
    const int64_t silence = now() + CHANNEL_SECONDS * MILLISECONDS;
    const int64_t end = silence < channel->deadline ? silence : channel->deadline;
    for (;;) {
        int64_t left = end - now();
        int count = left > 0 ? poll(&ready, 1, (int)left) : 0;
        if (count > 0)
            return FAULT_NONE;
        if (count == 0 && now() >= end)
            return end == silence ? FAULT_TIMEOUT : FAULT_DEADLINE;
        if (count < 0 && errno != EINTR)
            return FAULT_SOCKET;
    }
}

/* A host that does not answer must not hold a program up forever. */
static void limit_connect(int socket) {
    struct timeval limit = {.tv_sec = CHANNEL_SECONDS};
    setsockopt(socket, SOL_SOCKET, SO_SNDTIMEO, &limit, sizeof limit);
}

/* From here on no call on the socket waits except `await`. */
static enum fault begin(struct channel *channel, int socket, uint32_t seconds) {
    *channel = (struct channel){.socket = socket};
    channel_set_deadline(channel, seconds);
    int flags = fcntl(socket, F_GETFL);
    return flags >= 0 && fcntl(socket, F_SETFL, flags | O_NONBLOCK) == 0 ? FAULT_NONE
                                                                         : FAULT_SOCKET;
}

static enum fault resolve(const char *host, const char *port, int flags, struct addrinfo **found) {
    struct addrinfo hints = {.ai_socktype = SOCK_STREAM, .ai_flags = flags};
    return getaddrinfo(host, port, &hints, found) == 0 ? FAULT_NONE : FAULT_ADDRESS;
}

enum fault channel_connect(struct channel *channel, const char *host, const char *port,
                           uint32_t seconds) {
    struct addrinfo *found;
    int connected = -1;
    enum fault fault = resolve(host, port, 0, &found);
    if (fault != FAULT_NONE)
        return fault;
    for (struct addrinfo *at = found; at && connected < 0; at = at->ai_next) {
        int fd = socket(at->ai_family, at->ai_socktype | SOCK_CLOEXEC, at->ai_protocol);
        if (fd < 0)
            continue;
        limit_connect(fd);
        if (connect(fd, at->ai_addr, at->ai_addrlen) == 0)
            connected = fd;
        else
            close(fd);
    }
    freeaddrinfo(found);
    *channel = (struct channel){.socket = -1};
    return connected < 0 ? FAULT_CONNECT : begin(channel, connected, seconds);
}

enum fault channel_listen(int *listener, const char *address, const char *port) {
    struct addrinfo *found;
    enum fault fault = resolve(address, port, AI_PASSIVE, &found);
    if (fault != FAULT_NONE)
        return fault;
    *listener = socket(found->ai_family, found->ai_socktype | SOCK_CLOEXEC, found->ai_protocol);
    if (*listener >= 0) {
        setsockopt(*listener, SOL_SOCKET, SO_REUSEADDR, &(int){1}, sizeof(int));
        if (bind(*listener, found->ai_addr, found->ai_addrlen) != 0 || listen(*listener, 8) != 0) {
            close(*listener);
            *listener = -1;
        }
    }
    freeaddrinfo(found);
    return *listener < 0 ? FAULT_ADDRESS : FAULT_NONE;
}

enum fault channel_accept(struct channel *channel, int listener, uint32_t seconds) {
    int accepted = accept4(listener, NULL, NULL, SOCK_CLOEXEC);
    *channel = (struct channel){.socket = -1};
    return accepted < 0 ? FAULT_SOCKET : begin(channel, accepted, seconds);
}

static enum fault socket_fault(int error) {
    return error == ECONNRESET || error == EPIPE ? FAULT_CLOSED : FAULT_SOCKET;
}

/* Waits if a call on the socket would have waited. FAULT_NONE: it may be made again. Must be
 * called right after it. */
static enum fault retry_socket(const struct channel *channel, ssize_t moved, short events) {
    if (moved == 0)
        return FAULT_CLOSED;
    if (errno == EINTR)
        return FAULT_NONE;
    return errno == EAGAIN || errno == EWOULDBLOCK ? await(channel, events) : socket_fault(errno);
}

/* The same for a TLS call. */
static enum fault retry_tls(const struct channel *channel, int got) {
    switch (SSL_get_error(channel->tls, got)) {
    case SSL_ERROR_ZERO_RETURN:
        return FAULT_CLOSED;
    case SSL_ERROR_WANT_READ:
        return await(channel, POLLIN);
    case SSL_ERROR_WANT_WRITE:
        return await(channel, POLLOUT);
    case SSL_ERROR_SYSCALL:
        return errno ? socket_fault(errno) : FAULT_CLOSED;
    default:
        return FAULT_TLS;
    }
}

/* Some of the bytes; or none, and then it may be called again. */
static enum fault read_some(struct channel *channel, void *bytes, size_t count, size_t *got) {
    *got = 0;
    errno = 0;
    if (channel->tls) {
        int done = SSL_read_ex(channel->tls, bytes, count, got);
        return done == 1 ? FAULT_NONE : retry_tls(channel, done);
    }
    ssize_t received = recv(channel->socket, bytes, count, 0);
    if (received <= 0)
        return retry_socket(channel, received, POLLIN);
    *got = (size_t)received;
    return FAULT_NONE;
}

static enum fault write_some(struct channel *channel, const void *bytes, size_t count,
                             size_t *put) {
    *put = 0;
    errno = 0;
    if (channel->tls) {
        int done = SSL_write_ex(channel->tls, bytes, count, put);
        return done == 1 ? FAULT_NONE : retry_tls(channel, done);
    }
    ssize_t sent = send(channel->socket, bytes, count, MSG_NOSIGNAL);
    if (sent <= 0)
        return retry_socket(channel, sent, POLLOUT);
    *put = (size_t)sent;
    return FAULT_NONE;
}

enum fault channel_read(struct channel *channel, void *bytes, size_t count) {
    enum fault fault = FAULT_NONE;
    for (uint8_t *at = bytes; fault == FAULT_NONE && count > 0;) {
        size_t got = 0;
        fault = check_deadline(channel);
        if (fault == FAULT_NONE)
            fault = read_some(channel, at, count, &got);
        at += got;
        count -= got;
    }
    return fault;
}

enum fault channel_write(struct channel *channel, const void *bytes, size_t count) {
    enum fault fault = FAULT_NONE;
    for (const uint8_t *at = bytes; fault == FAULT_NONE && count > 0;) {
        size_t put = 0;
        fault = check_deadline(channel);
        if (fault == FAULT_NONE)
            fault = write_some(channel, at, count, &put);
        at += put;
        count -= put;
    }
    return fault;
}

void channel_close(struct channel *channel) {
    if (channel->tls) {
        SSL_shutdown(channel->tls);
        SSL_free(channel->tls);
    }
    if (channel->socket >= 0)
        close(channel->socket);
    *channel = (struct channel){.socket = -1};
}

/* A TLS session over the channel's socket. The context lives as long as the session. */
static enum fault tls_over(struct channel *channel, SSL_CTX *context) {
    channel->tls = SSL_new(context);
    SSL_CTX_free(context);
    if (!channel->tls || SSL_set_fd(channel->tls, channel->socket) != 1)
        return FAULT_MEMORY;
    return FAULT_NONE;
}

/* A failed handshake is FAULT_TLS, whatever the reason, unless the peer took too long. */
static enum fault shake_hands(struct channel *channel, int (*step)(SSL *)) {
    enum fault fault = FAULT_NONE;
    while (fault == FAULT_NONE) {
        errno = 0;
        int done = step(channel->tls);
        if (done == 1)
            return FAULT_NONE;
        fault = retry_tls(channel, done);
        if (fault == FAULT_NONE)
            fault = check_deadline(channel);
    }
    return fault == FAULT_TIMEOUT || fault == FAULT_DEADLINE ? fault : FAULT_TLS;
}

static SSL_CTX *tls_context(const SSL_METHOD *method) {
    SSL_CTX *context = SSL_CTX_new(method);
    if (context) {
        SSL_CTX_set_min_proto_version(context, TLS1_2_VERSION);
        /* a truncated stream is detected by the lengths of what it carries */
        SSL_CTX_set_options(context, SSL_OP_IGNORE_UNEXPECTED_EOF);
    }
    return context;
}

enum fault tls_accept(struct channel *channel, const char *certificate_file, const char *key_file) {
    SSL_CTX *context = tls_context(TLS_server_method());
    if (!context)
        return FAULT_MEMORY;
    if (SSL_CTX_use_certificate_chain_file(context, certificate_file) != 1 ||
        SSL_CTX_use_PrivateKey_file(context, key_file, SSL_FILETYPE_PEM) != 1) {
        SSL_CTX_free(context);
        return FAULT_FILE;
    }
    enum fault fault = tls_over(channel, context);
    return fault == FAULT_NONE ? shake_hands(channel, SSL_accept) : fault;
}

/* Whether the text is the SHA-256 of the certificate, whatever the case of its digits. */
static int has_fingerprint(const X509 *certificate, const char *text) {
    uint8_t sum[EVP_MAX_MD_SIZE];
    unsigned int length;
    if (X509_digest(certificate, EVP_sha256(), sum, &length) != 1)
        return 0;
    for (unsigned int i = 0; i < length; i++) {
        static const char digits[] = "0123456789abcdef";
        if (*text == ':' && i > 0)
            text++;
        if (tolower((unsigned char)text[0]) != digits[sum[i] >> 4] ||
            tolower((unsigned char)text[1]) != digits[sum[i] & 15])
            return 0;
        text += 2;
    }
    return *text == '\0';
}

/* OpenSSL checks chain and name during the handshake. */
static enum fault trust_file(SSL_CTX *context, const char *host, const char *file) {
    X509_VERIFY_PARAM *checks = SSL_CTX_get0_param(context);
    if (SSL_CTX_load_verify_locations(context, file, NULL) != 1)
        return FAULT_FILE;
    X509_VERIFY_PARAM_set_flags(checks, X509_V_FLAG_PARTIAL_CHAIN);
    if (X509_VERIFY_PARAM_set1_ip_asc(checks, host) != 1 &&
        X509_VERIFY_PARAM_set1_host(checks, host, 0) != 1)
        return FAULT_MEMORY;
    SSL_CTX_set_verify(context, SSL_VERIFY_PEER, NULL);
    return FAULT_NONE;
}

enum fault tls_connect(struct channel *channel, const char *host, const struct trust *trust) {
    SSL_CTX *context = tls_context(TLS_client_method());
    if (!context)
        return FAULT_MEMORY;
    enum fault fault = trust->file ? trust_file(context, host, trust->file) : FAULT_NONE;
    if (fault != FAULT_NONE) {
        SSL_CTX_free(context);
        return fault;
    }
    fault = tls_over(channel, context);
    if (fault != FAULT_NONE)
        return fault;
    SSL_set_tlsext_host_name(channel->tls, host);
    fault = shake_hands(channel, SSL_connect);
    if (fault == FAULT_TLS && SSL_get_verify_result(channel->tls) != X509_V_OK)
        return FAULT_CERTIFICATE;
    if (fault != FAULT_NONE)
        return fault;
    if (trust->fingerprint &&
        !has_fingerprint(SSL_get0_peer_certificate(channel->tls), trust->fingerprint))
        return FAULT_CERTIFICATE;
    return FAULT_NONE;
}

enum fault tls_server_key(const struct channel *channel, const uint8_t **key, size_t *length) {
    const X509 *certificate = SSL_is_server(channel->tls) ? SSL_get_certificate(channel->tls)
                                                          : SSL_get0_peer_certificate(channel->tls);
    if (!certificate)
        return FAULT_CERTIFICATE;
    const ASN1_BIT_STRING *bits = X509_get0_pubkey_bitstr(certificate);
    *key = ASN1_STRING_get0_data(bits);
    *length = (size_t)ASN1_STRING_length(bits);
    return FAULT_NONE;
}
