/* A connection: a socket at first, TLS over it later. The same two calls read and write over
 * both. Neither waits for a silent peer longer than CHANNEL_SECONDS or past the deadline, so no
 * peer can hold a program up by sending a byte now and then. */
#ifndef NEWAKSU_EXAMPLE_CHANNEL_H
#define NEWAKSU_EXAMPLE_CHANNEL_H

#include <openssl/ssl.h>
#include <stddef.h>
#include <stdint.h>

#include "fault.h"

enum { CHANNEL_SECONDS = 10, EXCHANGE_SECONDS = 60 };

struct channel {
    int socket;       /* below 0 if there is none */
    SSL *tls;         /* NULL before the handshake */
    int64_t deadline; /* in milliseconds of CLOCK_MONOTONIC */
};

/* How a client recognizes its server's certificate. One of the two is set. */
struct trust {
    const char *file; /* PEM: the certificate itself, or a CA's; the host's name must match too */
    const char *fingerprint; /* SHA-256 of the certificate in hexadecimal, with or without colons */
};

/* The deadline is that many seconds after connecting. */
enum fault channel_connect(struct channel *, const char *host, const char *port, uint32_t seconds);

/* A socket that listens at the address. */
enum fault channel_listen(int *listener, const char *address, const char *port);
enum fault channel_accept(struct channel *, int listener, uint32_t seconds);

/* Resets the deadline to that many seconds from now. */
void channel_set_deadline(struct channel *, uint32_t seconds);

/* Exactly `count` bytes, or a fault. */
enum fault channel_read(struct channel *, void *bytes, size_t count);
enum fault channel_write(struct channel *, const void *bytes, size_t count);

/* Shuts down TLS if there is any, and closes the socket. A closed channel may be closed again. */
void channel_close(struct channel *);

enum fault tls_accept(struct channel *, const char *certificate_file, const char *key_file);

/* Nothing but the handshake is sent before the certificate is found to be the expected one. */
enum fault tls_connect(struct channel *, const char *host, const struct trust *);

/* The key that both ends of CredSSP bind to: the content of `subjectPublicKey` in the server's
 * certificate, without the octet that counts unused bits (MS-CSSP 3.1.5). For RSA that is the
 * DER of RSAPublicKey, for an elliptic curve the point. The bytes are valid as long as the
 * channel is open. */
enum fault tls_server_key(const struct channel *, const uint8_t **key, size_t *length);

#endif
