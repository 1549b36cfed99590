/* What is below a host: one GSSAPI mechanism, or, if the host's own SPNEGO negotiates, NTLM and
 * Kerberos, of which it selects one. */
#ifndef NEWAKSU_EXAMPLE_BELOW_H
#define NEWAKSU_EXAMPLE_BELOW_H

#include "gss.h"
#include "users.h"

struct below {
    bool negotiates;
    struct gss *alone;
    struct gss *ntlm, *kerberos;
};

/* Whether there is such a mechanism. Besides GSSAPI's, there is "both" if the host negotiates, and
 * "spnego" only if it does not. */
bool below_knows(const char *mechanism, bool negotiates);

/* As gss_client and gss_server. Of "both", a client takes those that have credentials, and fails
 * only if neither has; a server needs both. */
enum fault below_client(struct below *below, const char *mechanism, const char *host,
                        const char *user, const char *password);
enum fault below_server(struct below *below, const char *mechanism, const char *users_file);

/* Makes the host, which then owns what is below it. A server that negotiates accepts the users of
 * the list; any other accepts everyone whom its mechanism names. */
enum fault below_make_client(const struct below *below, const newaksu_client_settings *settings,
                             newaksu_host **host);
enum fault below_make_server(const struct below *below, newaksu_server_settings *settings,
                             const struct users *users, newaksu_host **host);

/* The user whom a server has authenticated, in UTF-8; empty before. */
const char *below_authenticated(const struct below *below);

/* Prints what GSSAPI says of its failures. */
void below_print_failures(const struct below *below);

/* Releases what no host owns. */
void below_release(struct below *below);

#endif
