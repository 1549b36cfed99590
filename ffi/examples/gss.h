/* The system's mechanism below an end of CredSSP, through GSSAPI: NTLM of gss-ntlmssp, MIT
 * Kerberos, or SPNEGO over both. */
#ifndef NEWAKSU_EXAMPLE_GSS_H
#define NEWAKSU_EXAMPLE_GSS_H

#include <stdbool.h>

#include "fault.h"
#include "newaksu_host.h"

/* The context of `gss_mechanism`: one end of one authentication. The host that is made with it
 * releases it. */
struct gss;

extern const newaksu_mechanism gss_mechanism;

/* Whether the name is "ntlm", "kerberos" or "spnego". */
bool gss_knows(const char *mechanism);

/* Either of the two may set a context on a fault too, for gss_print_failure: release it with
 * gss_mechanism.release. The service is TERMSRV of the host. GSSAPI copies the password. */
enum fault gss_client(struct gss **gss, const char *mechanism, const char *host, const char *user,
                      const char *password);

/* Called before a client's first step: its Kerberos then has three tokens (GSS_C_DCE_STYLE), and a
 * server that negotiates needs its MICs. */
void gss_use_dce_style(struct gss *gss);

/* NTLM reads its users from the file, in lines DOMAIN:user:password. Kerberos reads its key from
 * the keytab that KRB5_KTNAME names; `users_file` may then be null. */
enum fault gss_server(struct gss **gss, const char *mechanism, const char *users_file);

/* The user whom a server has authenticated, in UTF-8; empty before. */
const char *gss_authenticated(const struct gss *gss);

/* Prints what GSSAPI says about its last failure, if anything failed, on standard error. */
void gss_print_failure(const struct gss *gss);

#endif
