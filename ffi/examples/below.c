/* One mechanism below a host, or two. */
#include "below.h"

#include <string.h>

bool below_knows(const char *mechanism, bool negotiates) {
    if (!negotiates)
        return gss_knows(mechanism);
    return strcmp(mechanism, "both") == 0 ||
           (gss_knows(mechanism) && strcmp(mechanism, "spnego") != 0);
}

static bool has(const char *mechanism, const char *name) {
    return strcmp(mechanism, "both") == 0 || strcmp(mechanism, name) == 0;
}

/* Leaves out a mechanism that is not available, and prints its last failure. */
static void leave_out(struct gss **gss) {
    if (*gss) {
        gss_print_failure(*gss);
        gss_mechanism.release(*gss);
    }
    *gss = NULL;
}

enum fault below_client(struct below *below, const char *mechanism, const char *host,
                        const char *user, const char *password) {
    if (!below->negotiates)
        return gss_client(&below->alone, mechanism, host, user, password);
    enum fault fault = FAULT_MECHANISM, other = FAULT_MECHANISM;
    if (has(mechanism, "kerberos"))
        fault = gss_client(&below->kerberos, "kerberos", host, user, password);
    if (fault == FAULT_NONE)
        gss_use_dce_style(below->kerberos);
    else
        leave_out(&below->kerberos);
    if (has(mechanism, "ntlm"))
        other = gss_client(&below->ntlm, "ntlm", host, user, password);
    if (other != FAULT_NONE)
        leave_out(&below->ntlm);
    return fault == FAULT_NONE ? FAULT_NONE : other;
}

enum fault below_server(struct below *below, const char *mechanism, const char *users_file) {
    if (!below->negotiates)
        return gss_server(&below->alone, mechanism, users_file);
    enum fault fault = FAULT_NONE;
    if (has(mechanism, "kerberos"))
        fault = gss_server(&below->kerberos, "kerberos", users_file);
    if (fault == FAULT_NONE && has(mechanism, "ntlm"))
        fault = gss_server(&below->ntlm, "ntlm", users_file);
    return fault;
}

static newaksu_mechanisms mechanisms_of(const struct below *below) {
    return (newaksu_mechanisms){
        .ntlm = below->ntlm ? &gss_mechanism : NULL,
        .ntlm_context = below->ntlm,
        .kerberos = below->kerberos ? &gss_mechanism : NULL,
        .kerberos_context = below->kerberos,
    };
}

static enum fault fault_of(uint32_t status) {
    return status == NEWAKSU_OK                      ? FAULT_NONE
           : status == NEWAKSU_E_INSUFFICIENT_MEMORY ? FAULT_MEMORY
                                                     : FAULT_SETTINGS;
}

enum fault below_make_client(const struct below *below, const newaksu_client_settings *settings,
                             newaksu_host **host) {
    newaksu_mechanisms both = mechanisms_of(below);
    if (below->negotiates)
        return fault_of(newaksu_host_negotiating_client(settings, &both, host));
    return fault_of(newaksu_host_client(settings, &gss_mechanism, below->alone, host));
}

enum fault below_make_server(const struct below *below, newaksu_server_settings *settings,
                             const struct users *users, newaksu_host **host) {
    newaksu_mechanisms both = mechanisms_of(below);
    if (below->negotiates) {
        settings->users = users->names;
        settings->user_lengths = users->lengths;
        settings->users_count = users->count;
        return fault_of(newaksu_host_negotiating_server(settings, &both, host));
    }
    /* the mechanism knows the users */
    settings->peers = NEWAKSU_PEERS_ANYONE;
    return fault_of(newaksu_host_server(settings, &gss_mechanism, below->alone, host));
}

const char *below_authenticated(const struct below *below) {
    const struct gss *const those[] = {below->alone, below->ntlm, below->kerberos};
    for (size_t i = 0; i < sizeof those / sizeof *those; i++)
        if (those[i] && *gss_authenticated(those[i]))
            return gss_authenticated(those[i]);
    return "";
}

void below_print_failures(const struct below *below) {
    const struct gss *const those[] = {below->alone, below->ntlm, below->kerberos};
    for (size_t i = 0; i < sizeof those / sizeof *those; i++)
        if (those[i])
            gss_print_failure(those[i]);
}

void below_release(struct below *below) {
    struct gss **const those[] = {&below->alone, &below->ntlm, &below->kerberos};
    for (size_t i = 0; i < sizeof those / sizeof *those; i++) {
        if (*those[i])
            gss_mechanism.release(*those[i]);
        *those[i] = NULL;
    }
}
