/* How a host is made and released (newaksu_host.h). */
#define _DEFAULT_SOURCE
#define _DARWIN_C_SOURCE

#include "host.h"

#include <stdlib.h>
#include <string.h>
#include <unistd.h>
#ifdef __APPLE__
#include <sys/random.h>
#endif

#define NONCE_LENGTH 32

void newaksu_client_settings_init(newaksu_client_settings *settings) {
    *settings = (newaksu_client_settings){
        .version = 6, .least_version = 5, .delegation = NEWAKSU_WITH_CREDENTIALS};
}

void newaksu_server_settings_init(newaksu_server_settings *settings) {
    *settings = (newaksu_server_settings){.version = 6, .least_version = 5};
}

static newaksu_host *new_host(int is_server, uint32_t version) {
    newaksu_host *host = calloc(1, sizeof *host);
    if (host == NULL)
        return NULL;
    host->is_server = is_server;
    host->version = version;
    return host;
}

/* Returns the host with what is below it, or releases only the host. */
static uint32_t hand_out(newaksu_host *made, uint32_t status, newaksu_host **host) {
    if (status == NEWAKSU_OK)
        *host = made;
    else
        newaksu_host_release(made);
    return status;
}

static int has_calls(const newaksu_mechanism *mechanism) {
    return mechanism != NULL && mechanism->step != NULL && mechanism->seal != NULL &&
           mechanism->unseal != NULL;
}

/* Whether the mechanism, if any, has all its calls. */
static int can_negotiate(const newaksu_mechanism *mechanism, int is_server) {
    return mechanism == NULL ||
           (has_calls(mechanism) && mechanism->sign != NULL && mechanism->verify != NULL &&
            (!is_server || mechanism->peer != NULL));
}

/* NEWAKSU_NTLM_ALONE, NEWAKSU_KERBEROS_ALONE or NEWAKSU_NTLM_AND_KERBEROS; 0 for none. */
static uint32_t number_of(const newaksu_mechanisms *mechanisms, int is_server) {
    if (mechanisms == NULL || !can_negotiate(mechanisms->ntlm, is_server) ||
        !can_negotiate(mechanisms->kerberos, is_server))
        return 0;
    return (mechanisms->ntlm != NULL ? NEWAKSU_NTLM_ALONE : 0) +
           (mechanisms->kerberos != NULL ? NEWAKSU_KERBEROS_ALONE : 0);
}

static void keep_side(side *kept, const newaksu_mechanism *mechanism, void *context) {
    if (mechanism != NULL)
        *kept = (side){*mechanism, context, 1};
}

static void keep(newaksu_host *host, const newaksu_mechanism *mechanism, void *context) {
    host->mechanism = *mechanism;
    host->context = context;
}

static void keep_both(newaksu_host *host, const newaksu_mechanisms *mechanisms) {
    keep_side(&host->ntlm, mechanisms->ntlm, mechanisms->ntlm_context);
    keep_side(&host->kerberos, mechanisms->kerberos, mechanisms->kerberos_context);
}

/* A client over the mechanism, or that negotiates. */
static uint32_t make_client(newaksu_host *host, const newaksu_client_settings *settings,
                            uint32_t mechanisms) {
    newaksu_client_options options = {mechanisms, settings->version, settings->least_version,
                                      settings->delegation};
    uint8_t nonce[NONCE_LENGTH];
    uint32_t status;
    if (settings->nonce != NULL)
        memcpy(nonce, settings->nonce, sizeof nonce);
    else if (getentropy(nonce, sizeof nonce) != 0)
        return NEWAKSU_E_INTERNAL_ERROR;
    status = (mechanisms == NEWAKSU_HOST ? newaksu_client_new : newaksu_client_negotiating)(
        &host->end, &options, octets(settings->public_key), settings->public_key_length,
        octets(NULL), 0, nonce, sizeof nonce, octets(settings->user), settings->user_length,
        octets(settings->password), settings->password_length);
    wipe(nonce, sizeof nonce);
    return status;
}

static int is_whole_client(const newaksu_client_settings *settings) {
    return settings != NULL && is_there(settings->public_key, settings->public_key_length) &&
           is_there(settings->user, settings->user_length) &&
           is_there(settings->password, settings->password_length);
}

uint32_t newaksu_host_client(const newaksu_client_settings *settings,
                             const newaksu_mechanism *mechanism, void *context,
                             newaksu_host **host) {
    newaksu_host *made;
    uint32_t status;
    *host = NULL;
    if (!is_whole_client(settings) || !has_calls(mechanism))
        return NEWAKSU_E_INVALID_PARAMETER;
    made = new_host(0, settings->version);
    if (made == NULL)
        return NEWAKSU_E_INSUFFICIENT_MEMORY;
    status = make_client(made, settings, NEWAKSU_HOST);
    if (status == NEWAKSU_OK)
        keep(made, mechanism, context);
    return hand_out(made, status, host);
}

uint32_t newaksu_host_negotiating_client(const newaksu_client_settings *settings,
                                         const newaksu_mechanisms *mechanisms,
                                         newaksu_host **host) {
    uint32_t number = number_of(mechanisms, 0), status;
    newaksu_host *made;
    *host = NULL;
    if (!is_whole_client(settings) || number == 0)
        return NEWAKSU_E_INVALID_PARAMETER;
    made = new_host(0, settings->version);
    if (made == NULL)
        return NEWAKSU_E_INSUFFICIENT_MEMORY;
    status = make_client(made, settings, number);
    if (status == NEWAKSU_OK)
        status = newaksu_course_new(&made->course, number, 0);
    if (status == NEWAKSU_OK)
        keep_both(made, mechanisms);
    return hand_out(made, status, host);
}

/* The list of the users; there is none if anyone is accepted. */
static uint32_t list_users(newaksu_handle *identities, const newaksu_server_settings *settings) {
    uint32_t status = NEWAKSU_OK;
    if (settings->peers != NEWAKSU_PEERS_ANYONE || settings->users_count != 0)
        status = newaksu_identities_new(identities);
    for (size_t i = 0; status == NEWAKSU_OK && i < settings->users_count; i++) {
        if (is_there(settings->users[i], settings->user_lengths[i]))
            status = newaksu_identities_add(identities, octets(settings->users[i]),
                                            settings->user_lengths[i], octets(NULL), 0);
        else
            status = NEWAKSU_E_INVALID_PARAMETER;
    }
    return status;
}

static uint32_t make_server(newaksu_handle *end, newaksu_handle *identities,
                            const newaksu_server_settings *settings) {
    newaksu_server_options options = {NEWAKSU_HOST, settings->version, settings->least_version,
                                      settings->peers};
    return newaksu_server_new(end, identities, &options, octets(settings->public_key),
                              settings->public_key_length, octets(NULL), 0);
}

/* A server that negotiates, and alongside it one for NTLM without SPNEGO. */
static uint32_t make_negotiating(newaksu_host *host, newaksu_handle *identities,
                                 const newaksu_server_settings *settings, uint32_t mechanisms) {
    newaksu_server_options options = {mechanisms, settings->version, settings->least_version,
                                      settings->peers};
    uint32_t status =
        newaksu_server_negotiating(&host->end, identities, &options, octets(settings->public_key),
                                   settings->public_key_length);
    if (status == NEWAKSU_OK)
        status = newaksu_course_new(&host->course, mechanisms, 0);
    if (status == NEWAKSU_OK && mechanisms != NEWAKSU_KERBEROS_ALONE)
        status = make_server(&host->bare, identities, settings);
    return status;
}

static int is_whole_server(const newaksu_server_settings *settings) {
    return settings != NULL && is_there(settings->public_key, settings->public_key_length) &&
           is_there(settings->users, settings->users_count) &&
           is_there(settings->user_lengths, settings->users_count);
}

uint32_t newaksu_host_server(const newaksu_server_settings *settings,
                             const newaksu_mechanism *mechanism, void *context,
                             newaksu_host **host) {
    newaksu_handle identities = NEWAKSU_EMPTY;
    newaksu_host *made;
    uint32_t status;
    *host = NULL;
    if (!is_whole_server(settings) || !has_calls(mechanism) || mechanism->peer == NULL)
        return NEWAKSU_E_INVALID_PARAMETER;
    made = new_host(1, settings->version);
    if (made == NULL)
        return NEWAKSU_E_INSUFFICIENT_MEMORY;
    status = list_users(&identities, settings);
    if (status == NEWAKSU_OK)
        status = make_server(&made->end, &identities, settings);
    (void)newaksu_release(&identities);
    if (status == NEWAKSU_OK)
        keep(made, mechanism, context);
    return hand_out(made, status, host);
}

uint32_t newaksu_host_negotiating_server(const newaksu_server_settings *settings,
                                         const newaksu_mechanisms *mechanisms,
                                         newaksu_host **host) {
    newaksu_handle identities = NEWAKSU_EMPTY;
    uint32_t number = number_of(mechanisms, 1), status;
    newaksu_host *made;
    *host = NULL;
    if (!is_whole_server(settings) || number == 0)
        return NEWAKSU_E_INVALID_PARAMETER;
    made = new_host(1, settings->version);
    if (made == NULL)
        return NEWAKSU_E_INSUFFICIENT_MEMORY;
    status = list_users(&identities, settings);
    if (status == NEWAKSU_OK)
        status = make_negotiating(made, &identities, settings, number);
    (void)newaksu_release(&identities);
    if (status == NEWAKSU_OK)
        keep_both(made, mechanisms);
    return hand_out(made, status, host);
}

static void release_side(const side *one) {
    if (one->there && one->mechanism.release != NULL)
        one->mechanism.release(one->context);
}

static void release_mechanisms(newaksu_host *host) {
    if (host->ntlm.there || host->kerberos.there) {
        release_side(&host->ntlm);
        release_side(&host->kerberos);
    } else if (host->mechanism.release != NULL) {
        host->mechanism.release(host->context);
    }
}

void newaksu_host_release(newaksu_host *host) {
    if (host == NULL)
        return;
    release_mechanisms(host);
    (void)newaksu_release(&host->end);
    (void)newaksu_release(&host->bare);
    (void)newaksu_release(&host->course);
    bytes_release(&host->send);
    bytes_release(&host->user);
    bytes_release(&host->password);
    wipe(host, sizeof *host);
    free(host);
}
