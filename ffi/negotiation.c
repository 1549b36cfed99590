/* What a host does if its end negotiates: which mechanism steps, and the MICs (RFC 4178). */
#include "host.h"

#include <string.h>

static uint32_t write_init(newaksu_handle *init, uint32_t which, uint8_t *out, size_t capacity,
                           size_t *written) {
    (void)which;
    return newaksu_init_encode(init, out, capacity, written);
}

static uint32_t write_init_token(newaksu_handle *init, uint32_t which, uint8_t *out,
                                 size_t capacity, size_t *written) {
    (void)which;
    return newaksu_init_token(init, out, capacity, written);
}

static uint32_t write_targ(newaksu_handle *targ, uint32_t which, uint8_t *out, size_t capacity,
                           size_t *written) {
    (void)which;
    return newaksu_targ_encode(targ, out, capacity, written);
}

static uint32_t write_signing(newaksu_handle *targ, uint32_t which, uint8_t *out, size_t capacity,
                              size_t *written) {
    (void)which;
    return newaksu_targ_signing(targ, out, capacity, written);
}

static uint32_t write_list(newaksu_handle *course, uint32_t which, uint8_t *out, size_t capacity,
                           size_t *written) {
    (void)which;
    return newaksu_course_list(course, out, capacity, written);
}

int negotiates(const newaksu_host *host) {
    return host->course.at != NULL;
}

/* Makes the mechanism that is due the host's from now on. */
static uint32_t take_due(newaksu_host *host, uint32_t due) {
    const side *chosen = due == NEWAKSU_MECH_NTLM ? &host->ntlm : &host->kerberos;
    if (!chosen->there)
        return NEWAKSU_E_INTERNAL_ERROR;
    host->mechanism = chosen->mechanism;
    host->context = chosen->context;
    return NEWAKSU_OK;
}

void choose_form(newaksu_host *host, newaksu_handle *request) {
    static const uint8_t ntlm[8] = {'N', 'T', 'L', 'M', 'S', 'S', 'P', 0};
    newaksu_bytes token = {0};
    if (fetch(newaksu_request_field, request, NEWAKSU_NEGO_TOKENS, &token) == NEWAKSU_OK &&
        host->bare.at != NULL && token.length >= sizeof ntlm &&
        memcmp(token.at, ntlm, sizeof ntlm) == 0) {
        newaksu_handle negotiating = host->end;
        host->end = host->bare;
        host->bare = negotiating;
        (void)newaksu_release(&host->course);
        (void)take_due(host, NEWAKSU_MECH_NTLM);
    }
    bytes_release(&token);
    (void)newaksu_release(&host->bare);
}

/* A client's first step, whose envelope is passed in unchanged. */
static int first(newaksu_host *host, findings *found) {
    static const newaksu_bytes nothing;
    uint32_t due = NEWAKSU_MECH_OTHER;
    found->status = newaksu_course_first(&host->course, &due);
    if (found->status == NEWAKSU_OK)
        found->status = take_due(host, due);
    if (found->status == NEWAKSU_OK)
        host->ended = step_with(host, &nothing, &found->envelope);
    return host->ended;
}

/* Steps the mechanism that is due, if one is, with the token that a call writes. */
static uint32_t step_due(newaksu_host *host, uint32_t due, writer write, newaksu_handle *from,
                         uint32_t which, newaksu_bytes *envelope) {
    newaksu_bytes token = {0};
    uint32_t status;
    if (due == NEWAKSU_MECH_OTHER)
        return NEWAKSU_OK;
    status = take_due(host, due);
    if (status == NEWAKSU_OK)
        status = fetch(write, from, which, &token);
    if (status == NEWAKSU_OK || status == NEWAKSU_ABSENT) {
        host->ended = step_with(host, &token, envelope);
        status = envelope->failed ? NEWAKSU_E_INSUFFICIENT_MEMORY : NEWAKSU_OK;
    }
    bytes_release(&token);
    return status;
}

static uint32_t take_offer(newaksu_host *host, newaksu_handle *init, newaksu_bytes *handed) {
    newaksu_bytes envelope = {0};
    uint32_t due = NEWAKSU_MECH_OTHER;
    uint32_t status = newaksu_course_offer(&host->course, init, &due);
    if (status == NEWAKSU_OK)
        status = step_due(host, due, write_init_token, init, 0, &envelope);
    if (status == NEWAKSU_OK)
        status = newaksu_init_hand(init, octets(envelope.at), envelope.length);
    if (status == NEWAKSU_OK)
        status = fetch(write_init, init, 0, handed);
    bytes_release(&envelope);
    return status;
}

/* Whether the received MIC is the peer's, over the list as this end knows it. */
static int is_good(newaksu_host *host, newaksu_handle *targ, newaksu_bytes *list) {
    newaksu_bytes mic = {0};
    int good = host->ended &&
               fetch(newaksu_targ_field, targ, NEWAKSU_MECH_LIST_MIC, &mic) == NEWAKSU_OK &&
               fetch(write_list, &host->course, 0, list) == NEWAKSU_OK &&
               host->mechanism.verify(host->context, octets(list->at), list->length, octets(mic.at),
                                      mic.length) == NEWAKSU_OK;
    bytes_release(&mic);
    return good;
}

static uint32_t take_response(newaksu_host *host, newaksu_handle *targ, newaksu_bytes *handed) {
    newaksu_bytes envelope = {0}, list = {0};
    uint32_t due = NEWAKSU_MECH_OTHER;
    uint32_t status = (host->is_server ? newaksu_course_continuation
                                       : newaksu_course_answer)(&host->course, targ, &due);
    if (status == NEWAKSU_OK)
        status = step_due(host, due, newaksu_targ_field, targ, NEWAKSU_RESPONSE_TOKEN, &envelope);
    if (status == NEWAKSU_OK) {
        uint32_t good = (uint32_t)is_good(host, targ, &list);
        status = newaksu_targ_hand(targ, octets(envelope.at), envelope.length, good,
                                   octets(list.at), list.length);
    }
    if (status == NEWAKSU_OK)
        status = fetch(write_targ, targ, 0, handed);
    bytes_release(&envelope);
    bytes_release(&list);
    return status;
}

/* A token of another form is left out, and the end reports it. */
static uint32_t take_token(newaksu_host *host, const newaksu_bytes *token, newaksu_bytes *handed) {
    newaksu_handle read = NEWAKSU_EMPTY;
    int offers = host->is_server && !host->started;
    uint32_t status = (offers ? newaksu_init_decode : newaksu_targ_decode)(&read, octets(token->at),
                                                                           token->length);
    if (status == NEWAKSU_OK)
        status = (offers ? take_offer : take_response)(host, &read, handed);
    else if (status == NEWAKSU_E_INVALID_TOKEN)
        status = NEWAKSU_OK;
    (void)newaksu_release(&read);
    return status;
}

int negotiate(newaksu_host *host, newaksu_handle *request, findings *found) {
    newaksu_bytes token = {0};
    uint32_t status;
    if (request->at == NULL)
        return first(host, found);
    status = fetch(newaksu_request_field, request, NEWAKSU_NEGO_TOKENS, &token);
    if (status == NEWAKSU_OK)
        status = take_token(host, &token, &found->envelope);
    if (status != NEWAKSU_ABSENT)
        found->status = status;
    bytes_release(&token);
    return host->ended;
}

uint32_t go_on(newaksu_host *host) {
    newaksu_acts acts = {0};
    uint32_t status = newaksu_end_acts(&host->end, &acts);
    if (status != NEWAKSU_OK || !acts.stepped)
        return status;
    if (!host->is_server && !host->offered) {
        host->offered = 1;
        return newaksu_course_offered(&host->course);
    }
    return newaksu_course_go_on(&host->course, (uint32_t)host->ended, acts.status);
}

/* The token with the MIC, if the end signed. NEWAKSU_ABSENT if it did not. */
static uint32_t sign_token(newaksu_host *host, newaksu_handle *targ, newaksu_bytes *signed_token) {
    newaksu_bytes list = {0}, mic = {0};
    uint32_t status = fetch(write_signing, targ, 0, &list);
    if (status == NEWAKSU_OK)
        status = host->mechanism.sign(host->context, octets(list.at), list.length, &mic);
    if (status == NEWAKSU_OK && mic.failed)
        status = NEWAKSU_E_INSUFFICIENT_MEMORY;
    if (status == NEWAKSU_OK)
        status = newaksu_targ_set_field(targ, NEWAKSU_MECH_LIST_MIC, octets(mic.at), mic.length);
    if (status == NEWAKSU_OK)
        status = fetch(write_targ, targ, 0, signed_token);
    bytes_release(&list);
    bytes_release(&mic);
    return status;
}

static uint32_t sign_request(newaksu_host *host, newaksu_handle *request) {
    newaksu_handle targ = NEWAKSU_EMPTY;
    newaksu_bytes token = {0}, signed_token = {0};
    uint32_t status = fetch(newaksu_request_field, request, NEWAKSU_NEGO_TOKENS, &token);
    if (status == NEWAKSU_OK &&
        newaksu_targ_decode(&targ, octets(token.at), token.length) == NEWAKSU_E_INVALID_TOKEN)
        status = NEWAKSU_ABSENT;
    if (status == NEWAKSU_OK)
        status = sign_token(host, &targ, &signed_token);
    if (status == NEWAKSU_OK)
        status = newaksu_request_set_field(request, NEWAKSU_NEGO_TOKENS, octets(signed_token.at),
                                           signed_token.length);
    (void)newaksu_release(&targ);
    bytes_release(&token);
    bytes_release(&signed_token);
    return status;
}

uint32_t sign_message(newaksu_host *host) {
    newaksu_handle request = NEWAKSU_EMPTY;
    uint32_t status = newaksu_request_decode(&request, octets(host->send.at), host->send.length);
    if (status == NEWAKSU_OK)
        status = sign_request(host, &request);
    if (status == NEWAKSU_OK) {
        bytes_release(&host->send);
        status = fetch(write_request, &request, 0, &host->send);
    }
    (void)newaksu_release(&request);
    return status == NEWAKSU_ABSENT ? NEWAKSU_OK : status;
}
