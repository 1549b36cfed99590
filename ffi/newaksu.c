/* The host: an end of libnewaksu over the caller's mechanism, one call per message
 * (newaksu_host.h). */
#include "host.h"

#include <string.h>

/* A sealed blob has at least its signature. */
#define SIGNATURE_LENGTH 16

const uint8_t *octets(const void *at) {
    static const uint8_t none[1];
    return at != NULL ? at : none;
}

uint32_t fetch(writer write, newaksu_handle *handle, uint32_t which, newaksu_bytes *bytes) {
    uint8_t none[1];
    size_t size = 0;
    uint32_t status = write(handle, which, none, 0, &size);
    if (status != NEWAKSU_E_BUFFER_TOO_SMALL)
        return status;
    status = bytes_reserve(bytes, size);
    if (status != NEWAKSU_OK)
        return status;
    status = write(handle, which, bytes->at + bytes->length, size, &size);
    if (status == NEWAKSU_OK)
        bytes->length += size;
    return status;
}

static uint32_t write_sealing(newaksu_handle *end, uint32_t which, uint8_t *out, size_t capacity,
                              size_t *written) {
    uint32_t field;
    (void)which;
    return newaksu_end_sealing(end, &field, out, capacity, written);
}

uint32_t write_request(newaksu_handle *request, uint32_t which, uint8_t *out, size_t capacity,
                       size_t *written) {
    (void)which;
    return newaksu_request_encode(request, out, capacity, written);
}

/* The mechanism's part of a turn. */

static void append_code(newaksu_bytes *bytes, uint32_t code) {
    uint8_t refused[5] = {2, (uint8_t)code, (uint8_t)(code >> 8), (uint8_t)(code >> 16),
                          (uint8_t)(code >> 24)};
    newaksu_bytes_append(bytes, refused, sizeof refused);
}

/* The peer's name, after the count of its bytes. */
static uint32_t append_name(newaksu_host *host, newaksu_bytes *envelope) {
    static const uint8_t zeros[2];
    size_t count_at = envelope->length, count;
    newaksu_bytes name = {0};
    uint32_t status;
    newaksu_bytes_append(envelope, zeros, sizeof zeros);
    status = host->mechanism.peer(host->context, &name);
    if (status == NEWAKSU_OK && name.failed)
        status = NEWAKSU_E_INSUFFICIENT_MEMORY;
    if (status == NEWAKSU_OK)
        status = append_utf16(envelope, name.at, name.length);
    count = envelope->length - count_at - sizeof zeros;
    bytes_release(&name);
    if (status == NEWAKSU_OK && count > UINT16_MAX)
        status = NEWAKSU_E_INVALID_PARAMETER;
    if (status == NEWAKSU_OK) {
        envelope->at[count_at] = (uint8_t)count;
        envelope->at[count_at + 1] = (uint8_t)(count >> 8);
    }
    return status;
}

/* What an envelope begins with if the step was not refused. */
static uint8_t said_of(const newaksu_host *host, uint32_t status) {
    if (status == NEWAKSU_OK)
        return 0;
    return host->mechanism.user_to_user && host->mechanism.user_to_user(host->context) ? 3 : 1;
}

static void envelope_of(newaksu_host *host, uint32_t status, const newaksu_bytes *output,
                        newaksu_bytes *envelope) {
    static const uint8_t no_name[2];
    uint8_t said;
    if (host->is_server && status == NEWAKSU_OK) {
        status = append_name(host, envelope);
        if (status != NEWAKSU_OK)
            envelope->length = 0;
    }
    if (host->is_server && envelope->length == 0)
        newaksu_bytes_append(envelope, no_name, sizeof no_name);
    if (status != NEWAKSU_OK && status != NEWAKSU_CONTINUE_NEEDED) {
        append_code(envelope, status);
        return;
    }
    said = said_of(host, status);
    newaksu_bytes_append(envelope, &said, 1);
    newaksu_bytes_append(envelope, output->at, output->length);
}

int step_with(newaksu_host *host, const newaksu_bytes *token, newaksu_bytes *envelope) {
    newaksu_bytes output = {0};
    uint32_t status =
        host->mechanism.step(host->context, octets(token->at), token->length, &output);
    if (output.failed)
        status = NEWAKSU_E_INSUFFICIENT_MEMORY;
    envelope_of(host, status, &output, envelope);
    bytes_release(&output);
    return status == NEWAKSU_OK;
}

/* Steps with the request's token, if it has one. 1 if the context is complete. */
static int step(newaksu_host *host, newaksu_handle *request, findings *found) {
    newaksu_bytes token = {0};
    uint32_t status = NEWAKSU_ABSENT;
    int ended = 0;
    if (negotiates(host))
        return negotiate(host, request, found);
    if (request->at != NULL)
        status = fetch(newaksu_request_field, request, NEWAKSU_NEGO_TOKENS, &token);
    if (status == NEWAKSU_OK || status == NEWAKSU_ABSENT)
        ended = step_with(host, &token, &found->envelope);
    else
        envelope_of(host, status, &token, &found->envelope);
    if (found->envelope.failed)
        found->status = NEWAKSU_E_INSUFFICIENT_MEMORY;
    bytes_release(&token);
    return ended;
}

/* Opens a field of the request. One that is absent or too short is left for the end to report. */
static void open_field(newaksu_host *host, newaksu_handle *request, uint32_t field,
                       findings *found) {
    newaksu_bytes blob = {0};
    uint32_t status = fetch(newaksu_request_field, request, field, &blob);
    if (status == NEWAKSU_OK && blob.length >= SIGNATURE_LENGTH) {
        status = host->mechanism.unseal(host->context, blob.at, blob.length, &found->opened);
        if (status == NEWAKSU_OK)
            found->opened_field = field;
    }
    if (status == NEWAKSU_E_INSUFFICIENT_MEMORY || found->opened.failed)
        found->status = NEWAKSU_E_INSUFFICIENT_MEMORY;
    if (found->opened_field == 0)
        bytes_release(&found->opened);
    bytes_release(&blob);
}

/* A client that is told an error refuses before anything else, so its mechanism is left alone. */
static int tells_error(const newaksu_host *host, newaksu_handle *request) {
    uint32_t code = 0;
    return !host->is_server && request->at != NULL &&
           newaksu_request_error_code(request, &code) == NEWAKSU_OK && code != 0;
}

static void work(newaksu_host *host, uint32_t state, newaksu_handle *request, findings *found) {
    int ended = 0;
    if (tells_error(host, request))
        return;
    if (state == NEWAKSU_STATE_NEGO_TOKEN)
        ended = step(host, request, found);
    if (request->at == NULL)
        return;
    if (state == NEWAKSU_STATE_PUB_KEY_INFO ||
        (host->is_server ? ended : state == NEWAKSU_STATE_AUTH_INFO))
        open_field(host, request, NEWAKSU_PUB_KEY_AUTH, found);
    if (host->is_server && state == NEWAKSU_STATE_AUTH_INFO)
        open_field(host, request, NEWAKSU_AUTH_INFO, found);
}

/* The end's part of a turn. */

static uint32_t process(newaksu_host *host, const uint8_t *message, size_t length,
                        const findings *found) {
    if (found->status != NEWAKSU_OK)
        return found->status;
    return (host->is_server ? newaksu_server_process : newaksu_client_process)(
        &host->end, octets(message), length, octets(found->envelope.at), found->envelope.length,
        found->opened_field, octets(found->opened.at), found->opened.length);
}

/* Seals the text that the end made, if it made one. */
static uint32_t seal(newaksu_host *host, newaksu_bytes *blob) {
    newaksu_bytes text = {0};
    uint32_t status = fetch(write_sealing, &host->end, 0, &text);
    if (status == NEWAKSU_OK) {
        status = host->mechanism.seal(host->context, octets(text.at), text.length, blob);
        if (status == NEWAKSU_OK && blob->failed)
            status = NEWAKSU_E_INSUFFICIENT_MEMORY;
        if (status == NEWAKSU_OK && blob->length < SIGNATURE_LENGTH)
            status = NEWAKSU_E_INTERNAL_ERROR;
    } else if (status == NEWAKSU_ABSENT) {
        status = NEWAKSU_OK;
    }
    bytes_release(&text);
    return status;
}

/* The message to be sent, with the sealed blob in it. */
static uint32_t compose(newaksu_host *host, const newaksu_bytes *blob) {
    uint8_t none[1];
    size_t size = 0;
    uint32_t status =
        newaksu_end_message(&host->end, octets(blob->at), blob->length, none, 0, &size);
    if (status == NEWAKSU_E_BUFFER_TOO_SMALL)
        status = bytes_reserve(&host->send, size);
    if (status == NEWAKSU_OK)
        status = newaksu_end_message(&host->end, octets(blob->at), blob->length, host->send.at,
                                     size, &size);
    if (status == NEWAKSU_OK)
        host->send.length = size;
    if (status == NEWAKSU_OK && negotiates(host))
        status = sign_message(host);
    return status == NEWAKSU_ABSENT ? NEWAKSU_OK : status;
}

static uint32_t answer(newaksu_host *host) {
    newaksu_bytes blob = {0};
    uint32_t status = seal(host, &blob);
    if (status == NEWAKSU_OK)
        status = compose(host, &blob);
    bytes_release(&blob);
    return status;
}

static uint32_t keep_identity(newaksu_host *host) {
    uint32_t status =
        fetch(newaksu_server_identity, &host->end, NEWAKSU_IDENTITY_NAME, &host->user);
    if (status == NEWAKSU_OK)
        status =
            fetch(newaksu_server_identity, &host->end, NEWAKSU_IDENTITY_PASSWORD, &host->password);
    host->finished = status == NEWAKSU_OK;
    return status;
}

/* Terminates a text that a call wrote, or did not write. */
static void end_text(char *text, uint32_t status, size_t written) {
    text[status == NEWAKSU_OK ? written : 0] = 0;
}

static uint32_t outcome_of(newaksu_host *host) {
    uint32_t outcome = NEWAKSU_OUTCOME_NONE;
    (void)newaksu_end_outcome(&host->end, &outcome);
    return outcome;
}

/* Why the turn was refused: by the end, or here. */
static void note_refusal(newaksu_host *host, uint32_t status) {
    newaksu_refusal *refusal = &host->refusal;
    uint32_t kind, told;
    size_t written = 0;
    host->refused = 1;
    memset(refusal, 0, sizeof *refusal);
    refusal->status = status;
    told = newaksu_error_name(status, (uint8_t *)host->name, sizeof host->name - 1, &written);
    end_text(host->name, told, written);
    refusal->name = host->name;
    refusal->reason = "the mechanism or the host could not go on";
    if (outcome_of(host) != NEWAKSU_OUTCOME_REFUSED)
        return;
    (void)newaksu_end_refusal(&host->end, &kind, &refusal->has_nstatus, &refusal->nstatus);
    told =
        newaksu_end_reason(&host->end, (uint8_t *)host->reason, sizeof host->reason - 1, &written);
    end_text(host->reason, told, written);
    refusal->reason = host->reason;
}

/* Tells a client what its server's end could not: that a text to be sealed was not. */
static void tell_client(newaksu_host *host, uint32_t status) {
    newaksu_handle request = NEWAKSU_EMPTY;
    if (newaksu_request_new(&request, host->version) == NEWAKSU_OK &&
        newaksu_request_set_error_code(&request, (status & 0xffff) | 0xc0070000) == NEWAKSU_OK)
        (void)fetch(write_request, &request, 0, &host->send);
    (void)newaksu_release(&request);
}

/* Ends the exchange. The end's message is sent if it refused, but not what it said before something
 * else failed. */
static uint32_t refuse(newaksu_host *host, uint32_t status, newaksu_turn *turn) {
    static const newaksu_bytes nothing;
    note_refusal(host, status);
    bytes_release(&host->send);
    if (outcome_of(host) == NEWAKSU_OUTCOME_REFUSED)
        (void)compose(host, &nothing);
    if (host->is_server && host->send.length == 0)
        tell_client(host, status);
    turn->progress = NEWAKSU_REFUSED;
    return status;
}

/* The result of the turn, once the end has taken the message. */
static uint32_t conclude(newaksu_host *host, uint32_t status, newaksu_turn *turn) {
    uint32_t outcome = outcome_of(host);
    if (status == NEWAKSU_OK && negotiates(host))
        status = go_on(host);
    if (status == NEWAKSU_OK)
        status = outcome == NEWAKSU_OUTCOME_FINISHED ? keep_identity(host) : answer(host);
    if (status != NEWAKSU_OK)
        return refuse(host, status, turn);
    turn->progress = outcome == NEWAKSU_OUTCOME_REPLY ? NEWAKSU_CONTINUES : NEWAKSU_FINISHED;
    return NEWAKSU_OK;
}

static uint32_t take(newaksu_host *host, const uint8_t *message, size_t length,
                     newaksu_handle *request, newaksu_turn *turn) {
    findings found = {{0}, 0, {0}, NEWAKSU_OK};
    uint32_t state = NEWAKSU_STATE_FINAL;
    uint32_t status;
    if (host->is_server && !host->started && negotiates(host))
        choose_form(host, request);
    status = newaksu_end_state(&host->end, &state);
    if (status == NEWAKSU_OK) {
        work(host, state, request, &found);
        host->started = 1;
        status = process(host, message, length, &found);
    }
    bytes_release(&found.envelope);
    bytes_release(&found.opened);
    return conclude(host, status, turn);
}

int is_there(const void *at, size_t length) {
    return at != NULL || length == 0;
}

uint32_t newaksu_host_process(newaksu_host *host, const uint8_t *message, size_t length,
                              newaksu_turn *turn) {
    newaksu_handle request = NEWAKSU_EMPTY;
    uint32_t status = NEWAKSU_OK;
    *turn = (newaksu_turn){NULL, 0, NEWAKSU_REFUSED};
    bytes_release(&host->send);
    if (host->refused)
        return NEWAKSU_E_OUT_OF_SEQUENCE;
    if (!is_there(message, length))
        status = NEWAKSU_E_INVALID_PARAMETER;
    else if (host->is_server || host->started || length != 0)
        status = newaksu_request_decode(&request, octets(message), length);
    if (status == NEWAKSU_OK)
        status = take(host, message, length, &request, turn);
    else
        turn->progress = NEWAKSU_UNREAD;
    (void)newaksu_release(&request);
    turn->send = host->send.at;
    turn->send_length = host->send.length;
    return status;
}

uint32_t newaksu_host_identity(const newaksu_host *host, const char **user, size_t *user_length,
                               const char **password, size_t *password_length) {
    if (!host->finished)
        return NEWAKSU_E_OUT_OF_SEQUENCE;
    *user = (const char *)octets(host->user.at);
    *user_length = host->user.length;
    *password = (const char *)octets(host->password.at);
    *password_length = host->password.length;
    return NEWAKSU_OK;
}

uint32_t newaksu_host_refusal(const newaksu_host *host, newaksu_refusal *refusal) {
    if (!host->refused)
        return NEWAKSU_E_OUT_OF_SEQUENCE;
    *refusal = host->refusal;
    return NEWAKSU_OK;
}

newaksu_handle *newaksu_host_end(newaksu_host *host) {
    return &host->end;
}
