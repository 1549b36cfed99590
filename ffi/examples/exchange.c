/* Requests in turns: one is read whole, the host makes its turn of it, and the result is sent. */
#include "exchange.h"

#include <stdio.h>
#include <stdlib.h>

#include "newaksu.h"

/* A header of DER has at least two bytes, and no header of a request that is read has more than
 * six. */
enum { SHORTEST_HEADER = 2, LONGEST_HEADER = 6 };

static void show(const struct exchange *exchange, char direction, const uint8_t *message,
                 size_t length) {
    if (!exchange->trace)
        return;
    fprintf(stderr, "%c ", direction);
    for (size_t i = 0; i < length; i++)
        fprintf(stderr, "%02x", message[i]);
    fputc('\n', stderr);
}

/* Reads exactly one request: what follows it on the channel belongs to the next protocol. */
static enum fault read_request(struct channel *channel, uint8_t *message, size_t *length) {
    size_t have = SHORTEST_HEADER, size;
    enum fault fault = channel_read(channel, message, have);
    while (fault == FAULT_NONE && newaksu_request_size(message, have, &size) != NEWAKSU_OK) {
        if (have == LONGEST_HEADER)
            return FAULT_NOT_A_REQUEST;
        fault = channel_read(channel, message + have++, 1);
    }
    if (fault != FAULT_NONE)
        return fault;
    if (size < have || size > EXCHANGE_BYTES)
        return FAULT_NOT_A_REQUEST;
    *length = size;
    return channel_read(channel, message + have, size - have);
}

static void note_version(struct exchange *exchange, const uint8_t *message, size_t length) {
    newaksu_handle request = NEWAKSU_EMPTY;
    if (newaksu_request_decode(&request, message, length) == NEWAKSU_OK)
        newaksu_request_version(&request, &exchange->peer_version);
    newaksu_release(&request);
}

/* Makes one turn of the host, and sends its answer. */
static enum fault turn_of(struct exchange *exchange, struct channel *channel, newaksu_host *host,
                          const uint8_t *message, size_t length, uint32_t *progress) {
    newaksu_turn turn;
    exchange->status = newaksu_host_process(host, message, length, &turn);
    *progress = turn.progress;
    if (turn.send_length == 0)
        return FAULT_NONE;
    show(exchange, '>', turn.send, turn.send_length);
    return channel_write(channel, turn.send, turn.send_length);
}

enum fault exchange_run(struct exchange *exchange, struct channel *channel, newaksu_host *host,
                        bool client) {
    static const uint8_t nothing[1];
    uint8_t *message = malloc(EXCHANGE_BYTES);
    uint32_t progress = NEWAKSU_CONTINUES;
    enum fault fault = message ? FAULT_NONE : FAULT_MEMORY;
    if (fault == FAULT_NONE && client)
        fault = turn_of(exchange, channel, host, nothing, 0, &progress);
    while (fault == FAULT_NONE && progress == NEWAKSU_CONTINUES) {
        size_t length;
        fault = read_request(channel, message, &length);
        if (fault != FAULT_NONE)
            break;
        show(exchange, '<', message, length);
        if (exchange->peer_version == 0)
            note_version(exchange, message, length);
        fault = turn_of(exchange, channel, host, message, length, &progress);
    }
    free(message);
    return fault == FAULT_NONE && progress == NEWAKSU_UNREAD ? FAULT_NOT_A_REQUEST : fault;
}

/* The name of what a server reported: of an NTSTATUS, or of the SSPI code inside one, as CredSSP
 * servers other than those of Windows send it. Empty if there is none. */
static void name_code(uint32_t code, char *name, size_t size) {
    size_t length = 0;
    uint32_t status = newaksu_nstatus_name(code, (uint8_t *)name, size - 1, &length);
    if (status != NEWAKSU_OK && code >> 16 == 0xc007)
        status =
            newaksu_error_name(0x80090000 | (code & 0xffff), (uint8_t *)name, size - 1, &length);
    name[status == NEWAKSU_OK ? length : 0] = '\0';
}

void exchange_print_refusal(const newaksu_host *host) {
    newaksu_refusal refusal;
    char name[64];
    if (newaksu_host_refusal(host, &refusal) != NEWAKSU_OK)
        return;
    fprintf(stderr, "refused: %s (0x%08x): %s\n", refusal.name, (unsigned int)refusal.status,
            refusal.reason);
    if (!refusal.has_nstatus)
        return;
    name_code(refusal.nstatus, name, sizeof name);
    fprintf(stderr, "the server told: 0x%08x%s%s\n", (unsigned int)refusal.nstatus,
            *name ? " " : "", name);
}
