/* A host's turns over a descriptor: one whole message in, one out. */
#include "turns.h"

#include <stdlib.h>
#include <unistd.h>

/* No request is longer, header and all. */
#define LONGEST 1048581

static uint32_t receive(int channel, uint8_t *message, size_t from, size_t to) {
    while (from < to) {
        ssize_t got = read(channel, message + from, to - from);
        if (got <= 0)
            return NEWAKSU_READ_FAULT;
        from += (size_t)got;
    }
    return NEWAKSU_OK;
}

/* The header byte by byte, and then exactly the content: what follows on the channel is not
 * CredSSP. */
static uint32_t receive_message(int channel, uint8_t *message, size_t *length) {
    size_t size = 0, have = 0;
    while (have < 5 && newaksu_request_size(message, have, &size) != NEWAKSU_OK) {
        if (receive(channel, message, have, have + 1) != NEWAKSU_OK)
            return NEWAKSU_READ_FAULT;
        have++;
    }
    if (newaksu_request_size(message, have, &size) != NEWAKSU_OK)
        return NEWAKSU_INVALID_DATA;
    *length = size;
    return receive(channel, message, have, size);
}

static uint32_t transmit(int channel, const uint8_t *message, size_t length) {
    while (length > 0) {
        ssize_t put = write(channel, message, length);
        if (put <= 0)
            return NEWAKSU_WRITE_FAULT;
        message += put;
        length -= (size_t)put;
    }
    return NEWAKSU_OK;
}

/* One turn. A refusal is sent too, if it has a message; its status counts for more than that it
 * could not be sent. */
static uint32_t make_turn(newaksu_host *host, int channel, const uint8_t *message, size_t length,
                          uint32_t *progress) {
    newaksu_turn turn;
    uint32_t status = newaksu_host_process(host, message, length, &turn);
    uint32_t sent = transmit(channel, turn.send, turn.send_length);
    *progress = turn.progress;
    return status == NEWAKSU_OK ? sent : status;
}

uint32_t make_turns(newaksu_host *host, int channel, int is_client) {
    uint32_t progress = NEWAKSU_CONTINUES, status = NEWAKSU_OK;
    uint8_t *message = calloc(1, LONGEST);
    size_t length = 0;
    if (message == NULL)
        return NEWAKSU_E_INSUFFICIENT_MEMORY;
    if (is_client)
        status = make_turn(host, channel, message, 0, &progress);
    while (status == NEWAKSU_OK && progress == NEWAKSU_CONTINUES) {
        status = receive_message(channel, message, &length);
        if (status == NEWAKSU_OK)
            status = make_turn(host, channel, message, length, &progress);
    }
    free(message);
    return status;
}
