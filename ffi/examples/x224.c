/* The X.224 connection request and confirm: a TPKT header, seven bytes of X.224, a routing token
 * on request, and the negotiation. */
#define _GNU_SOURCE
#include "x224.h"

#include <string.h>

enum {
    TPKT_BYTES = 4,
    X224_BYTES = 7,
    NEGOTIATION_BYTES = 8,
    MESSAGE_BYTES = TPKT_BYTES + X224_BYTES + NEGOTIATION_BYTES,
    /* longer than any routing token that is in use */
    LONGEST = 512,
    CONNECTION_REQUEST = 0xe0,
    CONNECTION_CONFIRM = 0xd0,
    NEG_REQUEST = 1,
    NEG_RESPONSE = 2,
    NEG_FAILURE = 3,
    RESTRICTED_ADMIN_MODE_REQUIRED = 1,
    HYBRID_REQUIRED_BY_SERVER = 5
};

const char *x224_name(uint32_t protocol) {
    switch (protocol) {
    case X224_TLS:
        return "TLS";
    case X224_HYBRID:
        return "HYBRID";
    case X224_HYBRID_EX:
        return "HYBRID_EX";
    default:
        return "none";
    }
}

static enum fault write_message(struct channel *channel, uint8_t code, uint8_t type, uint8_t flags,
                                uint32_t value) {
    const uint8_t message[MESSAGE_BYTES] = {3,
                                            0,
                                            0,
                                            MESSAGE_BYTES,
                                            X224_BYTES - 1 + NEGOTIATION_BYTES,
                                            code,
                                            0,
                                            0,
                                            0,
                                            0,
                                            0,
                                            type,
                                            flags,
                                            NEGOTIATION_BYTES,
                                            0,
                                            (uint8_t)value,
                                            (uint8_t)(value >> 8),
                                            (uint8_t)(value >> 16),
                                            (uint8_t)(value >> 24)};
    return channel_write(channel, message, sizeof message);
}

/* Where the negotiation is: after a routing token or cookie, if any, which ends with a line break.
 * NULL if there is none. */
static const uint8_t *negotiation(const uint8_t *body, size_t length) {
    const uint8_t *at = body + X224_BYTES, *end = body + length;
    if (at<end && * at> NEG_FAILURE) {
        at = memmem(at, (size_t)(end - at), "\r\n", 2);
        if (!at)
            return NULL;
        at += 2;
    }
    return end - at >= NEGOTIATION_BYTES && at[2] == NEGOTIATION_BYTES && at[3] == 0 ? at : NULL;
}

/* The type and value of the next message's negotiation; type 0 if it has none. The message must
 * have the code. */
static enum fault read_message(struct channel *channel, uint8_t code, uint8_t *type,
                               uint32_t *value) {
    uint8_t header[TPKT_BYTES], body[LONGEST];
    enum fault fault = channel_read(channel, header, sizeof header);
    if (fault != FAULT_NONE)
        return fault;
    size_t length = (size_t)header[2] << 8 | header[3];
    if (header[0] != 3 || length < TPKT_BYTES + X224_BYTES || length > TPKT_BYTES + LONGEST)
        return FAULT_X224;
    length -= TPKT_BYTES;
    fault = channel_read(channel, body, length);
    if (fault != FAULT_NONE)
        return fault;
    if (body[0] != length - 1 || (body[1] & 0xf0) != code)
        return FAULT_X224;
    const uint8_t *at = negotiation(body, length);
    *type = at ? at[0] : 0;
    *value =
        at ? (uint32_t)at[4] | (uint32_t)at[5] << 8 | (uint32_t)at[6] << 16 | (uint32_t)at[7] << 24
           : 0;
    return FAULT_NONE;
}

enum fault x224_connect(struct channel *channel, uint32_t protocols, bool restricted,
                        uint32_t *selected) {
    uint8_t type, flags = restricted ? RESTRICTED_ADMIN_MODE_REQUIRED : 0;
    enum fault fault = write_message(channel, CONNECTION_REQUEST, NEG_REQUEST, flags, protocols);
    if (fault == FAULT_NONE)
        fault = read_message(channel, CONNECTION_CONFIRM, &type, selected);
    if (fault != FAULT_NONE)
        return fault;
    if (type != NEG_RESPONSE || (*selected != X224_HYBRID && *selected != X224_HYBRID_EX) ||
        !(*selected & protocols))
        return FAULT_NO_NLA;
    return FAULT_NONE;
}

enum fault x224_accept(struct channel *channel, uint32_t offered, uint32_t *selected) {
    uint8_t type;
    uint32_t wanted;
    enum fault fault = read_message(channel, CONNECTION_REQUEST, &type, &wanted);
    if (fault != FAULT_NONE)
        return fault;
    uint32_t shared = type == NEG_REQUEST ? wanted & offered : 0;
    *selected = shared & X224_HYBRID_EX ? X224_HYBRID_EX : shared & X224_HYBRID;
    if (*selected)
        return write_message(channel, CONNECTION_CONFIRM, NEG_RESPONSE, 0, *selected);
    fault = write_message(channel, CONNECTION_CONFIRM, NEG_FAILURE, 0, HYBRID_REQUIRED_BY_SERVER);
    return fault == FAULT_NONE ? FAULT_NO_NLA : fault;
}
