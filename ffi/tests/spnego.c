/* The tokens of SPNEGO (RFC 4178 4.2), with vectors encoded by hand or by other implementations. */
#include <string.h>

#include "check.h"
#include "newaksu.h"

#define NTLM "2b06010401823702020a"
#define KERBEROS "2a864886f712010202"
#define MS_KERBEROS "2a864882f712010202"

static size_t length_of(const char *digits, uint8_t *bytes) {
    return from_hex(digits, bytes, 512);
}

static uint32_t decode(uint32_t (*call)(newaksu_handle *, const uint8_t *, size_t),
                       newaksu_handle *token, const char *digits) {
    uint8_t bytes[512];
    size_t length = length_of(digits, bytes);
    return call(token, bytes, length);
}

static uint32_t mech_kind(const char *digits) {
    uint8_t bytes[512];
    size_t length = length_of(digits, bytes);
    uint32_t kind = 99;
    CHECK_STATUS(newaksu_mech_kind(bytes, length, &kind), NEWAKSU_OK);
    return kind;
}

static void identifiers(void) {
    CHECK(mech_kind(NTLM) == NEWAKSU_MECH_NTLM);
    CHECK(mech_kind(KERBEROS) == NEWAKSU_MECH_KERBEROS);
    CHECK(mech_kind(MS_KERBEROS) == NEWAKSU_MECH_MS_KERBEROS);
    CHECK(mech_kind("2b0601050502") == NEWAKSU_MECH_OTHER && mech_kind("") == NEWAKSU_MECH_OTHER);
}

static void check_mech(newaksu_handle *init, size_t index, const char *digits) {
    uint8_t out[64];
    size_t written;
    CHECK_STATUS(newaksu_init_mech(init, index, out, sizeof out, &written), NEWAKSU_OK);
    CHECK_BYTES(out, written, digits);
}

static void check_encoded(uint32_t (*call)(newaksu_handle *, uint8_t *, size_t, size_t *),
                          newaksu_handle *token, const char *digits) {
    uint8_t out[512], wanted[512];
    size_t written, size = length_of(digits, wanted);
    memset(out, 0xc9, sizeof out);
    CHECK_STATUS(call(token, out, size - 1, &written), NEWAKSU_E_BUFFER_TOO_SMALL);
    CHECK(written == size && out[0] == 0xc9);
    CHECK_STATUS(call(token, out, size, &written), NEWAKSU_OK);
    CHECK_BYTES(out, written, digits);
    CHECK(out[size] == 0xc9);
}

/* What a Windows client sends first over HTTP, with NTLM's first message. */
static void an_offer_of_ntlm(void) {
    static const char *const offer = "6048 0606 2b0601050502 a03e 303c a00e 300c 060a" NTLM
                                     "a22a 0428 4e544c4d5353500001000000978208e2"
                                     "00000000000000000000000000000000 0601b01d0000000f";
    static const char *const message =
        "4e544c4d5353500001000000978208e2 00000000000000000000000000000000 0601b01d0000000f";
    newaksu_handle init = NEWAKSU_EMPTY;
    uint8_t out[64], bytes[512];
    size_t count = 0, written = 0, length;
    CHECK_STATUS(decode(newaksu_init_decode, &init, offer), NEWAKSU_OK);
    CHECK_STATUS(newaksu_init_mech_count(&init, &count), NEWAKSU_OK);
    CHECK(count == 1);
    check_mech(&init, 0, NTLM);
    CHECK_STATUS(newaksu_init_mech(&init, 1, out, sizeof out, &written), NEWAKSU_ABSENT);
    CHECK_STATUS(newaksu_init_token(&init, out, sizeof out, &written), NEWAKSU_OK);
    CHECK_BYTES(out, written, message);
    CHECK_STATUS(newaksu_init_mech_list(&init, out, sizeof out, &written), NEWAKSU_OK);
    CHECK_BYTES(out, written, "300c 060a" NTLM);
    check_encoded(newaksu_init_encode, &init, offer);
    CHECK_STATUS(newaksu_init_new(&init), NEWAKSU_OK);
    CHECK_STATUS(newaksu_init_mech_count(&init, &count), NEWAKSU_ABSENT);
    CHECK_STATUS(newaksu_init_mech_list(&init, out, sizeof out, &written), NEWAKSU_ABSENT);
    length = length_of(NTLM, bytes);
    CHECK_STATUS(newaksu_init_add_mech(&init, bytes, length), NEWAKSU_OK);
    length = length_of(message, bytes);
    CHECK_STATUS(newaksu_init_set_token(&init, bytes, length), NEWAKSU_OK);
    check_encoded(newaksu_init_encode, &init, offer);
    CHECK_STATUS(newaksu_release(&init), NEWAKSU_OK);
}

/* What an SMB server sends first: three mechanisms, no token, and the hints of MS-SPNG 2.2.1. */
static void an_offer_of_three(void) {
    static const char *const offer =
        "605e 0606 2b0601050502 a054 3052 a024 3022 0609" MS_KERBEROS "0609" KERBEROS "060a" NTLM
        "a32a 3028 a026 1b24 "
        "6e6f745f646566696e65645f696e5f5246433431373840706c656173655f69676e6f7265";
    newaksu_handle init = NEWAKSU_EMPTY;
    uint8_t out[64];
    size_t count = 0, written = 0;
    CHECK_STATUS(decode(newaksu_init_decode, &init, offer), NEWAKSU_OK);
    CHECK_STATUS(newaksu_init_mech_count(&init, &count), NEWAKSU_OK);
    CHECK(count == 3);
    check_mech(&init, 0, MS_KERBEROS);
    check_mech(&init, 1, KERBEROS);
    check_mech(&init, 2, NTLM);
    CHECK_STATUS(newaksu_init_token(&init, out, sizeof out, &written), NEWAKSU_ABSENT);
    CHECK_STATUS(decode(newaksu_init_decode, &init, "605e 0606 2b0601050502"),
                 NEWAKSU_E_INVALID_TOKEN);
    CHECK_STATUS(decode(newaksu_init_decode, &init, "a107 3005 a003 0a0100"),
                 NEWAKSU_E_INVALID_TOKEN);
    CHECK_STATUS(newaksu_init_mech_count(&init, &count), NEWAKSU_OK);
    CHECK_STATUS(newaksu_release(&init), NEWAKSU_OK);
}

static void check_targ_field(newaksu_handle *targ, uint32_t field, const char *digits) {
    uint8_t out[64];
    size_t written;
    CHECK_STATUS(newaksu_targ_field(targ, field, out, sizeof out, &written), NEWAKSU_OK);
    CHECK_BYTES(out, written, digits);
}

static void set_targ_field(newaksu_handle *targ, uint32_t field, const char *digits) {
    uint8_t bytes[512];
    size_t length = length_of(digits, bytes);
    CHECK_STATUS(newaksu_targ_set_field(targ, field, bytes, length), NEWAKSU_OK);
}

/* A server's choice and its challenge (by hand), and all four fields. */
static void answers(void) {
    static const char *const pick =
        "a123 3021 a003 0a0101 a10c 060a" NTLM "a20c 040a 4e320000000000000000";
    static const char *const whole =
        "a122 3020 a003 0a0101 a10c 060a" NTLM "a204 0402 4e32 a305 0403 010000";
    newaksu_handle targ = NEWAKSU_EMPTY;
    uint32_t state = 99;
    uint8_t out[64];
    size_t written;
    CHECK_STATUS(decode(newaksu_targ_decode, &targ, pick), NEWAKSU_OK);
    CHECK_STATUS(newaksu_targ_state(&targ, &state), NEWAKSU_OK);
    CHECK(state == NEWAKSU_ACCEPT_INCOMPLETE);
    check_targ_field(&targ, NEWAKSU_SUPPORTED_MECH, NTLM);
    check_targ_field(&targ, NEWAKSU_RESPONSE_TOKEN, "4e320000000000000000");
    CHECK_STATUS(newaksu_targ_field(&targ, NEWAKSU_MECH_LIST_MIC, out, sizeof out, &written),
                 NEWAKSU_ABSENT);
    check_encoded(newaksu_targ_encode, &targ, pick);
    set_targ_field(&targ, NEWAKSU_RESPONSE_TOKEN, "4e32");
    set_targ_field(&targ, NEWAKSU_MECH_LIST_MIC, "010000");
    check_encoded(newaksu_targ_encode, &targ, whole);
    CHECK_STATUS(newaksu_targ_new(&targ), NEWAKSU_OK);
    CHECK_STATUS(newaksu_targ_state(&targ, &state), NEWAKSU_ABSENT);
    CHECK_STATUS(newaksu_targ_set_state(&targ, NEWAKSU_ACCEPT_COMPLETED), NEWAKSU_OK);
    check_encoded(newaksu_targ_encode, &targ, "a107 3005 a003 0a0100");
    CHECK_STATUS(decode(newaksu_targ_decode, &targ, "a107 3005 a003 0a01"),
                 NEWAKSU_E_INVALID_TOKEN);
    CHECK_STATUS(newaksu_release(&targ), NEWAKSU_OK);
}

int main(void) {
    identifiers();
    an_offer_of_ntlm();
    an_offer_of_three();
    answers();
    return checks_done("spnego");
}
