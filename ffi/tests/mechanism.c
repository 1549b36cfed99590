/* The mechanism of the tests. Its tokens:
 *
 *     client   "T1" and what it drew, 16 bytes
 *     server   "T2" and what it drew, 16 bytes
 *     client   "T3", a tag of 16 bytes under the key, and the user's name, which the tag covers
 *
 * or, if it has two:
 *
 *     client   "K1", what it drew, a tag of 16 bytes under the password, and the user's name,
 *              which the tag covers
 *     server   "K2" and what it drew, 16 bytes
 *
 * A blob is the tag of its text and the encrypted text; the nonce is the direction and the number
 * of the message. */
#include "mechanism.h"

#include <string.h>

#include "check.h"
#include "cipher.h"

#define DRAWN 16
#define T3_HEAD (2 + CIPHER_TAG)
#define K1_HEAD (2 + DRAWN + CIPHER_TAG)

void party_init(struct party *party, int is_server, const char *name, const char *password,
                uint8_t drawn) {
    memset(party, 0, sizeof *party);
    party->is_server = is_server;
    strncpy(party->name, name, sizeof party->name - 1);
    strncpy(party->password, password, sizeof party->password - 1);
    party->own[0] = drawn;
}

static void password_key(const struct party *party, uint8_t key[CIPHER_KEY]) {
    memcpy(key, party->password, CIPHER_KEY);
}

/* The key of both: a ChaCha20 block under the password, and one under that for each drawn value. */
static void derive(struct party *party) {
    uint8_t block[64] = {0}, nonce[CIPHER_NONCE] = {0};
    const uint8_t *drawn[2] = {party->is_server ? party->peer : party->own,
                               party->is_server ? party->own : party->peer};
    password_key(party, block);
    for (int i = 0; i < 2; i++) {
        memcpy(nonce, drawn[i], sizeof nonce);
        cipher_block(block, (uint32_t)drawn[i][12], nonce, block);
    }
    memcpy(party->key, block, sizeof party->key);
}

static void nonce_of(uint8_t nonce[CIPHER_NONCE], int by_server, uint64_t number) {
    memset(nonce, 0, CIPHER_NONCE);
    nonce[0] = (uint8_t)(1 + by_server);
    for (int i = 0; i < 8; i++)
        nonce[4 + i] = (uint8_t)(number >> 8 * i);
}

/* The nonce of T3's tag: a number that no message has. */
static void t3_nonce(uint8_t nonce[CIPHER_NONCE]) {
    memset(nonce, 0xff, CIPHER_NONCE);
}

static uint32_t write_drawn(struct party *party, const char *word, newaksu_bytes *output) {
    newaksu_bytes_append(output, word, 2);
    return newaksu_bytes_append(output, party->own, DRAWN);
}

static int is_drawn(const char *word, const uint8_t *token, size_t length) {
    return length == 2 + DRAWN && memcmp(token, word, 2) == 0;
}

static uint32_t write_t3(struct party *party, newaksu_bytes *output) {
    uint8_t nonce[CIPHER_NONCE], tag[CIPHER_TAG];
    t3_nonce(nonce);
    cipher_seal(party->key, nonce, (const uint8_t *)party->name, strlen(party->name), NULL, 0, tag);
    newaksu_bytes_append(output, "T3", 2);
    newaksu_bytes_append(output, tag, sizeof tag);
    return newaksu_bytes_append(output, party->name, strlen(party->name));
}

static uint32_t read_t3(struct party *party, const uint8_t *token, size_t length) {
    uint8_t nonce[CIPHER_NONCE];
    if (length < T3_HEAD || length - T3_HEAD >= sizeof party->peer_name ||
        memcmp(token, "T3", 2) != 0)
        return NEWAKSU_E_INVALID_TOKEN;
    t3_nonce(nonce);
    if (!cipher_open(party->key, nonce, token + T3_HEAD, length - T3_HEAD, token + 2, 0, NULL))
        return NEWAKSU_E_LOGON_DENIED;
    memcpy(party->peer_name, token + T3_HEAD, length - T3_HEAD);
    return NEWAKSU_OK;
}

static uint32_t write_k1(struct party *party, newaksu_bytes *output) {
    uint8_t key[CIPHER_KEY], nonce[CIPHER_NONCE], tag[CIPHER_TAG];
    password_key(party, key);
    t3_nonce(nonce);
    cipher_seal(key, nonce, (const uint8_t *)party->name, strlen(party->name), NULL, 0, tag);
    write_drawn(party, "K1", output);
    newaksu_bytes_append(output, tag, sizeof tag);
    return newaksu_bytes_append(output, party->name, strlen(party->name));
}

static uint32_t read_k1(struct party *party, const uint8_t *token, size_t length,
                        newaksu_bytes *output) {
    uint8_t key[CIPHER_KEY], nonce[CIPHER_NONCE];
    if (party->stage != 0 || length < K1_HEAD || length - K1_HEAD >= sizeof party->peer_name ||
        memcmp(token, "K1", 2) != 0)
        return NEWAKSU_E_INVALID_TOKEN;
    password_key(party, key);
    t3_nonce(nonce);
    if (!cipher_open(key, nonce, token + K1_HEAD, length - K1_HEAD, token + 2 + DRAWN, 0, NULL))
        return NEWAKSU_E_LOGON_DENIED;
    party->stage = 2;
    memcpy(party->peer, token + 2, DRAWN);
    memcpy(party->peer_name, token + K1_HEAD, length - K1_HEAD);
    derive(party);
    return write_drawn(party, "K2", output);
}

/* A client of two tokens: its second step says nothing. */
static uint32_t step_of_two(struct party *party, const uint8_t *token, size_t length,
                            newaksu_bytes *output) {
    if (party->is_server)
        return read_k1(party, token, length, output);
    if (party->stage == 0 && length == 0) {
        party->stage = 1;
        return write_k1(party, output) == NEWAKSU_OK ? NEWAKSU_CONTINUE_NEEDED
                                                     : NEWAKSU_E_INSUFFICIENT_MEMORY;
    }
    if (party->stage != 1 || !is_drawn("K2", token, length))
        return NEWAKSU_E_INVALID_TOKEN;
    party->stage = 2;
    memcpy(party->peer, token + 2, DRAWN);
    derive(party);
    return NEWAKSU_OK;
}

static uint32_t client_step(struct party *party, const uint8_t *token, size_t length,
                            newaksu_bytes *output) {
    if (party->stage == 0 && length == 0) {
        party->stage = 1;
        return write_drawn(party, "T1", output) == NEWAKSU_OK ? NEWAKSU_CONTINUE_NEEDED
                                                              : NEWAKSU_E_INSUFFICIENT_MEMORY;
    }
    if (party->stage != 1 || !is_drawn("T2", token, length))
        return NEWAKSU_E_INVALID_TOKEN;
    party->stage = 2;
    memcpy(party->peer, token + 2, DRAWN);
    derive(party);
    return write_t3(party, output);
}

static uint32_t server_step(struct party *party, const uint8_t *token, size_t length,
                            newaksu_bytes *output) {
    if (party->stage == 0 && is_drawn("T1", token, length)) {
        party->stage = 1;
        memcpy(party->peer, token + 2, DRAWN);
        derive(party);
        return write_drawn(party, "T2", output) == NEWAKSU_OK ? NEWAKSU_CONTINUE_NEEDED
                                                              : NEWAKSU_E_INSUFFICIENT_MEMORY;
    }
    if (party->stage != 1)
        return NEWAKSU_E_INVALID_TOKEN;
    party->stage = 2;
    return read_t3(party, token, length);
}

static uint32_t step(void *context, const uint8_t *token, size_t length, newaksu_bytes *output) {
    struct party *party = context;
    party->steps_asked++;
    CHECK(token != NULL);
    if (party->refuse_step != 0) {
        newaksu_bytes_append(output, "dropped", 7);
        return party->refuse_step;
    }
    if (party->ends_at_once)
        return NEWAKSU_OK;
    if (party->two_tokens)
        return step_of_two(party, token, length, output);
    return party->is_server ? server_step(party, token, length, output)
                            : client_step(party, token, length, output);
}

static uint32_t peer(void *context, newaksu_bytes *name) {
    struct party *party = context;
    party->peers_asked++;
    CHECK(party->is_server && party->stage == 2);
    if (party->refuse_peer != 0)
        return party->refuse_peer;
    return newaksu_bytes_append(name, party->peer_name, strlen(party->peer_name));
}

static uint32_t seal(void *context, const uint8_t *text, size_t length, newaksu_bytes *blob) {
    struct party *party = context;
    uint8_t nonce[CIPHER_NONCE], sealed[4096];
    party->seals_asked++;
    CHECK(party->stage == 2 && length + CIPHER_TAG <= sizeof sealed);
    party->saw_password |= holds_utf16(text, length, party->password);
    if (party->refuse_seal != 0)
        return party->refuse_seal;
    nonce_of(nonce, party->is_server, party->seals++);
    cipher_seal(party->key, nonce, NULL, 0, text, length, sealed);
    return newaksu_bytes_append(blob, sealed,
                                party->seals_short ? CIPHER_TAG - 1 : length + CIPHER_TAG);
}

static uint32_t unseal(void *context, const uint8_t *blob, size_t length, newaksu_bytes *text) {
    struct party *party = context;
    uint8_t nonce[CIPHER_NONCE], opened[4096];
    party->unseals_asked++;
    CHECK(party->stage == 2 && length >= CIPHER_TAG && length <= sizeof opened);
    nonce_of(nonce, !party->is_server, party->unseals);
    if (party->refuse_unseal != 0)
        return party->refuse_unseal;
    if (!cipher_open(party->key, nonce, NULL, 0, blob, length - CIPHER_TAG, opened))
        return NEWAKSU_E_MESSAGE_ALTERED;
    party->unseals++;
    return newaksu_bytes_append(text, opened, length - CIPHER_TAG);
}

/* The nonces of MICs, which no text has. */
static void mic_nonce(uint8_t nonce[CIPHER_NONCE], int by_server, uint64_t number) {
    nonce_of(nonce, by_server, number);
    nonce[0] |= 0x10;
}

static uint32_t sign(void *context, const uint8_t *list, size_t length, newaksu_bytes *mic) {
    struct party *party = context;
    uint8_t nonce[CIPHER_NONCE], tag[CIPHER_TAG];
    CHECK(party->stage == 2);
    mic_nonce(nonce, party->is_server, party->signs++);
    cipher_seal(party->key, nonce, list, length, NULL, 0, tag);
    return newaksu_bytes_append(mic, tag, sizeof tag);
}

static uint32_t verify(void *context, const uint8_t *list, size_t length, const uint8_t *mic,
                       size_t mic_length) {
    struct party *party = context;
    uint8_t nonce[CIPHER_NONCE];
    party->verifies_asked++;
    CHECK(party->stage == 2);
    mic_nonce(nonce, !party->is_server, party->verified);
    if (mic_length != CIPHER_TAG || !cipher_open(party->key, nonce, list, length, mic, 0, NULL))
        return NEWAKSU_E_MESSAGE_ALTERED;
    party->verified++;
    return NEWAKSU_OK;
}

static void release(void *context) {
    ((struct party *)context)->releases++;
}

static uint32_t user_to_user(void *context) {
    return (uint32_t)((struct party *)context)->pairs;
}

const newaksu_mechanism party_mechanism = {step,    peer, seal,   unseal,
                                           release, sign, verify, user_to_user};
