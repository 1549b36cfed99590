/* ChaCha20-Poly1305 (RFC 8439), for the mechanism of the tests. */
#include "cipher.h"

#include <string.h>

static uint32_t load32(const uint8_t *at) {
    return (uint32_t)at[0] | (uint32_t)at[1] << 8 | (uint32_t)at[2] << 16 | (uint32_t)at[3] << 24;
}

static void store32(uint8_t *at, uint32_t value) {
    for (int i = 0; i < 4; i++)
        at[i] = (uint8_t)(value >> 8 * i);
}

static void store64(uint8_t *at, uint64_t value) {
    store32(at, (uint32_t)value);
    store32(at + 4, (uint32_t)(value >> 32));
}

static uint32_t rotated(uint32_t value, int by) {
    return value << by | value >> (32 - by);
}

static void quarter_round(uint32_t *s, int a, int b, int c, int d) {
    s[a] += s[b], s[d] = rotated(s[d] ^ s[a], 16);
    s[c] += s[d], s[b] = rotated(s[b] ^ s[c], 12);
    s[a] += s[b], s[d] = rotated(s[d] ^ s[a], 8);
    s[c] += s[d], s[b] = rotated(s[b] ^ s[c], 7);
}

void cipher_block(const uint8_t key[CIPHER_KEY], uint32_t counter,
                  const uint8_t nonce[CIPHER_NONCE], uint8_t block[64]) {
    uint32_t first[16] = {0x61707865, 0x3320646e, 0x79622d32, 0x6b206574};
    uint32_t s[16];
    for (int i = 0; i < 8; i++)
        first[4 + i] = load32(key + 4 * i);
    first[12] = counter;
    for (int i = 0; i < 3; i++)
        first[13 + i] = load32(nonce + 4 * i);
    memcpy(s, first, sizeof s);
    for (int i = 0; i < 10; i++) {
        for (int j = 0; j < 4; j++)
            quarter_round(s, j, 4 + j, 8 + j, 12 + j);
        for (int j = 0; j < 4; j++)
            quarter_round(s, j, 4 + (j + 1) % 4, 8 + (j + 2) % 4, 12 + (j + 3) % 4);
    }
    for (int i = 0; i < 16; i++)
        store32(block + 4 * i, s[i] + first[i]);
}

static void apply(const uint8_t *key, const uint8_t *nonce, const uint8_t *from, size_t length,
                  uint8_t *to) {
    uint8_t block[64];
    for (size_t at = 0; at < length; at++) {
        if (at % 64 == 0)
            cipher_block(key, 1 + (uint32_t)(at / 64), nonce, block);
        to[at] = from[at] ^ block[at % 64];
    }
}

/* Poly1305 (2.5) by limbs of 26 bits. */
typedef struct poly {
    uint32_t r[5], h[5];
    uint8_t pad[16];
} poly;

static void poly_begin(poly *p, const uint8_t key[32]) {
    memset(p, 0, sizeof *p);
    p->r[0] = load32(key) & 0x3ffffff;
    p->r[1] = load32(key + 3) >> 2 & 0x3ffff03;
    p->r[2] = load32(key + 6) >> 4 & 0x3ffc0ff;
    p->r[3] = load32(key + 9) >> 6 & 0x3f03fff;
    p->r[4] = load32(key + 12) >> 8 & 0x00fffff;
    memcpy(p->pad, key + 16, 16);
}

static void poly_block(poly *p, const uint8_t block[16]) {
    uint64_t sums[5], carry = 0;
    p->h[0] += load32(block) & 0x3ffffff;
    p->h[1] += load32(block + 3) >> 2 & 0x3ffffff;
    p->h[2] += load32(block + 6) >> 4 & 0x3ffffff;
    p->h[3] += load32(block + 9) >> 6;
    p->h[4] += load32(block + 12) >> 8 | 1u << 24;
    for (int i = 0; i < 5; i++) {
        sums[i] = 0;
        for (int j = 0; j < 5; j++)
            sums[i] += (uint64_t)p->h[j] * (j <= i ? p->r[i - j] : 5 * p->r[5 + i - j]);
    }
    for (int i = 0; i < 5; i++) {
        sums[i] += carry;
        p->h[i] = (uint32_t)sums[i] & 0x3ffffff;
        carry = sums[i] >> 26;
    }
    carry = p->h[0] + 5 * carry;
    p->h[0] = (uint32_t)carry & 0x3ffffff;
    p->h[1] += (uint32_t)(carry >> 26);
}

/* Whole blocks, the last one padded with zeros, as the AEAD requires. */
static void poly_padded(poly *p, const uint8_t *data, size_t length) {
    for (size_t at = 0; at < length; at += 16) {
        uint8_t block[16] = {0};
        memcpy(block, data + at, length - at < 16 ? length - at : 16);
        poly_block(p, block);
    }
}

static void poly_end(poly *p, uint8_t tag[16]) {
    uint32_t carry = 0, less[5], keep;
    uint64_t sum = 0;
    for (int round = 0; round < 2; round++) {
        for (int i = 0; i < 5; i++) {
            p->h[i] += carry;
            carry = p->h[i] >> 26;
            p->h[i] &= 0x3ffffff;
        }
        carry *= 5;
    }
    p->h[0] += carry;
    carry = 5;
    for (int i = 0; i < 5; i++) {
        less[i] = p->h[i] + carry;
        carry = less[i] >> 26;
        less[i] &= 0x3ffffff;
    }
    keep = carry ? 0xffffffff : 0;
    for (int i = 0; i < 5; i++)
        p->h[i] = (p->h[i] & ~keep) | (less[i] & keep);
    for (int i = 0; i < 4; i++) {
        uint32_t word = p->h[i] >> 6 * i | p->h[i + 1] << (26 - 6 * i);
        sum += (uint64_t)word + load32(p->pad + 4 * i);
        store32(tag + 4 * i, (uint32_t)sum);
        sum >>= 32;
    }
}

static void tag_of(const uint8_t *key, const uint8_t *nonce, const uint8_t *aad, size_t aad_length,
                   const uint8_t *sealed, size_t length, uint8_t tag[CIPHER_TAG]) {
    uint8_t block[64], lengths[16];
    poly p;
    cipher_block(key, 0, nonce, block);
    poly_begin(&p, block);
    poly_padded(&p, aad, aad_length);
    poly_padded(&p, sealed, length);
    store64(lengths, aad_length);
    store64(lengths + 8, length);
    poly_block(&p, lengths);
    poly_end(&p, tag);
}

void cipher_seal(const uint8_t key[CIPHER_KEY], const uint8_t nonce[CIPHER_NONCE],
                 const uint8_t *aad, size_t aad_length, const uint8_t *text, size_t length,
                 uint8_t *sealed) {
    apply(key, nonce, text, length, sealed + CIPHER_TAG);
    tag_of(key, nonce, aad, aad_length, sealed + CIPHER_TAG, length, sealed);
}

int cipher_open(const uint8_t key[CIPHER_KEY], const uint8_t nonce[CIPHER_NONCE],
                const uint8_t *aad, size_t aad_length, const uint8_t *sealed, size_t length,
                uint8_t *text) {
    uint8_t tag[CIPHER_TAG], differing = 0;
    tag_of(key, nonce, aad, aad_length, sealed + CIPHER_TAG, length, tag);
    for (int i = 0; i < CIPHER_TAG; i++)
        differing |= tag[i] ^ sealed[i];
    if (differing)
        return 0;
    apply(key, nonce, sealed + CIPHER_TAG, length, text);
    return 1;
}
