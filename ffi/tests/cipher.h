/* ChaCha20 and Poly1305 as RFC 8439 combines them, only for the mechanism of the tests: it does
 * not resist timing attacks. */
#ifndef CIPHER_H
#define CIPHER_H

#include <stddef.h>
#include <stdint.h>

#define CIPHER_KEY 32
#define CIPHER_NONCE 12
#define CIPHER_TAG 16

/* A block of ChaCha20 (2.3). */
void cipher_block(const uint8_t key[CIPHER_KEY], uint32_t counter,
                  const uint8_t nonce[CIPHER_NONCE], uint8_t block[64]);

/* The AEAD of 2.8: writes the tag and then `length` bytes. */
void cipher_seal(const uint8_t key[CIPHER_KEY], const uint8_t nonce[CIPHER_NONCE],
                 const uint8_t *aad, size_t aad_length, const uint8_t *text, size_t length,
                 uint8_t *sealed);

/* 1 if the tag is right, and then `text` has `length` bytes; else 0, and nothing is written. */
int cipher_open(const uint8_t key[CIPHER_KEY], const uint8_t nonce[CIPHER_NONCE],
                const uint8_t *aad, size_t aad_length, const uint8_t *sealed, size_t length,
                uint8_t *text);

#endif
