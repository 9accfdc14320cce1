/* Ascon of NIST SP 800-232 in plain C, as the measure of the Rattle library. */
#ifndef BENCH_ASCON_H
#define BENCH_ASCON_H

#include <stdbool.h>
#include <stddef.h>
#include <stdint.h>

/* Ascon-AEAD128 in place: text becomes the ciphertext. */
void c_ascon_seal(const uint8_t key[16], const uint8_t nonce[16], const uint8_t *data, size_t data_len,
                  uint8_t *text, size_t text_len, uint8_t tag[16]);

/* In place: text, the ciphertext, becomes the text, or zeros where the tag is not right. */
bool c_ascon_open(const uint8_t key[16], const uint8_t nonce[16], const uint8_t *data, size_t data_len,
                  uint8_t *text, size_t text_len, const uint8_t tag[16]);

/* The first 16 bytes of Ascon-CXOF128 with the string "box mark", of the key followed by the text. */
void c_ascon_mark(const uint8_t key[16], const uint8_t *text, size_t text_len, uint8_t out[16]);

/* p[12], in place. */
void c_ascon_p12(uint64_t state[5]);

#endif
