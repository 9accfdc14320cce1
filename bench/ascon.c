#include "ascon.h"

#include <string.h>

#if __BYTE_ORDER__ != __ORDER_LITTLE_ENDIAN__
#error "words are loaded and stored as they lie in memory, lowest byte first"
#endif

#define INLINE static inline __attribute__((always_inline))
#define EXPORTED __attribute__((noinline))

struct state {
    uint64_t x0, x1, x2, x3, x4;
};

/* ---- words and bytes */

INLINE uint64_t rotate_right(uint64_t x, int n) { return x >> n | x << (64 - n); }

INLINE uint64_t load(const uint8_t *p) {
    uint64_t x;
    memcpy(&x, p, 8);
    return x;
}

INLINE void store(uint8_t *p, uint64_t x) { memcpy(p, &x, 8); }

/* The first n < 8 bytes of a word. A loop, since a memcpy of unknown length is a call. */
INLINE uint64_t load_some(const uint8_t *p, size_t n) {
    uint64_t x = 0;
    for (size_t i = 0; i < n; i++)
        x |= (uint64_t)p[i] << (8 * i);
    return x;
}

INLINE void store_some(uint8_t *p, uint64_t x, size_t n) {
    for (size_t i = 0; i < n; i++)
        p[i] = (uint8_t)(x >> (8 * i));
}

/* The byte 01 after n < 8 bytes. */
INLINE uint64_t padding(size_t n) { return (uint64_t)1 << (8 * n); }

/* All bits of the first n < 8 bytes. */
INLINE uint64_t mask(size_t n) { return padding(n) - 1; }

/* ---- the permutation */

INLINE void one_round(struct state *s, uint64_t constant) {
    uint64_t x0 = s->x0, x1 = s->x1, x2 = s->x2 ^ constant, x3 = s->x3, x4 = s->x4;
    x0 ^= x4;
    x4 ^= x3;
    x2 ^= x1;
    uint64_t y0 = x0 ^ (~x1 & x2);
    uint64_t y1 = x1 ^ (~x2 & x3);
    uint64_t y2 = x2 ^ (~x3 & x4);
    uint64_t y3 = x3 ^ (~x4 & x0);
    uint64_t y4 = x4 ^ (~x0 & x1);
    y1 ^= y0;
    y0 ^= y4;
    y3 ^= y2;
    y2 = ~y2;
    s->x0 = y0 ^ rotate_right(y0, 19) ^ rotate_right(y0, 28);
    s->x1 = y1 ^ rotate_right(y1, 61) ^ rotate_right(y1, 39);
    s->x2 = y2 ^ rotate_right(y2, 1) ^ rotate_right(y2, 6);
    s->x3 = y3 ^ rotate_right(y3, 10) ^ rotate_right(y3, 17);
    s->x4 = y4 ^ rotate_right(y4, 7) ^ rotate_right(y4, 41);
}

INLINE void p8(struct state *s) {
    one_round(s, 0xb4);
    one_round(s, 0xa5);
    one_round(s, 0x96);
    one_round(s, 0x87);
    one_round(s, 0x78);
    one_round(s, 0x69);
    one_round(s, 0x5a);
    one_round(s, 0x4b);
}

INLINE void p12(struct state *s) {
    one_round(s, 0xf0);
    one_round(s, 0xe1);
    one_round(s, 0xd2);
    one_round(s, 0xc3);
    p8(s);
}

EXPORTED void c_ascon_p12(uint64_t state[5]) {
    struct state s = {state[0], state[1], state[2], state[3], state[4]};
    p12(&s);
    state[0] = s.x0;
    state[1] = s.x1;
    state[2] = s.x2;
    state[3] = s.x3;
    state[4] = s.x4;
}

/* ---- Ascon-AEAD128 */

INLINE struct state aead_start(uint64_t k0, uint64_t k1, const uint8_t nonce[16], const uint8_t *data, size_t data_len) {
    struct state s = {0x00001000808c0001, k0, k1, load(nonce), load(nonce + 8)};
    p12(&s);
    s.x3 ^= k0;
    s.x4 ^= k1;
    if (data_len > 0) {
        for (; data_len >= 16; data += 16, data_len -= 16) {
            s.x0 ^= load(data);
            s.x1 ^= load(data + 8);
            p8(&s);
        }
        if (data_len >= 8) {
            s.x0 ^= load(data);
            s.x1 ^= load_some(data + 8, data_len - 8) ^ padding(data_len - 8);
        } else {
            s.x0 ^= load_some(data, data_len) ^ padding(data_len);
        }
        p8(&s);
    }
    s.x4 ^= (uint64_t)1 << 63;
    return s;
}

/* Leaves the tag in x3 and x4. */
INLINE void aead_end(struct state *s, uint64_t k0, uint64_t k1) {
    s->x2 ^= k0;
    s->x3 ^= k1;
    p12(s);
    s->x3 ^= k0;
    s->x4 ^= k1;
}

EXPORTED void c_ascon_seal(const uint8_t key[16], const uint8_t nonce[16], const uint8_t *data, size_t data_len,
                           uint8_t *text, size_t text_len, uint8_t tag[16]) {
    uint64_t k0 = load(key), k1 = load(key + 8);
    struct state s = aead_start(k0, k1, nonce, data, data_len);
    for (; text_len >= 16; text += 16, text_len -= 16) {
        s.x0 ^= load(text);
        s.x1 ^= load(text + 8);
        store(text, s.x0);
        store(text + 8, s.x1);
        p8(&s);
    }
    if (text_len >= 8) {
        size_t rest = text_len - 8;
        s.x0 ^= load(text);
        s.x1 ^= load_some(text + 8, rest);
        store(text, s.x0);
        store_some(text + 8, s.x1, rest);
        s.x1 ^= padding(rest);
    } else {
        s.x0 ^= load_some(text, text_len);
        store_some(text, s.x0, text_len);
        s.x0 ^= padding(text_len);
    }
    aead_end(&s, k0, k1);
    store(tag, s.x3);
    store(tag + 8, s.x4);
}

EXPORTED bool c_ascon_open(const uint8_t key[16], const uint8_t nonce[16], const uint8_t *data, size_t data_len,
                           uint8_t *text, size_t text_len, const uint8_t tag[16]) {
    uint64_t k0 = load(key), k1 = load(key + 8);
    struct state s = aead_start(k0, k1, nonce, data, data_len);
    uint8_t *start = text;
    size_t whole = text_len;
    for (; text_len >= 16; text += 16, text_len -= 16) {
        uint64_t c0 = load(text), c1 = load(text + 8);
        store(text, s.x0 ^ c0);
        store(text + 8, s.x1 ^ c1);
        s.x0 = c0;
        s.x1 = c1;
        p8(&s);
    }
    /* in the last block only the bytes of the ciphertext replace those of the state */
    if (text_len >= 8) {
        size_t rest = text_len - 8;
        uint64_t c0 = load(text), c1 = load_some(text + 8, rest);
        store(text, s.x0 ^ c0);
        store_some(text + 8, s.x1 ^ c1, rest);
        s.x0 = c0;
        s.x1 = ((s.x1 & ~mask(rest)) | c1) ^ padding(rest);
    } else {
        uint64_t c0 = load_some(text, text_len);
        store_some(text, s.x0 ^ c0, text_len);
        s.x0 = ((s.x0 & ~mask(text_len)) | c0) ^ padding(text_len);
    }
    aead_end(&s, k0, k1);
    /* both words are compared, so that the time does not say where the tags differ */
    if (((s.x3 ^ load(tag)) | (s.x4 ^ load(tag + 8))) == 0)
        return true;
    memset(start, 0, whole);
    return false;
}

/* ---- Ascon-CXOF128 with the string "box mark" */

EXPORTED void c_ascon_mark(const uint8_t key[16], const uint8_t *text, size_t text_len, uint8_t out[16]) {
    /* the state once the string is absorbed, which is the same for all keys and texts */
    struct state s = {0xde8e4dddb1dd3aa8, 0xf20fb5126602f3d5, 0x8058dceb3bcdc6b8,
                      0x36ec904e0872b8be, 0x33063abd876d3ddb};
    s.x0 ^= load(key);
    p12(&s);
    s.x0 ^= load(key + 8);
    p12(&s);
    for (; text_len >= 8; text += 8, text_len -= 8) {
        s.x0 ^= load(text);
        p12(&s);
    }
    s.x0 ^= load_some(text, text_len) ^ padding(text_len);
    p12(&s);
    store(out, s.x0);
    p12(&s);
    store(out + 8, s.x0);
}
