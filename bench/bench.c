/* The Rattle library against the C of ascon.c, in one process. First both are compared: a difference
   ends the program with status 1. Then each operation is timed, in runs that take turns; the least
   of each side's runs is printed, since what disturbs a run only makes it longer. */
#define _POSIX_C_SOURCE 199309L

#include "ascon.h"

#include <stdio.h>
#include <stdlib.h>
#include <string.h>
#include <time.h>

/* The Rattle library. A slice is a pointer and then its length, and the pointer is never null. */
void ascon_seal(const uint8_t key[16], const uint8_t nonce[16], const uint8_t *data, size_t data_len,
                uint8_t *text, size_t text_len, uint8_t tag[16]);
bool ascon_open(const uint8_t key[16], const uint8_t nonce[16], const uint8_t *data, size_t data_len,
                uint8_t *text, size_t text_len, const uint8_t tag[16]);
void ascon_mark(const uint8_t key[16], const uint8_t *text, size_t text_len, uint8_t out[16]);
void ascon_p12(uint64_t state[5]);

/* Both sides are called through these pointers, so that a call costs the same for both. */
struct side {
    void (*seal)(const uint8_t *, const uint8_t *, const uint8_t *, size_t, uint8_t *, size_t, uint8_t *);
    bool (*open)(const uint8_t *, const uint8_t *, const uint8_t *, size_t, uint8_t *, size_t, const uint8_t *);
    void (*mark)(const uint8_t *, const uint8_t *, size_t, uint8_t *);
    void (*p12)(uint64_t *);
};

static const struct side rattle = {ascon_seal, ascon_open, ascon_mark, ascon_p12};
static const struct side c = {c_ascon_seal, c_ascon_open, c_ascon_mark, c_ascon_p12};

enum { MAX_TEXT = 1024, MARK_TEXT = 32, RUNS = 60 };
static const double RUN_SECONDS = 0.002;

/* ---- do both give the same? */

static void same(const char *what, size_t data_len, size_t text_len, const void *a, const void *b, size_t n) {
    if (n > 0 && memcmp(a, b, n) != 0) {
        fprintf(stderr, "bench: %s differs (data %zu bytes, text %zu bytes)\n", what, data_len, text_len);
        exit(1);
    }
}

static void fill(uint8_t *p, size_t n, unsigned salt) {
    for (size_t i = 0; i < n; i++)
        p[i] = (uint8_t)(7 * i + 3 * n + salt);
}

static void compare_aead(size_t data_len, size_t text_len, unsigned salt) {
    uint8_t key[16], nonce[16], data[64], text[MAX_TEXT], zeros[MAX_TEXT] = {0};
    uint8_t a[MAX_TEXT], b[MAX_TEXT], sealed[MAX_TEXT], tag_a[16], tag_b[16];
    fill(key, 16, salt);
    fill(nonce, 16, salt + 1);
    fill(data, data_len, salt + 2);
    fill(text, text_len, salt + 3);

    memcpy(a, text, text_len);
    memcpy(b, text, text_len);
    rattle.seal(key, nonce, data, data_len, a, text_len, tag_a);
    c.seal(key, nonce, data, data_len, b, text_len, tag_b);
    same("the ciphertext", data_len, text_len, a, b, text_len);
    same("the tag", data_len, text_len, tag_a, tag_b, 16);
    memcpy(sealed, a, text_len);

    bool opened[2] = {rattle.open(key, nonce, data, data_len, a, text_len, tag_a),
                      c.open(key, nonce, data, data_len, b, text_len, tag_a)};
    same("open's answer", data_len, text_len, opened, (bool[2]){true, true}, sizeof opened);
    same("the text that Rattle opens", data_len, text_len, a, text, text_len);
    same("the text that C opens", data_len, text_len, b, text, text_len);

    memcpy(a, sealed, text_len);
    memcpy(b, sealed, text_len);
    tag_a[salt % 16] ^= (uint8_t)(1 << salt % 8);
    bool refused[2] = {rattle.open(key, nonce, data, data_len, a, text_len, tag_a),
                       c.open(key, nonce, data, data_len, b, text_len, tag_a)};
    same("open's refusal", data_len, text_len, refused, (bool[2]){false, false}, sizeof refused);
    same("what Rattle leaves of a refused text", data_len, text_len, a, zeros, text_len);
    same("what C leaves of a refused text", data_len, text_len, b, zeros, text_len);
}

static void compare_all(void) {
    unsigned salt = 0;
    for (size_t data_len = 0; data_len <= 40; data_len++)
        for (size_t text_len = 0; text_len <= 40; text_len++)
            compare_aead(data_len, text_len, salt++);
    compare_aead(0, MAX_TEXT - 1, salt++);
    compare_aead(0, MAX_TEXT, salt++);

    for (size_t text_len = 0; text_len <= 80; text_len++) {
        uint8_t key[16], text[80], a[16], b[16];
        fill(key, 16, salt);
        fill(text, text_len, salt++);
        rattle.mark(key, text, text_len, a);
        c.mark(key, text, text_len, b);
        same("the mark", 0, text_len, a, b, 16);
    }

    uint64_t a[5] = {0, 1, 2, 3, UINT64_MAX}, b[5] = {0, 1, 2, 3, UINT64_MAX};
    for (int i = 0; i < 1000; i++) {
        rattle.p12(a);
        c.p12(b);
        same("p[12]", 0, 0, a, b, sizeof a);
    }
}

/* ---- how long does each take? */

static uint8_t key[16], nonce[16], tag[16], nothing[1];
static uint8_t text[MAX_TEXT], sealed[MAX_TEXT];
static uint64_t words[5];

static void seal_times(const struct side *s, size_t n, long times) {
    for (long i = 0; i < times; i++)
        s->seal(key, nonce, nothing, 0, text, n, tag);
}

/* open works in place, so each time starts from a copy of the ciphertext; the copy is timed too */
static void open_times(const struct side *s, size_t n, long times) {
    for (long i = 0; i < times; i++) {
        memcpy(text, sealed, n);
        if (!s->open(key, nonce, nothing, 0, text, n, tag)) {
            fprintf(stderr, "bench: a blob did not open\n");
            exit(1);
        }
    }
}

static void mark_times(const struct side *s, size_t n, long times) {
    for (long i = 0; i < times; i++)
        s->mark(key, text, n, tag);
}

static void p12_times(const struct side *s, size_t n, long times) {
    (void)n;
    for (long i = 0; i < times; i++)
        s->p12(words);
}

typedef void operation(const struct side *, size_t, long);

static double seconds(operation *run, const struct side *s, size_t n, long times) {
    struct timespec from, to;
    clock_gettime(CLOCK_MONOTONIC, &from);
    run(s, n, times);
    clock_gettime(CLOCK_MONOTONIC, &to);
    return (double)(to.tv_sec - from.tv_sec) + 1e-9 * (double)(to.tv_nsec - from.tv_nsec);
}

static void measure(const char *name, operation *run, size_t n) {
    fill(key, 16, 1);
    fill(nonce, 16, 2);
    fill(text, MAX_TEXT, 3);
    memcpy(sealed, text, n);
    c.seal(key, nonce, nothing, 0, sealed, n, tag);

    long times = 1;
    while (seconds(run, &c, n, times) < RUN_SECONDS)
        times *= 2;
    double least[2] = {1e9, 1e9};
    for (int i = 0; i < RUNS; i++) {
        double took[2] = {seconds(run, &rattle, n, times), seconds(run, &c, n, times)};
        for (int j = 0; j < 2; j++)
            if (took[j] < least[j])
                least[j] = took[j];
    }
    printf("%-18s %12.1f %12.1f %10.2f\n", name, 1e9 * least[0] / (double)times, 1e9 * least[1] / (double)times,
           least[0] / least[1]);
}

int main(void) {
    compare_all();
    printf("%-18s %12s %12s %10s\n", "", "Rattle, ns", "C, ns", "Rattle/C");
    measure("seal 1024 bytes", seal_times, 1024);
    measure("seal 23 bytes", seal_times, 23);
    measure("seal 16 bytes", seal_times, 16);
    measure("seal 0 bytes", seal_times, 0);
    measure("open 1024 bytes", open_times, 1024);
    measure("open 23 bytes", open_times, 23);
    measure("open 16 bytes", open_times, 16);
    measure("open 0 bytes", open_times, 0);
    measure("mark 32 bytes", mark_times, MARK_TEXT);
    measure("p[12]", p12_times, 0);
    return 0;
}
