/* Counts the bytes of the stack that a training writes, shrinking off: by altuliscia_c, and by altuliscia_general on the same problem, which is the
 * first trainer. Each is run on a stack of one paint and on one of another: a byte that lost its paint on either was written. A line for each n:
 * n, the bytes of the one, the bytes of the other. */
#define _POSIX_C_SOURCE 200809L
#include "altuliscia.h"

#include <pthread.h>
#include <stdio.h>
#include <stdlib.h>
#include <string.h>

enum { MOST = 512, ROOM = 1 << 20, BUDGET = 200 };

static double matrix[MOST * MOST], ceilings[MOST], alphas[MOST], linear[MOST], crate_reading[MOST], home[MOST];
static uint8_t labels[MOST], answer[ALTULISCIA_ANSWER_BYTES], written[ROOM];
static uint64_t bits_of_one = 0x3ff0000000000000u, bits_of_eps = 0x3f50624dd2f1a9fcu;

struct work {
    size_t n;
    int first;
    uint64_t number;
};

static double bent(size_t a, size_t b) {
    double apart = (double)(a * 7919 % 1009) - (double)(b * 7919 % 1009);
    return 1 / (1 + apart * apart / 4096);
}

static void fill(size_t n) {
    for (size_t c = 0; c < n; c++) {
        labels[c] = (uint8_t)(c * 31 % 64 / 32);
        ceilings[c] = 1;
        linear[c] = -1;
        for (size_t r = 0; r < n; r++)
            matrix[c * n + r] = bent(c, r);
    }
}

static void *run(void *given) {
    struct work *w = given;
    size_t n = w->n, list = 8 * n;
    const uint8_t *m = (const uint8_t *)matrix;
    uint8_t *c = (uint8_t *)crate_reading, *h = (uint8_t *)home;
    if (w->first)
        w->number = altuliscia_general(n, m, list * n, labels, n, (const uint8_t *)ceilings, list, (const uint8_t *)alphas, list,
                                       (const uint8_t *)linear, list, 0, bits_of_eps, 0, BUDGET, c, list, h, list, answer, sizeof answer);
    else
        w->number = altuliscia_c(n, m, list * n, labels, n, bits_of_one, bits_of_one, bits_of_eps, 0, BUDGET, c, list, h, list, answer,
                                 sizeof answer);
    return NULL;
}

/* A thread that does nothing else: what it writes by itself is taken off. */
static void *idle(void *given) {
    ((struct work *)given)->number = 0;
    return NULL;
}

static size_t painted(void *(*what)(void *), struct work *w) {
    const uint8_t paints[2] = {0xa5, 0x5a};
    size_t all = 0;
    memset(written, 0, ROOM);
    for (int k = 0; k < 2; k++) {
        void *room;
        pthread_t thread;
        pthread_attr_t attr;
        if (posix_memalign(&room, 4096, ROOM) || pthread_attr_init(&attr) || pthread_attr_setstack(&attr, room, ROOM))
            exit(2);
        memset(room, paints[k], ROOM);
        if (pthread_create(&thread, &attr, what, w) || pthread_join(thread, NULL) || w->number != 0)
            exit(2);
        for (size_t at = 0; at < ROOM; at++)
            written[at] |= ((uint8_t *)room)[at] != paints[k];
        pthread_attr_destroy(&attr);
        free(room);
    }
    for (size_t at = 0; at < ROOM; at++)
        all += written[at];
    return all;
}

int main(void) {
    const size_t sizes[] = {64, 512};
    for (size_t k = 0; k < sizeof sizes / sizeof *sizes; k++) {
        struct work w = {sizes[k], 0, 0}, v = {sizes[k], 1, 0};
        fill(sizes[k]);
        size_t own = painted(idle, &w);
        size_t library = painted(run, &w) - own, first = painted(run, &v) - own;
        printf("%zu %zu %zu\n", sizes[k], library, first);
    }
    return 0;
}
