/* Measures what each function needs of the stack, those with doubles too: each is run on a painted stack, over many problems, and the
 * lowest byte that lost its paint is looked for. The exit status is 1 where it is more than the header says. */
#define _POSIX_C_SOURCE 200809L
#include "altuliscia.h"

#include <pthread.h>
#include <stdio.h>
#include <stdlib.h>
#include <string.h>

enum { MOST = 512, ROOM = 1 << 20, PAINT = 0xa5, RUNS = 400, FORMS = 4, KINDS = 7 };

/* On bytes, without a tuning and with one; with doubles, likewise. */
static const char *const names[FORMS][KINDS] = {
    {"general", "c", "nu", "one_class", "retired", "pair", "votes"},
    {"general_tuned", "c_tuned", "nu_tuned", "one_class_tuned", NULL, NULL, NULL},
    {"train_general", "train_c", "train_nu", "train_one_class", "train_retired", "find_pair", "vote"},
    {"train_general_tuned", "train_c_tuned", "train_nu_tuned", "train_one_class_tuned", "train_retired_tuned", NULL, NULL}};

static double matrix[MOST * MOST], ceilings[MOST], alphas[MOST], linear[MOST], crate_reading[MOST], home[MOST];
static uint8_t labels[MOST], retired[MOST], answer[ALTULISCIA_TUNED_ANSWER_BYTES];
static uint64_t counts[ALTULISCIA_PAIRS_OF(ALTULISCIA_MOST_LANGUAGES)], votes[ALTULISCIA_MOST_LANGUAGES];
static const altuliscia_tuning tunings[2] = {{ALTULISCIA_USUAL_FLOOR, 0}, {ALTULISCIA_USUAL_FLOOR, 1}};
static uint64_t state, accepted;
static uintptr_t call_begins;

static uint64_t below(uint64_t k) {
    state += 0x9e3779b97f4a7c15u;
    uint64_t z = (state ^ state >> 30) * 0xbf58476d1ce4e5b9u;
    z = (z ^ z >> 27) * 0x94d049bb133111ebu;
    return (z ^ z >> 31) % k;
}

static uint64_t bits(double x) {
    uint64_t b;
    memcpy(&b, &x, 8);
    return b;
}

/* A problem of n samples: points of three whole numbers, and the products of them as kernel. */
static void fill(size_t n) {
    static double points[MOST][3];
    for (size_t k = 0; k < n; k++) {
        for (size_t d = 0; d < 3; d++)
            points[k][d] = (double)below(9) - 4;
        labels[k] = (uint8_t)below(2);
        retired[k] = below(4) == 0;
        ceilings[k] = 1 + (double)below(3);
        alphas[k] = (double)below(2);
        linear[k] = (double)below(9) - 4;
    }
    for (size_t c = 0; c < n; c++)
        for (size_t r = 0; r < n; r++)
            matrix[c * n + r] = points[c][0] * points[r][0] + points[c][1] * points[r][1] + points[c][2] * points[r][2];
}

/* As many coefficients for each pair of so many languages; the matrix has room for 512 in each of 66. */
static size_t panel(size_t languages, size_t n) {
    size_t pairs = ALTULISCIA_PAIRS_OF(languages);
    for (size_t p = 0; p < pairs; p++)
        counts[p] = n;
    return pairs;
}

static uint64_t call_votes(size_t n) {
    size_t languages = 2 + below(11), pairs = panel(languages, n), all = pairs * n;
    const uint8_t *numbers = (const uint8_t *)counts, *m = (const uint8_t *)matrix;
    return altuliscia_votes(languages, m, 8 * all, m, 8 * all, numbers, 8 * pairs, numbers, 8 * pairs, (const uint8_t *)linear,
                            8 * pairs, (uint8_t *)votes, 8 * languages, answer, sizeof answer);
}

static uint64_t call_vote(size_t n) {
    size_t languages = 2 + below(11);
    altuliscia_election election;
    panel(languages, n);
    return altuliscia_vote(languages, matrix, matrix, counts, linear, votes, &election);
}

/* Volatile, so that the frames of the calls below are what they are without them. */
static uint64_t (*volatile votings[2])(size_t) = {call_votes, call_vote};

#define TUNING (const uint8_t *)&tunings[below(2)], sizeof *tunings

static uint64_t call(int which, size_t n, uint8_t shrinking) {
    const uint8_t *m = (const uint8_t *)matrix;
    uint8_t *c = (uint8_t *)crate_reading, *h = (uint8_t *)home;
    size_t square = 8 * n * n, list = 8 * n;
    uint64_t eps = bits(0.001), budget = 1 + below(200);
    switch (which) {
    case 0:
        return altuliscia_general(n, m, square, labels, n, (const uint8_t *)ceilings, list, (const uint8_t *)alphas, list,
                                  (const uint8_t *)linear, list, (uint8_t)below(2), eps, shrinking, budget, c, list, h, list, answer,
                                  sizeof answer);
    case 1:
        return altuliscia_c(n, m, square, labels, n, bits(1.0), bits(2.0), eps, shrinking, budget, c, list, h, list, answer,
                            sizeof answer);
    case 2:
        return altuliscia_nu(n, m, square, labels, n, bits(0.4), eps, shrinking, budget, c, list, h, list, answer, sizeof answer);
    case 3:
        return altuliscia_one_class(n, m, square, bits(0.4), eps, shrinking, budget, c, list, h, list, answer, sizeof answer);
    case 4:
        return altuliscia_retired(n, m, square, labels, n, (const uint8_t *)ceilings, list, (const uint8_t *)alphas, list,
                                  (const uint8_t *)linear, list, retired, n, (uint8_t)below(2), eps, 0, budget,
                                  (const uint8_t *)tunings, 8, c, list, h, list, answer, sizeof answer);
    case 5:
        return altuliscia_pair(bits(alphas[0]), bits(ceilings[0]), bits(alphas[1]), bits(ceilings[1]), bits(linear[0]),
                               bits(linear[1]), bits(matrix[0]), bits(matrix[n + 1]), bits(matrix[1]), shrinking, answer,
                               sizeof answer);
    default:
        return votings[0](n);
    }
}

static uint64_t call_tuned(int which, size_t n, uint8_t shrinking) {
    const uint8_t *m = (const uint8_t *)matrix;
    uint8_t *c = (uint8_t *)crate_reading, *h = (uint8_t *)home;
    size_t square = 8 * n * n, list = 8 * n;
    uint64_t eps = bits(0.001), budget = 1 + below(200);
    switch (which) {
    case 0:
        return altuliscia_general_tuned(n, m, square, labels, n, (const uint8_t *)ceilings, list, (const uint8_t *)alphas, list,
                                        (const uint8_t *)linear, list, (uint8_t)below(2), eps, shrinking, budget, TUNING, c, list, h,
                                        list, answer, sizeof answer);
    case 1:
        return altuliscia_c_tuned(n, m, square, labels, n, bits(1.0), bits(2.0), eps, shrinking, budget, TUNING, c, list, h, list,
                                  answer, sizeof answer);
    case 2:
        return altuliscia_nu_tuned(n, m, square, labels, n, bits(0.4), eps, shrinking, budget, TUNING, c, list, h, list, answer,
                                   sizeof answer);
    default:
        return altuliscia_one_class_tuned(n, m, square, bits(0.4), eps, shrinking, budget, TUNING, c, list, h, list, answer,
                                          sizeof answer);
    }
}

/* The same calls with doubles, without a list for the crate's reading. */
static uint64_t call_train(int which, size_t n, uint8_t shrinking) {
    uint64_t budget = 1 + below(200);
    altuliscia_result result;
    int rule = (int)below(2);
    switch (which) {
    case 0:
        return altuliscia_train_general(n, matrix, labels, ceilings, alphas, linear, rule, 0.001, shrinking, budget, NULL, home,
                                        &result);
    case 1:
        return altuliscia_train_c(n, matrix, labels, 1.0, 2.0, 0.001, shrinking, budget, NULL, home, &result);
    case 2:
        return altuliscia_train_nu(n, matrix, labels, 0.4, 0.001, shrinking, budget, NULL, home, &result);
    case 3:
        return altuliscia_train_one_class(n, matrix, 0.4, 0.001, shrinking, budget, NULL, home, &result);
    case 4:
        return altuliscia_train_retired(n, matrix, labels, ceilings, alphas, linear, retired, rule, 0.001, budget, NULL, home,
                                        &result);
    case 6:
        return votings[1](n);
    default: {
        altuliscia_left left = altuliscia_find_pair(alphas[0], ceilings[0], alphas[1], ceilings[1], linear[0], linear[1], matrix[0],
                                                    matrix[n + 1], matrix[1], shrinking);
        return left.i == left.i && left.j == left.j ? ALTULISCIA_ACCEPTED : ALTULISCIA_BAD_LENGTH;
    }
    }
}

static uint64_t call_train_tuned(int which, size_t n, uint8_t shrinking) {
    uint64_t budget = 1 + below(200);
    const altuliscia_tuning *tuning = &tunings[below(2)];
    altuliscia_tuned_result result;
    int rule = (int)below(2);
    switch (which) {
    case 0:
        return altuliscia_train_general_tuned(n, matrix, labels, ceilings, alphas, linear, rule, 0.001, shrinking, budget, tuning,
                                              NULL, home, &result);
    case 1:
        return altuliscia_train_c_tuned(n, matrix, labels, 1.0, 2.0, 0.001, shrinking, budget, tuning, NULL, home, &result);
    case 2:
        return altuliscia_train_nu_tuned(n, matrix, labels, 0.4, 0.001, shrinking, budget, tuning, NULL, home, &result);
    case 3:
        return altuliscia_train_one_class_tuned(n, matrix, 0.4, 0.001, shrinking, budget, tuning, NULL, home, &result);
    default:
        return altuliscia_train_retired_tuned(n, matrix, labels, ceilings, alphas, linear, retired, rule, 0.001, budget, tunings, NULL,
                                              home, &result.result);
    }
}

/* Volatile, so that none is inlined: their frames lie below that of `work`, and are measured too. */
static uint64_t (*volatile calls[FORMS])(int, size_t, uint8_t) = {call, call_tuned, call_train, call_train_tuned};

static void *work(void *given) {
    char here = 0;
    int which = *(int *)given;
    call_begins = (uintptr_t)&here;
    accepted = 0;
    for (int k = 0; k < RUNS; k++) {
        size_t n = k == 0 ? MOST : 2 + below(30);
        fill(n);
        accepted += calls[which / KINDS](which % KINDS, n, k % 4 != 1) == ALTULISCIA_ACCEPTED;
    }
    return NULL;
}

/* What the function needs; 0 where it couldn't be run. */
static size_t measured(int which) {
    void *stack;
    pthread_attr_t attributes;
    pthread_t thread;
    if (posix_memalign(&stack, 4096, ROOM) != 0)
        return 0;
    memset(stack, PAINT, ROOM);
    if (pthread_attr_init(&attributes) != 0 || pthread_attr_setstack(&attributes, stack, ROOM) != 0)
        return 0;
    if (pthread_create(&thread, &attributes, work, &which) != 0 || pthread_join(thread, NULL) != 0)
        return 0;
    const uint8_t *lowest = stack;
    while (*lowest == PAINT)
        lowest++;
    size_t used = (size_t)(call_begins - (uintptr_t)lowest);
    free(stack);
    return used;
}

int main(void) {
    int over = 0;
    for (int which = 0; which < FORMS * KINDS; which++) {
        const char *name = names[which / KINDS][which % KINDS];
        if (name == NULL)
            continue;
        size_t used = measured(which);
        if (used == 0)
            return 2;
        printf("altuliscia_%-21s %6zu bytes of stack\n", name, used);
        over |= used > (which < 2 * KINDS ? ALTULISCIA_STACK_BYTES : ALTULISCIA_TRAIN_STACK_BYTES);
        if (accepted < RUNS / 2) {
            printf("only %d of %d calls were accepted\n", (int)accepted, RUNS);
            return 1;
        }
    }
    printf("the header says %d at the most, with doubles %d\n", ALTULISCIA_STACK_BYTES, ALTULISCIA_TRAIN_STACK_BYTES);
    return over;
}
