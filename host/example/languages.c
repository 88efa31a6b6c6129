/* Sorts captions of three languages: a training for each two of them, then the votes. One caption of each language is trained on, with the
 * identity as kernel matrix. It is C99 and C++98. */
#include "altuliscia.h"

#include <stdio.h>

enum { LANGUAGES = 3, PAIRS = ALTULISCIA_PAIRS_OF(LANGUAGES) };

/* The two captions of each pair: its languages, counted from 0, in the order (1,2), (1,3), (2,3). */
static const int sides[PAIRS][2] = {{0, 1}, {0, 2}, {1, 2}};

static double coefficients[PAIRS * 2], rhos[PAIRS];
static const uint64_t counts[PAIRS] = {2, 2, 2};

/* The first language of a pair is its positive label. */
static int train(void) {
    const double matrix[] = {1, 0, 0, 1};
    const uint8_t labels[] = {1, 0};
    for (int pair = 0; pair < PAIRS; pair++) {
        altuliscia_result result;
        altuliscia_train_c(2, matrix, labels, 1.0 /* cpos */, 1.0 /* cneg */, 0.001 /* eps */, 0 /* shrinking */, 1000 /* budget */,
                           NULL /* crate_reading */, coefficients + 2 * pair, &result);
        if (!altuliscia_releasable(&result))
            return 1;
        rhos[pair] = result.rho;
    }
    return 0;
}

/* A new caption by its kernel values with the three. */
static int sort(const double *caption) {
    double values[PAIRS * 2];
    uint64_t votes[LANGUAGES];
    altuliscia_election election;

    for (int pair = 0; pair < PAIRS; pair++)
        for (int side = 0; side < 2; side++)
            values[2 * pair + side] = caption[sides[pair][side]];
    if (altuliscia_vote(LANGUAGES, coefficients, values, counts, rhos, votes, &election) != 0)
        return 1;
    printf("%g %g %g is language %lu, by votes of %lu %lu %lu\n", caption[0], caption[1], caption[2], (unsigned long)election.winner,
           (unsigned long)votes[0], (unsigned long)votes[1], (unsigned long)votes[2]);
    return 0;
}

int main(void) {
    const double clear[] = {0.25, 0.75, 0.5}, even[] = {0.5, 0.5, 0.5};
    altuliscia_election election;

    if (train() || sort(clear) || sort(even))
        return 1;

    /* A refusal: thirteen languages. */
    altuliscia_vote(13, coefficients, coefficients, counts, rhos, NULL, &election);
    printf("13 languages refused with %lu\n", (unsigned long)election.refusal);
    return election.refusal == 1 ? 0 : 1;
}
