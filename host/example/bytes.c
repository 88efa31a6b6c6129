/* As example.c, by the functions on bytes: what a caller in another language does. It prints the same. */
#include "altuliscia.h"

#include <inttypes.h>
#include <stdio.h>
#include <string.h>

enum { N = 2 };

/* The eight bytes of a double as a number. */
static uint64_t bits(double x) {
    uint64_t b;
    memcpy(&b, &x, 8);
    return b;
}

static uint64_t number_at(const uint8_t *answer, size_t at) {
    uint64_t b = 0;
    for (size_t k = 8; k > 0; k--)
        b = b << 8 | answer[at + k - 1];
    return b;
}

static double double_at(const uint8_t *answer, size_t at) {
    uint64_t b = number_at(answer, at);
    double x;
    memcpy(&x, &b, 8);
    return x;
}

static const uint8_t *bytes(const double *list) {
    return (const uint8_t *)list;
}

/* Says so where a call was refused. */
static int refused(uint64_t refusal, const uint8_t *answer) {
    if (refusal != ALTULISCIA_ACCEPTED)
        printf("refused with %" PRIu64 " at index %" PRIu64 "\n", refusal, number_at(answer, ALTULISCIA_AT_INDEX));
    return refusal != ALTULISCIA_ACCEPTED;
}

/* The same two samples as numbers 0 and 2: what is lent for sample 1 has no say. The weights aren't signed by label here. */
static int train_retired(void) {
    const double matrix[] = {1, 5, 0, 5, 5, 5, 0, 5, 1};
    const double ceilings[] = {1, 1, 1}, alphas[] = {0, 0, 0}, linear[] = {-1, -1, -1};
    const uint8_t labels[] = {1, 1, 0}, retired[] = {0, 1, 0};
    double crate_reading[3], home[3];
    uint8_t answer[ALTULISCIA_ANSWER_BYTES];

    uint64_t refusal = altuliscia_retired(3, bytes(matrix), sizeof matrix, labels, sizeof labels, bytes(ceilings), sizeof ceilings,
                                          bytes(alphas), sizeof alphas, bytes(linear), sizeof linear, retired, sizeof retired,
                                          0 /* nu_rule */, bits(0.001) /* eps */, 0 /* shrinking */, 1000 /* budget */,
                                          NULL, 0 /* tuning */, (uint8_t *)crate_reading, sizeof crate_reading,
                                          (uint8_t *)home, sizeof home, answer, sizeof answer);
    if (refused(refusal, answer))
        return 1;
    /* Something new with the kernel values 0.75, 5, 0.25. A retired sample has no term, and a negative one is taken away. */
    printf("retired 1   weights %g %g %g, obj %g, decision %g\n", home[0], home[1], home[2], double_at(answer, ALTULISCIA_AT_OBJ),
           home[0] * 0.75 - home[2] * 0.25 - double_at(answer, ALTULISCIA_AT_RHO));
    return 0;
}

int main(void) {
    const double matrix[N * N] = {1, 0, 0, 1};
    const uint8_t labels[N] = {1, 0};
    double crate_reading[N], home[N];
    uint8_t answer[ALTULISCIA_ANSWER_BYTES];

    uint64_t refusal = altuliscia_c(N, bytes(matrix), sizeof matrix, labels, sizeof labels,
                                    bits(1.0) /* cpos */, bits(1.0) /* cneg */, bits(0.001) /* eps */, 0 /* shrinking */, 1000 /* budget */,
                                    (uint8_t *)crate_reading, sizeof crate_reading, (uint8_t *)home, sizeof home, answer, sizeof answer);
    if (refused(refusal, answer))
        return 1;

    printf("rho         %g\n", double_at(answer, ALTULISCIA_AT_RHO));
    printf("obj         %g\n", double_at(answer, ALTULISCIA_AT_OBJ));
    printf("iterations  %" PRIu64 "\n", number_at(answer, ALTULISCIA_AT_ITERATIONS));
    printf("reason      %s\n", number_at(answer, ALTULISCIA_AT_REASON) == ALTULISCIA_THRESHOLD ? "threshold" : "iterations");
    printf("support     %" PRIu64 "\n", number_at(answer, ALTULISCIA_AT_SUPPORT));
    for (size_t k = 0; k < N; k++)
        printf("sample %zu    %g\n", k, home[k]);
    /* Two new captions, with the kernel values 0.75, 0.25 and 0, 1. */
    printf("decisions   %g %g\n", home[0] * 0.75 + home[1] * 0.25 - double_at(answer, ALTULISCIA_AT_RHO),
           home[0] * 0 + home[1] * 1 - double_at(answer, ALTULISCIA_AT_RHO));

    if (train_retired())
        return 1;

    /* A refusal: no sample at all. */
    refusal = altuliscia_c(0, NULL, 0, NULL, 0, bits(1.0), bits(1.0), bits(0.001), 0, 1000, NULL, 0, NULL, 0, answer, sizeof answer);
    printf("no sample   refused with %" PRIu64 "\n", refusal);
    return refusal == ALTULISCIA_BAD_SAMPLES ? 0 : 1;
}
