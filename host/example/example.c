/* Trains on two samples with the identity as kernel matrix, then with a third between them that is retired, and prints the answers.
 * It is C99 and C++98. */
#include "altuliscia.h"

#include <stdio.h>

enum { N = 2 };

/* Says so where a call was refused. */
static int refused(const altuliscia_result *result) {
    if (result->refusal != ALTULISCIA_ACCEPTED)
        printf("refused with %lu at index %lu\n", (unsigned long)result->refusal, (unsigned long)result->index);
    return result->refusal != ALTULISCIA_ACCEPTED;
}

/* The same two samples as numbers 0 and 2: what is lent for sample 1 has no say. The weights aren't signed by label here. */
static int train_retired(void) {
    const double matrix[] = {1, 5, 0, 5, 5, 5, 0, 5, 1};
    const double ceilings[] = {1, 1, 1}, alphas[] = {0, 0, 0}, linear[] = {-1, -1, -1}, values[] = {0.75, 5, 0.25};
    const uint8_t labels[] = {1, 1, 0}, retired[] = {0, 1, 0};
    double home[3];
    altuliscia_result result;

    altuliscia_train_retired(3, matrix, labels, ceilings, alphas, linear, retired, 0 /* nu_rule */, 0.001 /* eps */,
                             1000 /* budget */, NULL /* crate_reading */, home, &result);
    if (refused(&result))
        return 1;
    printf("retired 1   weights %g %g %g, obj %g, decision %g\n", home[0], home[1], home[2], result.obj,
           altuliscia_decide_by_label(3, home, labels, result.rho, values));
    return 0;
}

int main(void) {
    const double matrix[N * N] = {1, 0, 0, 1};
    const uint8_t labels[N] = {1, 0};
    double home[N];
    altuliscia_result result;

    altuliscia_train_c(N, matrix, labels, 1.0 /* cpos */, 1.0 /* cneg */, 0.001 /* eps */, 0 /* shrinking */,
                       1000 /* budget */, NULL /* crate_reading */, home, &result);
    if (refused(&result) || !altuliscia_releasable(&result))
        return 1;

    /* Two new captions, by their kernel values with the two samples. */
    const double values[2 * N] = {0.75, 0.25, 0, 1};
    double decisions[2];
    altuliscia_decide_rows(N, home, result.rho, 2, values, decisions);

    printf("rho         %g\n", result.rho);
    printf("obj         %g\n", result.obj);
    printf("iterations  %lu\n", (unsigned long)result.iterations);
    printf("reason      %s\n", result.reason == ALTULISCIA_THRESHOLD ? "threshold" : "iterations");
    printf("support     %lu\n", (unsigned long)result.support);
    for (int k = 0; k < N; k++)
        printf("sample %d    %g\n", k, home[k]);
    printf("decisions   %g %g\n", decisions[0], decisions[1]);

    if (train_retired())
        return 1;

    /* A refusal: no sample at all. */
    altuliscia_train_c(0, NULL, NULL, 1.0, 1.0, 0.001, 0, 1000, NULL, NULL, &result);
    printf("no sample   refused with %lu\n", (unsigned long)result.refusal);
    return result.refusal == ALTULISCIA_BAD_SAMPLES ? 0 : 1;
}
