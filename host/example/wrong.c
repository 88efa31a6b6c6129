/* Places for what can be handed over wrongly. With w, the bits, in B1 to B26, d, a list of doubles, in L1 to L21, t, a tuning, in T1 to T5,
 * r, the longer answer, in R1 to R4, n, a list of numbers, in N1 and N2 and e, the answer of the votes, in E1 this compiles; with a double or
 * a float in one B, a list of bytes or floats in one L, a list of doubles in one T or N, or the shorter answer of a training, s, in one R or
 * E it must not. header.sh tries each. */
#include "altuliscia.h"

uint64_t places(const uint8_t *m, const double *d, const float *g, uint64_t w, double x, float f, uint8_t *a, double *home);
uint64_t tuned_places(const uint8_t *m, const double *d, const float *g, uint64_t w, double x, float f, uint8_t *a, double *home);
uint64_t vote_places(const uint8_t *m, double *d, const float *g, uint64_t *n);
void decide_places(const uint8_t *m, double *d, float *g);

uint64_t places(const uint8_t *m, const double *d, const float *g, uint64_t w, double x, float f, uint8_t *a, double *home) {
    uint64_t sum = g ? altuliscia_bits(x + f) : 0;
    altuliscia_result result;
    sum += altuliscia_general(2, m, 32, m, 2, m, 16, m, 16, m, 16, 1, B1, 0, 10, a, 16, a, 16, a, 72);
    sum += altuliscia_retired(2, m, 32, m, 2, m, 16, m, 16, m, 16, m, 2, 0, B2, 0, 10, NULL, 0, a, 16, a, 16, a, 72);
    sum += altuliscia_c(2, m, 32, m, 2, B3, B4, B5, 1, 10, a, 16, a, 16, a, 72);
    sum += altuliscia_nu(2, m, 32, m, 2, B6, B7, 0, 10, a, 16, a, 16, a, 72);
    sum += altuliscia_one_class(2, m, 32, B8, B9, 0, 10, a, 16, a, 16, a, 72);
    sum += altuliscia_pair(B10, B11, B12, B13, B14, B15, B16, B17, B18, 1, a, 16);
    sum += altuliscia_train_general(2, L1, m, d, d, d, 0, x, 0, 10, NULL, home, &result);
    sum += altuliscia_train_retired(2, L2, m, d, d, d, m, 0, x, 10, NULL, home, &result);
    sum += altuliscia_train_c(2, L3, m, x, f, 1, 0, 10, NULL, home, &result);
    sum += altuliscia_train_nu(2, L4, m, x, x, 0, 10, NULL, home, &result);
    sum += altuliscia_train_one_class(2, L5, x, x, 0, 10, NULL, home, &result);
    return sum + result.refusal + w;
}

uint64_t tuned_places(const uint8_t *m, const double *d, const float *g, uint64_t w, double x, float f, uint8_t *a, double *home) {
    uint64_t sum = g ? altuliscia_bits(x + f) : 0;
    const altuliscia_tuning usual = altuliscia_usual_tuning(), *t = &usual;
    altuliscia_tuned_result tuned, *r = &tuned;
    altuliscia_result result, *s = &result;
    sum += altuliscia_general_tuned(2, m, 32, m, 2, m, 16, m, 16, m, 16, 1, B19, 0, 10, m, 8, a, 16, a, 16, a, 128);
    sum += altuliscia_c_tuned(2, m, 32, m, 2, B20, B21, B22, 1, 10, m, 8, a, 16, a, 16, a, 128);
    sum += altuliscia_nu_tuned(2, m, 32, m, 2, B23, B24, 0, 10, m, 8, a, 16, a, 16, a, 128);
    sum += altuliscia_one_class_tuned(2, m, 32, B25, B26, 0, 10, m, 8, a, 16, a, 16, a, 128);
    sum += altuliscia_train_general_tuned(2, L6, m, d, d, d, 0, x, 0, 10, T1, NULL, home, R1);
    sum += altuliscia_train_retired_tuned(2, L7, m, d, d, d, m, 0, x, 10, T2, NULL, home, s);
    sum += altuliscia_train_c_tuned(2, L8, m, x, f, 1, 0, 10, T3, NULL, home, R2);
    sum += altuliscia_train_nu_tuned(2, L9, m, x, x, 0, 10, T4, NULL, home, R3);
    sum += altuliscia_train_one_class_tuned(2, L10, x, x, 0, 10, T5, NULL, home, R4);
    return sum + r->result.refusal + s->refusal + w + (t->floor > 0) + t->travelling;
}

uint64_t vote_places(const uint8_t *m, double *d, const float *g, uint64_t *n) {
    altuliscia_election election, *e = &election;
    altuliscia_result result, *s = &result;
    uint64_t sum = m && d && g && n && s ? 1 : 0;
    sum += altuliscia_vote(2, L11, L12, N1, L13, N2, E1);
    return sum + e->refusal;
}

void decide_places(const uint8_t *m, double *d, float *g) {
    d[0] = m && g ? 1 : 0;
    altuliscia_decide_rows(2, L14, 0, 1, L15, L16);
    altuliscia_decide_rows_by_label(2, L17, m, 0, 1, L18, L19);
    altuliscia_sign(2, L20, m, L21);
}
