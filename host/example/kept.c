/* Calls of the functions on bytes as they could always be written: each must go on compiling, in C from C89 on and in C++. */
#include "altuliscia.h"

#define SLICE(list, length) list, length
#define BITS w, 0

typedef uint64_t (*one_class)(size_t, const uint8_t *, size_t, uint64_t, uint64_t, uint8_t, uint64_t, uint8_t *, size_t, uint8_t *,
                              size_t, uint8_t *, size_t);

uint64_t kept(const uint8_t *m, const uint8_t *y, const uint8_t *d, uint64_t w, uint8_t *c, uint8_t *h, uint8_t *a);

uint64_t kept(const uint8_t *m, const uint8_t *y, const uint8_t *d, uint64_t w, uint8_t *c, uint8_t *h, uint8_t *a) {
    one_class pointer = &altuliscia_one_class;
    const unsigned narrow = 7;
    uint64_t sum = pointer(2, m, 32, w, 0, 0, 10, c, 16, h, 16, a, 72);
    sum += (altuliscia_nu)(2, m, 32, y, 2, w, w, 0, 10, c, 16, h, 16, a, 72);
    sum += altuliscia_general(2, m, 32, y, 2, d, 16, d, 16, d, 16, 1, w, 0, 10, c, 16, h, 16, a, 72);
    sum += altuliscia_retired(2, m, 32, y, 2, d, 16, d, 16, d, 16, y, 2, 0, w++, 0, 10, NULL, 0, c, 16, h, 16, a, 72);
    sum += altuliscia_c(2, m, 32, y, 2, w, w ? w : 1, 0 /* eps */, 1, (uint64_t)1e6, c, 16, h, 16, a, 72);
    sum += altuliscia_nu(2, m, 32, y, 2, narrow, 0, 0, 10, c, 16, h, 16, a, 72);
    sum += altuliscia_pair(w, w, narrow, BITS, w, w, w ? w : 1, 0 /* entry */, 0, SLICE(a, 16));
    sum += (altuliscia_pair)(w, w, w, w, w, w, w, w, w, 1, a, 16);
    sum += altuliscia_c(2, SLICE(m, 32), SLICE(y, 2), w, BITS, 1, 10, SLICE(c, 16), SLICE(h, 16), SLICE(a, 72));
    sum += altuliscia_general_tuned(2, m, 32, y, 2, d, 16, d, 16, d, 16, 1, w, 0, 10, d, 8, c, 16, h, 16, a, 128);
    sum += altuliscia_c_tuned(2, SLICE(m, 32), SLICE(y, 2), w, BITS, 1, 10, SLICE(NULL, 0), SLICE(c, 16), SLICE(h, 16), SLICE(a, 128));
    sum += (altuliscia_nu_tuned)(2, m, 32, y, 2, narrow, w, 0, 10, SLICE(d, 8), c, 16, h, 16, a, 128);
    sum += altuliscia_one_class_tuned(2, m, 32, w ? w : 1, 0 /* eps */, 0, 10, NULL, 0, c, 16, h, 16, a, ALTULISCIA_TUNED_ANSWER_BYTES);
    sum += altuliscia_votes(2, d, 16, d, 16, d, 8, SLICE(d, 8), d, 8, c, 16, SLICE(a, ALTULISCIA_ELECTION_BYTES));
    sum += (altuliscia_votes)(w, NULL, 0, NULL, 0, d, 8, d, 8, d, 8, c, 16, a, 24);
#if defined(__STDC_VERSION__) && __STDC_VERSION__ >= 199901L
    sum += altuliscia_nu(2, m, 32, ((const uint8_t[]){1, 0}), 2, w, w, 0, 10, c, 16, h, 16, a, 72);
#endif
#if defined(ALTULISCIA_UNGUARDED) && defined(__STDC_VERSION__) && __STDC_VERSION__ >= 199901L
    sum += altuliscia_nu(2, m, 32, (const uint8_t[]){1, 0}, 2, w, w, 0, 10, c, 16, h, 16, a, 72);
#endif
#ifdef __cplusplus
    sum += ::altuliscia_one_class(2, m, 32, w, w, 0, 10, c, 16, h, 16, a, 72);
#endif
    return sum;
}
