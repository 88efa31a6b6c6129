/* Trains two samples on the installed library, as C99 and as C++98, and prints the version and what is answered. */
#include <altuliscia.h>

#include <stdio.h>
#include <string.h>

static uint64_t bits(double x) {
    uint64_t b;
    memcpy(&b, &x, 8);
    return b;
}

int main(void) {
    const double matrix[4] = {1, 0, 0, 1};
    const uint8_t labels[2] = {1, 0};
    double crate_reading[2], home[2], rho;
    uint8_t answer[ALTULISCIA_ANSWER_BYTES];
    uint64_t refusal = altuliscia_c(2, (const uint8_t *)matrix, sizeof matrix, labels, sizeof labels, bits(1.0), bits(1.0),
                                    bits(0.001), 0, 1000, (uint8_t *)crate_reading, sizeof crate_reading, (uint8_t *)home,
                                    sizeof home, answer, sizeof answer);
    memcpy(&rho, answer + ALTULISCIA_AT_RHO, 8);
    printf("version %lu, header %d\n", (unsigned long)altuliscia_version(),
           10000 * ALTULISCIA_VERSION_MAJOR + 100 * ALTULISCIA_VERSION_MINOR + ALTULISCIA_VERSION_PATCH);
    printf("result %lu, weights %g %g, rho %g\n", (unsigned long)refusal, home[0], home[1], rho);
    return 0;
}
