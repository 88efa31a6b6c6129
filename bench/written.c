/* Trains n captions with a budget of exactly that many passes, shrinking off: what bench/written counts the stores of. The first word is c, or
 * first for the first trainer. */
#include "altuliscia.h"

#include <stdio.h>
#include <stdlib.h>
#include <string.h>

enum { MOST = 512 };

static double matrix[MOST * MOST], ceilings[MOST], alphas[MOST], linear[MOST], crate_reading[MOST], home[MOST];
static uint8_t labels[MOST], answer[ALTULISCIA_ANSWER_BYTES];

static double bent(size_t a, size_t b) {
    double apart = (double)(a * 7919 % 1009) - (double)(b * 7919 % 1009);
    return 1 / (1 + apart * apart / 4096);
}

int main(int argc, char **argv) {
    size_t n = argc > 3 ? strtoul(argv[2], NULL, 10) : 0, list = 8 * n;
    uint64_t budget = argc > 3 ? strtoul(argv[3], NULL, 10) : 0, bits_of_one = 0x3ff0000000000000u, eps = 0x3ddb7cdfd9d7bdbbu, number;
    const uint8_t *m = (const uint8_t *)matrix;
    uint8_t *c = (uint8_t *)crate_reading, *h = (uint8_t *)home;
    if (n == 0 || n > MOST)
        return 2;
    for (size_t k = 0; k < n; k++) {
        labels[k] = (uint8_t)(k * 31 % 64 / 32);
        ceilings[k] = 1;
        linear[k] = -1;
        for (size_t r = 0; r < n; r++)
            matrix[k * n + r] = bent(k, r);
    }
    if (strcmp(argv[1], "first") == 0)
        number = altuliscia_general(n, m, list * n, labels, n, (const uint8_t *)ceilings, list, (const uint8_t *)alphas, list,
                                    (const uint8_t *)linear, list, 0, eps, 0, budget, c, list, h, list, answer, sizeof answer);
    else
        number = altuliscia_c(n, m, list * n, labels, n, bits_of_one, bits_of_one, eps, 0, budget, c, list, h, list, answer,
                              sizeof answer);
    return number == 0 && answer[56] == 1 ? 0 : 1;
}
