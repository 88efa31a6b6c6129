/* Tries what a tuning brings, by the functions on bytes: other floors, the refusal of bad ones and its place among the others, ceilings
 * that travel, the lengths of the tuning and of the answer. C99 and C++98. The exit status is 1 where anything isn't so. */
#include "altuliscia.h"

#include <stdio.h>
#include <string.h>

enum { GENERAL, C, NU, ONE_CLASS, RETIRED, FUNCTIONS, MOST = 4, ROOM = 144, PAINT = 0xa5 };

/* Two samples whose curvature is 1 + 0.5 - 2*0.75 = 0, times 2^-34; and, for nu, which pairs samples of one label, two such pairs. The
 * ceilings are so high and the entries so low that by the usual floor no step is clipped, and by 1e-12 each. */
#define SMALL 5.820766091346741e-11
static const double flat[] = {SMALL, SMALL * 0.75, SMALL * 0.75, SMALL / 2};
static const double two_flat[] = {SMALL, SMALL * 0.75, 0, 0, SMALL * 0.75, SMALL / 2, 0, 0,
                                  0, 0, SMALL, SMALL * 0.75, 0, 0, SMALL * 0.75, SMALL / 2};
static const double ceilings[] = {1e12, 1e12}, alphas[] = {0, 0}, linear[] = {-1, -1};
static const uint8_t labels[] = {1, 0}, labels_of_two[] = {1, 1, 0, 0};

/* What a call is lent beside these. */
struct lent {
    const void *tuning;
    size_t tuning_len, answer_len;
    double eps;
    uint64_t budget;
    uint8_t shrinking, marks[2];
};

/* What it writes, painted before. */
struct written {
    double crate_reading[MOST], home[MOST];
    uint8_t answer[ROOM];
};
static struct written painted, w;

#define READ(list) (const uint8_t *)(list), sizeof(list)
#define WRITTEN (uint8_t *)w.crate_reading, 8 * n, (uint8_t *)w.home, 8 * n, w.answer, l->answer_len
#define REST l->budget, (const uint8_t *)l->tuning, l->tuning_len, WRITTEN

static uint64_t call_with(int which, size_t n, const struct lent *l) {
    uint64_t eps = altuliscia_bits(l->eps), cost = altuliscia_bits(1e12), nu = altuliscia_bits(0.25);
    memset(&painted, PAINT, sizeof painted);
    w = painted;
    switch (which) {
    case GENERAL:
        return altuliscia_general_tuned(n, READ(flat), READ(labels), READ(ceilings), READ(alphas), READ(linear), 0, eps,
                                        l->shrinking, REST);
    case C:
        return altuliscia_c_tuned(n, READ(flat), READ(labels), cost, cost, eps, l->shrinking, REST);
    case NU:
        return altuliscia_nu_tuned(n, READ(two_flat), READ(labels_of_two), nu, eps, l->shrinking, REST);
    case ONE_CLASS:
        return altuliscia_one_class_tuned(n, READ(flat), nu, eps, l->shrinking, REST);
    default:
        return altuliscia_retired(n, READ(flat), READ(labels), READ(ceilings), READ(alphas), READ(linear), READ(l->marks), 0, eps,
                                  l->shrinking, REST);
    }
}

static uint64_t call(int which, const struct lent *l) {
    return call_with(which, which == NU ? 4 : 2, l);
}

/* Two passes with that floor, which is lent at an odd address. */
static struct lent with_floor(double floor) {
    static uint8_t odd[9];
    struct lent l = {odd + 1, 8, ROOM, 0, 2, 0, {0, 0}};
    memcpy(odd + 1, &floor, 8);
    return l;
}

static int failed;

static void expect(const char *what, int which, int holds) {
    if (!holds)
        printf("not so of function %d: %s\n", which, what);
    failed |= !holds;
}

static uint64_t word(size_t k) {
    uint64_t x;
    memcpy(&x, w.answer + 8 * k, 8);
    return x;
}

static size_t answered(int which) {
    return which == RETIRED ? ALTULISCIA_ANSWER_BYTES : ALTULISCIA_TUNED_ANSWER_BYTES;
}

/* Whether the answer's bytes are 0 from that word on, and as they were behind its end. */
static int zeros_from(int which, size_t k) {
    size_t at = 8 * k;
    while (at < answered(which) && w.answer[at] == 0)
        at++;
    return at == answered(which) && memcmp(w.answer + at, painted.answer + at, ROOM - at) == 0;
}

/* Whether a call was refused with that number: then it wrote its answer and nothing else. */
static int refused_with(int which, const struct lent *l, uint64_t number) {
    return call(which, l) == number && word(0) == number && zeros_from(which, 1) &&
           memcmp(&w, &painted, sizeof w.crate_reading + sizeof w.home) == 0;
}

/* Whether two passes by that floor are accepted and leave other weights than these. */
static int leaves_others(int which, double floor, const struct written *than) {
    struct lent l = with_floor(floor);
    return call(which, &l) == 0 && zeros_from(which, 9) && memcmp(w.home, than->home, sizeof w.home) != 0;
}

static void other_floors(int which) {
    struct lent l = with_floor(ALTULISCIA_USUAL_FLOOR);
    struct written by_usual, by_libsvms;
    expect("the usual floor", which, call(which, &l) == 0 && word(6) == 2 && zeros_from(which, 9));
    by_usual = w;
    l.tuning = NULL;
    l.tuning_len = 0;
    expect("no tuning is the usual one", which, call(which, &l) == 0 && memcmp(&w, &by_usual, sizeof w) == 0);
    expect("1e-10 by itself", which, !leaves_others(which, 1e-10, &by_usual) && memcmp(&w, &by_usual, sizeof w) == 0);
    expect("1e-12", which, leaves_others(which, 1e-12, &by_usual));
    by_libsvms = w;
    expect("1", which, leaves_others(which, 1, &by_usual) && leaves_others(which, 1, &by_libsvms));
    expect("as far as it may go, no further", which, !leaves_others(which, 5e-324, &by_libsvms) && word(0) == 0);
    l = with_floor(ALTULISCIA_USUAL_FLOOR);
    l.answer_len = answered(which);
    expect("an answer without room behind it", which, call(which, &l) == 0 && memcmp(&w, &by_usual, sizeof w) == 0);
}

static void bad_floors(int which) {
    const double zero = alphas[0], nan = zero / zero, above = 1.0000000000000002, huge = 1 / zero;
    const double bad[] = {zero, -zero, -1, -1e-10, above, huge, -huge, nan, -nan};
    for (size_t k = 0; k < sizeof bad / sizeof *bad; k++) {
        struct lent l = with_floor(bad[k]);
        expect("14", which, refused_with(which, &l, ALTULISCIA_BAD_FLOOR));
        l.shrinking = which == RETIRED;
        l.marks[1] = 2;
        expect("14 before 12 and 13", which, refused_with(which, &l, ALTULISCIA_BAD_FLOOR));
        l.budget = 0;
        expect("10 before 14", which, refused_with(which, &l, ALTULISCIA_BAD_BUDGET));
        l.eps = -1;
        expect("8 before 10", which, refused_with(which, &l, ALTULISCIA_BAD_EPS));
        l.tuning_len = 7;
        expect("2 before all of them", which, refused_with(which, &l, ALTULISCIA_BAD_LENGTH));
        expect("1 before 2", which, call_with(which, 0, &l) == ALTULISCIA_BAD_SAMPLES && word(0) == 1 && zeros_from(which, 1));
    }
}

static void lengths(int which) {
    static const double words[16] = {ALTULISCIA_USUAL_FLOOR};
    static const size_t wrong[] = {1, 7, 9, 15, 17, 24, 128};
    struct lent l = with_floor(ALTULISCIA_USUAL_FLOOR);
    l.tuning = words;
    for (size_t k = 0; k < sizeof wrong / sizeof *wrong; k++) {
        l.tuning_len = wrong[k];
        expect("a tuning of another length", which, refused_with(which, &l, ALTULISCIA_BAD_LENGTH));
    }
    l.tuning_len = 16;
    if (which == RETIRED)
        expect("one of 16 bytes", which, refused_with(which, &l, ALTULISCIA_BAD_LENGTH));
    l.tuning_len = 8;
    for (size_t k = 0; k < 3; k++) {
        l.answer_len = k == 0 ? answered(which) - 1 : k == 1 ? 71 : 0;
        expect("a short answer", which, call(which, &l) == ALTULISCIA_BAD_LENGTH && memcmp(&w, &painted, sizeof w) == 0);
        expect("and no sample", which, call_with(which, 0, &l) == ALTULISCIA_BAD_SAMPLES && memcmp(&w, &painted, sizeof w) == 0);
    }
}

/* What word 1 may be: off, then on. The highest byte counts as the lowest does. */
static const uint64_t modes[] = {0, 1, 2, (uint64_t)1 << 63, (uint64_t)-1};
enum { MODES = sizeof modes / sizeof *modes };

/* With that floor and that word 1, at an odd address. */
static struct lent with_both(double floor, uint64_t mode) {
    static uint8_t odd[17];
    struct lent l = {odd + 1, 16, ROOM, 0, 2, 1, {0, 0}};
    memcpy(odd + 1, &floor, 8);
    memcpy(odd + 9, &mode, 8);
    return l;
}

/* With one common ceiling no mode has a say, and the floor is judged in each. */
static void both_words(int which) {
    struct lent l = with_floor(1e-12);
    l.shrinking = 1;
    expect("one word", which, call(which, &l) == 0);
    const struct written one = w;
    for (size_t k = 0; k < MODES; k++) {
        l = with_both(1e-12, modes[k]);
        expect("two words", which, call(which, &l) == 0 && memcmp(&w, &one, sizeof w) == 0);
        l = with_both(0, modes[k]);
        expect("14 with two words", which, refused_with(which, &l, ALTULISCIA_BAD_FLOOR));
    }
}

/* Four samples with ceilings that differ, of which shrinking moves two. The first is that of docs/DIFFERENCES.md, the other one's entries
 * are the products of the points (-3 1), (1 3), (1 0) and (1 2), and 1 more for a point with itself. */
static const double parting[2][16] = {{4, 0, 0, -1, 0, 2, 2, 1, 0, 2, 4, 0, -1, 1, 0, 3},
                                      {11, 0, -3, -1, 0, 11, 1, 7, -3, 1, 2, 1, -1, 7, 1, 6}};
static const double of_four[3][4] = {{1, 2, 2, 2}, {0, 2, 0, 2}, {2, 1, 1, -1}};
static const uint8_t labels_of_four[2][4] = {{1, 0, 0, 0}, {0, 0, 0, 1}};

static uint64_t call_parting(int which, const struct lent *l) {
    const size_t n = 4;
    memset(&painted, PAINT, sizeof painted);
    w = painted;
    if (which == GENERAL)
        return altuliscia_general_tuned(n, READ(parting[0]), READ(labels_of_four[0]), READ(of_four[0]), READ(of_four[1]),
                                        READ(of_four[2]), 0, altuliscia_bits(l->eps), l->shrinking, REST);
    return altuliscia_c_tuned(n, READ(parting[1]), READ(labels_of_four[1]), altuliscia_bits(1), altuliscia_bits(2),
                              altuliscia_bits(l->eps), l->shrinking, REST);
}

/* The weight of one of them, in the crate's mode and travelling; its ceiling is `ceiling`. */
static void parted(int which, size_t sample, double theirs, double own, double ceiling) {
    struct written first = painted;
    expect("the crate's mode leaves it above", which, theirs > ceiling && own <= ceiling);
    for (size_t k = 0; k < MODES; k++) {
        struct lent l = with_both(ALTULISCIA_USUAL_FLOOR, modes[k]);
        l.budget = 100;
        expect("ceilings that travel", which, call_parting(which, &l) == 0 && w.home[sample] == (k ? own : theirs));
        expect("by threshold, zeros behind", which, word(7) == ALTULISCIA_THRESHOLD && zeros_from(which, 9));
        expect("on is on", which, k < 2 || memcmp(&w, &first, sizeof w) == 0);
        first = w;
        l.tuning_len = 8;
        expect("one word is off", which, call_parting(which, &l) == 0 && w.home[sample] == theirs);
        l.shrinking = 0;
        expect("shrinking off", which, call_parting(which, &l) == 0);
        const struct written still = w;
        l.tuning_len = 16;
        expect("no mode has a say", which, call_parting(which, &l) == 0 && memcmp(&w, &still, sizeof w) == 0);
    }
}

int main(void) {
    struct lent l = with_floor(ALTULISCIA_USUAL_FLOOR);
    for (int which = 0; which < FUNCTIONS; which++) {
        other_floors(which);
        bad_floors(which);
        lengths(which);
        if (which != RETIRED)
            both_words(which);
    }
    parted(GENERAL, 1, 2.020408163265306, 1.020408163265306, 2);
    parted(C, 3, 1.146617692072237, 1, 1);
    l.shrinking = 1;
    expect("13", RETIRED, refused_with(RETIRED, &l, ALTULISCIA_RETIRED_SHRINKING));
    l.marks[0] = 2;
    expect("12 before 13", RETIRED, refused_with(RETIRED, &l, ALTULISCIA_BAD_RETIRED));
    return failed;
}
