/* Makes each drawn call twice, by altuliscia_train_X and by altuliscia_X, and compares what is returned and every byte that is written;
 * so with a drawn tuning, in both modes, with drawn steps, by altuliscia_find_pair and altuliscia_pair, and with drawn panels, by altuliscia_vote and
 * altuliscia_votes. Then what only the former can be handed, and decisions beside the votes. C99 and C++98. The exit status is 1 where
 * anything differs. */
#include "altuliscia.h"

#include <stdio.h>
#include <string.h>

enum { MOST = 512, RUNS = 2000, RETIRED = 4, FUNCTIONS = 5 };

static double matrix[MOST * MOST], ceilings[MOST], alphas[MOST], linear[MOST];
static uint8_t labels[MOST], retired[MOST];
static uint64_t state;

/* What a call writes; without a tuning it is only the first part of the answer. */
struct written {
    double crate_reading[MOST + 1], home[MOST + 1];
    altuliscia_tuned_result answer;
    uint64_t returned;
};
static struct written with_doubles, with_bytes;

static uint64_t below(uint64_t k) {
    state = state * 6364136223846793005u + 1442695040888963407u;
    return (state >> 33) % k;
}

/* Mostly a good number, at times one that is refused. */
static double cost(void) {
    static const double odd[] = {0, -1, 1e308, 0.5};
    return below(12) ? (double)(1 + below(8)) / 4 : odd[below(4)];
}

/* Points of two whole numbers, and the products of them as kernel. Where it is to be flat it is small, and the second numbers count
 * against the first: so many a curvature isn't above 0. */
static void fill(size_t n, int flat) {
    static double points[MOST][2];
    double scale = flat ? 0.015625 : 1, second = flat ? -1 : 1;
    for (size_t k = 0; k < n; k++) {
        points[k][0] = (double)below(9) - 4;
        points[k][1] = (double)below(9) - 4;
        labels[k] = (uint8_t)(below(150) ? below(2) : 2);
        retired[k] = (uint8_t)(below(4) == 0);
        ceilings[k] = 1 + (double)below(3);
        alphas[k] = (double)below(2);
        linear[k] = (double)below(9) - 4;
    }
    for (size_t c = 0; c < n; c++)
        for (size_t r = 0; r < n; r++)
            matrix[c * n + r] = (points[c][0] * points[r][0] + second * points[c][1] * points[r][1]) * scale;
}

/* What a call is handed beside the lists. */
struct given {
    size_t n;
    double x, y, eps;
    uint64_t budget;
    uint8_t on, rule;
    const altuliscia_tuning *tuning;
};

#define READ(list) (const uint8_t *)(list)
#define LISTS(bytes) (uint8_t *)b->crate_reading, 8 * n, (uint8_t *)b->home, 8 * n, (uint8_t *)&b->answer, bytes

static void call(int which, const struct given *g) {
    struct written *a = &with_doubles, *b = &with_bytes;
    double *crate = a->crate_reading, *home = a->home;
    altuliscia_result *result = &a->answer.result;
    size_t n = g->n, square = 8 * n * n, list = 8 * n;
    uint64_t x = altuliscia_bits(g->x), y = altuliscia_bits(g->y), eps = altuliscia_bits(g->eps);
    switch (which) {
    case 0:
        a->returned = altuliscia_train_c(n, matrix, labels, g->x, g->y, g->eps, g->on, g->budget, crate, home, result);
        b->returned = altuliscia_c(n, READ(matrix), square, labels, n, x, y, eps, g->on, g->budget, LISTS(72));
        break;
    case 1:
        a->returned = altuliscia_train_nu(n, matrix, labels, g->x, g->eps, g->on, g->budget, crate, home, result);
        b->returned = altuliscia_nu(n, READ(matrix), square, labels, n, x, eps, g->on, g->budget, LISTS(72));
        break;
    case 2:
        a->returned = altuliscia_train_one_class(n, matrix, g->x, g->eps, g->on, g->budget, crate, home, result);
        b->returned = altuliscia_one_class(n, READ(matrix), square, x, eps, g->on, g->budget, LISTS(72));
        break;
    case 3:
        a->returned = altuliscia_train_general(n, matrix, labels, ceilings, alphas, linear, g->rule, g->eps, g->on, g->budget, crate,
                                               home, result);
        b->returned = altuliscia_general(n, READ(matrix), square, labels, n, READ(ceilings), list, READ(alphas), list, READ(linear),
                                         list, g->rule, eps, g->on, g->budget, LISTS(72));
        break;
    default:
        a->returned = altuliscia_train_retired(n, matrix, labels, ceilings, alphas, linear, retired, g->rule, g->eps, g->budget,
                                               crate, home, result);
        b->returned = altuliscia_retired(n, READ(matrix), square, labels, n, READ(ceilings), list, READ(alphas), list, READ(linear),
                                         list, retired, n, g->rule, eps, 0, g->budget, NULL, 0, LISTS(72));
    }
}

static void call_tuned(int which, const struct given *g) {
    struct written *a = &with_doubles, *b = &with_bytes;
    double *crate = a->crate_reading, *home = a->home;
    altuliscia_tuned_result *answer = &a->answer;
    const altuliscia_tuning *t = g->tuning;
    size_t n = g->n, square = 8 * n * n, list = 8 * n, words = !t ? 0 : which == RETIRED && !t->travelling ? 8 : 16;
    uint64_t x = altuliscia_bits(g->x), y = altuliscia_bits(g->y), eps = altuliscia_bits(g->eps);
    switch (which) {
    case 0:
        a->returned = altuliscia_train_c_tuned(n, matrix, labels, g->x, g->y, g->eps, g->on, g->budget, t, crate, home, answer);
        b->returned = altuliscia_c_tuned(n, READ(matrix), square, labels, n, x, y, eps, g->on, g->budget, READ(t), words, LISTS(128));
        break;
    case 1:
        a->returned = altuliscia_train_nu_tuned(n, matrix, labels, g->x, g->eps, g->on, g->budget, t, crate, home, answer);
        b->returned = altuliscia_nu_tuned(n, READ(matrix), square, labels, n, x, eps, g->on, g->budget, READ(t), words, LISTS(128));
        break;
    case 2:
        a->returned = altuliscia_train_one_class_tuned(n, matrix, g->x, g->eps, g->on, g->budget, t, crate, home, answer);
        b->returned = altuliscia_one_class_tuned(n, READ(matrix), square, x, eps, g->on, g->budget, READ(t), words, LISTS(128));
        break;
    case 3:
        a->returned = altuliscia_train_general_tuned(n, matrix, labels, ceilings, alphas, linear, g->rule, g->eps, g->on, g->budget, t,
                                                     crate, home, answer);
        b->returned = altuliscia_general_tuned(n, READ(matrix), square, labels, n, READ(ceilings), list, READ(alphas), list,
                                               READ(linear), list, g->rule, eps, g->on, g->budget, READ(t), words, LISTS(128));
        break;
    default:
        a->returned = altuliscia_train_retired_tuned(n, matrix, labels, ceilings, alphas, linear, retired, g->rule, g->eps, g->budget,
                                                     t, crate, home, &answer->result);
        b->returned = altuliscia_retired(n, READ(matrix), square, labels, n, READ(ceilings), list, READ(alphas), list, READ(linear),
                                         list, retired, n, g->rule, eps, 0, g->budget, READ(t), words, LISTS(72));
    }
}

/* Whether both wrote the same; the double behind the n-th is as it was, and so is what lies behind the answer. */
static int alike(void) {
    return with_doubles.returned == with_bytes.returned && memcmp(&with_doubles, &with_bytes, sizeof with_bytes) == 0;
}

static void paint(void) {
    memset(&with_doubles, 0xa5, sizeof with_doubles);
    memset(&with_bytes, 0xa5, sizeof with_bytes);
}

/* The k-th call, without a tuning. */
static struct given draw(int k, int flat) {
    size_t n = k == 0 ? (size_t)MOST : k == 1 ? 0 : 1 + below(24);
    fill(n, flat);
    double x = cost(), y = cost(), eps = below(20) ? 0.001 : -1;
    uint64_t budget = below(20) ? 1 + below(300) : 0;
    uint8_t on = (uint8_t)below(2), rule = (uint8_t)below(2);
    struct given g = {n, x, y, eps, budget, on, rule, NULL};
    return g;
}

static int drawn(void) {
    int accepted = 0;
    for (int k = 0; k < RUNS; k++) {
        struct given g = draw(k, 0);
        paint();
        call(k % FUNCTIONS, &g);
        if (!alike()) {
            printf("run %d differs\n", k);
            return 1;
        }
        accepted += with_bytes.returned == 0;
    }
    printf("%d calls alike, %s\n", RUNS, accepted > RUNS / 2 && accepted < RUNS ? "accepted and refused ones" : "too few of a kind");
    return !(accepted > RUNS / 2 && accepted < RUNS);
}

/* Whether a tuned call wrote what the call without a tuning, which was made last, has; behind that only zeros, and with retired samples
 * nothing. */
static int as_without(const struct written *tuned, int which) {
    struct written expected = with_bytes;
    if (which != RETIRED)
        memset(expected.answer.later, 0, sizeof expected.answer.later);
    return memcmp(tuned, &expected, sizeof expected) == 0;
}

/* What became of a tuned call beside the same without a tuning: refused before its floor is judged; by the usual floor; by a bad one; by
 * another one, with another answer or the same. */
enum { DIFFERS, EARLIER, USUAL, BAD, OTHER, NO_OTHER, OUTCOMES };

static int outcome(int which, const struct given *g) {
    static struct written tuned;
    double floor = g->tuning ? g->tuning->floor : ALTULISCIA_USUAL_FLOOR;
    paint();
    call_tuned(which, g);
    if (!alike())
        return DIFFERS;
    tuned = with_bytes;
    paint();
    call(which, g);
    int same = as_without(&tuned, which);
    if (with_bytes.returned != ALTULISCIA_ACCEPTED && with_bytes.returned != ALTULISCIA_SHRUNK_AWAY)
        return same ? EARLIER : DIFFERS;
    if (floor == ALTULISCIA_USUAL_FLOOR)
        return same ? USUAL : DIFFERS;
    if (!(floor > 0 && floor <= 1))
        return tuned.returned == ALTULISCIA_BAD_FLOOR ? BAD : DIFFERS;
    return same ? NO_OTHER : OTHER;
}

static int tunings(void) {
    static const double floors[] = {ALTULISCIA_USUAL_FLOOR, 1e-12, 1e-3, 0.5, 1, 0, -1, 1.0000000000000002};
    int counts[FUNCTIONS][OUTCOMES] = {{0}}, few = 0;
    for (int k = 0; k < RUNS; k++) {
        struct given g = draw(k, 1);
        altuliscia_tuning tuning = altuliscia_usual_tuning();
        if (below(9)) {
            tuning.floor = floors[below(8)];
            g.tuning = &tuning;
        }
        int found = outcome(k % FUNCTIONS, &g);
        if (found == DIFFERS) {
            printf("tuned run %d differs\n", k);
            return 1;
        }
        counts[k % FUNCTIONS][found]++;
    }
    for (int which = 0; which < FUNCTIONS; which++)
        for (int found = EARLIER; found < OUTCOMES; found++)
            few |= counts[which][found] < 10;
    printf("%d tuned calls alike, %s\n", RUNS, few ? "too few of a kind" : "of each kind some");
    return few;
}

/* Whether travelling may have a say: where shrinking is on and ceilings may differ. */
static int may_part(int which, const struct given *g) {
    return g->on && (which == 3 || (which == 0 && g->x != g->y));
}

/* Drawn calls with travelling on and off. Where samples may be retired it is refused. */
static int modes(void) {
    static const uint64_t words[] = {1, 256, (uint64_t)1 << 63};
    static struct written on;
    const uint64_t before = state;
    int parted[FUNCTIONS] = {0};
    for (int k = 0; k < 4 * RUNS; k++) {
        const int which = k % FUNCTIONS;
        struct given g = draw(k + 2, (int)below(2));
        g.on = below(8) != 0;
        altuliscia_tuning tuning = altuliscia_usual_tuning();
        tuning.floor = below(3) ? tuning.floor : 1e-3;
        tuning.travelling = words[below(3)];
        g.tuning = &tuning;
        paint();
        call_tuned(which, &g);
        int as_it_must = alike();
        on = with_bytes;
        tuning.travelling = 0;
        paint();
        call_tuned(which, &g);
        int same = memcmp(&on, &with_bytes, sizeof on) == 0;
        as_it_must &= alike() && (which == RETIRED ? on.returned == ALTULISCIA_BAD_LENGTH : same || may_part(which, &g));
        if (!as_it_must) {
            printf("run %d of both modes differs\n", k);
            return 1;
        }
        parted[which] += !same;
    }
    state = before; /* the draws that follow stay as they were */
    printf("%d calls in both modes, %s\n", 4 * RUNS, parted[0] > 20 && parted[3] > 20 ? "some part" : "too few part");
    return !(parted[0] > 20 && parted[3] > 20);
}

/* Steps of which each number is drawn from what a run may meet and from what it never does. */
static int steps(void) {
    const double none = matrix[0] - matrix[0], huge = 1e300;
    const double list[] = {0, -none, 0.25, 1, 3, -1, -2.5, 1e-10, 5e-324, huge, huge * huge, -huge * huge, none / none};
    int moved = 0;
    for (int k = 0; k < RUNS; k++) {
        double x[9];
        uint64_t b[9], left[3], filled[3];
        int agree = (int)below(3) * 128; /* 256 doesn't fit a byte, and is on */
        for (size_t i = 0; i < 9; i++) {
            x[i] = list[below(sizeof list / sizeof *list)];
            b[i] = altuliscia_bits(x[i]);
        }
        memset(filled, 0xa5, sizeof filled);
        memcpy(left, filled, sizeof left);
        altuliscia_left found = altuliscia_find_pair(x[0], x[1], x[2], x[3], x[4], x[5], x[6], x[7], x[8], agree);
        uint64_t result = altuliscia_pair(b[0], b[1], b[2], b[3], b[4], b[5], b[6], b[7], b[8], agree != 0, (uint8_t *)left, 16);
        uint64_t shorter = altuliscia_pair(b[0], b[1], b[2], b[3], b[4], b[5], b[6], b[7], b[8], agree != 0, (uint8_t *)filled, 15);
        if (result != 0 || shorter != 2 || memcmp(&found, left, 16) != 0 || left[2] != filled[0] || memcmp(filled, filled + 1, 16) != 0) {
            printf("step %d differs\n", k);
            return 1;
        }
        moved += found.i != x[0] && found.j != x[2];
    }
    printf("%d steps alike, %s\n", RUNS, moved > RUNS / 4 ? "many that move both" : "too few that move both");
    return moved <= RUNS / 4;
}

/* What a vote writes, and a place behind it. */
struct elected {
    uint64_t votes[ALTULISCIA_MOST_LANGUAGES + 2];
    altuliscia_election election;
    uint64_t behind, returned;
};

/* Panels of 1 to 13 languages, with up to seven coefficients for each pair. */
static int panels(void) {
    enum { PAIRS = ALTULISCIA_PAIRS_OF(ALTULISCIA_MOST_LANGUAGES) };
    static double coefficients[7 * PAIRS], values[7 * PAIRS], rhos[PAIRS];
    int accepted = 0, ties = 0;
    for (int k = 0; k < RUNS; k++) {
        uint64_t counts[PAIRS], languages = 1 + below(13), least = languages < 2 || languages > 12, sum = 0;
        size_t pairs = least ? 0 : ALTULISCIA_PAIRS_OF(languages), all = 0, p;
        struct elected a, b;
        for (p = 0; p < pairs; p++) {
            counts[p] = below(8);
            rhos[p] = (double)below(9) - 4;
            all += counts[p];
        }
        for (p = 0; p < all; p++) {
            coefficients[p] = ((double)below(9) - 4) / 4;
            values[p] = (double)below(9) / 8;
        }
        memset(&a, 0xa5, sizeof a);
        memset(&b, 0xa5, sizeof b);
        a.returned = altuliscia_vote(languages, coefficients, values, counts, rhos, a.votes, &a.election);
        b.returned = altuliscia_votes(languages, READ(coefficients), 8 * all, READ(values), 8 * all, READ(counts), 8 * pairs,
                                      READ(counts), 8 * pairs, READ(rhos), 8 * pairs, (uint8_t *)b.votes, 8 * languages,
                                      (uint8_t *)&b.election, 24);
        if (memcmp(&a, &b, sizeof a) != 0 || a.returned != least || a.election.refusal != least) {
            printf("panel %d differs\n", k);
            return 1;
        }
        if (least)
            continue;
        int most = 0;
        for (p = 0; p < languages; p++) {
            sum += a.votes[p];
            most += a.votes[p] == a.votes[a.election.winner - 1];
        }
        if (sum != pairs || a.votes[languages] != a.behind) {
            printf("panel %d has other votes\n", k);
            return 1;
        }
        accepted++;
        ties += most > 1;
    }
    printf("%d panels alike, %s\n", RUNS, accepted < RUNS && ties > RUNS / 20 ? "some of them ties" : "too few of a kind");
    return !(accepted < RUNS && ties > RUNS / 20);
}

static int failed;

static void expect(const char *what, int holds) {
    if (!holds)
        printf("not so: %s\n", what);
    failed |= !holds;
}

/* A list that isn't there, flags that don't fit a byte, more samples than there can be, rows with NaN beside a weight of 0. */
static void odd(void) {
    const double m[] = {1, 0, 0, 1}, d[] = {1, 1}, nan_row[] = {0.5, 0.0 / (m[1] + 0.0)};
    const double weights[] = {2, 0}, both[] = {2, 3}, row[] = {0.5, 0.25};
    const uint8_t y[] = {1, 0}, ones[] = {1, 1};
    double home[2], crate[2];
    altuliscia_result result;
    expect("no matrix is 2", altuliscia_train_c(2, NULL, y, 1, 1, 0, 0, 10, NULL, home, &result) == 2 && result.refusal == 2);
    expect("no labels is 2", altuliscia_train_c(2, m, NULL, 1, 1, 0, 0, 10, NULL, home, &result) == 2);
    expect("no home is 2", altuliscia_train_nu(2, m, y, 1, 0, 0, 10, NULL, NULL, &result) == 2);
    expect("no result is 2", altuliscia_train_one_class(2, m, 1, 0, 0, 10, NULL, home, NULL) == 2);
    expect("no ceilings is 2", altuliscia_train_general(2, m, y, NULL, d, d, 0, 0, 0, 10, NULL, home, &result) == 2);
    expect("no retired is 2", altuliscia_train_retired(2, m, y, d, d, d, NULL, 0, 0, 10, NULL, home, &result) == 2);
    expect("513 is 1", altuliscia_train_c(513, m, y, 1, 1, 0, 0, 10, NULL, home, &result) == 1);
    expect("2^63 is 1", altuliscia_train_c((size_t)1 << 63, m, y, 1, 1, 0, 0, 10, NULL, home, &result) == 1);
    expect("without a crate's list", altuliscia_train_c(2, m, y, 1, 1, 0.001, 0, 10, NULL, home, &result) == 0 && home[0] == 1);
    expect("with it", altuliscia_train_c(2, m, y, 1, 1, 0.001, 0, 10, crate, home, &result) == 0 && crate[1] == -1);
    altuliscia_train_general(2, m, y, d, d, d, 256, 0, 0, 10, NULL, home, &result);
    expect("a rule of 256 is on", result.refusal == 0 && result.has_r);
    expect("a rule of 256 and an infinite r", !altuliscia_usable(&result));
    altuliscia_train_c(2, m, y, 1, 1, 0.001, 0, 10, NULL, home, &result);
    expect("usable", altuliscia_usable(&result));
    result.reason = ALTULISCIA_ITERATIONS;
    expect("not where the budget ran out", !altuliscia_usable(&result));
    altuliscia_train_c(2, m, y, 1, 1, -1, 0, 10, NULL, home, &result);
    expect("not where refused", result.refusal == 8 && !altuliscia_usable(&result));
    altuliscia_train_c(2, m, ones, 1, 1, 0.001, 0, 10, NULL, home, &result);
    expect("not with an infinite rho", result.refusal == 0 && !altuliscia_usable(&result));
    altuliscia_train_c(2, m, y, ALTULISCIA_SUPPORT_LIMIT, ALTULISCIA_SUPPORT_LIMIT, 0.001, 0, 10, NULL, home, &result);
    expect("the limit is no support", home[0] == ALTULISCIA_SUPPORT_LIMIT && home[1] == -home[0] && result.support == 0);
    altuliscia_train_c(2, m, y, 2.2204460492503134e-14, 1, 0.001, 0, 10, NULL, home, &result);
    expect("the next double is", home[0] > ALTULISCIA_SUPPORT_LIMIT && home[1] == -home[0] && result.support == 2);
    altuliscia_train_nu(2, m, ones, 0.5, 0.001, 0, 10, NULL, home, &result);
    expect("a NaN isn't", home[0] != home[0] && result.refusal == 0 && result.support == 0);
    expect("a NaN beside 0", altuliscia_decide(2, weights, 0.25, nan_row) == 0.75);
    expect("a NaN beside a weight", altuliscia_decide(2, both, 0.25, nan_row) != altuliscia_decide(2, both, 0.25, nan_row));
    altuliscia_left left = altuliscia_find_pair(0, 1, 0, 1, -1, -1, 1, 1, -0.0, 0);
    expect("a step of two samples that differ", left.i == 1 && left.j == 1);
    left = altuliscia_find_pair(0, 0.75, 0, 1, -1, -1, 1, 1, -0.0, 0);
    expect("clipped by the first's ceiling", left.i == 0.75 && left.j == 0.75);
    left = altuliscia_find_pair(0.5, 1, 0.25, 1, 1, 0, 1, 1, 0, 1);
    expect("what agrees exchanges", left.i == 0 && left.j == 0.75);
    left = altuliscia_find_pair(0, 1, 0, 1, -1, -1, 0, 0, 0, 0);
    expect("a flat pair is floored", left.i == 1 && left.j == 1);
    left = altuliscia_find_pair(0.25, 1, 0.5, 1, nan_row[1], 0, 1, 1, 0, 1);
    expect("a NaN gradient", left.i != left.i && left.j != left.j);
    expect("signed by label", altuliscia_decide_by_label(2, both, y, 0.125, row) == 0.125);
}

/* The answers that are to be released. */
static void released(void) {
    const double m[] = {1, 0, 0, 1}, limit = ALTULISCIA_SUPPORT_LIMIT, first[] = {1, 2}, second[] = {1, 1};
    const uint8_t y[] = {1, 0}, ones[] = {1, 1};
    double home[2];
    altuliscia_result result;
    altuliscia_train_c(2, m, y, 1, 1, 0.001, 0, 10, NULL, home, &result);
    expect("releasable", altuliscia_releasable(&result));
    result.has_r = 1;
    expect("not where r is 0", !altuliscia_releasable(&result));
    result.r = 0.5;
    expect("where it isn't", altuliscia_releasable(&result));
    result.r = -0.5;
    expect("not where r is below 0", altuliscia_usable(&result) && !altuliscia_releasable(&result));
    result.r = 1e-309;
    expect("not where 1/r isn't finite", altuliscia_usable(&result) && !altuliscia_releasable(&result));
    result.r = 1e-308;
    expect("where it is", altuliscia_releasable(&result));
    result.r = 1 / (result.r - result.r);
    expect("not where r isn't finite", !altuliscia_releasable(&result));
    altuliscia_train_c(2, m, y, 1, 1, 0.001, 0, 1, NULL, home, &result);
    expect("not where the budget ran out", result.refusal == 0 && !altuliscia_releasable(&result));
    altuliscia_train_c(2, m, ones, 1, 1, 0.001, 0, 10, NULL, home, &result);
    expect("not with an infinite rho", result.refusal == 0 && !altuliscia_releasable(&result));
    altuliscia_train_c(2, m, y, limit, limit, 0.001, 0, 10, NULL, home, &result);
    expect("not without support", altuliscia_usable(&result) && !altuliscia_releasable(&result));
    altuliscia_train_c(2, m, y, 1, 1, -1, 0, 10, NULL, home, &result);
    expect("not where refused", !altuliscia_releasable(&result));
    altuliscia_train_general(2, m, y, first, second, second, 0, 0.001, 0, 0, NULL, home, &result);
    expect("not where the budget is refused", result.refusal == 10 && !altuliscia_releasable(&result));
}

/* Many captions, with signed weights and without a sign, and what becomes of a zero and of a NaN. */
static void many(void) {
    const double none = matrix[0] - matrix[0], nan = none / none, big = 1e16;
    const double home[] = {2, 3, 0}, order[] = {big, 1, big}, plain[] = {nan, 0, -0.0};
    const double values[] = {0.5, 0.25, nan, 1, 1, 1, -1, 0, 7}, row[] = {1, 1, 1};
    const uint8_t y[] = {1, 0, 0}, swapped[] = {0, 1, 1};
    double signed_ones[3], again[3], a[4] = {7, 7, 7, 7}, b[4] = {7, 7, 7, 7};
    altuliscia_sign(3, home, y, signed_ones);
    altuliscia_sign(3, home, y, again);
    expect("signed", signed_ones[0] == 2 && signed_ones[1] == -3 && altuliscia_bits(signed_ones[2]) == 0);
    expect("and so once more", memcmp(signed_ones, again, sizeof again) == 0 && home[1] == 3);
    altuliscia_decide_rows(3, signed_ones, 0.125, 3, values, a);
    altuliscia_decide_rows_by_label(3, home, y, 0.125, 3, values, b);
    expect("three decisions", a[0] == 0.125 && a[1] == -1.125 && a[2] == -2.125 && a[3] == 7);
    expect("by label they are the same", memcmp(a, b, sizeof a) == 0);
    altuliscia_decide_rows(3, signed_ones, 0, 0, NULL, a);
    altuliscia_decide_rows_by_label(3, home, y, 0, 0, NULL, b);
    expect("no caption", a[0] == 0.125 && b[0] == 0.125);
    altuliscia_decide_rows_by_label(3, home, swapped, -0.125, 3, values, b);
    expect("the other way round", b[0] == -0.125 && b[1] == 1.125 && b[2] == 2.125);
    /* Three times a third is 1, rounded by itself; merged with the sum it is below, and so the decision isn't 0. */
    const double third[] = {1 + none, 1 / (3 + none)}, thrice[] = {none - 1, 3 + none}, unsigned_ones[] = {1 + none, 3 + none};
    expect("unmerged", altuliscia_decide(2, thrice, 0, third) == 0 && altuliscia_decide_by_label(2, unsigned_ones, swapped, 0, third) == 0);
    altuliscia_sign(3, order, swapped, again);
    expect("in sample order", altuliscia_decide(3, again, 0, row) == 0 && again[0] == -big);
    altuliscia_sign(3, plain, y, again);
    expect("a NaN stays one, a zero as it is", again[0] != again[0] && altuliscia_bits(again[1]) == 0 && altuliscia_bits(again[2]) >> 63);
}

/* Drawn weights and values: the decision's sign is the vote of altuliscia_votes, and the ways to sign are one. Of NaN and infinities the
 * votes differ where they stand beside a 0, so there are none. */
static void decided(void) {
    static double home[40], coefficients[40], values[40];
    int positive = 0, zero = 0, run;
    for (run = 0; run < RUNS; run++) {
        const uint64_t count = 1 + below(40);
        const double rho = ((double)below(65) - 32) / 8;
        uint64_t votes[2];
        altuliscia_election e;
        size_t s, n = (size_t)count;
        for (s = 0; s < n; s++) {
            home[s] = below(3) ? (double)below(1000) / 7 : 0;
            values[s] = ((double)below(2001) - 1000) / (below(2) ? 3 : 1024);
            labels[s] = (uint8_t)below(2);
        }
        if (run % 4 == 0)
            for (s = 0; s < n; s++)
                home[s] = (double)below(2), values[s] = ((double)below(9) - 4) / 4;
        altuliscia_sign(n, home, labels, coefficients);
        const double found = altuliscia_decide(n, coefficients, rho, values);
        expect("signed or by label", altuliscia_bits(found) == altuliscia_bits(altuliscia_decide_by_label(n, home, labels, rho, values)));
        expect("no refusal", altuliscia_vote(2, coefficients, values, &count, &rho, votes, &e) == 0);
        expect("the vote is the sign's", (found >= 0) == (e.winner == 1));
        positive += found > 0;
        zero += found == 0;
    }
    expect("decisions of each kind", positive > RUNS / 4 && positive < 3 * RUNS / 4 && zero > 5);
}

/* The same with a tuning. */
static void odd_tuned(void) {
    const double m[] = {1, 0, 0, 1}, d[] = {1, 1};
    const uint8_t y[] = {1, 0}, nobody[] = {0, 0};
    double home[2];
    altuliscia_tuned_result answer;
    altuliscia_result shorter;
    altuliscia_tuning t = altuliscia_usual_tuning();
    expect("the usual tuning", t.floor == 1e-10 && t.travelling == 0);
    expect("no matrix is 2", altuliscia_train_c_tuned(2, NULL, y, 1, 1, 0, 0, 10, &t, NULL, home, &answer) == 2);
    expect("no labels is 2", altuliscia_train_nu_tuned(2, m, NULL, 1, 0, 0, 10, &t, NULL, home, &answer) == 2);
    expect("no home is 2", altuliscia_train_one_class_tuned(2, m, 1, 0, 0, 10, &t, NULL, NULL, &answer) == 2);
    expect("no result is 2", altuliscia_train_general_tuned(2, m, y, d, d, d, 0, 0, 0, 10, &t, NULL, home, NULL) == 2);
    expect("no retired is 2", altuliscia_train_retired_tuned(2, m, y, d, d, d, NULL, 0, 0, 10, &t, NULL, home, &shorter) == 2);
    expect("513 is 1", altuliscia_train_c_tuned(513, m, y, 1, 1, 0, 0, 10, &t, NULL, home, &answer) == 1);
    altuliscia_train_general_tuned(2, m, y, d, d, d, 256, 0, 0, 10, NULL, NULL, home, &answer);
    expect("a rule of 256 is on", answer.result.refusal == 0 && answer.result.has_r && answer.later[0] == 0 && answer.later[6] == 0);
    altuliscia_train_c_tuned(2, m, y, 1, 1, 0.001, 0, 10, NULL, NULL, home, &answer);
    expect("usable", altuliscia_usable(&answer.result) && home[0] == 1 && home[1] == -1);
    t.floor = 0;
    altuliscia_train_c_tuned(2, m, y, 1, 1, 0.001, 0, 10, &t, NULL, home, &answer);
    expect("not where refused", answer.result.refusal == ALTULISCIA_BAD_FLOOR && !altuliscia_usable(&answer.result));
    expect("14", altuliscia_train_retired_tuned(2, m, y, d, d, d, nobody, 0, 0, 10, &t, NULL, home, &shorter) == 14);
    t = altuliscia_usual_tuning();
    expect("retired", altuliscia_train_retired_tuned(2, m, y, d, d, d, nobody, 0, 0, 10, &t, NULL, home, &shorter) == 0);
    t.travelling = 1;
    expect("not travelling", altuliscia_train_retired_tuned(2, m, y, d, d, d, nobody, 0, 0, 10, &t, NULL, home, &shorter) == 2);
}

/* Lists that aren't there, and what decides a vote. */
static void odd_votes(void) {
    const double one[] = {1}, half[] = {0.5}, below_half[] = {0.49999999999999994}, none[] = {matrix[0] - matrix[0]}, low[] = {-1};
    const double not_a_number[] = {none[0] / none[0]}, two[] = {1, 1};
    const uint64_t single[] = {1}, empty[] = {0}, large[] = {(uint64_t)1 << 61};
    uint64_t votes[2] = {7, 7};
    altuliscia_election e;
    expect("0 languages is 1", altuliscia_vote(0, one, one, single, one, votes, &e) == 1 && e.refusal == 1 && e.winner == 0);
    expect("1 language is 1", altuliscia_vote(1, one, one, single, one, votes, &e) == 1);
    expect("2^64 - 1 languages is 1", altuliscia_vote((uint64_t)-1, one, one, single, one, votes, &e) == 1);
    expect("no counts is 2", altuliscia_vote(2, one, one, NULL, one, votes, &e) == 2 && e.refusal == 2 && e.index == 0);
    expect("no coefficients is 2", altuliscia_vote(2, NULL, one, single, one, votes, &e) == 2);
    expect("no values is 2", altuliscia_vote(2, one, NULL, single, one, votes, &e) == 2);
    expect("no rhos is 2", altuliscia_vote(2, one, one, single, NULL, votes, &e) == 2);
    expect("no votes is 2", altuliscia_vote(2, one, one, single, one, NULL, &e) == 2);
    expect("no election is 2", altuliscia_vote(2, one, one, single, one, votes, NULL) == 2);
    expect("no election of 13 is 1", altuliscia_vote(13, one, one, single, one, votes, NULL) == 1);
    expect("more than there can be is 2", altuliscia_vote(2, one, one, large, one, votes, &e) == 2);
    expect("untouched", votes[0] == 7 && votes[1] == 7);
    expect("a pair of nothing", altuliscia_vote(2, NULL, NULL, empty, low, votes, &e) == 0 && e.winner == 1 && votes[0] == 1);
    expect("0 is the first's", altuliscia_vote(2, one, half, single, half, votes, &e) == 0 && e.winner == 1 && votes[1] == 0);
    expect("below 0 the second's", altuliscia_vote(2, one, below_half, single, half, votes, &e) == 0 && e.winner == 2);
    expect("NaN the second's", altuliscia_vote(2, one, one, single, not_a_number, votes, &e) == 0 && e.winner == 2 && votes[1] == 1);
    expect("the counts of a pair", altuliscia_votes(2, READ(two), 16, READ(one), 8, READ(single), 8, READ(empty), 8, READ(one), 8,
                                                    (uint8_t *)votes, 16, (uint8_t *)&e, 24) == 2);
}

int main(void) {
    int differ = drawn();
    differ |= tunings();
    differ |= modes();
    differ |= steps();
    differ |= panels();
    odd();
    released();
    many();
    decided();
    odd_tuned();
    odd_votes();
    return differ || failed;
}
