/* Altuliscia: a support vector machine trainer (SMO on a precomputed kernel: C, nu, one class), as C functions in libaltuliscia.a, for
 * x86-64 and aarch64.
 *
 * Which to call. altuliscia_train_c and its four fellows take doubles and fill a struct: they are the ones to write by hand;
 * altuliscia_train_c_tuned and so on for who wants another floor of the curvature than 1e-10 (LIBSVM has 1e-12), or that samples keep
 * their own ceilings when shrinking moves them, and altuliscia_find_pair for who replays one step of a run; altuliscia_vote for who has
 * several languages, or classes, and a training for each pair of them. They are inline, over functions on bytes (altuliscia_c and so on),
 * which are what the archive has, what is proved, and what other languages call. The inline ones are tested, not proved.
 *
 * How to use the answer. home[s] is the weight of sample s (its dual coefficient), K(s, x) the kernel value of sample s and something
 * new: the sum over the samples of home[s] * K(s, x), less rho, is the decision. From 0 on x is positive (under one class: of the
 * class), else, NaN too, negative. altuliscia_decide does this sum, altuliscia_decide_rows many of them. altuliscia_c and
 * altuliscia_nu answer weights that are signed by label. Those of altuliscia_general and altuliscia_retired aren't, and nothing in the
 * answer tells: there each term is to be multiplied by 1 where the label is 1 and by -1 where it is 0, which
 * altuliscia_decide_by_label and altuliscia_decide_rows_by_label do; altuliscia_sign makes signed ones of them. With a tuning it is the
 * same. Before an answer is used: the result is 0, the reason is ALTULISCIA_THRESHOLD, rho is finite, and under nu so is r, which isn't
 * 0 (altuliscia_usable). Before it is released it has a support vector, too, and under nu r is above 0 and 1/r finite
 * (altuliscia_releasable).
 *
 * Lists on bytes. A slice is a pointer and its length in bytes. A list of n doubles is 8n bytes: each double stands in eight bytes,
 * lowest first, which is how both processors keep a double in memory. The matrix is 8*n*n bytes: the double of column c, row r stands
 * in the eight bytes from 8*(c*n + r); it need not be symmetric. Labels are n bytes, 1 positive, 0 negative; retired bytes are n, 1
 * retired, 0 not. A tuning is 0, 8 or 16 bytes, to altuliscia_retired 0 or 8. Slices may stand at any address, odd ones too. A slice of
 * length 0 may be NULL. What is written (crate_reading, home, answer) may overlap nothing else that is lent.
 *
 * Numbers. To the functions on bytes eps, cpos, cneg, nu and the nine of altuliscia_pair travel as the uint64_t with the same eight
 * bytes, which altuliscia_bits gives. A float or double handed over in such a place doesn't compile (see 'guards' below). The floor
 * stands in the list `tuning`: (const uint8_t *)&tuning, sizeof tuning, of an altuliscia_tuning, to altuliscia_retired its first 8 bytes.
 * A flag is on when it isn't 0.
 *
 * Results. Where the run is accepted the result is 0: the first 8n bytes of crate_reading and of home hold n doubles each and
 * `answer` holds the answer. Else the result is a refusal's number: `answer` holds it with its index, and both lists stay as they
 * were. Bytes past the first 8n of a list and past the answer's always stay. The answer has 72 bytes, that of altuliscia_c_tuned and its
 * three fellows 128. Where `answer` is shorter nothing at all is written, and the result is 1 (where n is bad) or 2.
 *
 * crate_reading is the list that the Rust crate linfa-svm answers, or would with that floor for its 1e-10 and, travelling, with bounds
 * that move along: place i has the weight at position order[i]. home gives each sample the weight that was trained for it: that is the one
 * to ask for a sample's weight. They can differ only where samples were moved and the order isn't its own inverse.
 *
 * Threads and stack. A call keeps no state and shares nothing: calls from several threads may overlap in time. It asks for no
 * memory but its stack, of which it needs less than ALTULISCIA_STACK_BYTES (61703 were measured), and calls nothing from outside
 * but memset and memcpy. Every call ends, after at most `budget` passes.
 *
 * docs/BYTES.md has all of this at more length, with an answer in hex.
 */
#ifndef ALTULISCIA_H
#define ALTULISCIA_H

#include <stddef.h>
#include <stdint.h>

#ifdef __cplusplus
extern "C" {
#endif

/* The version of this header; altuliscia_version tells the library's. docs/STABLE.md has what stays as it is. */
#define ALTULISCIA_VERSION_MAJOR 1
#define ALTULISCIA_VERSION_MINOR 6
#define ALTULISCIA_VERSION_PATCH 0

/* The most samples and the largest budget that are accepted. */
#define ALTULISCIA_MOST_SAMPLES 512
#define ALTULISCIA_MOST_PASSES 10000000

/* A weight counts as support where its magnitude is above this: 100*2^-52, exactly. A list that is made for as many weights as the count says
 * holds these and no others; a decision needs every weight that isn't 0. */
#define ALTULISCIA_SUPPORT_LIMIT 2.220446049250313e-14

/* The floor of the curvature where no tuning says otherwise, as in linfa-svm. */
#define ALTULISCIA_USUAL_FLOOR 1e-10

/* What a call needs of the stack at the most, in bytes; and one of an altuliscia_train_.. function, which has room of its own. */
#define ALTULISCIA_STACK_BYTES 65536
#define ALTULISCIA_TRAIN_STACK_BYTES 70656

/* The answer: nine numbers of eight bytes, lowest byte first. Each name is the byte where the number begins. */
#define ALTULISCIA_ANSWER_BYTES 72
#define ALTULISCIA_AT_REFUSAL 0     /* 0 where accepted, else one of enum altuliscia_refusal */
#define ALTULISCIA_AT_INDEX 8       /* the first offending index for refusals 3 to 7, else 0 */
#define ALTULISCIA_AT_RHO 16        /* a double */
#define ALTULISCIA_AT_HAS_R 24      /* 1 where the nu rule holds, else 0 */
#define ALTULISCIA_AT_R 32          /* a double; 0 where it isn't there */
#define ALTULISCIA_AT_OBJ 40        /* a double */
#define ALTULISCIA_AT_ITERATIONS 48 /* how many steps were taken */
#define ALTULISCIA_AT_REASON 56     /* one of enum altuliscia_reason */
#define ALTULISCIA_AT_SUPPORT 64    /* how many places of home are above ALTULISCIA_SUPPORT_LIMIT in magnitude; no NaN, no zero is */

/* The answer of the four _tuned functions: these nine, then seven that are 0, for what later versions may tell. */
#define ALTULISCIA_TUNED_ANSWER_BYTES 128

/* What altuliscia_pair writes: two doubles. */
#define ALTULISCIA_PAIR_BYTES 16

/* altuliscia_votes: how many languages are accepted, how many pairs they have, and the answer, three numbers of eight bytes. */
#define ALTULISCIA_FEWEST_LANGUAGES 2
#define ALTULISCIA_MOST_LANGUAGES 12
#define ALTULISCIA_PAIRS_OF(languages) ((languages) * ((languages) - 1) / 2)
#define ALTULISCIA_ELECTION_BYTES 24
#define ALTULISCIA_AT_WINNER 16     /* the winner's number, from 1 on; 0 where refused */

/* Why an accepted run ended. */
enum altuliscia_reason {
    /* Over the active samples whose gradient is a number, the sum of the largest rise (-y*gradient, where y*weight may grow) and the
     * largest fall (y*gradient, where it may shrink) is below eps, or is not above 0; under the nu rule so is each label's. It is not
     * above 0, too, where it is NaN, of two infinities. Retired samples are passed over. With shrinking off all others are active;
     * with it on, the gradients are those that are kept, and obj and rho needn't be those of the answered weights. */
    ALTULISCIA_THRESHOLD = 0,
    /* The budget ran out: exactly where the number of steps equals it. */
    ALTULISCIA_ITERATIONS = 1
};

/* Why a call was refused. The first that applies is given, in the order 1 to 10, 14, 12, 13; 11 comes in the run. A number keeps its
 * meaning for good: one that falls out of use is never given to anything else. */
enum altuliscia_refusal {
    ALTULISCIA_ACCEPTED = 0,
    /* The number of samples is 0 or above 512: lend 1 to 512 samples. */
    ALTULISCIA_BAD_SAMPLES = 1,
    /* A list has the wrong length: lend a matrix of 8*n*n bytes, n labels, n retired bytes, 8n bytes for each list of doubles, a
     * tuning of 0, 8 or 16 bytes, of 0 or 8 where samples may be retired, at least 8n bytes for each result list and at least 72 for
     * the answer, under the tuned functions 128. */
    ALTULISCIA_BAD_LENGTH = 2,
    /* A kernel entry is NaN, infinite or above 2^1000 in magnitude: the index is column*n + row; scale the kernel down or mend
     * that entry. */
    ALTULISCIA_BAD_KERNEL = 3,
    /* A label is neither 0 nor 1: the index is its sample; write 1 for positive, 0 for negative. */
    ALTULISCIA_BAD_LABEL = 4,
    /* A ceiling is NaN, not above 0 or above 2^1000: the index is its sample, in the C entry 0 for cpos and 1 for cneg; give a
     * ceiling above 0 and not above 2^1000. */
    ALTULISCIA_BAD_CEILING = 5,
    /* A start alpha is NaN, below 0 or above its ceiling: the index is its sample; start within 0 and the ceiling. */
    ALTULISCIA_BAD_ALPHA = 6,
    /* A linear term is NaN or infinite: the index is its sample; give a finite one. */
    ALTULISCIA_BAD_LINEAR = 7,
    /* The threshold eps is NaN, infinite or has its sign bit set: give 0 or a finite number above it. */
    ALTULISCIA_BAD_EPS = 8,
    /* The parameter nu is NaN, not above 0 or above 1: give a number above 0 and not above 1. */
    ALTULISCIA_BAD_NU = 9,
    /* The budget is 0 or above 10000000: give 1 to 10000000 passes. */
    ALTULISCIA_BAD_BUDGET = 10,
    /* Shrinking would have taken more samples out than were active: train with shrinking off, which avoids it. */
    ALTULISCIA_SHRUNK_AWAY = 11,
    /* A retired byte is neither 0 nor 1: write 1 for a retired sample, 0 for any other. */
    ALTULISCIA_BAD_RETIRED = 12,
    /* Shrinking is asked for where samples may be retired: train with shrinking off. */
    ALTULISCIA_RETIRED_SHRINKING = 13,
    /* The floor of the curvature is NaN, not above 0 or above 1: give a number above 0 and not above 1; the usual one is 1e-10. */
    ALTULISCIA_BAD_FLOOR = 14
};

/* Trains from given lists: labels (n bytes), ceilings, start alphas and linear term (8n bytes each), under the C rule or, where
 * nu_rule is on, the nu rule. The readings are the weights as they are: neither signed by label nor divided. */
uint64_t altuliscia_general(size_t n, const uint8_t *matrix, size_t matrix_len, const uint8_t *labels, size_t labels_len,
                            const uint8_t *ceilings, size_t ceilings_len, const uint8_t *alphas, size_t alphas_len,
                            const uint8_t *linear, size_t linear_len, uint8_t nu_rule, uint64_t eps, uint8_t shrinking,
                            uint64_t budget, uint8_t *crate_reading, size_t crate_reading_len, uint8_t *home, size_t home_len,
                            uint8_t *answer, size_t answer_len);

/* As altuliscia_general, weights unsigned, but a sample whose byte in `retired` is 1 is passed over: it starts at 0 with linear
 * term 0 (so the start alphas of the others must balance without its own), no pair is chosen with it, rho and obj leave it out, and
 * both lists have +0 for it. What is lent for it (label, ceiling, start alpha, linear term, its row and column of the matrix) is
 * judged as any other's and has no say in the answer. Every sample keeps its number. Shrinking must be off (refusal 13), so both
 * lists are the same and refusal 11 doesn't occur; retired bytes other than 0 and 1 are refusal 12. The order is 1 to 8, 10, 14, 12,
 * 13. `tuning` is that of the _tuned functions below, with word 0 alone: nothing moves here, and a length other than 0 and 8 is refusal
 * 2. The answer is of 72 bytes all the same. */
uint64_t altuliscia_retired(size_t n, const uint8_t *matrix, size_t matrix_len, const uint8_t *labels, size_t labels_len,
                            const uint8_t *ceilings, size_t ceilings_len, const uint8_t *alphas, size_t alphas_len,
                            const uint8_t *linear, size_t linear_len, const uint8_t *retired, size_t retired_len, uint8_t nu_rule,
                            uint64_t eps, uint8_t shrinking, uint64_t budget, const uint8_t *tuning, size_t tuning_len,
                            uint8_t *crate_reading, size_t crate_reading_len, uint8_t *home, size_t home_len, uint8_t *answer,
                            size_t answer_len);

/* Two classes with a cost: cpos is the ceiling of positive samples, cneg that of negative ones. Both readings are signed by
 * label. */
uint64_t altuliscia_c(size_t n, const uint8_t *matrix, size_t matrix_len, const uint8_t *labels, size_t labels_len,
                      uint64_t cpos, uint64_t cneg, uint64_t eps, uint8_t shrinking, uint64_t budget, uint8_t *crate_reading,
                      size_t crate_reading_len, uint8_t *home, size_t home_len, uint8_t *answer, size_t answer_len);

/* Two classes with nu, above 0 and not above 1. Both readings are signed by label and divided by r, as rho is; obj is divided by
 * r*r. */
uint64_t altuliscia_nu(size_t n, const uint8_t *matrix, size_t matrix_len, const uint8_t *labels, size_t labels_len, uint64_t nu,
                       uint64_t eps, uint8_t shrinking, uint64_t budget, uint8_t *crate_reading, size_t crate_reading_len,
                       uint8_t *home, size_t home_len, uint8_t *answer, size_t answer_len);

/* One class, with nu above 0 and not above 1. There are no labels. */
uint64_t altuliscia_one_class(size_t n, const uint8_t *matrix, size_t matrix_len, uint64_t nu, uint64_t eps, uint8_t shrinking,
                              uint64_t budget, uint8_t *crate_reading, size_t crate_reading_len, uint8_t *home, size_t home_len,
                              uint8_t *answer, size_t answer_len);

/* Each of these four is the function without _tuned, but for `tuning` and a longer answer.
 *
 * `tuning` is a list of eight-byte words, lowest byte first. Word 0 is the floor, a double above 0 and not above 1, else it is refusal
 * 14. It stands for the curvature of a pair, K_ii + K_jj less twice K_ij, where that isn't above 0: where pairs are weighed against
 * each other, and in the step, which is divided by it before it is clipped. So a smaller floor takes longer steps along flat
 * directions; where every curvature is above 0 it has no say. The usual one is ALTULISCIA_USUAL_FLOOR; LIBSVM has 1e-12.
 *
 * Word 1 is travelling, on when it isn't 0; the usual one is 0. Where it is on, a step clips a weight by the ceiling of its sample; where
 * it is off, as in linfa-svm, by that of the place where the sample stands, which is another sample's once shrinking has moved it. With one
 * common ceiling, as nu and one class always have, and with shrinking off, both answer the same, byte for byte.
 *
 * A word that isn't there has its usual value: with a tuning of length 0 the run is that of the function without _tuned. This version
 * knows these two words; a length other than 0, 8 and 16 is refusal 2. Later versions may know more words behind them.
 *
 * `answer` is of ALTULISCIA_TUNED_ANSWER_BYTES: the nine numbers as ever, then seven that are 0. */
uint64_t altuliscia_general_tuned(size_t n, const uint8_t *matrix, size_t matrix_len, const uint8_t *labels, size_t labels_len,
                                  const uint8_t *ceilings, size_t ceilings_len, const uint8_t *alphas, size_t alphas_len,
                                  const uint8_t *linear, size_t linear_len, uint8_t nu_rule, uint64_t eps, uint8_t shrinking,
                                  uint64_t budget, const uint8_t *tuning, size_t tuning_len, uint8_t *crate_reading,
                                  size_t crate_reading_len, uint8_t *home, size_t home_len, uint8_t *answer, size_t answer_len);

uint64_t altuliscia_c_tuned(size_t n, const uint8_t *matrix, size_t matrix_len, const uint8_t *labels, size_t labels_len,
                            uint64_t cpos, uint64_t cneg, uint64_t eps, uint8_t shrinking, uint64_t budget, const uint8_t *tuning,
                            size_t tuning_len, uint8_t *crate_reading, size_t crate_reading_len, uint8_t *home, size_t home_len,
                            uint8_t *answer, size_t answer_len);

uint64_t altuliscia_nu_tuned(size_t n, const uint8_t *matrix, size_t matrix_len, const uint8_t *labels, size_t labels_len,
                             uint64_t nu, uint64_t eps, uint8_t shrinking, uint64_t budget, const uint8_t *tuning,
                             size_t tuning_len, uint8_t *crate_reading, size_t crate_reading_len, uint8_t *home, size_t home_len,
                             uint8_t *answer, size_t answer_len);

uint64_t altuliscia_one_class_tuned(size_t n, const uint8_t *matrix, size_t matrix_len, uint64_t nu, uint64_t eps,
                                    uint8_t shrinking, uint64_t budget, const uint8_t *tuning, size_t tuning_len,
                                    uint8_t *crate_reading, size_t crate_reading_len, uint8_t *home, size_t home_len,
                                    uint8_t *answer, size_t answer_len);

/* What one step of a run leaves of two weights, those of samples i and j: for who replays the steps that a weight went through. A
 * sample has a weight, its ceiling, its gradient and its diagonal (the kernel value of itself). `entry` is the kernel value of column i,
 * row j where the labels of i and j agree, which `agree` says, and its negative where they don't. Written to `pair`, in its first 16
 * bytes: the double that is left of weight i, then that of weight j. The result is 0; where `pair` is shorter than 16 bytes it is 2 and
 * nothing is written. No number is refused: NaN and infinities go through the step's comparisons as any other. The floor is the usual
 * one. */
uint64_t altuliscia_pair(uint64_t weight_i, uint64_t ceiling_i, uint64_t weight_j, uint64_t ceiling_j, uint64_t gradient_i,
                         uint64_t gradient_j, uint64_t diagonal_i, uint64_t diagonal_j, uint64_t entry, uint8_t agree, uint8_t *pair,
                         size_t pair_len);

/* Several languages from pairs of trainings: which of 2 to 12 languages has the most votes on a new caption. Languages are numbered from 1 on, and the
 * pairs run (1,2), (1,3) and so on, then (2,3) and so on: ALTULISCIA_PAIRS_OF(languages) of them. For each pair there was a training
 * with the first language for its positive label. Lent are, pair after pair: the home coefficients of all pairs in one list of doubles,
 * the kernel values of each pair's captions and the new one in another, in two lists of 8-byte numbers how many coefficients and how many
 * kernel values each pair has, and a rho for each pair, a double. A pair may have none: its sum is 0.
 *
 * A pair's sum is formed in sample order, from +0, over all its coefficients: coefficient times kernel value, rounded, is added, rounded.
 * Where the sum less rho is 0 or above the pair votes for its first language, else, and where it is NaN, for its second. The most votes
 * win, and of equals the lowest number. The votes total the number of pairs.
 *
 * Where nothing is refused the result is 0, `votes` holds the votes of each language, 8-byte numbers, and `answer` 0, 0 and the winner's
 * number. Else the result is the refusal's number, `votes` stays as it was, and `answer` holds the number, its index and 0. The numbers
 * are this function's own: 1 for a number of languages outside 2 to 12; 2 where, in this order, a list of counts has no number for each
 * pair, a pair's two counts differ (index: the pair, counted from 0), the lists of coefficients and of kernel values aren't as long as the
 * counts say, `rhos` hasn't one for each pair, or `votes` not exactly 8 bytes for each language. Where `answer` is shorter than 24 bytes
 * nothing is written, and the result is 1, where that applies, or 2. What lies behind 24 bytes stays. `votes` and `answer` may overlap
 * nothing else that is lent. */
uint64_t altuliscia_votes(uint64_t languages, const uint8_t *coefficients, size_t coefficients_len, const uint8_t *values,
                          size_t values_len, const uint8_t *coefficient_counts, size_t coefficient_counts_len,
                          const uint8_t *value_counts, size_t value_counts_len, const uint8_t *rhos, size_t rhos_len,
                          uint8_t *votes, size_t votes_len, uint8_t *answer, size_t answer_len);

/* The version of the library that is linked: 10000*major + 100*minor + patch. */
uint64_t altuliscia_version(void);

#ifdef __cplusplus
}
#endif

/* The same with doubles, inline, for C from C99 on and C++. */
#if defined(__cplusplus) || (defined(__STDC_VERSION__) && __STDC_VERSION__ >= 199901L)

#ifdef __cplusplus
#define ALTULISCIA_CAST(type, pointer) reinterpret_cast<type>(pointer)
#else
#define ALTULISCIA_CAST(type, pointer) ((type)(pointer))
#endif
/* A list of that many doubles as a slice, and one of that many bytes; where it is NULL, one of length 0. */
#define ALTULISCIA_READ(list, count) ALTULISCIA_CAST(const uint8_t *, list), (list) ? 8 * (count) : 0
/* The words up to the last that isn't its default: so what doesn't know a word isn't lent it unless it is asked for. */
#define ALTULISCIA_TUNING(tuning) ALTULISCIA_READ(tuning, (tuning)->travelling ? 2u : 1u)
#define ALTULISCIA_MARKS(list, count) list, (list) ? (count) : 0
#define ALTULISCIA_WRITTEN(list, count) ALTULISCIA_CAST(uint8_t *, list), (list) ? 8 * (count) : 0

/* The answer's nine numbers, as they stand in its 72 bytes. Where a call is refused, all but the first two are 0. */
typedef struct altuliscia_result {
    uint64_t refusal;    /* 0 where accepted, else one of enum altuliscia_refusal */
    uint64_t index;      /* the first offending index for refusals 3 to 7, else 0 */
    double rho;
    uint64_t has_r;      /* 1 where the nu rule holds, else 0 */
    double r;            /* 0 where it isn't there */
    double obj;
    uint64_t iterations; /* how many steps were taken */
    uint64_t reason;     /* one of enum altuliscia_reason */
    uint64_t support;    /* how many places of home are above ALTULISCIA_SUPPORT_LIMIT in magnitude; no NaN, no zero is */
} altuliscia_result;
typedef char altuliscia_result_has_72_bytes[sizeof(altuliscia_result) == ALTULISCIA_ANSWER_BYTES ? 1 : -1];

/* The sixteen numbers of a _tuned function, as they stand in its 128 bytes. */
typedef struct altuliscia_tuned_result {
    altuliscia_result result; /* what altuliscia_usable takes */
    uint64_t later[7];        /* 0 in this version; a later one may fill them, so don't rely on it */
} altuliscia_tuned_result;
typedef char altuliscia_tuned_result_has_128_bytes[sizeof(altuliscia_tuned_result) == ALTULISCIA_TUNED_ANSWER_BYTES ? 1 : -1];

/* What a run may be told beside its options. Later versions add fields at the end: so begin with altuliscia_usual_tuning() and set
 * what is to be other. */
typedef struct altuliscia_tuning {
    double floor;        /* stands for a curvature that isn't above 0; above 0 and not above 1 */
    uint64_t travelling; /* where it isn't 0, a sample keeps its own ceiling when shrinking moves it */
} altuliscia_tuning;
typedef char altuliscia_tuning_has_16_bytes[sizeof(altuliscia_tuning) == 16 ? 1 : -1];

static inline altuliscia_tuning altuliscia_usual_tuning(void) {
    altuliscia_tuning usual = {ALTULISCIA_USUAL_FLOOR, 0};
    return usual;
}

/* The eight bytes of a double, as a number. */
static inline uint64_t altuliscia_bits(double x) {
    const unsigned char *bytes = ALTULISCIA_CAST(const unsigned char *, &x);
    uint64_t bits = 0;
    size_t k;
    for (k = 8; k > 0; k--)
        bits = bits << 8 | bytes[k - 1];
    return bits;
}

/* Each altuliscia_train_X is altuliscia_X: it returns the same and fills the same. The matrix has n*n doubles, every other list n. A
 * list that is NULL counts as one of length 0, which is refusal 2, and so does a NULL result; but crate_reading may be NULL, where it
 * isn't wanted. Then it is written to room on the stack. */
static inline uint64_t altuliscia_train_c(size_t n, const double *matrix, const uint8_t *labels, double cpos, double cneg,
                                          double eps, int shrinking, uint64_t budget, double *crate_reading, double *home,
                                          altuliscia_result *result) {
    double room[ALTULISCIA_MOST_SAMPLES], *crate = crate_reading ? crate_reading : room;
    return altuliscia_c(n, ALTULISCIA_READ(matrix, n * n), ALTULISCIA_MARKS(labels, n), altuliscia_bits(cpos),
                        altuliscia_bits(cneg), altuliscia_bits(eps), shrinking != 0, budget, ALTULISCIA_WRITTEN(crate, n),
                        ALTULISCIA_WRITTEN(home, n), ALTULISCIA_WRITTEN(result, 9u));
}

static inline uint64_t altuliscia_train_nu(size_t n, const double *matrix, const uint8_t *labels, double nu, double eps,
                                           int shrinking, uint64_t budget, double *crate_reading, double *home,
                                           altuliscia_result *result) {
    double room[ALTULISCIA_MOST_SAMPLES], *crate = crate_reading ? crate_reading : room;
    return altuliscia_nu(n, ALTULISCIA_READ(matrix, n * n), ALTULISCIA_MARKS(labels, n), altuliscia_bits(nu),
                         altuliscia_bits(eps), shrinking != 0, budget, ALTULISCIA_WRITTEN(crate, n),
                         ALTULISCIA_WRITTEN(home, n), ALTULISCIA_WRITTEN(result, 9u));
}

static inline uint64_t altuliscia_train_one_class(size_t n, const double *matrix, double nu, double eps, int shrinking,
                                                  uint64_t budget, double *crate_reading, double *home,
                                                  altuliscia_result *result) {
    double room[ALTULISCIA_MOST_SAMPLES], *crate = crate_reading ? crate_reading : room;
    return altuliscia_one_class(n, ALTULISCIA_READ(matrix, n * n), altuliscia_bits(nu), altuliscia_bits(eps), shrinking != 0,
                                budget, ALTULISCIA_WRITTEN(crate, n), ALTULISCIA_WRITTEN(home, n),
                                ALTULISCIA_WRITTEN(result, 9u));
}

static inline uint64_t altuliscia_train_general(size_t n, const double *matrix, const uint8_t *labels, const double *ceilings,
                                                const double *alphas, const double *linear, int nu_rule, double eps,
                                                int shrinking, uint64_t budget, double *crate_reading, double *home,
                                                altuliscia_result *result) {
    double room[ALTULISCIA_MOST_SAMPLES], *crate = crate_reading ? crate_reading : room;
    return altuliscia_general(n, ALTULISCIA_READ(matrix, n * n), ALTULISCIA_MARKS(labels, n), ALTULISCIA_READ(ceilings, n),
                              ALTULISCIA_READ(alphas, n), ALTULISCIA_READ(linear, n), nu_rule != 0, altuliscia_bits(eps),
                              shrinking != 0, budget, ALTULISCIA_WRITTEN(crate, n), ALTULISCIA_WRITTEN(home, n),
                              ALTULISCIA_WRITTEN(result, 9u));
}

/* Each altuliscia_train_X_tuned is altuliscia_X_tuned in the same way. A tuning that is NULL counts as one of length 0: then the run is
 * that of altuliscia_train_X. altuliscia_train_retired_tuned, further down, is altuliscia_retired and has the shorter answer. */
static inline uint64_t altuliscia_train_c_tuned(size_t n, const double *matrix, const uint8_t *labels, double cpos, double cneg,
                                                double eps, int shrinking, uint64_t budget, const altuliscia_tuning *tuning,
                                                double *crate_reading, double *home, altuliscia_tuned_result *result) {
    double room[ALTULISCIA_MOST_SAMPLES], *crate = crate_reading ? crate_reading : room;
    return altuliscia_c_tuned(n, ALTULISCIA_READ(matrix, n * n), ALTULISCIA_MARKS(labels, n), altuliscia_bits(cpos),
                              altuliscia_bits(cneg), altuliscia_bits(eps), shrinking != 0, budget, ALTULISCIA_TUNING(tuning),
                              ALTULISCIA_WRITTEN(crate, n), ALTULISCIA_WRITTEN(home, n), ALTULISCIA_WRITTEN(result, 16u));
}

static inline uint64_t altuliscia_train_nu_tuned(size_t n, const double *matrix, const uint8_t *labels, double nu, double eps,
                                                 int shrinking, uint64_t budget, const altuliscia_tuning *tuning,
                                                 double *crate_reading, double *home, altuliscia_tuned_result *result) {
    double room[ALTULISCIA_MOST_SAMPLES], *crate = crate_reading ? crate_reading : room;
    return altuliscia_nu_tuned(n, ALTULISCIA_READ(matrix, n * n), ALTULISCIA_MARKS(labels, n), altuliscia_bits(nu),
                               altuliscia_bits(eps), shrinking != 0, budget, ALTULISCIA_TUNING(tuning),
                               ALTULISCIA_WRITTEN(crate, n), ALTULISCIA_WRITTEN(home, n), ALTULISCIA_WRITTEN(result, 16u));
}

static inline uint64_t altuliscia_train_one_class_tuned(size_t n, const double *matrix, double nu, double eps, int shrinking,
                                                        uint64_t budget, const altuliscia_tuning *tuning, double *crate_reading,
                                                        double *home, altuliscia_tuned_result *result) {
    double room[ALTULISCIA_MOST_SAMPLES], *crate = crate_reading ? crate_reading : room;
    return altuliscia_one_class_tuned(n, ALTULISCIA_READ(matrix, n * n), altuliscia_bits(nu), altuliscia_bits(eps),
                                      shrinking != 0, budget, ALTULISCIA_TUNING(tuning), ALTULISCIA_WRITTEN(crate, n),
                                      ALTULISCIA_WRITTEN(home, n), ALTULISCIA_WRITTEN(result, 16u));
}

static inline uint64_t altuliscia_train_general_tuned(size_t n, const double *matrix, const uint8_t *labels,
                                                      const double *ceilings, const double *alphas, const double *linear,
                                                      int nu_rule, double eps, int shrinking, uint64_t budget,
                                                      const altuliscia_tuning *tuning, double *crate_reading, double *home,
                                                      altuliscia_tuned_result *result) {
    double room[ALTULISCIA_MOST_SAMPLES], *crate = crate_reading ? crate_reading : room;
    return altuliscia_general_tuned(n, ALTULISCIA_READ(matrix, n * n), ALTULISCIA_MARKS(labels, n), ALTULISCIA_READ(ceilings, n),
                                    ALTULISCIA_READ(alphas, n), ALTULISCIA_READ(linear, n), nu_rule != 0, altuliscia_bits(eps),
                                    shrinking != 0, budget, ALTULISCIA_TUNING(tuning), ALTULISCIA_WRITTEN(crate, n),
                                    ALTULISCIA_WRITTEN(home, n), ALTULISCIA_WRITTEN(result, 16u));
}

/* Shrinking, which must be off, isn't asked for. The word travelling is lent only where it isn't 0, and is refusal 2 then: it is never
 * dropped in silence. */
static inline uint64_t altuliscia_train_retired_tuned(size_t n, const double *matrix, const uint8_t *labels,
                                                      const double *ceilings, const double *alphas, const double *linear,
                                                      const uint8_t *retired, int nu_rule, double eps, uint64_t budget,
                                                      const altuliscia_tuning *tuning, double *crate_reading, double *home,
                                                      altuliscia_result *result) {
    double room[ALTULISCIA_MOST_SAMPLES], *crate = crate_reading ? crate_reading : room;
    return altuliscia_retired(n, ALTULISCIA_READ(matrix, n * n), ALTULISCIA_MARKS(labels, n), ALTULISCIA_READ(ceilings, n),
                              ALTULISCIA_READ(alphas, n), ALTULISCIA_READ(linear, n), ALTULISCIA_MARKS(retired, n), nu_rule != 0,
                              altuliscia_bits(eps), 0, budget, ALTULISCIA_TUNING(tuning),
                              ALTULISCIA_WRITTEN(crate, n), ALTULISCIA_WRITTEN(home, n), ALTULISCIA_WRITTEN(result, 9u));
}

static inline uint64_t altuliscia_train_retired(size_t n, const double *matrix, const uint8_t *labels, const double *ceilings,
                                                const double *alphas, const double *linear, const uint8_t *retired, int nu_rule,
                                                double eps, uint64_t budget, double *crate_reading, double *home,
                                                altuliscia_result *result) {
    return altuliscia_train_retired_tuned(n, matrix, labels, ceilings, alphas, linear, retired, nu_rule, eps, budget, NULL,
                                          crate_reading, home, result);
}

/* The weights of i and j after a step. */
typedef struct altuliscia_left {
    double i;
    double j;
} altuliscia_left;
typedef char altuliscia_left_has_16_bytes[sizeof(altuliscia_left) == ALTULISCIA_PAIR_BYTES ? 1 : -1];

/* altuliscia_pair with doubles. */
static inline altuliscia_left altuliscia_find_pair(double weight_i, double ceiling_i, double weight_j, double ceiling_j,
                                                   double gradient_i, double gradient_j, double diagonal_i, double diagonal_j,
                                                   double entry, int agree) {
    altuliscia_left left;
    altuliscia_pair(altuliscia_bits(weight_i), altuliscia_bits(ceiling_i), altuliscia_bits(weight_j), altuliscia_bits(ceiling_j),
                    altuliscia_bits(gradient_i), altuliscia_bits(gradient_j), altuliscia_bits(diagonal_i),
                    altuliscia_bits(diagonal_j), altuliscia_bits(entry), agree != 0, ALTULISCIA_CAST(uint8_t *, &left),
                    ALTULISCIA_PAIR_BYTES);
    return left;
}

/* The answer of the votes, as it stands in its 24 bytes. */
typedef struct altuliscia_election {
    uint64_t refusal; /* 0 where accepted, else 1 or 2, as altuliscia_votes says */
    uint64_t index;   /* the pair, counted from 0, whose two counts differ, else 0 */
    uint64_t winner;  /* the winner's number, from 1 on; 0 where refused */
} altuliscia_election;
typedef char altuliscia_election_has_24_bytes[sizeof(altuliscia_election) == ALTULISCIA_ELECTION_BYTES ? 1 : -1];

/* altuliscia_votes with doubles: counts[p] coefficients and as many kernel values for pair p. `votes` has a place for each language. A
 * list that is NULL counts as one of length 0. */
static inline uint64_t altuliscia_vote(uint64_t languages, const double *coefficients, const double *values, const uint64_t *counts,
                                       const double *rhos, uint64_t *votes, altuliscia_election *election) {
    size_t pairs = 0, all = 0, p;
    if (languages >= ALTULISCIA_FEWEST_LANGUAGES && languages <= ALTULISCIA_MOST_LANGUAGES)
        pairs = ALTULISCIA_PAIRS_OF(languages);
    for (p = 0; counts && p < pairs; p++)
        all += counts[p];
    return altuliscia_votes(languages, ALTULISCIA_READ(coefficients, all), ALTULISCIA_READ(values, all), ALTULISCIA_READ(counts, pairs),
                            ALTULISCIA_READ(counts, pairs), ALTULISCIA_READ(rhos, pairs), ALTULISCIA_WRITTEN(votes, languages),
                            ALTULISCIA_WRITTEN(election, 3u));
}

/* Whether an answer can be used: accepted, ended by the threshold, rho finite, and under the nu rule r finite and not 0. Its support
 * isn't asked, nor whether r is above 0 and 1/r finite, since they weren't from 1.0.0 on: altuliscia_releasable asks all three. */
static inline int altuliscia_usable(const altuliscia_result *result) {
    return result->refusal == ALTULISCIA_ACCEPTED && result->reason == ALTULISCIA_THRESHOLD && result->rho - result->rho == 0 &&
           (!result->has_r || (result->r - result->r == 0 && result->r != 0));
}

/* Whether nothing speaks against the release of an answer: it can be used, has a support vector, and under the nu rule r is above 0 and
 * 1/r finite. Divided by an r below 0 each weight has the other class's sign; where 1/r is finite, each of altuliscia_nu is. */
static inline int altuliscia_releasable(const altuliscia_result *result) {
    return altuliscia_usable(result) && result->support != 0 &&
           (!result->has_r || (result->r > 0 && 1 / result->r - 1 / result->r == 0));
}

/* The decision of weights that are signed by label, or of one class: the sum over the samples, in their order, of weight times kernel
 * value, less rho. A value beside a weight of 0 is passed over, and so need not be known. Every other has its say, also where its
 * weight isn't counted as support. */
static inline double altuliscia_decide(size_t n, const double *home, double rho, const double *values) {
    double sum = 0;
    size_t s;
    for (s = 0; s < n; s++)
        if (home[s] != 0) {
            volatile double term = home[s] * values[s]; /* rounded by itself: a compiler may not merge it with the sum */
            sum += term;
        }
    return sum - rho;
}

/* The same of weights that aren't signed: those of general and retired. */
static inline double altuliscia_decide_by_label(size_t n, const double *home, const uint8_t *labels, double rho,
                                                const double *values) {
    double sum = 0;
    size_t s;
    for (s = 0; s < n; s++)
        if (home[s] != 0) {
            volatile double term = (labels[s] ? home[s] : -home[s]) * values[s];
            sum += term;
        }
    return sum - rho;
}

/* Both of many captions: n kernel values for each, one caption after another in `values`, and a decision for each. */
static inline void altuliscia_decide_rows(size_t n, const double *home, double rho, size_t captions, const double *values,
                                          double *decisions) {
    size_t k;
    for (k = 0; k < captions; k++)
        decisions[k] = altuliscia_decide(n, home, rho, values + k * n);
}

static inline void altuliscia_decide_rows_by_label(size_t n, const double *home, const uint8_t *labels, double rho, size_t captions,
                                                   const double *values, double *decisions) {
    size_t k;
    for (k = 0; k < captions; k++)
        decisions[k] = altuliscia_decide_by_label(n, home, labels, rho, values + k * n);
}

/* Coefficients out of weights that aren't signed, those of general and retired, for what takes signed ones: altuliscia_decide,
 * altuliscia_decide_rows, altuliscia_vote. Negated are those of negative samples; a 0 stays as it is. `home` isn't changed, so that it
 * can't be signed twice: lend another list for the coefficients. */
static inline void altuliscia_sign(size_t n, const double *home, const uint8_t *labels, double *coefficients) {
    size_t s;
    for (s = 0; s < n; s++)
        coefficients[s] = labels[s] || home[s] == 0 ? home[s] : -home[s];
}

#undef ALTULISCIA_CAST
#undef ALTULISCIA_READ
#undef ALTULISCIA_TUNING
#undef ALTULISCIA_MARKS
#undef ALTULISCIA_WRITTEN
#endif

/* Guards. A double in the place of its bits would be cut to a whole number: 1.0 to 1, the bits of 4.94e-324. So macros with the
 * functions' names put each such argument through `| 0`, which leaves a whole number as it is and doesn't compile for a double.
 * The functions are there as before: a name in brackets, (altuliscia_c)(..), or without brackets behind it is the function, unguarded.
 * An argument before or among the bits that has a comma of its own goes in brackets, ((uint8_t[]){1, 0}). There are no guards where
 * ALTULISCIA_UNGUARDED is defined before the #include, nor in C89, nor in C++98 but by gcc and clang. */
#if defined(__cplusplus) && __cplusplus < 201103L && defined(__GNUC__) && __INCLUDE_LEVEL__ > 0
/* Macros with `...` are newer than C++98. gcc and clang have them there; -pedantic tells it, but not of a system's header, which this
 * is from here on. */
#pragma GCC system_header
#define ALTULISCIA_GUARDS
#elif defined(__cplusplus) && __cplusplus >= 201103L
#define ALTULISCIA_GUARDS
#elif !defined(__cplusplus) && defined(__STDC_VERSION__) && __STDC_VERSION__ >= 199901L
#define ALTULISCIA_GUARDS
#endif
#if defined(ALTULISCIA_GUARDS) && !defined(ALTULISCIA_UNGUARDED)
#define ALTULISCIA_BITS_WANTED(x) ((x) | 0)
#define altuliscia_general(...) ALTULISCIA_GUARDED_GENERAL(altuliscia_general, __VA_ARGS__)
#define altuliscia_general_tuned(...) ALTULISCIA_GUARDED_GENERAL(altuliscia_general_tuned, __VA_ARGS__)
#define altuliscia_retired(...) ALTULISCIA_GUARDED_RETIRED(__VA_ARGS__)
#define altuliscia_c(...) ALTULISCIA_GUARDED_C(altuliscia_c, __VA_ARGS__)
#define altuliscia_c_tuned(...) ALTULISCIA_GUARDED_C(altuliscia_c_tuned, __VA_ARGS__)
#define altuliscia_nu(...) ALTULISCIA_GUARDED_NU(altuliscia_nu, __VA_ARGS__)
#define altuliscia_nu_tuned(...) ALTULISCIA_GUARDED_NU(altuliscia_nu_tuned, __VA_ARGS__)
#define altuliscia_one_class(...) ALTULISCIA_GUARDED_ONE_CLASS(altuliscia_one_class, __VA_ARGS__)
#define altuliscia_one_class_tuned(...) ALTULISCIA_GUARDED_ONE_CLASS(altuliscia_one_class_tuned, __VA_ARGS__)
#define altuliscia_pair(...) ALTULISCIA_GUARDED_PAIR(__VA_ARGS__)
#define ALTULISCIA_GUARDED_GENERAL(name, n, m, m_len, l, l_len, c, c_len, a, a_len, p, p_len, nu_rule, eps, ...) \
    name(n, m, m_len, l, l_len, c, c_len, a, a_len, p, p_len, nu_rule, ALTULISCIA_BITS_WANTED(eps), __VA_ARGS__)
#define ALTULISCIA_GUARDED_RETIRED(n, m, m_len, l, l_len, c, c_len, a, a_len, p, p_len, r, r_len, nu_rule, eps, ...) \
    altuliscia_retired(n, m, m_len, l, l_len, c, c_len, a, a_len, p, p_len, r, r_len, nu_rule, ALTULISCIA_BITS_WANTED(eps), \
                       __VA_ARGS__)
#define ALTULISCIA_GUARDED_C(name, n, m, m_len, l, l_len, cpos, cneg, eps, ...) \
    name(n, m, m_len, l, l_len, ALTULISCIA_BITS_WANTED(cpos), ALTULISCIA_BITS_WANTED(cneg), ALTULISCIA_BITS_WANTED(eps), \
         __VA_ARGS__)
#define ALTULISCIA_GUARDED_NU(name, n, m, m_len, l, l_len, nu, eps, ...) \
    name(n, m, m_len, l, l_len, ALTULISCIA_BITS_WANTED(nu), ALTULISCIA_BITS_WANTED(eps), __VA_ARGS__)
#define ALTULISCIA_GUARDED_ONE_CLASS(name, n, m, m_len, nu, eps, ...) \
    name(n, m, m_len, ALTULISCIA_BITS_WANTED(nu), ALTULISCIA_BITS_WANTED(eps), __VA_ARGS__)
#define ALTULISCIA_GUARDED_PAIR(ai, bi, aj, bj, gi, gj, di, dj, entry, ...) \
    altuliscia_pair(ALTULISCIA_BITS_WANTED(ai), ALTULISCIA_BITS_WANTED(bi), ALTULISCIA_BITS_WANTED(aj), \
                    ALTULISCIA_BITS_WANTED(bj), ALTULISCIA_BITS_WANTED(gi), ALTULISCIA_BITS_WANTED(gj), \
                    ALTULISCIA_BITS_WANTED(di), ALTULISCIA_BITS_WANTED(dj), ALTULISCIA_BITS_WANTED(entry), __VA_ARGS__)
#endif
#undef ALTULISCIA_GUARDS

#endif
