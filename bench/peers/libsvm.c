/* LIBSVM over a given matrix: what is prepared stands outside the part that is timed, which is svm_train alone. */
#include <stdint.h>
#include <stdio.h>
#include <stdlib.h>
#include <svm.h>

struct peer {
    struct svm_problem problem;
    struct svm_parameter parameter;
    struct svm_model *model;
    struct svm_node *nodes;
};

static int passes;

/* LIBSVM tells its passes only in what it prints. */
static void listen(const char *text)
{
    const char *at = text;
    while (*at && *at != '#') at++;
    sscanf(at, "#iter = %d", &passes);
}

/* The matrix has column c, row r at c*n + r; svm_type is LIBSVM's own number. */
struct peer *peer_open(size_t n, const double *matrix, const uint8_t *labels, int svm_type, double c, double nu, double eps,
                       int shrinking)
{
    struct peer *p = calloc(1, sizeof *p);
    p->problem.l = (int)n;
    p->problem.y = malloc(n * sizeof(double));
    p->problem.x = malloc(n * sizeof(struct svm_node *));
    p->nodes = calloc(n * (n + 2), sizeof(struct svm_node));
    for (size_t k = 0; k < n; k++) {
        struct svm_node *row = p->nodes + k * (n + 2);
        p->problem.y[k] = labels[k] ? 1.0 : -1.0;
        p->problem.x[k] = row;
        row[0].index = 0;
        row[0].value = (double)(k + 1);
        for (size_t r = 0; r < n; r++) {
            row[r + 1].index = (int)(r + 1);
            row[r + 1].value = matrix[k * n + r];
        }
        row[n + 1].index = -1;
    }
    p->parameter.svm_type = svm_type;
    p->parameter.kernel_type = PRECOMPUTED;
    p->parameter.cache_size = 400;
    p->parameter.eps = eps;
    p->parameter.C = c;
    p->parameter.nu = nu;
    p->parameter.shrinking = shrinking;
    svm_set_print_string_function(listen);
    return p;
}

/* Reads the matrix once. */
double peer_warm(const struct peer *p)
{
    size_t n = (size_t)p->problem.l;
    double sum = 0;
    for (size_t k = 0; k < n * (n + 2); k++) sum += p->nodes[k].value;
    return sum;
}

void peer_fit(struct peer *p)
{
    p->model = svm_train(&p->problem, &p->parameter);
}

/* Takes the model away and says how many passes there were. */
int peer_forget(struct peer *p)
{
    svm_free_and_destroy_model(&p->model);
    return passes;
}

void peer_close(struct peer *p)
{
    free(p->problem.y);
    free(p->problem.x);
    free(p->nodes);
    free(p);
}
