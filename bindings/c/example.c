/* A slab waveguide and its levels, as bindings/rust/examples/slab.rs has it: what it needs, setup, rows, changes, refusals.
   gcc -std=c99 -Iinclude bindings/c/example.c target/staticlib/libyonaduvi.a -lm -o example */

#include <math.h>
#include <stdio.h>
#include <stdlib.h>

#include "yonaduvi.h"

enum { CELLS = 16, EDGES = 3 * CELLS, ABSORBER = 4 };

/* The input: 16 cells along x, one along y and z. */
struct lattice {
    size_t cells[3];
    double scalars[YONADUVI_SCALARS];
    double xn[2 * CELLS], xh[2 * CELLS], one[2];
    double given[2 * EDGES];
    size_t coarsest;
};

/* The twelve lists, in the order of the needs: words where a list has words, else numbers. */
struct store {
    size_t places[YONADUVI_LISTS], counts[YONADUVI_COUNTS];
    size_t *words[YONADUVI_LISTS];
    double *numbers[YONADUVI_LISTS];
};

static const int is_numbers[YONADUVI_LISTS] = {0, 1, 0, 0, 1, 0, 0, 1, 0, 0, 1, 1};

/* The arguments that each call begins with, and those of a list of words or of numbers. */
#define INPUT(l) (l)->cells, 3, (l)->scalars, YONADUVI_SCALARS, (l)->xn, 2 * CELLS, (l)->xh, 2 * CELLS, \
                 (l)->one, 2, (l)->one, 2, (l)->one, 2, (l)->one, 2
#define W(s, k) (s)->words[k], (s)->places[k]
#define N(s, k) (s)->numbers[k], 2 * (s)->places[k]
#define STORE(s) W(s, 0), N(s, 1), W(s, 2), W(s, 3), N(s, 4), W(s, 5), W(s, 6), N(s, 7), W(s, 8), W(s, 9), N(s, 10), N(s, 11)

/* 1 + (1 + 3 i) d^2, d growing from 0 to 1 at both sides. */
static void absorb(double place, double *number) {
    double depth = fmax(fmax(ABSORBER - place, place - (CELLS - ABSORBER)), 0.0) / ABSORBER;
    number[0] = 1.0 + 1.0 * (depth * depth);
    number[1] = 3.0 * (depth * depth);
}

/* Steps of 20 nm, a wavelength of 1550 nm, a wall on x, y and z periodic; silicon between silica. */
static void slab(struct lattice *l) {
    static const double scalars[YONADUVI_SCALARS] = {
        20, 20, 20, 0.004053667940115862, 0.1, YONADUVI_WALL, 0, 0, YONADUVI_BLOCH, 1, 0, YONADUVI_BLOCH, 1, 0};
    l->cells[0] = CELLS;
    l->cells[1] = l->cells[2] = 1;
    for (int k = 0; k < YONADUVI_SCALARS; k++)
        l->scalars[k] = scalars[k];
    for (int m = 0; m < CELLS; m++) {
        absorb(m, l->xn + 2 * m);
        absorb(m + 0.5, l->xh + 2 * m);
    }
    l->one[0] = 1;
    l->one[1] = 0;
    for (int e = 0; e < EDGES; e++) {
        l->given[2 * e] = e % CELLS >= 6 && e % CELLS < 10 ? 12.11 : 2.085;
        l->given[2 * e + 1] = 0;
    }
    l->coarsest = 6;
}

/* Whether a call was accepted; if not, its refusal is printed. */
static int accepted(const size_t out[2]) {
    if (out[0] != YONADUVI_ACCEPTED)
        printf("refused %zu %zu\n", out[0], out[1]);
    return out[0] == YONADUVI_ACCEPTED;
}

/* Lists of the places that a setup needs. */
static int lend(const struct lattice *l, struct store *s) {
    size_t out[2];
    yonaduvi_needs(INPUT(l), YONADUVI_GALERKIN, l->coarsest, out, 2, s->places, YONADUVI_LISTS, s->counts, YONADUVI_COUNTS);
    if (!accepted(out))
        return 0;
    for (int k = 0; k < YONADUVI_LISTS; k++) {
        size_t n = s->places[k] + 1; /* never null */
        if (is_numbers[k])
            s->numbers[k] = calloc(2 * n, sizeof(double));
        else
            s->words[k] = calloc(n, sizeof(size_t));
        if (!s->numbers[k] && !s->words[k])
            return 0;
    }
    return 1;
}

static int setup(const struct lattice *l, struct store *s) {
    size_t out[2];
    yonaduvi_setup(INPUT(l), l->given, 2 * EDGES, YONADUVI_GALERKIN, l->coarsest, out, 2, STORE(s));
    return accepted(out);
}

static int change(const struct lattice *l, struct store *s, size_t edge, double re, double im) {
    size_t out[2];
    yonaduvi_change(INPUT(l), YONADUVI_GALERKIN, l->coarsest, edge, re, im, out, 2, STORE(s));
    return accepted(out);
}

/* Columns and numbers of a row. */
static void print_row(const size_t *columns, const double *values, size_t first, size_t count) {
    for (size_t k = first; k < first + count; k++)
        printf("  %zu %.12f %.12f\n", columns[k], values[2 * k], values[2 * k + 1]);
}

static void weight_row(const struct store *s, size_t level, size_t row, size_t out[2]) {
    yonaduvi_weight_row(s->counts, YONADUVI_COUNTS, 0, W(s, 2), N(s, 4), W(s, 5), N(s, 7), level, row, out, 2);
    out[0] /= 2; /* doubles to places */
    out[1] /= 2;
}

static void operator_row(const struct store *s, size_t level, size_t row) {
    size_t out[2];
    yonaduvi_operator_row(s->counts, YONADUVI_COUNTS, W(s, 8), W(s, 9), level, row, out, 2);
    printf("operator of level %zu, row %zu\n", level, row);
    print_row(s->words[9], s->numbers[10], out[0], out[1]);
}

static void listing(const struct store *s) {
    printf("levels %zu\n", s->counts[0]);
    for (size_t level = 0; level < s->counts[0]; level++) {
        const size_t *n = s->counts + 1 + 3 * level;
        size_t weights = 0, out[2];
        for (size_t edge = 0; edge < 3 * n[0] * n[1] * n[2]; edge++) {
            weight_row(s, level, edge, out);
            weights += out[1];
        }
        printf("%zu %zu %zu %zu %zu\n", level, n[0], n[1], n[2], weights);
    }
}

int main(void) {
    static struct lattice l;
    static struct store s;
    size_t out[2];
    slab(&l);
    if (!lend(&l, &s) || !setup(&l, &s))
        return 1;
    listing(&s);
    operator_row(&s, 3, 4);

    weight_row(&s, 0, 8, out);
    printf("weights of edge 8 of level 0\n");
    print_row(s.words[3], s.numbers[4], out[0], out[1]);

    printf("edge 24 becomes 11.9 + 0.01 i\n");
    if (!change(&l, &s, 24, 11.9, 0.01))
        return 1;
    operator_row(&s, 3, 4);

    change(&l, &s, 48, 1, 0);
    change(&l, &s, 24, 0, 0);
    l.scalars[3] = NAN;
    setup(&l, &s);
    for (int k = 0; k < YONADUVI_LISTS; k++) {
        free(s.words[k]);
        free(s.numbers[k]);
    }
    return 0;
}
