/* Yonaduvi: the setup of the coarse levels of a curl-curl lattice. The functions of libyonaduvi.a (`rt lib` in crates/yonaduvi), x86-64 Linux.

   LISTS. A list is a pointer and its length in elements (doubles, words, bytes). The caller owns every list; nothing is kept behind a call and
   nothing is allocated. A pointer must be good for its length, and not null even where the length is 0; a list that is written must not overlap
   another. Nothing else is asked of a caller: input of any content and length gets its answer or its refusal.

   NUMBERS. A number is complex, two doubles side by side, real part first. In a list of numbers one PLACE is two doubles: lend twice as many
   doubles as places are needed. An odd double at the end is no place in a result list, and makes an input list's length wrong. In a list of words
   a place is one word.

   ANSWERS. out[2]: 0 and the level count; or a refusal's number, below, and its place. docs/REFUSALS.md has what to do about each.

   THREADS. No call has state: calls may run at once as long as no list that one of them writes is lent to another.

   STACK. Local lists stand on the caller's stack: a setup takes up to 0.7 MB. A change takes some 1.0 MB and 4.8 KB more for every 256 numbers in
   the rows that it reaches; the most measured is 2.1 MB. A thread with 1 MB has room for a setup; give one that makes changes, or reads files,
   4 MB. */

#ifndef YONADUVI_H
#define YONADUVI_H

#include <stddef.h>
#include <stdint.h>

#ifdef __cplusplus
extern "C" {
#endif

/* ---- refusals: number, then what its place is */

enum yonaduvi_refusal {
    YONADUVI_ACCEPTED = 0,    /* the level count */
    YONADUVI_GRID = 1,        /* axis 0-2 of 0 or over 64 cells; 3: over 4,096 in all */
    YONADUVI_SCALAR = 2,      /* 0-2 step, 3 k0: not finite or not above 0; 4 shift: not finite; 5-7 Bloch phase of x, y, z: not finite or zero */
    YONADUVI_LENGTH = 3,      /* the list that has not the exact length: 0 xn, 1 xh, 2 yn, 3 yh, 4 zn, 5 zh, 6 permittivities */
    YONADUVI_NUMBER = 4,      /* the number that is not finite or zero, counted in numbers through those lists, from 0 */
    YONADUVI_LEVELS = 5,      /* 12: over 12 levels */
    YONADUVI_ROOM = 6,        /* the list with fewer places than needed: 0 ends, 1 permittivities, 2 forward, 3 turned, 4 operator, 5 scaling */
    YONADUVI_NOT_FINITE = 7,  /* the first coarse level with a number, or share, that is not finite; 0 if there is one level */
    YONADUVI_REPEATED = 8,    /* fine level of a row that names a coarse edge twice: never occurs */
    YONADUVI_NO_EDGE = 9,     /* change: the edge given, which does not exist */
    YONADUVI_VALUE = 10,      /* change: the edge, whose value is not finite or zero */
    YONADUVI_DIFFERS = 11,    /* change: the lowest level whose ends, starts or columns are not the lattice's; a transfer is its fine level's */
    YONADUVI_FILE = 12,       /* file: offset of the record out of turn or cut off; the file's length if it ends early; the first byte past its end */
    YONADUVI_CELLS = 13       /* file: the cells, which are over `limit` or more than `held` has room for */
};

enum { YONADUVI_GALERKIN = 0, YONADUVI_REDISCRETIZED = 1 };  /* choice */
enum { YONADUVI_WALL = 0, YONADUVI_BLOCH = 1 };              /* an axis's kind, as a double in scalars */
enum {
    YONADUVI_SCALARS = 14,    /* length of scalars */
    YONADUVI_LISTS = 12,      /* length of needs: the lists of a store */
    YONADUVI_COUNTS = 37      /* length of counts */
};

/* ---- the input, the same in each call

   cells[3]      nx, ny, nz: 1 to 64 each, at most 4,096 in all. Edge (component c, place i, j, k) is number c*cells + (k*ny + j)*nx + i.
   scalars[14]   dx, dy, dz, k0, shift; then for x, y, z: kind (0 wall, any other Bloch), re, im of the phase (ignored for a wall)
   xn .. zh      the stretch at each node of an axis (xn, yn, zn), and half a step AFTER each node, in the middle of the cell that begins there
                 (xh, yh, zh): as many numbers as the axis has cells
   given         a permittivity for each edge, 3*nx*ny*nz numbers
   choice        0 Galerkin, any other rediscretized
   coarsest      the level loop stops at a level of at most that many edges */

/* ---- the store: the twelve lists that a setup fills, in this order. In each the levels stand one behind another; needs[k]: places of list k.

    0 ends                                ends of the lines, level by level, axes in turn, in halves of a finest cell
    1 eps                                 numbers: permittivities of each level; if rediscretized, then those of the averaged chain from level 1 on
    2 starts    3 columns    4 values     forward weights, a part for each transfer: a row for each edge of the fine level (starts: one more than
                                          rows, counted within the part), columns are coarse edges
    5 tstarts   6 tcolumns   7 tvalues    the same turned: a row for each coarse edge, columns are fine edges; values not conjugated
    8 ostarts   9 ocolumns  10 ovalues    operators, a part for each level from 1 on; of level 0 only if it is the only one
   11 scaling                             numbers: for each transfer the fine volumes, then the inverse shares; nothing for Galerkin

   Refusal 6 counts 2-4, 5-7 and 8-10 as one list each. Places beyond the need stay as they were. A setup refused by 1 to 4 leaves the lists as they
   were; by 5, 6, 7 or 8 it leaves zero in every word and double. A refused change leaves every list as it was. */

/* What a setup needs. needs[12]: the places of each list. counts[37]: the level count, then the cells of axis a on level L at 1 + 3*L + a; the row
   calls take it. Refused as a setup is, by 1 to 4 (but for the permittivities; both lists stay as they were), 5 and 8 (both are zero). */
void yonaduvi_needs(
    const size_t *cells, size_t cells_n, const double *scalars, size_t scalars_n,
    const double *xn, size_t xn_n, const double *xh, size_t xh_n,
    const double *yn, size_t yn_n, const double *yh, size_t yh_n,
    const double *zn, size_t zn_n, const double *zh, size_t zh_n,
    size_t choice, size_t coarsest,
    size_t *out, size_t out_n, size_t *needs, size_t needs_n, size_t *counts, size_t counts_n);

/* The setup. */
void yonaduvi_setup(
    const size_t *cells, size_t cells_n, const double *scalars, size_t scalars_n,
    const double *xn, size_t xn_n, const double *xh, size_t xh_n,
    const double *yn, size_t yn_n, const double *yh, size_t yh_n,
    const double *zn, size_t zn_n, const double *zh, size_t zh_n,
    const double *given, size_t given_n, size_t choice, size_t coarsest,
    size_t *out, size_t out_n,
    size_t *ends, size_t ends_n, double *eps, size_t eps_n,
    size_t *starts, size_t starts_n, size_t *columns, size_t columns_n, double *values, size_t values_n,
    size_t *tstarts, size_t tstarts_n, size_t *tcolumns, size_t tcolumns_n, double *tvalues, size_t tvalues_n,
    size_t *ostarts, size_t ostarts_n, size_t *ocolumns, size_t ocolumns_n, double *ovalues, size_t ovalues_n,
    double *scaling, size_t scaling_n);

/* A change: the permittivity of edge `edge` of level 0 becomes (re, im) in the lists that a setup with this input left, and what depends on it is
   worked out anew: the lists are then, bit for bit, what a setup with the new permittivity leaves. Numbers that their holder altered are taken as
   they are found. */
void yonaduvi_change(
    const size_t *cells, size_t cells_n, const double *scalars, size_t scalars_n,
    const double *xn, size_t xn_n, const double *xh, size_t xh_n,
    const double *yn, size_t yn_n, const double *yh, size_t yh_n,
    const double *zn, size_t zn_n, const double *zh, size_t zh_n,
    size_t choice, size_t coarsest, size_t edge, double re, double im,
    size_t *out, size_t out_n,
    const size_t *ends, size_t ends_n, double *eps, size_t eps_n,
    const size_t *starts, size_t starts_n, const size_t *columns, size_t columns_n, double *values, size_t values_n,
    const size_t *tstarts, size_t tstarts_n, const size_t *tcolumns, size_t tcolumns_n, double *tvalues, size_t tvalues_n,
    const size_t *ostarts, size_t ostarts_n, const size_t *ocolumns, size_t ocolumns_n, double *ovalues, size_t ovalues_n,
    double *scaling, size_t scaling_n);

/* A whole setup file in memory (docs/SPECIFICATION.md has the format; tools/make_setup.py writes one): its setup, then its changes. Refused besides
   by 12 and 13; the first refusal ends the reading, and the lists are as the records before it, and the refused call itself, left them.
   limit   the most cells taken
   held    gets the numbers of the file, in its order: the six lists of stretches, then the permittivities as the setup got them (no change alters
           it): 2*(2*(nx+ny+nz) + 3*nx*ny*nz) doubles are needed, at most 25,092 for any lattice */
void yonaduvi_read(
    const uint8_t *bytes, size_t n, size_t limit, double *held, size_t held_n,
    size_t *out, size_t out_n,
    size_t *ends, size_t ends_n, double *eps, size_t eps_n,
    size_t *starts, size_t starts_n, size_t *columns, size_t columns_n, double *values, size_t values_n,
    size_t *tstarts, size_t tstarts_n, size_t *tcolumns, size_t tcolumns_n, double *tvalues, size_t tvalues_n,
    size_t *ostarts, size_t ostarts_n, size_t *ocolumns, size_t ocolumns_n, double *ovalues, size_t ovalues_n,
    double *scaling, size_t scaling_n);

/* Where the weights of row `row` of the transfer between `level` and `level` + 1 stand: out[0] is the first double of it in values (turned not 0: in
   tvalues), out[1] how many doubles; its columns stand at half that place of columns (tcolumns). A forward row is that of an edge of `level`, a
   turned one that of an edge of `level` + 1. 0 and 0 where there is no such row. counts: from yonaduvi_needs. */
void yonaduvi_weight_row(
    const size_t *counts, size_t counts_n, size_t turned,
    const size_t *starts, size_t starts_n, const double *values, size_t values_n,
    const size_t *tstarts, size_t tstarts_n, const double *tvalues, size_t tvalues_n,
    size_t level, size_t row, size_t *out, size_t out_n);

/* Where row `row` of the operator of `level` stands: out[0] is its first place in columns, out[1] how many; its numbers stand at the same places of
   ovalues. 0 and 0 where there is no such row, as for level 0 where there are more levels. starts and columns are the operator's (ostarts, ocolumns). */
void yonaduvi_operator_row(
    const size_t *counts, size_t counts_n,
    const size_t *starts, size_t starts_n, const size_t *columns, size_t columns_n,
    size_t level, size_t row, size_t *out, size_t out_n);

#ifdef __cplusplus
}
#endif

#endif
