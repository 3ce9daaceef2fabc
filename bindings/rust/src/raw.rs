//! The calls of the static library: the one module with unsafe code. A list is a pointer and then a length.

use crate::lattice::Lattice;
use crate::store::Lists;
use crate::Number;

type Words = *const usize;
type WordsMut = *mut usize;
type Doubles = *const f64;
type DoublesMut = *mut f64;

extern "C" {
    fn yonaduvi_needs(
        cells: Words, cells_n: usize, scalars: Doubles, scalars_n: usize,
        xn: Doubles, xn_n: usize, xh: Doubles, xh_n: usize, yn: Doubles, yn_n: usize, yh: Doubles, yh_n: usize,
        zn: Doubles, zn_n: usize, zh: Doubles, zh_n: usize,
        choice: usize, coarsest: usize,
        out: WordsMut, out_n: usize, needs: WordsMut, needs_n: usize, counts: WordsMut, counts_n: usize,
    );
    fn yonaduvi_setup(
        cells: Words, cells_n: usize, scalars: Doubles, scalars_n: usize,
        xn: Doubles, xn_n: usize, xh: Doubles, xh_n: usize, yn: Doubles, yn_n: usize, yh: Doubles, yh_n: usize,
        zn: Doubles, zn_n: usize, zh: Doubles, zh_n: usize,
        given: Doubles, given_n: usize, choice: usize, coarsest: usize,
        out: WordsMut, out_n: usize,
        ends: WordsMut, ends_n: usize, eps: DoublesMut, eps_n: usize,
        starts: WordsMut, starts_n: usize, columns: WordsMut, columns_n: usize, values: DoublesMut, values_n: usize,
        tstarts: WordsMut, tstarts_n: usize, tcolumns: WordsMut, tcolumns_n: usize, tvalues: DoublesMut, tvalues_n: usize,
        ostarts: WordsMut, ostarts_n: usize, ocolumns: WordsMut, ocolumns_n: usize, ovalues: DoublesMut, ovalues_n: usize,
        scaling: DoublesMut, scaling_n: usize,
    );
    fn yonaduvi_change(
        cells: Words, cells_n: usize, scalars: Doubles, scalars_n: usize,
        xn: Doubles, xn_n: usize, xh: Doubles, xh_n: usize, yn: Doubles, yn_n: usize, yh: Doubles, yh_n: usize,
        zn: Doubles, zn_n: usize, zh: Doubles, zh_n: usize,
        choice: usize, coarsest: usize, edge: usize, re: f64, im: f64,
        out: WordsMut, out_n: usize,
        ends: Words, ends_n: usize, eps: DoublesMut, eps_n: usize,
        starts: Words, starts_n: usize, columns: Words, columns_n: usize, values: DoublesMut, values_n: usize,
        tstarts: Words, tstarts_n: usize, tcolumns: Words, tcolumns_n: usize, tvalues: DoublesMut, tvalues_n: usize,
        ostarts: Words, ostarts_n: usize, ocolumns: Words, ocolumns_n: usize, ovalues: DoublesMut, ovalues_n: usize,
        scaling: DoublesMut, scaling_n: usize,
    );
    fn yonaduvi_read(
        bytes: *const u8, n: usize, limit: usize, held: DoublesMut, held_n: usize,
        out: WordsMut, out_n: usize,
        ends: WordsMut, ends_n: usize, eps: DoublesMut, eps_n: usize,
        starts: WordsMut, starts_n: usize, columns: WordsMut, columns_n: usize, values: DoublesMut, values_n: usize,
        tstarts: WordsMut, tstarts_n: usize, tcolumns: WordsMut, tcolumns_n: usize, tvalues: DoublesMut, tvalues_n: usize,
        ostarts: WordsMut, ostarts_n: usize, ocolumns: WordsMut, ocolumns_n: usize, ovalues: DoublesMut, ovalues_n: usize,
        scaling: DoublesMut, scaling_n: usize,
    );
    fn yonaduvi_weight_row(
        counts: Words, counts_n: usize, turned: usize,
        starts: Words, starts_n: usize, values: Doubles, values_n: usize,
        tstarts: Words, tstarts_n: usize, tvalues: Doubles, tvalues_n: usize,
        level: usize, row: usize, out: WordsMut, out_n: usize,
    );
    fn yonaduvi_operator_row(
        counts: Words, counts_n: usize, starts: Words, starts_n: usize, columns: Words, columns_n: usize,
        level: usize, row: usize, out: WordsMut, out_n: usize,
    );
}

// SAFETY, of every call below: each pointer comes with the length of the list that it points to, and is good for it while the call runs;
// lists that are written are borrowed as such and do not overlap. A `Number` is two doubles side by side (`repr(C)`), so n numbers are 2 n
// doubles. The library asks nothing else of its caller, and keeps no pointer.

/// An answer: a refusal's number and place, or 0 and the level count.
pub type Answer = [usize; 2];

pub fn needs(i: &Lattice) -> (Answer, [usize; 12], [usize; 37]) {
    let (mut out, mut needs, mut counts) = ([0; 2], [0; 12], [0; 37]);
    let scalars = i.scalars();
    unsafe {
        yonaduvi_needs(
            i.cells.as_ptr(), 3, scalars.as_ptr(), 14,
            i.nodes[0].as_ptr().cast(), 2 * i.nodes[0].len(), i.halves[0].as_ptr().cast(), 2 * i.halves[0].len(),
            i.nodes[1].as_ptr().cast(), 2 * i.nodes[1].len(), i.halves[1].as_ptr().cast(), 2 * i.halves[1].len(),
            i.nodes[2].as_ptr().cast(), 2 * i.nodes[2].len(), i.halves[2].as_ptr().cast(), 2 * i.halves[2].len(),
            i.choice_word(), i.coarsest, out.as_mut_ptr(), 2, needs.as_mut_ptr(), 12, counts.as_mut_ptr(), 37,
        )
    };
    (out, needs, counts)
}

pub fn setup(i: &Lattice, l: &mut Lists) -> Answer {
    let mut out = [0; 2];
    let scalars = i.scalars();
    unsafe {
        yonaduvi_setup(
            i.cells.as_ptr(), 3, scalars.as_ptr(), 14,
            i.nodes[0].as_ptr().cast(), 2 * i.nodes[0].len(), i.halves[0].as_ptr().cast(), 2 * i.halves[0].len(),
            i.nodes[1].as_ptr().cast(), 2 * i.nodes[1].len(), i.halves[1].as_ptr().cast(), 2 * i.halves[1].len(),
            i.nodes[2].as_ptr().cast(), 2 * i.nodes[2].len(), i.halves[2].as_ptr().cast(), 2 * i.halves[2].len(),
            i.permittivities.as_ptr().cast(), 2 * i.permittivities.len(), i.choice_word(), i.coarsest, out.as_mut_ptr(), 2,
            l.ends.as_mut_ptr(), l.ends.len(), l.permittivities.as_mut_ptr().cast(), 2 * l.permittivities.len(),
            l.forward.starts.as_mut_ptr(), l.forward.starts.len(), l.forward.columns.as_mut_ptr(), l.forward.columns.len(),
            l.forward.values.as_mut_ptr().cast(), 2 * l.forward.values.len(),
            l.turned.starts.as_mut_ptr(), l.turned.starts.len(), l.turned.columns.as_mut_ptr(), l.turned.columns.len(),
            l.turned.values.as_mut_ptr().cast(), 2 * l.turned.values.len(),
            l.operator.starts.as_mut_ptr(), l.operator.starts.len(), l.operator.columns.as_mut_ptr(), l.operator.columns.len(),
            l.operator.values.as_mut_ptr().cast(), 2 * l.operator.values.len(),
            l.scaling.as_mut_ptr().cast(), 2 * l.scaling.len(),
        )
    };
    out
}

pub fn change(i: &Lattice, edge: usize, value: Number, l: &mut Lists) -> Answer {
    let mut out = [0; 2];
    let scalars = i.scalars();
    unsafe {
        yonaduvi_change(
            i.cells.as_ptr(), 3, scalars.as_ptr(), 14,
            i.nodes[0].as_ptr().cast(), 2 * i.nodes[0].len(), i.halves[0].as_ptr().cast(), 2 * i.halves[0].len(),
            i.nodes[1].as_ptr().cast(), 2 * i.nodes[1].len(), i.halves[1].as_ptr().cast(), 2 * i.halves[1].len(),
            i.nodes[2].as_ptr().cast(), 2 * i.nodes[2].len(), i.halves[2].as_ptr().cast(), 2 * i.halves[2].len(),
            i.choice_word(), i.coarsest, edge, value.re, value.im, out.as_mut_ptr(), 2,
            l.ends.as_ptr(), l.ends.len(), l.permittivities.as_mut_ptr().cast(), 2 * l.permittivities.len(),
            l.forward.starts.as_ptr(), l.forward.starts.len(), l.forward.columns.as_ptr(), l.forward.columns.len(),
            l.forward.values.as_mut_ptr().cast(), 2 * l.forward.values.len(),
            l.turned.starts.as_ptr(), l.turned.starts.len(), l.turned.columns.as_ptr(), l.turned.columns.len(),
            l.turned.values.as_mut_ptr().cast(), 2 * l.turned.values.len(),
            l.operator.starts.as_ptr(), l.operator.starts.len(), l.operator.columns.as_ptr(), l.operator.columns.len(),
            l.operator.values.as_mut_ptr().cast(), 2 * l.operator.values.len(),
            l.scaling.as_mut_ptr().cast(), 2 * l.scaling.len(),
        )
    };
    out
}

pub fn read(bytes: &[u8], limit: usize, held: &mut [Number], l: &mut Lists) -> Answer {
    let mut out = [0; 2];
    unsafe {
        yonaduvi_read(
            bytes.as_ptr(), bytes.len(), limit, held.as_mut_ptr().cast(), 2 * held.len(), out.as_mut_ptr(), 2,
            l.ends.as_mut_ptr(), l.ends.len(), l.permittivities.as_mut_ptr().cast(), 2 * l.permittivities.len(),
            l.forward.starts.as_mut_ptr(), l.forward.starts.len(), l.forward.columns.as_mut_ptr(), l.forward.columns.len(),
            l.forward.values.as_mut_ptr().cast(), 2 * l.forward.values.len(),
            l.turned.starts.as_mut_ptr(), l.turned.starts.len(), l.turned.columns.as_mut_ptr(), l.turned.columns.len(),
            l.turned.values.as_mut_ptr().cast(), 2 * l.turned.values.len(),
            l.operator.starts.as_mut_ptr(), l.operator.starts.len(), l.operator.columns.as_mut_ptr(), l.operator.columns.len(),
            l.operator.values.as_mut_ptr().cast(), 2 * l.operator.values.len(),
            l.scaling.as_mut_ptr().cast(), 2 * l.scaling.len(),
        )
    };
    out
}

/// The first place of a row of weights, and its count of places.
pub fn weight_row(counts: &[usize; 37], turned: bool, l: &Lists, level: usize, row: usize) -> (usize, usize) {
    let mut out = [0; 2];
    let (f, t) = (&l.forward, &l.turned);
    unsafe {
        yonaduvi_weight_row(
            counts.as_ptr(), 37, turned as usize,
            f.starts.as_ptr(), f.starts.len(), f.values.as_ptr().cast(), 2 * f.values.len(),
            t.starts.as_ptr(), t.starts.len(), t.values.as_ptr().cast(), 2 * t.values.len(),
            level, row, out.as_mut_ptr(), 2,
        )
    };
    (out[0] / 2, out[1] / 2)
}

/// The same of an operator row.
pub fn operator_row(counts: &[usize; 37], l: &Lists, level: usize, row: usize) -> (usize, usize) {
    let mut out = [0; 2];
    let o = &l.operator;
    unsafe {
        yonaduvi_operator_row(
            counts.as_ptr(), 37, o.starts.as_ptr(), o.starts.len(), o.columns.as_ptr(), o.columns.len(),
            level, row, out.as_mut_ptr(), 2,
        )
    };
    (out[0], out[1])
}
