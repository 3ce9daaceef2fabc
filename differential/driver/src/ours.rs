// The static library: a Rattle slice is a pointer and then a length.

use crate::case::Case;
use crate::lent::{BEHIND, doubles, words};
use crate::store::{NUMBERS, WORDS};
use num_complex::Complex64 as c64;

unsafe extern "C" {
    fn yonaduvi_setup(
        cells: *const usize, cells_len: usize, scalars: *const f64, scalars_len: usize,
        xn: *const f64, xn_len: usize, xh: *const f64, xh_len: usize,
        yn: *const f64, yn_len: usize, yh: *const f64, yh_len: usize,
        zn: *const f64, zn_len: usize, zh: *const f64, zh_len: usize,
        given: *const f64, given_len: usize,
        choice: usize, coarsest: usize,
        out: *mut usize, out_len: usize,
        ends: *mut usize, ends_len: usize, eps: *mut f64, eps_len: usize,
        starts: *mut usize, starts_len: usize, columns: *mut usize, columns_len: usize,
        values: *mut f64, values_len: usize,
        tstarts: *mut usize, tstarts_len: usize, tcolumns: *mut usize, tcolumns_len: usize,
        tvalues: *mut f64, tvalues_len: usize,
        ostarts: *mut usize, ostarts_len: usize, ocolumns: *mut usize, ocolumns_len: usize,
        ovalues: *mut f64, ovalues_len: usize,
        scaling: *mut f64, scaling_len: usize,
    );
    fn yonaduvi_change(
        cells: *const usize, cells_len: usize, scalars: *const f64, scalars_len: usize,
        xn: *const f64, xn_len: usize, xh: *const f64, xh_len: usize,
        yn: *const f64, yn_len: usize, yh: *const f64, yh_len: usize,
        zn: *const f64, zn_len: usize, zh: *const f64, zh_len: usize,
        choice: usize, coarsest: usize,
        edge: usize, re: f64, im: f64,
        out: *mut usize, out_len: usize,
        ends: *const usize, ends_len: usize, eps: *mut f64, eps_len: usize,
        starts: *const usize, starts_len: usize, columns: *const usize, columns_len: usize,
        values: *mut f64, values_len: usize,
        tstarts: *const usize, tstarts_len: usize, tcolumns: *const usize, tcolumns_len: usize,
        tvalues: *mut f64, tvalues_len: usize,
        ostarts: *const usize, ostarts_len: usize, ocolumns: *const usize, ocolumns_len: usize,
        ovalues: *mut f64, ovalues_len: usize,
        scaling: *mut f64, scaling_len: usize,
    );
    fn yonaduvi_needs(
        cells: *const usize, cells_len: usize, scalars: *const f64, scalars_len: usize,
        xn: *const f64, xn_len: usize, xh: *const f64, xh_len: usize,
        yn: *const f64, yn_len: usize, yh: *const f64, yh_len: usize,
        zn: *const f64, zn_len: usize, zh: *const f64, zh_len: usize,
        choice: usize, coarsest: usize,
        out: *mut usize, out_len: usize,
        needs: *mut usize, needs_len: usize, counts: *mut usize, counts_len: usize,
    );
    fn yonaduvi_weight_row(
        counts: *const usize, counts_len: usize, turned: usize,
        starts: *const usize, starts_len: usize, values: *const f64, values_len: usize,
        tstarts: *const usize, tstarts_len: usize, tvalues: *const f64, tvalues_len: usize,
        level: usize, row: usize,
        out: *mut usize, out_len: usize,
    );
    fn yonaduvi_operator_row(
        counts: *const usize, counts_len: usize,
        starts: *const usize, starts_len: usize, columns: *const usize, columns_len: usize,
        level: usize, row: usize,
        out: *mut usize, out_len: usize,
    );
    fn yonaduvi_read(
        bytes: *const u8, bytes_len: usize, limit: usize, held: *mut f64, held_len: usize,
        out: *mut usize, out_len: usize,
        ends: *mut usize, ends_len: usize, eps: *mut f64, eps_len: usize,
        starts: *mut usize, starts_len: usize, columns: *mut usize, columns_len: usize,
        values: *mut f64, values_len: usize,
        tstarts: *mut usize, tstarts_len: usize, tcolumns: *mut usize, tcolumns_len: usize,
        tvalues: *mut f64, tvalues_len: usize,
        ostarts: *mut usize, ostarts_len: usize, ocolumns: *mut usize, ocolumns_len: usize,
        ovalues: *mut f64, ovalues_len: usize,
        scaling: *mut f64, scaling_len: usize,
    );
}

// Calls a function with the input that a setup, a change and the needs begin with, then further arguments.
macro_rules! call {
    ($function:ident, $c:expr, $($more:expr),*) => {{
        let c = $c;
        let l = &c.lists;
        // SAFETY: each pointer comes with the length of the list that it points to, and the lists lent for results
        // are borrowed for the call alone.
        unsafe {
            $function(
                c.cells.as_ptr(), c.cells.len(), c.scalars.as_ptr(), c.scalars.len(),
                l[0].as_ptr(), l[0].len(), l[1].as_ptr(), l[1].len(),
                l[2].as_ptr(), l[2].len(), l[3].as_ptr(), l[3].len(),
                l[4].as_ptr(), l[4].len(), l[5].as_ptr(), l[5].len(),
                $($more),*
            )
        }
    }};
}

// What is lent to a setup or a change. Each list has BEHIND places more than are lent.
#[derive(Clone)]
pub struct Store {
    pub out: Vec<usize>,
    // line ends; starts and columns of the forward, the turned and the operator rows
    pub words: [Vec<usize>; 7],
    // permittivities; the forward, the turned and the operator rows; scaling
    pub doubles: [Vec<f64>; 5],
}

impl Store {
    // Lists of these lengths, in words and doubles, and `out` words for the answer.
    pub fn lent(lengths: [usize; 12], out: usize) -> Store {
        Store { out: words(out), words: WORDS.map(|k| words(lengths[k])), doubles: NUMBERS.map(|k| doubles(lengths[k])) }
    }
}

// A setup of choice 0, Galerkin, or of any other, rediscretized.
pub fn setup(c: &Case, choice: usize, s: &mut Store) {
    let [ends, fs, fc, ts, tc, os, oc] = &mut s.words;
    let [eps, fv, tv, ov, scaling] = &mut s.doubles;
    call!(
        yonaduvi_setup, c, c.lists[6].as_ptr(), c.lists[6].len(), choice, c.coarsest, s.out.as_mut_ptr(), s.out.len() - BEHIND,
        ends.as_mut_ptr(), ends.len() - BEHIND, eps.as_mut_ptr(), eps.len() - BEHIND,
        fs.as_mut_ptr(), fs.len() - BEHIND, fc.as_mut_ptr(), fc.len() - BEHIND, fv.as_mut_ptr(), fv.len() - BEHIND,
        ts.as_mut_ptr(), ts.len() - BEHIND, tc.as_mut_ptr(), tc.len() - BEHIND, tv.as_mut_ptr(), tv.len() - BEHIND,
        os.as_mut_ptr(), os.len() - BEHIND, oc.as_mut_ptr(), oc.len() - BEHIND, ov.as_mut_ptr(), ov.len() - BEHIND,
        scaling.as_mut_ptr(), scaling.len() - BEHIND
    )
}

// The permittivity of an edge set to a value in such a store. The words are lent to be read alone.
pub fn change(c: &Case, choice: usize, edge: usize, value: c64, s: &mut Store) {
    let [ends, fs, fc, ts, tc, os, oc] = &s.words;
    let [eps, fv, tv, ov, scaling] = &mut s.doubles;
    call!(
        yonaduvi_change, c, choice, c.coarsest, edge, value.re, value.im, s.out.as_mut_ptr(), s.out.len() - BEHIND,
        ends.as_ptr(), ends.len() - BEHIND, eps.as_mut_ptr(), eps.len() - BEHIND,
        fs.as_ptr(), fs.len() - BEHIND, fc.as_ptr(), fc.len() - BEHIND, fv.as_mut_ptr(), fv.len() - BEHIND,
        ts.as_ptr(), ts.len() - BEHIND, tc.as_ptr(), tc.len() - BEHIND, tv.as_mut_ptr(), tv.len() - BEHIND,
        os.as_ptr(), os.len() - BEHIND, oc.as_ptr(), oc.len() - BEHIND, ov.as_mut_ptr(), ov.len() - BEHIND,
        scaling.as_mut_ptr(), scaling.len() - BEHIND
    )
}

// A setup file, all of it in memory. `limit`: the most cells that are taken. `held`: what holds the numbers of the input, with BEHIND places more than are lent.
pub fn read(file: &[u8], limit: usize, held: &mut [f64], s: &mut Store) {
    let [ends, fs, fc, ts, tc, os, oc] = &mut s.words;
    let [eps, fv, tv, ov, scaling] = &mut s.doubles;
    // SAFETY: as above.
    unsafe {
        yonaduvi_read(
            file.as_ptr(), file.len(), limit, held.as_mut_ptr(), held.len() - BEHIND, s.out.as_mut_ptr(), s.out.len() - BEHIND,
            ends.as_mut_ptr(), ends.len() - BEHIND, eps.as_mut_ptr(), eps.len() - BEHIND,
            fs.as_mut_ptr(), fs.len() - BEHIND, fc.as_mut_ptr(), fc.len() - BEHIND, fv.as_mut_ptr(), fv.len() - BEHIND,
            ts.as_mut_ptr(), ts.len() - BEHIND, tc.as_mut_ptr(), tc.len() - BEHIND, tv.as_mut_ptr(), tv.len() - BEHIND,
            os.as_mut_ptr(), os.len() - BEHIND, oc.as_mut_ptr(), oc.len() - BEHIND, ov.as_mut_ptr(), ov.len() - BEHIND,
            scaling.as_mut_ptr(), scaling.len() - BEHIND,
        )
    }
}

// What a setup needs, in three lists: the answer, the places of the twelve lists, the levels' cells. Each has BEHIND places more than are lent.
pub fn needs(c: &Case, choice: usize, [out, needs, counts]: &mut [Vec<usize>; 3]) {
    call!(
        yonaduvi_needs, c, choice, c.coarsest, out.as_mut_ptr(), out.len() - BEHIND,
        needs.as_mut_ptr(), needs.len() - BEHIND, counts.as_mut_ptr(), counts.len() - BEHIND
    )
}

// The starts and the values of a transfer's rows, forward and turned.
#[derive(Clone, Copy)]
pub struct Weights<'a> {
    pub starts: &'a [usize],
    pub values: &'a [f64],
    pub tstarts: &'a [usize],
    pub tvalues: &'a [f64],
}

// Which part of the values holds a row of weights.
pub fn weight_row(counts: &[usize], turned: usize, w: Weights, level: usize, row: usize, out: &mut [usize]) {
    // SAFETY: as above.
    unsafe {
        yonaduvi_weight_row(
            counts.as_ptr(), counts.len(), turned, w.starts.as_ptr(), w.starts.len(), w.values.as_ptr(), w.values.len(),
            w.tstarts.as_ptr(), w.tstarts.len(), w.tvalues.as_ptr(), w.tvalues.len(), level, row, out.as_mut_ptr(), out.len(),
        )
    }
}

// Which part of the columns holds an operator row.
pub fn operator_row(counts: &[usize], starts: &[usize], columns: &[usize], level: usize, row: usize, out: &mut [usize]) {
    // SAFETY: as above.
    unsafe {
        yonaduvi_operator_row(
            counts.as_ptr(), counts.len(), starts.as_ptr(), starts.len(), columns.as_ptr(), columns.len(), level, row,
            out.as_mut_ptr(), out.len(),
        )
    }
}
