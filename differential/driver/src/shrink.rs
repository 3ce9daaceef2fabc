// A smaller input that still shows a departure.

use crate::case::Case;
use crate::compare::{Counts, compare};

fn departs(c: &Case) -> bool {
    compare(c, &mut Counts::default()).is_err()
}

// The input with one axis shorter; the lists cut to fit.
fn shorter(c: &Case, axis: usize, n: usize) -> Option<Case> {
    if c.cells.len() < 3 || n == 0 || n >= c.cells[axis] || (0..7).any(|k| c.lists[k].len() != 2 * c.needed(k)) {
        return None;
    }
    let mut out = c.clone();
    out.cells[axis] = n;
    for list in 0..7 {
        let need = 2 * out.needed(list);
        out.lists[list].truncate(need);
    }
    Some(out)
}

// The simpler inputs to try next.
fn simpler(c: &Case) -> Vec<Case> {
    let mut out = Vec::new();
    let mut with = |change: &dyn Fn(&mut Case)| {
        let mut d = c.clone();
        change(&mut d);
        out.push(d);
    };
    with(&|d| d.room = [0; 8]);
    with(&|d| d.tries = 0);
    with(&|d| d.changes.clear());
    for k in 0..c.changes.len() {
        with(&|d| d.changes.truncate(k + 1));
        with(&|d| d.changes = [&c.changes[..k], &c.changes[k + 1..]].concat());
        with(&|d| d.changes[k] = (0, d.changes[k].1));
        with(&|d| d.changes[k] = (d.changes[k].0, num_complex::Complex64::new(2.0, 0.0)));
    }
    with(&|d| d.coarsest = 0);
    with(&|d| d.coarsest = 1);
    if c.scalars.len() >= 14 {
        for k in 0..4 {
            with(&|d| d.scalars[k] = 1.0);
        }
        with(&|d| d.scalars[4] = 0.0);
        for axis in 0..3 {
            with(&|d| d.scalars[5 + 3 * axis..8 + 3 * axis].copy_from_slice(&[0.0, 1.0, 0.0]));
            with(&|d| d.scalars[6 + 3 * axis..8 + 3 * axis].copy_from_slice(&[1.0, 0.0]));
        }
    }
    for list in 0..7 {
        with(&|d| d.lists[list].chunks_exact_mut(2).for_each(|z| z.copy_from_slice(&[1.0, 0.0])));
        if c.lists[list].len() <= 128 {
            for k in 0..c.lists[list].len() / 2 {
                with(&|d| d.lists[list][2 * k..2 * k + 2].copy_from_slice(&[1.0, 0.0]));
            }
        }
    }
    for axis in 0..3.min(c.cells.len()) {
        for n in [1, 2, 3, 4, c.cells[axis] / 2, c.cells[axis].saturating_sub(1)] {
            out.extend(shorter(c, axis, n));
        }
    }
    out
}

// How much an input says: cells, then numbers that are not plain.
fn size(c: &Case) -> u64 {
    let cells: u64 = c.cells.iter().map(|&n| (n as u64).min(100_000)).sum();
    let one = |z: &[f64]| z.len() == 2 && z[0].to_bits() == 1f64.to_bits() && z[1].to_bits() == 0;
    let odd: u64 = c.lists.iter().map(|l| l.chunks(2).filter(|z| !one(z)).count() as u64).sum();
    let plain = Case::plain([1, 1, 1]).scalars;
    let scalars = c.scalars.iter().zip(&plain).filter(|(a, b)| a.to_bits() != b.to_bits()).count() as u64;
    let room = c.room.iter().filter(|&&r| r != 0).count() as u64;
    let two = |z: &num_complex::Complex64| z.re == 2.0 && z.im.to_bits() == 0;
    let changes: u64 = c.changes.iter().map(|(edge, value)| 4 + 2 * (*edge > 0) as u64 + 2 * !two(value) as u64).sum();
    1000 * cells + 10 * (odd + scalars + room + changes + (c.tries != 0) as u64) + c.coarsest.min(5) as u64
}

pub fn smallest(c: &Case) -> Case {
    let mut best = c.clone();
    loop {
        match simpler(&best).into_iter().find(|d| size(d) < size(&best) && departs(d)) {
            Some(d) => best = d,
            None => return best,
        }
    }
}
