// Rows handed back. From a filled store: every row of every level (a sample of large ones) against the Rust's rows, and rows and levels that aren't there.
// From altered counts, starts and lengths, of any content: against the rule, written a second time.

use crate::case::Case;
use crate::lent::{BEHIND, Left, same_number, words, words_depart};
use crate::ours::{self, Store, Weights};
use crate::random::Random;
use crate::store::{Lists, Parts};
use num_complex::Complex64 as c64;
use source::Level;

// What was found equal.
#[derive(Default)]
pub struct Counts {
    // rows handed back: forward, turned, operator
    pub rows: [u64; 3],
    // calls for rows and levels that aren't there
    pub none: u64,
    // calls with something altered: those that got a row, those that got none
    pub altered: [u64; 2],
}

const LISTS: [&str; 3] = ["forward", "turned", "operator"];

// ---- the rule

// The lists that rows are handed back from: forward, turned, operator. Of values and columns the length alone matters.
#[derive(Clone)]
struct Lent {
    counts: Vec<usize>,
    starts: [Vec<usize>; 3],
    // in doubles, doubles, words
    lengths: [usize; 3],
}

// The edges of a level, if it is there: below the level count and 12, 1 to 64 cells an axis. A count that isn't lent is 0.
fn edges(counts: &[usize], level: usize) -> Option<usize> {
    let count = |k: usize| counts.get(k).copied().unwrap_or(0);
    if level >= 12 || level >= count(0) {
        return None;
    }
    let n: [usize; 3] = std::array::from_fn(|axis| count(1 + 3 * level + axis));
    if n.iter().all(|n| (1..=64).contains(n)) { Some(3 * n[0] * n[1] * n[2]) } else { None }
}

// First place and count of a row's part: of the values in doubles (list 0 and 1), of the columns in places (list 2); 0 and 0 where there is no such row.
fn rule(l: &Lent, list: usize, level: usize, row: usize) -> [usize; 2] {
    let there = |n: usize| (0..n).all(|k| edges(&l.counts, k).is_some());
    // part q has the rows of level q + first
    let single = l.counts.first().copied().unwrap_or(0) <= 1;
    let first = [0, 1, if single { 0 } else { 1 }][list];
    let part = match list {
        2 if level >= 12 || level < first || !there(level + 1) => return [0, 0],
        2 => level - first,
        _ if level >= 12 || !there(level + 2) => return [0, 0],
        _ => level,
    };
    let rows = |q: usize| edges(&l.counts, q + first).unwrap_or(0);
    let start = |k: usize| l.starts[list].get(k).copied();
    // behind the parts before it: their starts, one more than they have rows, and their terms, as many as their last start says
    let (mut at, mut terms) = (0, 0u128);
    for q in 0..part {
        terms += start(at + rows(q)).unwrap_or(0) as u128;
        at += rows(q) + 1;
    }
    if row >= rows(part) {
        return [0, 0];
    }
    let (Some(a), Some(b)) = (start(at + row), start(at + row + 1)) else {
        return [0, 0];
    };
    let room = if list == 2 { l.lengths[2] } else { l.lengths[list] / 2 };
    if a > b || terms + b as u128 > room as u128 {
        return [0, 0];
    }
    let place = terms as usize + a;
    if list == 2 { [place, b - a] } else { [2 * place, 2 * (b - a)] }
}

// ---- calls

// One call, in the lists that a setup left, or in the altered ones, whose values and columns are taken from `s` as far as they go.
#[allow(clippy::too_many_arguments)]
fn call(l: &Lent, s: &Store, list: usize, turned: usize, level: usize, row: usize, out: usize, expected: [usize; 2]) -> Result<(), String> {
    let mut answer = words(out);
    let given = &mut answer[..out];
    if list == 2 {
        ours::operator_row(&l.counts, &l.starts[2], &s.words[6][..l.lengths[2]], level, row, given);
    } else {
        let w = Weights { starts: &l.starts[0], values: &s.doubles[1][..l.lengths[0]], tstarts: &l.starts[1], tvalues: &s.doubles[2][..l.lengths[1]] };
        ours::weight_row(&l.counts, turned, w, level, row, given);
    }
    match words_depart(&answer, Left::Given(&expected)) {
        None => Ok(()),
        Some((k, told)) => Err(format!(
            "{} row {row} of level {level}, turned {turned}, {}: {told}; counts {:?}",
            LISTS[list], ["first place", "count", "behind the answer"][k.min(2)], l.counts
        )),
    }
}

// What a turned row is asked for with.
fn turned(random: &mut Random, list: usize) -> usize {
    if list == 1 { random.one_of(&[1, 2, usize::MAX]) } else { 0 }
}

// The rows of a list of n that are asked for: all, or some.
fn picked(random: &mut Random, n: usize) -> Vec<usize> {
    if n <= 200 {
        return (0..n).collect();
    }
    let mut some: Vec<usize> = (0..30).map(|_| random.below(n)).collect();
    some.extend([0, 1, n - 2, n - 1]);
    some
}

// Everything about rows of one filled store, its lists exactly full.
pub fn rows(c: &Case, levels: &[Level], e: &Lists, cells: &[usize; 37], s: &Store, counts: &mut Counts) -> Result<(), String> {
    let mut random = Random::new(c.coarsest as u64 ^ c.scalars[0].to_bits() ^ c.lists[6][0].to_bits() ^ c.total() as u64);
    let parts = [&e.forward, &e.turned, &e.operators];
    let of = |list: &[usize]| list[..list.len() - BEHIND].to_vec();
    let l = Lent {
        counts: cells.to_vec(),
        starts: [of(&s.words[1]), of(&s.words[3]), of(&s.words[5])],
        lengths: [s.doubles[1].len() - BEHIND, s.doubles[2].len() - BEHIND, s.words[6].len() - BEHIND],
    };
    for (list, p) in parts.iter().enumerate() {
        for q in 0..p.begin.len() {
            part_rows(&mut random, levels, p, q, list, &l, s, counts)?;
        }
        // levels that aren't there: behind the last, and of stored operators level 0
        for level in [levels.len() - (list < 2) as usize, levels.len(), 11, 12, 13, usize::MAX - 1, usize::MAX] {
            if p.begin.iter().all(|b| b.0 != level) {
                missing(&mut random, &l, s, list, level, 0, counts)?;
            }
        }
        if list == 2 && levels.len() > 1 {
            missing(&mut random, &l, s, list, 0, 0, counts)?;
        }
    }
    for _ in 0..if c.total() > 200 { 24 } else { 8 } {
        altered(&mut random, &parts, &l, s, counts)?;
    }
    Ok(())
}

// The rows of one part, against the Rust's: where they stand, and what stands there.
#[allow(clippy::too_many_arguments)]
fn part_rows(
    random: &mut Random,
    levels: &[Level],
    p: &Parts,
    q: usize,
    list: usize,
    l: &Lent,
    s: &Store,
    counts: &mut Counts,
) -> Result<(), String> {
    let (level, _, from) = p.begin[q];
    let theirs = &levels[level];
    let starts = match (list, &theirs.transfer, &theirs.operator) {
        (0, Some((forward, _)), _) => &forward.starts,
        (1, Some((_, turned)), _) => &turned.starts,
        (2, _, Some(operator)) => &operator.starts,
        _ => return Err(format!("the Rust has no part of list {list} on level {level}")),
    };
    let n = starts.len() - 1;
    for r in picked(random, n) {
        let (a, b) = (from + starts[r], from + starts[r + 1]);
        let expected = if list == 2 { [a, b - a] } else { [2 * a, 2 * (b - a)] };
        if rule(l, list, level, r) != expected {
            return Err(format!("the rule of rows, written a second time, gives another part than the Rust's row {r} of level {level}"));
        }
        call(l, s, list, turned(random, list), level, r, if r % 32 == 9 { r % 5 } else { 2 }, expected)?;
        let same = match list {
            0 => same_numbers(&s.doubles[1][2 * a..2 * b], theirs.transfer.as_ref().unwrap().0.row(r)),
            1 => same_numbers(&s.doubles[2][2 * a..2 * b], theirs.transfer.as_ref().unwrap().1.row(r)),
            _ => theirs.operator.as_ref().unwrap().row(r).map(|(column, _)| column).eq(s.words[6][a..b].iter().copied()),
        };
        if !same {
            return Err(format!("{} row {r} of level {level} is not the Rust's", LISTS[list]));
        }
        counts.rows[list] += 1;
    }
    for r in [n, n + 1, 786_432, usize::MAX - 1, usize::MAX] {
        missing(random, l, s, list, level, r, counts)?;
    }
    Ok(())
}

fn same_numbers(ours: &[f64], theirs: impl Iterator<Item = (usize, c64)>) -> bool {
    let mut ours = ours.chunks_exact(2);
    let same = theirs.into_iter().all(|(_, z)| ours.next().is_some_and(|a| same_number(a, z)));
    same && ours.next().is_none()
}

fn missing(random: &mut Random, l: &Lent, s: &Store, list: usize, level: usize, row: usize, counts: &mut Counts) -> Result<(), String> {
    if rule(l, list, level, row) != [0, 0] {
        return Err(format!("the rule of rows, written a second time, gives a row {row} of level {level}, which isn't there"));
    }
    call(l, s, list, turned(random, list), level, row, 2, [0, 0])?;
    counts.none += 1;
    Ok(())
}

// ---- altered lists

// A number near another, or far from all.
fn other(random: &mut Random, n: usize) -> usize {
    match random.below(4) {
        0 => random.one_of(&[0, 1, 2, 63, 64, 65, 786_432, 1 << 32, 1 << 63, usize::MAX - 1, usize::MAX]),
        1 => random.below(100),
        _ => n.wrapping_add(random.below(5)).wrapping_sub(2),
    }
}

// One of counts, starts and lengths altered, about row `row` of part q.
fn alter(random: &mut Random, l: &mut Lent, list: usize, p: &Parts, q: usize, row: usize) {
    let (level, at, terms) = p.begin[q];
    let (starts, counts) = (&mut l.starts[list], &mut l.counts);
    let near = (at + row + random.below(4)).saturating_sub(1);
    match random.below(8) {
        0 | 1 => {
            // its own starts, or the last of the part before
            let k = if random.once_in(3) { at.saturating_sub(1) } else { near };
            if k < starts.len() {
                starts[k] = other(random, starts[k]);
            }
        }
        2 => starts.truncate(near + 1),
        3 | 4 => {
            let end = terms + p.starts[at + row + 1];
            let end = (if list == 2 { end } else { 2 * end } + random.below(4)).saturating_sub(2);
            l.lengths[list] = l.lengths[list].min(end);
        }
        5 => {
            let length = [0, 1, 3 * level + random.below(8), 36][random.below(4)];
            counts.truncate(length);
        }
        6 => {
            let k = [0, 1 + 3 * level + random.below(6), 1 + random.below(36)][random.below(3)];
            if k < counts.len() {
                counts[k] = other(random, counts[k]);
            }
        }
        _ => counts.resize(40, 7),
    }
}

// Lists that no setup left.
fn wild(random: &mut Random, l: &mut Lent) {
    l.counts = (0..37).map(|_| random.below(3)).collect();
    l.counts[0] = random.below(14);
    for starts in &mut l.starts {
        *starts = (0..random.below(200)).map(|_| random.below(6)).collect();
    }
}

// One or two things altered about one row; that row asked for, and others.
fn altered(random: &mut Random, parts: &[&Parts; 3], l: &Lent, s: &Store, counts: &mut Counts) -> Result<(), String> {
    let mut l = l.clone();
    let list = random.below(3);
    let p = parts[list];
    let (mut level, mut row) = (random.below(13), other(random, 3));
    if p.begin.is_empty() || random.once_in(8) {
        wild(random, &mut l);
    } else {
        let q = random.below(p.begin.len());
        let behind = p.begin.get(q + 1).map_or(p.starts.len(), |b| b.1);
        level = p.begin[q].0;
        row = random.below(behind - p.begin[q].1 - 1);
        for _ in 0..random.from_to(1, 2) {
            alter(random, &mut l, list, p, q, row);
        }
    }
    for ask in 0..6 {
        let (list, level, row) = match ask {
            0 => (list, level, row),
            1 => (list, level, other(random, row)),
            2 => (random.below(3), level, row),
            3 => (list, other(random, level), row),
            _ => (random.below(3), random.below(13), random.below(60)),
        };
        let expected = rule(&l, list, level, row);
        let out = if random.once_in(16) { random.below(5) } else { 2 };
        call(&l, s, list, turned(random, list), level, row, out, expected)?;
        counts.altered[(expected == [0, 0]) as usize] += 1;
    }
    Ok(())
}
