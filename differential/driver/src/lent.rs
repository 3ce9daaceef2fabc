// Lists lent for results: what they hold before a call, behind their ends too, and what a call leaves in them, bit for bit. Two NaNs count as equal.

use num_complex::Complex64 as c64;

// What lies in a lent list before the call, and in the places behind its end.
const WORD: usize = 0x5a5a_1234_5678_9abc;
const DOUBLE: f64 = -1.25e-77;
pub const BEHIND: usize = 8;

pub fn words(length: usize) -> Vec<usize> {
    vec![WORD; length + BEHIND]
}

pub fn doubles(length: usize) -> Vec<f64> {
    vec![DOUBLE; length + BEHIND]
}

// The length of a list that is longer than needed by `room`.
pub fn lent(need: usize, room: i64) -> usize {
    (need as i64 + room).max(0) as usize
}

// What a call leaves in a list: what it held; zeros; or what is given as far as it fits, then what it held.
#[derive(Clone, Copy)]
pub enum Left<'a, T> {
    Untouched,
    Zeros,
    Given(&'a [T]),
}

fn same(a: f64, b: f64) -> bool {
    a.to_bits() == b.to_bits() || (a.is_nan() && b.is_nan())
}

pub fn same_number(a: &[f64], b: c64) -> bool {
    same(a[0], b.re) && same(a[1], b.im)
}

fn shown(x: f64) -> String {
    format!("{x:?} ({:016x})", x.to_bits())
}

// The first word that is not as a call leaves it: its place, and what is told of it.
pub fn words_depart(ours: &[usize], left: Left<usize>) -> Option<(usize, String)> {
    let length = ours.len() - BEHIND;
    let (fit, equal) = match left {
        Left::Untouched => (0, true),
        Left::Zeros => (length, ours[..length].iter().all(|&w| w == 0)),
        Left::Given(list) => {
            let fit = list.len().min(length);
            (fit, ours[..fit] == list[..fit])
        }
    };
    if equal && ours[fit..].iter().all(|&w| w == WORD) {
        return None;
    }
    let wanted = |k: usize| match left {
        Left::Given(list) if k < fit => list[k],
        _ if k < fit => 0,
        _ => WORD,
    };
    let k = (0..ours.len()).find(|&k| ours[k] != wanted(k))?;
    Some((k, format!("ours {}, expected {}", ours[k], wanted(k))))
}

// The same of numbers, two doubles each: one that has no place is left out whole. The place counts doubles.
pub fn doubles_depart(ours: &[f64], left: Left<c64>) -> Option<(usize, String)> {
    let length = ours.len() - BEHIND;
    let (fit, equal) = match left {
        Left::Untouched => (0, true),
        // an odd double at the end too
        Left::Zeros => (length, ours[..length].iter().all(|x| x.to_bits() == 0)),
        Left::Given(list) => {
            let fit = list.len().min(length / 2);
            (2 * fit, ours.chunks_exact(2).zip(&list[..fit]).all(|(a, z)| same_number(a, *z)))
        }
    };
    if equal && ours[fit..].iter().all(|x| x.to_bits() == DOUBLE.to_bits()) {
        return None;
    }
    let wanted = |k: usize| match left {
        Left::Given(list) if k < fit => [list[k / 2].re, list[k / 2].im][k % 2],
        _ if k < fit => 0.0,
        _ => DOUBLE,
    };
    let k = (0..ours.len()).find(|&k| !same(ours[k], wanted(k)))?;
    Some((k, format!("ours {}, expected {}", shown(ours[k]), shown(wanted(k)))))
}

pub fn same_words(what: &str, ours: &[usize], left: Left<usize>) -> Result<(), String> {
    match words_depart(ours, left) {
        None => Ok(()),
        Some((k, told)) => Err(format!("{what}, place {k}: {told}")),
    }
}
