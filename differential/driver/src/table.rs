// The refusals: the specification's table written a second time. An answer is number and place.

use crate::case::Case;
use num_complex::Complex64 as c64;
use source::Level;

pub type Refusal = (usize, usize);

fn not_finite(x: f64) -> bool {
    x.is_nan() || x.is_infinite()
}

// Not finite, or zero.
pub fn bad_number(re: f64, im: f64) -> bool {
    not_finite(re) || not_finite(im) || (re == 0.0 && im == 0.0)
}

// 1 to 4, the rows of the table in their order: of the first `lists` lists where there are as many (7 with the
// permittivities, 6 without).
pub fn refusal(c: &Case, lists: usize) -> Option<Refusal> {
    // A list of cells or scalars that is too short stands for a lattice without cells.
    if c.cells.len() < 3 || c.scalars.len() < 14 {
        return Some((1, 0));
    }
    // 1: an axis 0 or over 64; total over 4,096
    for axis in 0..3 {
        if c.cells[axis] == 0 || c.cells[axis] > 64 {
            return Some((1, axis));
        }
    }
    if c.total() > 4096 {
        return Some((1, 3));
    }
    // 2: step or k0 not finite or <= 0; shift not finite; Bloch phase not finite or zero
    for place in 0..4 {
        if not_finite(c.scalars[place]) || c.scalars[place] <= 0.0 {
            return Some((2, place));
        }
    }
    if not_finite(c.scalars[4]) {
        return Some((2, 4));
    }
    for axis in 0..3 {
        if c.is_bloch(axis) && bad_number(c.phase(axis).re, c.phase(axis).im) {
            return Some((2, 5 + axis));
        }
    }
    // 3: length not the exact count
    for list in 0..lists {
        if c.lists[list].len() != 2 * c.needed(list) {
            return Some((3, list));
        }
    }
    // 4: not finite, or zero; counted on through the lists
    let mut position = 0;
    for list in 0..lists {
        for z in c.lists[list].chunks_exact(2) {
            if bad_number(z[0], z[1]) {
                return Some((4, position));
            }
            position += 1;
        }
    }
    None
}

// 8: the first level with a forward row that names a coarse edge twice.
pub fn twice(levels: &[Level]) -> Option<usize> {
    let repeats = |row: &[usize]| row.iter().enumerate().any(|(k, column)| row[..k].contains(column));
    levels.iter().position(|level| match &level.transfer {
        None => false,
        Some((p, _)) => p.starts.windows(2).any(|s| repeats(&p.columns[s[0]..s[1]])),
    })
}

// 6: the first list with fewer places than it needs; of a list of three, any of the three. Twelve lists, as a setup is lent them.
pub fn short(need: &[usize; 12], lent: &[usize; 12]) -> Option<usize> {
    let list = [0, 1, 2, 2, 2, 3, 3, 3, 4, 4, 4, 5];
    (0..12).find(|&k| lent[k] < need[k]).map(|k| list[k])
}

// 11: the lowest level whose ends, starts or columns differ from the lattice's; a transfer counts as its fine level. Seven lists of words that are
// long enough; what stands in them beyond the need is not looked at.
pub fn differs(levels: &[Level], words: &[Vec<usize>; 7]) -> Option<usize> {
    let mut at = [0; 7];
    levels.iter().position(|level| {
        let mut parts: Vec<(usize, &[usize])> = level.lines.iter().map(|line| (0, &line.ends[..])).collect();
        if let Some((p, r)) = &level.transfer {
            parts.extend([(1, &p.starts[..]), (2, &p.columns), (3, &r.starts), (4, &r.columns)]);
        }
        if let Some(o) = &level.operator {
            parts.extend([(5, &o.starts[..]), (6, &o.columns)]);
        }
        parts.into_iter().any(|(list, part)| {
            let from = at[list];
            at[list] += part.len();
            words[list][from..at[list]] != *part
        })
    })
}

pub fn all_finite(numbers: &[c64]) -> bool {
    numbers.iter().all(|z| !not_finite(z.re) && !not_finite(z.im))
}

// 7: the first coarse level, or the only one, with a number that is not finite: of its operator, of its permittivities (averaged ones where there is
// scaling), or of the transfer to it, the volumes, the shares and their inverses included. The Rust stores 1 where a share is not finite.
pub fn no_number(levels: &[Level]) -> Option<usize> {
    levels.iter().enumerate().position(|(k, level)| {
        let own = level.operator.as_ref().is_none_or(|o| all_finite(&o.values));
        let Some((p, r)) = k.checked_sub(1).and_then(|above| levels[above].transfer.as_ref()) else {
            return !own;
        };
        let scaled = levels[k - 1].scaling.as_ref().is_none_or(|(volumes, inverse)| {
            all_finite(&level.eps_operator) && all_finite(volumes) && all_finite(&r.apply(volumes)) && all_finite(inverse)
        });
        !(own && all_finite(&level.eps) && all_finite(&p.values) && all_finite(&r.values) && scaled)
    })
}
