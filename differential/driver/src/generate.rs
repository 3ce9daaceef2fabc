// Inputs of the comparison.

use crate::case::Case;
use crate::norm::{near, target};
use crate::random::Random;
use num_complex::Complex64 as c64;
use source::Options;

fn turned(random: &mut Random, modulus: f64) -> c64 {
    let angle = random.between(-std::f64::consts::PI, std::f64::consts::PI);
    c64::new(modulus * angle.cos(), modulus * angle.sin())
}

// Few doubles, so that sums, products and lengths meet exactly, signed zeros among them.
fn exact(random: &mut Random) -> c64 {
    loop {
        let parts = [0.0, -0.0, 0.5, 0.75, 0.9, 1.0, 1.2, 1.5, 1.75, 2.0, 3.0, 6.0, -1.0, -1.5, -2.0];
        let z = c64::new(random.one_of(&parts), if random.once_in(2) { 0.0 } else { random.one_of(&parts) });
        if z.re != 0.0 || z.im != 0.0 {
            return z;
        }
    }
}

fn extreme(random: &mut Random) -> c64 {
    match random.below(3) {
        0 => c64::new(random.any_double(), 0.0),
        1 => c64::new(random.any_double(), random.any_double()),
        _ => {
            let exponent = random.between(-300.0, 300.0);
            let modulus = 10f64.powf(exponent);
            turned(random, modulus)
        }
    }
}

// An axis's stretches at the nodes and halfway behind them.
fn stretches(random: &mut Random, n: usize, wild: bool) -> (Vec<c64>, Vec<c64>) {
    let one = c64::new(1.0, 0.0);
    let style = if wild { 5 + random.below(3) } else { random.below(6) };
    match style {
        0 => (vec![one; n], vec![one; n]),
        // absorbers at the ends, graded by a cube
        1 | 2 => {
            let (low, high) = (random.below(n + 1), random.below(n + 1));
            let (strength, real) = (random.between(0.0, 30.0), random.one_of(&[0.0, 0.0, 1.0, 0.3]));
            let at = |place: f64| -> c64 {
                let depth = if place < low as f64 {
                    (low as f64 - place) / low as f64
                } else if place > (n - high.min(n)) as f64 && high > 0 {
                    (place - (n - high.min(n)) as f64) / high as f64
                } else {
                    0.0
                };
                let sigma = strength * depth * depth * depth;
                c64::new(1.0 + real * sigma, sigma)
            };
            ((0..n).map(|m| at(m as f64)).collect(), (0..n).map(|m| at(m as f64 + 0.5)).collect())
        }
        // cells that double in length, from the left or from the right
        3 => {
            let first = random.one_of(&[1.5, 1.4, 1.0, 1.6]);
            let turn = if random.once_in(2) { one } else { turned(random, 1.0) };
            let length = |m: usize| turn * (first * 2f64.powi(m.saturating_sub(1) as i32));
            let mut halves: Vec<c64> = (0..n).map(length).collect();
            if random.once_in(3) {
                halves.reverse();
            }
            (halves.clone(), halves)
        }
        // pairs about as long as some level's T
        4 => {
            let t = target(random.below(4));
            let real = random.once_in(6);
            let all = near(random, 0.5 * t, real);
            let list = |random: &mut Random| -> Vec<c64> {
                (0..n).map(|_| if random.once_in(6) { near(random, 0.5 * t, real) } else { all }).collect()
            };
            (list(random), list(random))
        }
        5 => ((0..n).map(|_| exact(random)).collect(), (0..n).map(|_| exact(random)).collect()),
        6 => {
            let any = |random: &mut Random| {
                let modulus = random.between(0.05, 8.0);
                turned(random, modulus)
            };
            ((0..n).map(|_| any(random)).collect(), (0..n).map(|_| any(random)).collect())
        }
        _ => ((0..n).map(|_| extreme(random)).collect(), (0..n).map(|_| extreme(random)).collect()),
    }
}

fn phase(random: &mut Random, wild: bool) -> c64 {
    match random.below(if wild { 7 } else { 6 }) {
        0 => c64::new(1.0, 0.0),
        1 => random.one_of(&[c64::new(1.0, -0.0), c64::new(-1.0, 0.0), c64::new(0.0, 1.0), c64::new(-0.0, -1.0)]),
        2 | 3 => turned(random, 1.0),
        4 => {
            let modulus = random.between(0.1, 10.0);
            turned(random, modulus)
        }
        5 => exact(random),
        _ => extreme(random),
    }
}

fn step(random: &mut Random, wild: bool) -> f64 {
    match random.below(if wild { 4 } else { 3 }) {
        0 => 1.0,
        1 => random.one_of(&[0.02, 0.05, 0.1, 0.25, 2.0, 4.0]),
        2 => random.between(0.001, 20.0),
        _ => random.any_double().abs(),
    }
}

fn permittivities(random: &mut Random, n: usize, wild: bool) -> Vec<c64> {
    let style = if wild { 3 + random.below(3) } else { random.below(5) };
    (0..n)
        .map(|_| match style {
            0 => c64::new(1.0, 0.0),
            1 => c64::new(random.one_of(&[1.0, 2.0, 4.0, 12.25, 2.0736]), 0.0),
            2 => c64::new(random.between(1.0, 13.0), random.between(0.0, 2.0)),
            3 => {
                let modulus = random.between(0.1, 20.0);
                turned(random, modulus)
            }
            4 => exact(random),
            _ => extreme(random),
        })
        .collect()
}

// A value of a change: of the kinds of permittivities, or one that makes numbers that are not finite on some level, or one that is not finite or zero.
pub fn value(random: &mut Random) -> c64 {
    match random.below(16) {
        0 | 1 => bad_number(random),
        2 => c64::new(random.one_of(&[1e-320, 1e308, 5e-324, -5e-324, -1e308]), random.one_of(&[0.0, -0.0, 1.0])),
        3 | 4 => {
            // inverses, squares and products that leave the doubles on some level, or don't quite
            let exponent = match random.below(3) {
                0 => random.between(-110.0, -20.0),
                _ => random.one_of(&[-308.0, -162.0, -157.0, -157.0, -154.0, 100.0, 150.0, 154.0, 200.0, 300.0]) + random.between(-4.0, 4.0),
            };
            turned(random, 10f64.powf(exponent))
        }
        _ => {
            let wild = random.once_in(8);
            permittivities(random, 1, wild)[0]
        }
    }
}

// A list of 1 to `most` changes of a lattice's permittivities; now and then the same edge again, or no edge.
pub fn changes(random: &mut Random, c: &Case, most: usize) -> Vec<(usize, c64)> {
    let n = c.edges();
    let own = random.below(n);
    let edge = |random: &mut Random| match random.below(8) {
        0 => random.one_of(&[n, n + 1, usize::MAX, usize::MAX - 1, 1 << 63, 2 * n]),
        1 => random.one_of(&[0, n - 1, n / 3, 2 * n / 3]),
        2 | 3 => own,
        _ => random.below(n),
    };
    let most = random.one_of(&[2, 5, 10, 30]).min(most);
    (0..random.from_to(1, most)).map(|_| (edge(random), value(random))).collect()
}

fn lay(numbers: &[c64]) -> Vec<f64> {
    numbers.iter().flat_map(|z| [z.re, z.im]).collect()
}

// Numbers for a lattice of these cells and kinds.
pub fn filled(random: &mut Random, cells: [usize; 3], bloch: [bool; 3]) -> Case {
    let mut c = Case::plain(cells);
    let wild = random.once_in(8);
    for k in 0..4 {
        c.scalars[k] = step(random, wild);
    }
    c.scalars[4] = random.one_of(&[0.0, 0.5, 1.0, -0.0, -2.5, 1e300]);
    for axis in 0..3 {
        c.set_kind(axis, bloch[axis]);
        let p = phase(random, wild);
        c.set_phase(axis, p);
        // what stands beside a wall is not read
        if !bloch[axis] && random.once_in(2) {
            c.set_phase(axis, random.one_of(&[c64::new(f64::NAN, 0.0), c64::new(0.0, 0.0), c64::new(1.0, f64::INFINITY)]));
        }
        let wild_axis = wild || random.once_in(10);
        let (nodes, halves) = stretches(random, cells[axis], wild_axis);
        c.lists[2 * axis] = lay(&nodes);
        c.lists[2 * axis + 1] = lay(&halves);
    }
    let n = 3 * c.total();
    let wild_eps = wild || random.once_in(10);
    c.lists[6] = lay(&permittivities(random, n, wild_eps));
    c.coarsest = coarsest(random, &c);
    if random.once_in(3) {
        c.room = rooms(random);
    }
    c
}

// From 0 up, often about as many edges as some level has.
fn coarsest(random: &mut Random, c: &Case) -> usize {
    match random.below(6) {
        0 => 0,
        1 => 1,
        2 => random.below(3 * c.total() + 4),
        3 => random.one_of(&[usize::MAX, 1 << 40, 20_000]),
        _ => {
            let levels = source::level_lines(&c.lattice(), &Options { coarsest: 0 }).unwrap_or_default();
            if levels.is_empty() {
                return random.below(60);
            }
            let lines = &levels[random.below(levels.len())];
            let edges = 3 * lines.iter().map(|l| l.cells()).product::<usize>();
            edges + 1 - random.below(3)
        }
    }
}

// Lists lent for results: exactly full, one short, one long, an odd double, none, or far too long.
fn rooms(random: &mut Random) -> [i64; 8] {
    [0; 8].map(|_: i64| random.one_of(&[0, 0, 0, -1, 1, -2, 2, -3, 7, -1_000_000_000]))
}

pub fn kinds(random: &mut Random) -> [bool; 3] {
    [random.once_in(2), random.once_in(2), random.once_in(2)]
}

// Cells of a random lattice with at most `most` in all.
pub fn cells(random: &mut Random, most: usize) -> [usize; 3] {
    let first = random.from_to(1, most.min(64));
    let second = random.from_to(1, (most / first).min(64));
    let third = random.from_to(1, (most / first / second).min(64));
    let mut out = [first, second, third];
    for k in (1..3).rev() {
        out.swap(k, random.below(k + 1));
    }
    out
}

// A large lattice: from 1,000 to 4,096 cells.
pub fn large_cells(random: &mut Random) -> [usize; 3] {
    loop {
        let out = [random.from_to(1, 64), random.from_to(1, 64), random.from_to(1, 64)];
        let total = out[0] * out[1] * out[2];
        if (1000..=4096).contains(&total) {
            return out;
        }
    }
}

// A number that refusal 4 names, and refusal 2 in a phase.
fn bad_number(random: &mut Random) -> c64 {
    let bad = random.one_of(&[f64::NAN, f64::INFINITY, f64::NEG_INFINITY, -f64::NAN]);
    match random.below(4) {
        0 => c64::new(bad, random.one_of(&[0.0, 1.0, f64::NAN])),
        1 => c64::new(random.one_of(&[0.0, 1.0, f64::INFINITY]), bad),
        _ => c64::new(random.one_of(&[0.0, -0.0]), random.one_of(&[0.0, -0.0])),
    }
}

// One fault, or something that only looks like one, at any place.
pub fn spoil(random: &mut Random, c: &mut Case) {
    match random.below(9) {
        0 => {
            let axis = random.below(3);
            c.cells[axis] = random.one_of(&[0, 65, 66, 64, 1000, 1 << 32, usize::MAX, usize::MAX / 2 + 1]);
        }
        1 => {
            c.cells = random
                .one_of(&[[64, 64, 2], [17, 16, 16], [64, 8, 9], [16, 16, 17], [64, 64, 64], [64, 64, 1], [16, 16, 16]])
                .to_vec();
            if random.once_in(2) {
                for list in 0..7 {
                    c.lists[list] = [1.0, 0.0].repeat(c.needed(list));
                }
            }
        }
        2 | 3 => {
            let place = random.below(5);
            c.scalars[place] = random.one_of(&[
                0.0, -0.0, -1.0, f64::NAN, f64::INFINITY, f64::NEG_INFINITY, -5e-324, 5e-324, f64::MAX, f64::MIN,
            ]);
        }
        4 => {
            let axis = random.below(3);
            let p = bad_number(random);
            c.set_phase(axis, p);
        }
        5 | 6 => {
            let list = random.below(7);
            let length = c.lists[list].len();
            let new = random.one_of(&[
                0, 1, length / 2, length.saturating_sub(1), length.saturating_sub(2), length + 1, length + 2, 2 * length,
            ]);
            c.lists[list].resize(new, 1.0);
        }
        _ => {
            let list = random.below(7);
            let n = c.lists[list].len() / 2;
            if n > 0 {
                let k = random.below(n);
                let v = bad_number(random);
                c.set_number(list, k, v);
            }
        }
    }
}

// Cells and scalars given too short, or longer than they are read.
pub fn cut_off(random: &mut Random, c: &mut Case) {
    if random.once_in(2) {
        c.cells.resize(random.from_to(0, 5), 1);
    } else {
        c.scalars.resize(random.from_to(10, 18), 1.0);
    }
}
