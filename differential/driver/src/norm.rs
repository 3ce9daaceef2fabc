// Where the squares and `norm` part ways in Line::coarser. The specification allows it only where the sum of the squares lies
// within T x T x 2^-49 of T x T, and never where the imaginary part is 0.

use crate::random::Random;
use num_complex::Complex64 as c64;
use source::{ANISOTROPY, Line, Stretched, squares};

#[derive(Default)]
pub struct Departures {
    // lines tried, those that differ, and which of the two joined the pair
    pub lines: u64,
    pub only_norm: u64,
    pub only_squares: u64,
    // the greatest distance of the sum from T x T, in units of T x T x 2^-52
    pub farthest: f64,
    // the first few
    pub shown: Vec<String>,
}

pub fn target(level: usize) -> f64 {
    (1u64 << (level + 1)) as f64 * ANISOTROPY
}

impl Departures {
    // Every line of a lattice joined both ways.
    pub fn look_at(&mut self, maps: &Stretched, levels: &[&[Line; 3]]) -> Result<(), String> {
        for (level, lines) in levels.iter().enumerate() {
            for (axis, line) in lines.iter().enumerate() {
                self.line(line, &maps.across[axis], target(level))?;
            }
        }
        Ok(())
    }

    pub fn line(&mut self, line: &Line, x: &[c64], t: f64) -> Result<(), String> {
        self.lines += 1;
        let (by_squares, by_norm) = (line.coarser(x, t), line.coarser_by_norm(x, t));
        // behind the first difference the two try other pairs
        let Some(k) = (0..by_squares.ends.len().min(by_norm.ends.len()))
            .find(|&k| by_squares.ends[k] != by_norm.ends[k])
        else {
            return Ok(());
        };
        let from = by_squares.ends[k - 1];
        let to = by_squares.ends[k].max(by_norm.ends[k]);
        let d = x[to] - x[from];
        let distance = (squares(d) - t * t).abs();
        let text = format!(
            "T = {t}, the pair from {from} to {to} of {:?}: {:?} + {:?}i, norm {:?}, squares {:?}",
            line.ends, d.re, d.im, d.norm(), squares(d)
        );
        if d.im == 0.0 || distance.is_nan() || distance > t * t * 0.5f64.powi(49) {
            return Err(format!("a departure from norm that the specification doesn't allow: {text}"));
        }
        if by_squares.ends[k] > by_norm.ends[k] {
            self.only_squares += 1;
        } else {
            self.only_norm += 1;
        }
        self.farthest = self.farthest.max(distance / (t * t) * 2f64.powi(52));
        if self.shown.len() < 4 {
            self.shown.push(text);
        }
        Ok(())
    }

    pub fn found(&self) -> u64 {
        self.only_norm + self.only_squares
    }
}

// The map of an axis with these halves.
fn map(halves: &[c64]) -> Vec<c64> {
    let mut x = vec![c64::new(0.0, 0.0)];
    for p in 0..2 * halves.len() {
        x.push(x[p] + 0.5 * halves[p / 2]);
    }
    x
}

// The two known lines: 4 cells, T = 3. The first pair is joined by `norm` alone, and by the squares alone.
// Their halves.
pub fn known(found: &mut Departures) -> Result<[c64; 2], String> {
    let line = Line::finest(4);
    let halves =
        [c64::new(1.3935744125000509, 0.5549327498221188), c64::new(1.4303094224650592, 0.4519014892735685)];
    for (half, by_norm) in halves.into_iter().zip([true, false]) {
        let x = map(&[half; 4]);
        let joined = |l: Line| l.ends[1] == 4;
        if joined(line.coarser_by_norm(&x, 3.0)) != by_norm || joined(line.coarser(&x, 3.0)) == by_norm {
            return Err(format!("halves of {half}: norm and the squares don't part ways as they should"));
        }
        found.line(&line, &x, 3.0)?;
    }
    Ok(halves)
}

// A number within a few units in the last place of modulus t.
pub fn near(random: &mut Random, t: f64, real: bool) -> c64 {
    let nudge = |random: &mut Random, v: f64| f64::from_bits(v.to_bits().wrapping_add(random.below(9) as u64).wrapping_sub(4));
    if real {
        return c64::new(nudge(random, t), 0.0);
    }
    let angle = random.between(0.05, 1.5);
    c64::new(nudge(random, t * angle.cos()), nudge(random, t * angle.sin()))
}

// Lines of 4 cells whose first pair is as long as T allows, in the complex plane and on the real axis.
pub fn stress(random: &mut Random, lines: usize, found: &mut Departures) -> Result<(), String> {
    let line = Line::finest(4);
    for k in 0..lines {
        let t = target(k % 12);
        let half = near(random, 0.5 * t, k % 8 == 7);
        found.line(&line, &map(&[half; 4]), t)?;
    }
    Ok(())
}
