// num-complex's operations against the specification's formulas, each double operation rounded once.

use crate::random::Random;
use num_complex::Complex64 as c64;

fn same(a: c64, b: (f64, f64)) -> bool {
    let one = |x: f64, y: f64| x.to_bits() == y.to_bits() || (x.is_nan() && y.is_nan());
    one(a.re, b.0) && one(a.im, b.1)
}

// Ordinary doubles, small whole numbers, signed zeros, any exponent, and now and then what isn't finite.
fn double(random: &mut Random) -> f64 {
    match random.below(8) {
        0 => random.one_of(&[0.0, -0.0, 1.0, -1.0, 2.0, 0.5, 3.0]),
        1 => random.any_double(),
        2 if random.once_in(8) => random.one_of(&[f64::INFINITY, f64::NEG_INFINITY, f64::NAN, f64::MAX, 5e-324]),
        _ => random.between(-10.0, 10.0),
    }
}

pub fn check(random: &mut Random, pairs: usize) -> Result<u64, String> {
    let mut done = 0;
    for _ in 0..pairs {
        let (a, b, c, d, r) = (double(random), double(random), double(random), double(random), double(random));
        let (x, y) = (c64::new(a, b), c64::new(c, d));
        let n = c * c + d * d;
        let mut assigned = [x, x, x];
        assigned[0] += y;
        assigned[1] *= y;
        assigned[2] /= y;
        let sum: c64 = [x, y].into_iter().sum();
        let product: c64 = [x, y].into_iter().product();
        let start = (1.0 * a - 0.0 * b, 1.0 * b + 0.0 * a);
        for (name, theirs, ours) in [
            ("sum", x + y, (a + c, b + d)),
            ("difference", x - y, (a - c, b - d)),
            ("product", x * y, (a * c - b * d, a * d + b * c)),
            ("quotient", x / y, ((a * c + b * d) / n, (b * c - a * d) / n)),
            ("real over pair", r / y, (r * c / n, 0.0 - r * d / n)),
            ("pair over real", x / r, (a / r, b / r)),
            ("real times pair", r * x, (r * a, r * b)),
            ("pair times real", x * r, (a * r, b * r)),
            ("1 - t", 1.0 - x, (1.0 - a, 0.0 - b)),
            ("inverse", y.inv(), (c / n, -d / n)),
            ("conjugate", x.conj(), (a, -b)),
            ("negation", -x, (-a, -b)),
            ("+=", assigned[0], (a + c, b + d)),
            ("*=", assigned[1], (a * c - b * d, a * d + b * c)),
            ("/=", assigned[2], ((a * c + b * d) / n, (b * c - a * d) / n)),
            ("sum of a list, from +0", sum, ((0.0 + a) + c, (0.0 + b) + d)),
            (
                "product of a list, from (1, 0)", product,
                (start.0 * c - start.1 * d, start.0 * d + start.1 * c),
            ),
            ("norm as hypot", c64::new(x.norm(), 0.0), (a.hypot(b), 0.0)),
        ] {
            if !same(theirs, ours) {
                return Err(format!(
                    "num-complex, {name}: {theirs:?}, the specification {ours:?}; x = {x:?}, y = {y:?}, r = {r:?}"
                ));
            }
            done += 1;
        }
    }
    Ok(done)
}
