// The same setup on both sides, and a change on ours, each in a function of its own, whose instructions callgrind counts.

use crate::case::Case;
use crate::lent::words;
use crate::ours::{self, Store};
use crate::random::Random;
use crate::reach::Shape;
use crate::store::{self, length};
use crate::generate;
use num_complex::Complex64 as c64;
use std::hint::black_box;

// A whole setup, from the input on, in lists exactly as long as needed.
#[unsafe(no_mangle)]
#[inline(never)]
pub fn bench_setup_ours(c: &Case, choice: usize, s: &mut Store) -> usize {
    ours::setup(c, choice, s);
    s.out[1]
}

// What it needs.
#[unsafe(no_mangle)]
#[inline(never)]
pub fn bench_needs_ours(c: &Case, choice: usize, lists: &mut [Vec<usize>; 3]) -> usize {
    ours::needs(c, choice, lists);
    lists[0][1]
}

// A change of an edge's permittivity, in the lists that a setup filled.
#[unsafe(no_mangle)]
#[inline(never)]
pub fn bench_change_ours(c: &Case, choice: usize, edge: usize, s: &mut Store) -> usize {
    ours::change(c, choice, edge, VALUE, s);
    s.out[1]
}

#[unsafe(no_mangle)]
#[inline(never)]
pub fn bench_setup_rust(c: &Case, choice: usize) -> usize {
    black_box(store::theirs(c, &c.numbers(6), choice > 0)).map_or(0, |levels| levels.len())
}

// What the permittivity of a changed edge is set to.
pub const VALUE: c64 = c64::new(2.5, 0.25);

// An edge along x: in the middle of a lattice, or at its corner.
fn edge(c: &Case, place: &str) -> Option<usize> {
    let [x, y, z] = [0, 1, 2].map(|axis| c.cells[axis] / 2);
    match place {
        "middle" => Some((z * c.cells[1] + y) * c.cells[0] + x),
        "corner" => Some(0),
        _ => None,
    }
}

// How many numbers of its store stand in the rows that a change of an edge reaches.
pub fn reached(c: &Case, choice: usize, edge: usize) -> usize {
    let ones = vec![c64::new(1.0, 0.0); c.edges()];
    store::theirs(c, &ones, choice > 0).map_or(0, |levels| {
        let shape = Shape::of(c, &levels, choice > 0);
        shape.stored(&shape.reach(edge))
    })
}

// A Bloch lattice with unit stretches and any permittivities, shift 0.5, all levels.
pub fn bloch(cells: [usize; 3]) -> Case {
    let mut c = generate::filled(&mut Random::new(1), cells, [true; 3]);
    c.scalars = Case::plain(cells).scalars;
    c.scalars[4] = 0.5;
    for axis in 0..3 {
        c.set_kind(axis, true);
        c.set_phase(axis, c64::new(0.6, 0.8));
        c.lists[2 * axis] = [1.0, 0.0].repeat(cells[axis]);
        c.lists[2 * axis + 1] = [1.0, 0.0].repeat(cells[axis]);
    }
    c.coarsest = 1;
    c
}

// The lists that a setup needs, as a user lends them.
pub fn lists(c: &Case, choice: usize) -> Store {
    let mut asked = [2, 12, 37].map(words);
    ours::needs(c, choice, &mut asked);
    Store::lent(std::array::from_fn(|k| length(k, asked[1][k])), 2)
}

// A setup, its needs or a change on one side: its cells as 16x16x16, its choice as 0 or 1, for a change the place of the edge. Of `reached` the number alone.
pub fn run(args: &[String]) -> Result<(), String> {
    let wrong = "a name, cells as 16x16x16, 0 or 1, and for a change middle or corner".to_string();
    let [name, cells, choice, place @ ..] = args else {
        return Err(wrong);
    };
    let cells: Vec<usize> = cells.split('x').filter_map(|n| n.parse().ok()).collect();
    let (Ok(cells), Ok(choice)) = (<[usize; 3]>::try_from(cells), choice.parse()) else {
        return Err(wrong);
    };
    let c = bloch(cells);
    let edge = || place.first().and_then(|p| edge(&c, p)).ok_or(&wrong);
    let levels = match name.as_str() {
        "setup_ours" => {
            let mut s = lists(&c, choice);
            let levels = bench_setup_ours(black_box(&c), choice, black_box(&mut s));
            black_box(&s.doubles);
            levels
        }
        "change_ours" => {
            let mut s = lists(&c, choice);
            ours::setup(&c, choice, &mut s);
            let levels = bench_change_ours(black_box(&c), choice, edge()?, black_box(&mut s));
            black_box(&s.doubles);
            levels
        }
        "reached" => {
            println!("{}", reached(&c, choice, edge()?));
            return Ok(());
        }
        "needs_ours" => bench_needs_ours(black_box(&c), choice, black_box(&mut [2, 12, 37].map(words))),
        "setup_rust" => bench_setup_rust(black_box(&c), choice),
        _ => return Err(format!("no benchmark {name}")),
    };
    println!("{name}: {levels} levels");
    Ok(())
}
