// What a setup needs, against the lists that the Rust's levels fill: the answer, the places of the twelve lists, the levels' cells.

use crate::case::Case;
use crate::lent::{Left, lent, same_words, words};
use crate::ours;
use source::Level;

// What was found equal.
#[derive(Default)]
pub struct Counts {
    // calls that were not refused, and how many of all calls had lists of other lengths
    pub given: u64,
    pub other_lengths: u64,
    // calls refused, by number
    pub refused: [u64; 9],
}

// What a call leaves in the two lists.
#[derive(Clone, Copy)]
pub enum Needed<'a> {
    Untouched,
    Zeros,
    Given(&'a [usize; 12], &'a [usize; 37]),
}

// The level count, then the cells of axis a of level L at 1 + 3 L + a, zeros behind.
pub fn counts_of(levels: &[Level]) -> [usize; 37] {
    let mut out = [0; 37];
    out[0] = levels.len();
    for (k, line) in levels.iter().flat_map(|l| &l.lines).enumerate() {
        out[1 + k] = line.cells();
    }
    out
}

// One input and one choice: in lists of 2, 12 and 37 words and, now and then, of other lengths.
pub fn compare(c: &Case, choices: [usize; 3], answer: [usize; 2], left: Needed, counts: &mut Counts) -> Result<(), String> {
    call(c, choices[0], [2, 12, 37], answer, left)?;
    if c.room != [0; 8] {
        call(c, choices[2], [lent(2, c.room[0]), lent(12, c.room[1]), lent(37, c.room[2])], answer, left)?;
        counts.other_lengths += 1;
    }
    match answer[0] {
        0 => counts.given += 1,
        number => counts.refused[number] += 1,
    }
    Ok(())
}

fn call(c: &Case, choice: usize, lengths: [usize; 3], answer: [usize; 2], left: Needed) -> Result<(), String> {
    let mut lists = lengths.map(words);
    ours::needs(c, choice, &mut lists);
    let (needs, counts) = match left {
        Needed::Untouched => (Left::Untouched, Left::Untouched),
        Needed::Zeros => (Left::Zeros, Left::Zeros),
        Needed::Given(needs, counts) => (Left::Given(&needs[..]), Left::Given(&counts[..])),
    };
    for (name, list, left) in [("out", &lists[0], Left::Given(&answer[..])), ("needs", &lists[1], needs), ("counts", &lists[2], counts)] {
        same_words(&format!("needs of a {} setup, answer {answer:?}, {name}", ["Galerkin", "rediscretized"][choice.min(1)]), list, left)?;
    }
    Ok(())
}
