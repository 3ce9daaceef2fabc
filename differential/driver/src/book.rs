// The book of permittivities, written a second time: it is fed each change's edge and value, and holds what is in force.

use crate::case::Case;
use crate::store::{self, Lists};
use crate::table;
use num_complex::Complex64 as c64;

pub struct Book<'a> {
    c: &'a Case,
    rediscretized: bool,
    // the permittivities in force, and the store that the Rust fills from them
    eps: Vec<c64>,
    pub lists: Lists,
}

impl<'a> Book<'a> {
    // At first the setup's permittivities, and what the setup gave.
    pub fn opened(c: &'a Case, rediscretized: bool, lists: Lists) -> Book<'a> {
        Book { c, rediscretized, eps: c.numbers(6), lists }
    }

    // The answer to a change.
    pub fn told(&mut self, edge: usize, value: c64) -> Result<[usize; 2], String> {
        if edge >= self.eps.len() {
            return Ok([9, edge]);
        }
        if table::bad_number(value.re, value.im) {
            return Ok([10, edge]);
        }
        let mut copy = self.eps.clone();
        copy[edge] = value;
        let levels = store::theirs(self.c, &copy, self.rediscretized).ok_or("the Rust has levels, and none with another permittivity")?;
        if let Some(level) = table::no_number(&levels) {
            return Ok([7, level]);
        }
        self.eps = copy;
        self.lists = Lists::of(&levels, self.rediscretized);
        Ok([0, levels.len()])
    }
}
