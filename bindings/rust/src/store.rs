//! A store: the levels of a lattice in lists that it owns.

use crate::lattice::Lattice;
use crate::raw;
use crate::{Error, Number};

/// Rows one behind another, a part for each level. Starts count within their part and have its end besides.
#[derive(Clone, Debug, Default, PartialEq)]
pub struct Rows {
    pub starts: Vec<usize>,
    pub columns: Vec<usize>,
    pub values: Vec<Number>,
}

/// The twelve lists of a store; what stands in each is in include/yonaduvi.h.
#[derive(Clone, Debug, Default, PartialEq)]
pub struct Lists {
    pub ends: Vec<usize>,
    pub permittivities: Vec<Number>,
    pub forward: Rows,
    pub turned: Rows,
    pub operator: Rows,
    pub scaling: Vec<Number>,
}

impl Lists {
    /// Lists of these places, zeros.
    pub fn with_places(places: [usize; 12]) -> Lists {
        let words = |k: usize| vec![0; places[k]];
        let numbers = |k: usize| vec![Number::ZERO; places[k]];
        let rows = |k: usize| Rows { starts: words(k), columns: words(k + 1), values: numbers(k + 2) };
        Lists { ends: words(0), permittivities: numbers(1), forward: rows(2), turned: rows(5), operator: rows(8), scaling: numbers(11) }
    }
}

/// A row: columns, and the number at each.
#[derive(Clone, Copy, Debug, PartialEq)]
pub struct Row<'a> {
    pub columns: &'a [usize],
    pub values: &'a [Number],
}

impl<'a> IntoIterator for Row<'a> {
    type Item = (usize, Number);
    type IntoIter = std::iter::Zip<std::iter::Copied<std::slice::Iter<'a, usize>>, std::iter::Copied<std::slice::Iter<'a, Number>>>;

    fn into_iter(self) -> Self::IntoIter {
        self.columns.iter().copied().zip(self.values.iter().copied())
    }
}

impl Rows {
    // Both lists have the place: they are made with as many places as each other.
    fn row(&self, (first, count): (usize, usize)) -> Row<'_> {
        let places = first..first + count;
        Row { columns: &self.columns[places.clone()], values: &self.values[places] }
    }
}

/// The levels of a lattice, as an accepted setup left them.
#[derive(Clone, Debug)]
pub struct Store {
    // without its permittivities, which stand in the lists
    lattice: Lattice,
    counts: [usize; 37],
    lists: Lists,
}

impl Store {
    /// The setup of a lattice, in lists of the places that it needs.
    pub fn setup(mut lattice: Lattice) -> Result<Store, Error> {
        let (answer, needs, counts) = raw::needs(&lattice);
        accepted(answer, lattice.cells)?;
        let mut lists = Lists::with_places(needs);
        accepted(raw::setup(&lattice, &mut lists), lattice.cells)?;
        lattice.permittivities = Vec::new();
        Ok(Store { lattice, counts, lists })
    }

    /// The permittivity of an edge of level 0 set to a value; the store is then what a setup with it leaves. A refusal leaves it as it was.
    pub fn change(&mut self, edge: usize, value: Number) -> Result<(), Error> {
        accepted(raw::change(&self.lattice, edge, value, &mut self.lists), self.lattice.cells).map(|_| ())
    }

    /// How many levels there are.
    pub fn levels(&self) -> usize {
        self.counts[0]
    }

    /// The cells of a level; none if there is no such level.
    pub fn cells(&self, level: usize) -> Option<[usize; 3]> {
        (level < self.levels()).then(|| [0, 1, 2].map(|axis| self.counts[1 + 3 * level + axis]))
    }

    /// How many edges a level has; 0 if there is no such level.
    pub fn edges(&self, level: usize) -> usize {
        self.cells(level).map_or(0, |[nx, ny, nz]| 3 * nx * ny * nz)
    }

    /// The weights of an edge of `level` over the edges of `level` + 1; empty if there is no such row.
    pub fn forward(&self, level: usize, edge: usize) -> Row<'_> {
        self.lists.forward.row(raw::weight_row(&self.counts, false, &self.lists, level, edge))
    }

    /// The same weights by the edge of `level` + 1, over the edges of `level`.
    pub fn turned(&self, level: usize, edge: usize) -> Row<'_> {
        self.lists.turned.row(raw::weight_row(&self.counts, true, &self.lists, level, edge))
    }

    /// A row of a level's operator; empty if none is stored: level 0 has one only if it is the only level.
    pub fn operator(&self, level: usize, edge: usize) -> Row<'_> {
        self.lists.operator.row(raw::operator_row(&self.counts, &self.lists, level, edge))
    }

    /// How many weights lead from a level to the next; 0 for the last.
    pub fn weights(&self, level: usize) -> usize {
        (0..self.edges(level)).map(|edge| self.forward(level, edge).columns.len()).sum()
    }

    /// The permittivities of a level's edges, of the chain that the weights read; empty if there is no such level.
    pub fn permittivities(&self, level: usize) -> &[Number] {
        let first: usize = (0..level.min(self.levels())).map(|l| self.edges(l)).sum();
        &self.lists.permittivities[first..first + self.edges(level)]
    }

    /// The lattice, without its permittivities.
    pub fn lattice(&self) -> &Lattice {
        &self.lattice
    }

    /// All lists.
    pub fn lists(&self) -> &Lists {
        &self.lists
    }
}

/// A setup file read into lists of the caller's: its setup, then its changes. Answers the level count. `limit`: the most cells taken.
pub fn read(bytes: &[u8], limit: usize, lists: &mut Lists) -> Result<usize, Error> {
    // as many numbers as the largest lattice has
    let mut held = vec![Number::ZERO; 12_546];
    match raw::read(bytes, limit, &mut held, lists) {
        [0, levels] => Ok(levels),
        [number, place] => Err(Error::new(number, place, None)),
    }
}

fn accepted(answer: raw::Answer, cells: [usize; 3]) -> Result<usize, Error> {
    match answer {
        [0, levels] => Ok(levels),
        [number, place] => Err(Error::new(number, place, Some(cells))),
    }
}

#[cfg(test)]
mod tests {
    use super::*;
    use crate::{Axis, Choice, Input, Where};

    #[test]
    fn four_cells_become_two() {
        let store = Store::setup(Lattice::uniform([4, 1, 1])).unwrap();
        assert_eq!(store.levels(), 2);
        assert_eq!((store.cells(0), store.cells(1), store.cells(2)), (Some([4, 1, 1]), Some([2, 1, 1]), None));
        assert_eq!((store.weights(0), store.weights(1)), (20, 0));
        let walled = Lattice { axes: [Axis::Wall, Axis::UNIT, Axis::UNIT], ..Lattice::uniform([4, 1, 1]) };
        assert_eq!(Store::setup(walled).unwrap().weights(0), 12);
    }

    #[test]
    fn turned_rows_are_the_transpose() {
        let store = Store::setup(Lattice::uniform([6, 4, 1])).unwrap();
        let mut count = 0;
        for fine in 0..store.edges(0) {
            for (coarse, weight) in store.forward(0, fine) {
                assert!(store.turned(0, coarse).into_iter().any(|entry| entry == (fine, weight)));
                count += 1;
            }
        }
        assert_eq!(count, (0..store.edges(1)).map(|c| store.turned(0, c).columns.len()).sum::<usize>());
    }

    #[test]
    fn a_change_is_a_fresh_setup() {
        for choice in [Choice::Galerkin, Choice::Rediscretized] {
            let mut lattice = Lattice { choice, ..Lattice::uniform([5, 4, 1]) };
            let mut store = Store::setup(lattice.clone()).unwrap();
            store.change(7, Number::new(12.1, 0.25)).unwrap();
            lattice.permittivities[7] = Number::new(12.1, 0.25);
            assert_eq!(store.permittivities(0)[7], Number::new(12.1, 0.25));
            assert_eq!(*store.lists(), *Store::setup(lattice).unwrap().lists());
        }
    }

    #[test]
    fn a_refused_change_leaves_the_store() {
        let mut store = Store::setup(Lattice::uniform([4, 1, 1])).unwrap();
        let before = store.lists().clone();
        assert_eq!(store.change(12, Number::ONE).unwrap_err().at, Where::Edge(12));
        assert_eq!(store.change(3, Number::ZERO).unwrap_err().number, 10);
        assert_eq!(store.change(1, Number::real(1e-310)).unwrap_err(), Error { number: 7, place: 1, at: Where::Level(1) });
        assert_eq!(*store.lists(), before);
    }

    #[test]
    fn refusals_say_what_they_are_about() {
        let mut lattice = Lattice::uniform([4, 1, 1]);
        lattice.halves[0][2] = Number::real(f64::NAN);
        assert_eq!(Store::setup(lattice).unwrap_err().at, Where::Entry { list: Input::Halves(0), index: 2 });
        assert_eq!(Store::setup(Lattice::uniform([4, usize::MAX, 1])).unwrap_err().at, Where::Axis(1));
        let mut lattice = Lattice::uniform([4, 1, 1]);
        lattice.permittivities.pop();
        assert_eq!(Store::setup(lattice).unwrap_err().at, Where::Length(Input::Permittivities));
    }

    #[test]
    fn rows_that_are_not_there_are_empty() {
        let store = Store::setup(Lattice::uniform([4, 1, 1])).unwrap();
        assert!(store.operator(0, 0).columns.is_empty());
        assert!(store.operator(1, 6).columns.is_empty());
        assert!(store.forward(1, 0).columns.is_empty());
        assert!(store.permittivities(2).is_empty());
        assert_eq!(store.operator(1, 0).columns.len(), store.operator(1, 0).values.len());
    }
}
