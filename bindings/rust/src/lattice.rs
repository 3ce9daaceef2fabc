//! The input of a setup.

use crate::Number;

/// How an axis ends.
#[derive(Clone, Copy, Debug, PartialEq)]
pub enum Axis {
    Wall,
    /// Periodic, with its phase.
    Bloch(Number),
}

impl Axis {
    /// Periodic with the phase 1.
    pub const UNIT: Axis = Axis::Bloch(Number::ONE);
}

/// What the operators of the coarse levels are made of.
#[derive(Clone, Copy, Debug, PartialEq, Eq)]
pub enum Choice {
    /// Restriction, finer operator, interpolation.
    Galerkin,
    /// A lattice of the level's own.
    Rediscretized,
}

/// A lattice, and what is wanted of it. Nothing is checked here: a setup answers or refuses any content.
#[derive(Clone, Debug, PartialEq)]
pub struct Lattice {
    /// 1 to 64 each, at most 4,096 in all.
    pub cells: [usize; 3],
    pub steps: [f64; 3],
    pub k0: f64,
    pub shift: f64,
    pub axes: [Axis; 3],
    /// The stretch at each node of an axis, one a cell.
    pub nodes: [Vec<Number>; 3],
    /// The stretch half a step after each node.
    pub halves: [Vec<Number>; 3],
    /// One for each edge, by its number.
    pub permittivities: Vec<Number>,
    pub choice: Choice,
    /// A level of at most that many edges is the last.
    pub coarsest: usize,
}

impl Lattice {
    /// Bloch axes with the phase 1, every other number 1, shift 0, Galerkin, coarsest 1. Cells beyond the limits get empty lists.
    pub fn uniform(cells: [usize; 3]) -> Lattice {
        let within = cells.iter().all(|&n| n <= 64) && cells[0] * cells[1] * cells[2] <= 4096;
        let stretches = || cells.map(|n| vec![Number::ONE; if within { n } else { 0 }]);
        Lattice {
            cells,
            steps: [1.0; 3],
            k0: 1.0,
            shift: 0.0,
            axes: [Axis::UNIT; 3],
            nodes: stretches(),
            halves: stretches(),
            permittivities: vec![Number::ONE; if within { 3 * cells[0] * cells[1] * cells[2] } else { 0 }],
            choice: Choice::Galerkin,
            coarsest: 1,
        }
    }

    /// The number of the edge of a component (0, 1, 2: x, y, z) at a place; none if there is no such edge.
    pub fn edge(&self, component: usize, place: [usize; 3]) -> Option<usize> {
        let [nx, ny, nz] = self.cells;
        let [i, j, k] = place;
        (component < 3 && i < nx && j < ny && k < nz).then(|| component * (nx * ny * nz) + (k * ny + j) * nx + i)
    }

    /// An absorber at both sides of an axis, over `width` cells: stretches 1 + strength d^power, d growing from 0 to 1 at the side.
    pub fn absorb(&mut self, axis: usize, width: usize, strength: Number, power: u32) {
        let n = self.nodes[axis].len() as f64;
        let w = width as f64;
        let at = |place: f64| {
            let depth = if width == 0 { 0.0 } else { (w - place).max(place - (n - w)).max(0.0) / w };
            let grown = (0..power).fold(1.0, |grown, _| grown * depth);
            Number::new(1.0 + strength.re * grown, strength.im * grown)
        };
        for (m, s) in self.nodes[axis].iter_mut().enumerate() {
            *s = at(m as f64);
        }
        for (m, s) in self.halves[axis].iter_mut().enumerate() {
            *s = at(m as f64 + 0.5);
        }
    }

    /// Steps, k0, shift and axis kinds as the library takes them.
    pub(crate) fn scalars(&self) -> [f64; 14] {
        let mut all = [0.0; 14];
        all[..3].copy_from_slice(&self.steps);
        all[3] = self.k0;
        all[4] = self.shift;
        for (axis, kind) in self.axes.iter().enumerate() {
            if let Axis::Bloch(p) = kind {
                all[5 + 3 * axis..8 + 3 * axis].copy_from_slice(&[1.0, p.re, p.im]);
            }
        }
        all
    }

    /// The choice as the library takes it.
    pub(crate) fn choice_word(&self) -> usize {
        (self.choice == Choice::Rediscretized) as usize
    }
}

#[cfg(test)]
mod tests {
    use super::*;

    #[test]
    fn edges_are_numbered_by_component_then_place() {
        let l = Lattice::uniform([4, 3, 2]);
        assert_eq!(l.edge(0, [0, 0, 0]), Some(0));
        assert_eq!(l.edge(1, [3, 2, 1]), Some(24 + 23));
        assert_eq!(l.edge(2, [1, 0, 1]), Some(48 + 13));
        assert_eq!(l.edge(0, [4, 0, 0]), None);
        assert_eq!(l.edge(3, [0, 0, 0]), None);
    }

    #[test]
    fn an_absorber_grows_to_both_sides() {
        let mut l = Lattice::uniform([4, 1, 1]);
        l.absorb(0, 1, Number::new(1.0, 3.0), 1);
        assert_eq!(l.nodes[0], [Number::new(2.0, 3.0), Number::ONE, Number::ONE, Number::ONE]);
        assert_eq!(l.halves[0], [Number::new(1.5, 1.5), Number::ONE, Number::ONE, Number::new(1.5, 1.5)]);
    }

    #[test]
    fn a_wall_is_kind_0() {
        let l = Lattice { axes: [Axis::Wall, Axis::Bloch(Number::new(0.6, 0.8)), Axis::UNIT], ..Lattice::uniform([1, 1, 1]) };
        assert_eq!(l.scalars()[5..], [0.0, 0.0, 0.0, 1.0, 0.6, 0.8, 1.0, 1.0, 0.0]);
    }
}
