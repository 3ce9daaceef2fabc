// One input of the comparison, as both sides get it.

use num_complex::Complex64 as c64;
use source::{Boundaries3d, Edges, Grid3d, Lattice};
use std::fmt::Write;

#[derive(Clone)]
pub struct Case {
    pub cells: Vec<usize>,
    // dx, dy, dz, k0, shift, and for each axis its kind (0 for a wall, 1 for Bloch) and the two parts of its phase
    pub scalars: Vec<f64>,
    // x nodes, x halves, y, z, permittivities: two doubles a number
    pub lists: [Vec<f64>; 7],
    pub coarsest: usize,
    // how much longer than needed each list is that is lent for results, in doubles or words
    pub room: [i64; 8],
    // the changes after an accepted setup, an edge and its value each
    pub changes: Vec<(usize, c64)>,
    // what the tries on the store begin with: spoiled calls, altered stores; 0 for none
    pub tries: u64,
}

impl Case {
    // Every number 1, every axis a wall.
    pub fn plain(cells: [usize; 3]) -> Case {
        let ones = |n: usize| -> Vec<f64> { [1.0, 0.0].repeat(n) };
        let [nx, ny, nz] = cells;
        Case {
            cells: cells.to_vec(),
            scalars: vec![1.0, 1.0, 1.0, 1.0, 0.0, 0.0, 1.0, 0.0, 0.0, 1.0, 0.0, 0.0, 1.0, 0.0],
            lists: [ones(nx), ones(nx), ones(ny), ones(ny), ones(nz), ones(nz), ones(3 * nx * ny * nz)],
            coarsest: 0,
            room: [0; 8],
            changes: Vec::new(),
            tries: 0,
        }
    }

    pub fn total(&self) -> usize {
        self.cells[0] * self.cells[1] * self.cells[2]
    }

    pub fn edges(&self) -> usize {
        3 * self.total()
    }

    pub fn is_bloch(&self, axis: usize) -> bool {
        self.scalars[5 + 3 * axis] != 0.0
    }

    pub fn phase(&self, axis: usize) -> c64 {
        c64::new(self.scalars[6 + 3 * axis], self.scalars[7 + 3 * axis])
    }

    // A number of its own for most inputs.
    pub fn mark(&self) -> u64 {
        let doubles = self.scalars.iter().chain(self.lists.iter().flatten()).map(|x| x.to_bits());
        let words = self.cells.iter().chain([&self.coarsest]).map(|&n| n as u64);
        words.chain(doubles).fold(self.tries, |m, w| (m ^ w).wrapping_mul(0x9e37_79b9_7f4a_7c15).rotate_left(23))
    }

    pub fn set_kind(&mut self, axis: usize, bloch: bool) {
        self.scalars[5 + 3 * axis] = if bloch { 1.0 } else { 0.0 };
    }

    pub fn set_phase(&mut self, axis: usize, p: c64) {
        self.scalars[6 + 3 * axis] = p.re;
        self.scalars[7 + 3 * axis] = p.im;
    }

    pub fn set_number(&mut self, list: usize, k: usize, v: c64) {
        self.lists[list][2 * k] = v.re;
        self.lists[list][2 * k + 1] = v.im;
    }

    // How many numbers list i has to have.
    pub fn needed(&self, list: usize) -> usize {
        if list == 6 { 3 * self.total() } else { self.cells[list / 2] }
    }

    pub fn numbers(&self, list: usize) -> Vec<c64> {
        self.lists[list].chunks_exact(2).map(|z| c64::new(z[0], z[1])).collect()
    }

    // The lattice as the Rust has it. What Boundaries3d holds beside the kinds nothing reads here, and neither the
    // grid's corner.
    pub fn lattice(&self) -> Lattice {
        let kind = |axis: usize| {
            if self.is_bloch(axis) { Edges::Bloch { p: self.phase(axis) } } else { Edges::Pml }
        };
        Lattice {
            grid: Grid3d {
                nx: self.cells[0],
                ny: self.cells[1],
                nz: self.cells[2],
                dx: self.scalars[0],
                dy: self.scalars[1],
                dz: self.scalars[2],
                x0: 0.0,
                y0: 0.0,
                z0: 0.0,
            },
            boundaries: Boundaries3d {
                x: kind(0),
                y: kind(1),
                z: kind(2),
                reflection: 0.0,
                order: 0.0,
                real_stretch: 0.0,
            },
            k0: self.scalars[3],
            nodes: [self.numbers(0), self.numbers(2), self.numbers(4)],
            halves: [self.numbers(1), self.numbers(3), self.numbers(5)],
        }
    }

    // The input, so that it can be written down again: lists of ones are left out, and equal numbers in a row counted.
    pub fn text(&self) -> String {
        let mut out = format!("  cells {:?}, coarsest {}\n", self.cells, self.coarsest);
        let _ = writeln!(out, "  steps, k0, shift; kind and phase of x, y, z: {:?}", self.scalars);
        if self.room != [0; 8] {
            let _ = writeln!(out, "  lent lists longer than needed by {:?}", self.room);
        }
        for (edge, value) in &self.changes {
            let _ = writeln!(out, "  change: edge {edge} to {:?} + {:?}i", value.re, value.im);
        }
        if self.tries != 0 {
            let _ = writeln!(out, "  tries on the store from {}", self.tries);
        }
        let names = ["x nodes", "x halves", "y nodes", "y halves", "z nodes", "z halves", "permittivities"];
        for (name, list) in names.iter().zip(&self.lists) {
            let numbers: Vec<&[f64]> = list.chunks(2).collect();
            let bits = |z: &[f64]| -> Vec<u64> { z.iter().map(|x| x.to_bits()).collect() };
            let mut text = String::new();
            let mut k = 0;
            while k < numbers.len() {
                let same = numbers[k..].iter().take_while(|z| bits(z) == bits(numbers[k])).count();
                let _ = write!(text, " {:?}{}", numbers[k], if same > 1 { format!("x{same}") } else { String::new() });
                k += same;
            }
            let plain = list.len() % 2 == 0 && numbers.iter().all(|z| bits(z) == bits(&[1.0, 0.0]));
            let _ = match plain {
                true => writeln!(out, "  {name}: {} ones", numbers.len()),
                false => writeln!(out, "  {name}, {} doubles:{text}", list.len()),
            };
        }
        out
    }
}
