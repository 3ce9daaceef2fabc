// Which rows a change of one permittivity reaches, and what they come to from what the lists hold. The reach is written from the specification's sentence:
// a row is reached when some number its rule reads, by position, is the changed one or stands in a reached row. What a reached row comes to is worked out
// by the Rust's own functions, a level at a time, from the numbers found; of what they give the reached rows alone are taken.

use crate::case::Case;
use crate::table::all_finite;
use num_complex::Complex64 as c64;
use source::{Axis, Grid3d, Lattice, Level, Sparse, Stretched, Transfer};

// The levels of one input and one choice. Of `levels` only lines, starts and columns are read here.
pub struct Shape<'a> {
    pub levels: &'a [Level],
    pub rediscretized: bool,
    shift: f64,
    stretched: Stretched,
    lattices: Vec<Lattice>,
    // of each transfer, on each axis: the fine node that each coarse one is
    nodes: Vec<[Vec<usize>; 3]>,
}

// Whether a row is reached, by its number: on each level those of both chains of permittivities and of the operator, level 0's too where its rows are
// only computed; of each transfer the forward and the turned rows. A share is reached when its turned row is; a volume never is.
pub struct Reach {
    pub eps: Vec<Vec<bool>>,
    pub averaged: Vec<Vec<bool>>,
    pub operators: Vec<Vec<bool>>,
    pub forward: Vec<Vec<bool>>,
    pub turned: Vec<Vec<bool>>,
}

impl<'a> Shape<'a> {
    pub fn of(c: &Case, levels: &'a [Level], rediscretized: bool) -> Shape<'a> {
        let finest = c.lattice();
        let stretched = Stretched::new(&finest);
        let mut lattices = vec![finest.clone()];
        lattices.extend(levels[1..].iter().map(|l| source::rediscretized_lattice(&finest, &l.lines, &stretched)));
        let nodes = levels.windows(2).map(|two| [0, 1, 2].map(|a| two[0].lines[a].nodes_of(&two[1].lines[a]))).collect();
        Shape { levels, rediscretized, shift: c.scalars[4], stretched, lattices, nodes }
    }

    fn grid(&self, level: usize) -> &Grid3d {
        &self.lattices[level].grid
    }

    // The fine edges of one component in the cell of a coarse edge, at these fine places across.
    fn in_cell(&self, t: usize, component: Axis, place: usize, mut across: [usize; 3]) -> Vec<usize> {
        let a = component.index();
        let nodes = &self.nodes[t][a];
        let edges = (nodes[place]..nodes[place + 1]).map(|m| {
            across[a] = m;
            self.grid(t).index(component, (across[0], across[1], across[2]))
        });
        edges.collect()
    }

    // What the permittivity of coarse edge r reads of the fine level.
    fn coarse_reads(&self, t: usize, r: usize) -> Vec<usize> {
        let (component, at) = self.grid(t + 1).at(r);
        self.in_cell(t, component, at[component.index()], [0, 1, 2].map(|b| self.nodes[t][b][at[b]]))
    }

    // The fine nodes around coarse node m: those behind the coarse node before it, which on a Bloch axis the last is for the first; itself; those
    // before the coarse node after it.
    fn around(&self, t: usize, axis: usize, m: usize) -> Vec<usize> {
        let nodes = &self.nodes[t][axis];
        let cells = nodes.len() - 1;
        let below = match m {
            0 if self.is_bloch(axis) => nodes[cells - 1] + 1..nodes[cells],
            0 => 0..0,
            _ => nodes[m - 1] + 1..nodes[m],
        };
        below.chain(nodes[m]..nodes[m + 1]).collect()
    }

    fn is_bloch(&self, axis: usize) -> bool {
        matches!(self.lattices[0].boundaries.edges(Axis::ALL[axis]), source::Edges::Bloch { .. })
    }

    // What the averaged permittivity of coarse edge r reads.
    fn averaged_reads(&self, t: usize, r: usize) -> Vec<usize> {
        let (component, at) = self.grid(t + 1).at(r);
        let a = component.index();
        let (b, c) = ((a + 1) % 3, (a + 2) % 3);
        let mut out = Vec::new();
        for fb in self.around(t, b, at[b]) {
            for fc in self.around(t, c, at[c]) {
                let mut across = [0; 3];
                (across[b], across[c]) = (fb, fc);
                out.extend(self.in_cell(t, component, at[a], across));
            }
        }
        out
    }

    // Which fine permittivity the weight of fine edge r at a coarse edge reads: at its own place along, at the coarse node's places across.
    fn weight_read(&self, t: usize, r: usize, column: usize) -> usize {
        let (component, at) = self.grid(t).at(r);
        let (_, coarse) = self.grid(t + 1).at(column);
        let place = [0, 1, 2].map(|b| if b == component.index() { at[b] } else { self.nodes[t][b][coarse[b]] });
        self.grid(t).index(component, (place[0], place[1], place[2]))
    }

    // Which permittivities row r of a level's own lattice reads: its edge's, and those of the free edges at each node of its gradient.
    fn stencil_reads(&self, level: usize, r: usize) -> Vec<usize> {
        let l = &self.lattices[level];
        if l.fixed(r) {
            return Vec::new();
        }
        let nodes = l.gradient(r).into_iter().flat_map(|(node, _)| l.divergence(node));
        std::iter::once(r).chain(nodes.map(|(edge, _)| edge).filter(|&edge| !l.fixed(edge))).collect()
    }

    // The row of a level's own lattice, by column.
    fn stencil(&self, level: usize, eps: &[c64], r: usize) -> Vec<(usize, c64)> {
        let (mut scratch, mut row) = (Vec::new(), Vec::new());
        source::stencil_row(&self.lattices[level], eps, self.shift, r, &mut scratch, &mut row);
        row
    }

    // The columns of a level's operator, row by row: level 0's, where it is not stored, are the lattice's.
    fn operator_columns(&self, level: usize) -> Vec<Vec<usize>> {
        let n = self.grid(level).unknowns();
        match &self.levels[level].operator {
            Some(o) => (0..n).map(|r| o.columns[o.starts[r]..o.starts[r + 1]].to_vec()).collect(),
            None => {
                let ones = vec![c64::new(1.0, 0.0); n];
                (0..n).map(|r| self.stencil(level, &ones, r).into_iter().map(|(column, _)| column).collect()).collect()
            }
        }
    }

    pub fn reach(&self, edge: usize) -> Reach {
        let any = |flags: &[bool], reads: Vec<usize>| reads.into_iter().any(|k| flags[k]);
        let rows = |level: usize| 0..self.grid(level).unknowns();
        let first: Vec<bool> = rows(0).map(|r| r == edge).collect();
        let own = rows(0).map(|r| any(&first, self.stencil_reads(0, r))).collect();
        let mut f = Reach { eps: vec![first.clone()], averaged: vec![first], operators: vec![own], forward: Vec::new(), turned: Vec::new() };
        for t in 0..self.nodes.len() {
            let Some((p, r)) = &self.levels[t].transfer else { break };
            let eps: Vec<bool> = rows(t + 1).map(|k| any(&f.eps[t], self.coarse_reads(t, k))).collect();
            let averaged: Vec<bool> = rows(t + 1).map(|k| any(&f.averaged[t], self.averaged_reads(t, k))).collect();
            let weight = |k: usize, column: usize| eps[column] || f.eps[t][self.weight_read(t, k, column)];
            let forward: Vec<bool> = rows(t).map(|k| p.row(k).any(|(column, _)| weight(k, column))).collect();
            let turned: Vec<bool> = rows(t + 1).map(|k| r.row(k).any(|(fine, _)| forward[fine])).collect();
            let operator = if self.rediscretized {
                rows(t + 1).map(|k| any(&averaged, self.stencil_reads(t + 1, k))).collect()
            } else {
                let columns = self.operator_columns(t);
                let reached = |fine: usize| f.operators[t][fine] || columns[fine].iter().any(|&k| forward[k]);
                rows(t + 1).map(|k| turned[k] || r.row(k).any(|(fine, _)| reached(fine))).collect()
            };
            f.eps.push(eps);
            f.averaged.push(averaged);
            f.forward.push(forward);
            f.turned.push(turned);
            f.operators.push(operator);
        }
        f
    }

    // The reach once more, by the Rust's functions alone: the changed permittivity is a NaN, which stays in every sum, product and quotient, and so is
    // every number of a row that has one. All others are 1.
    pub fn spread(&self, edge: usize) -> Reach {
        let number = |r: usize| if r == edge { f64::NAN } else { 1.0 };
        let mut eps: Vec<c64> = (0..self.grid(0).unknowns()).map(|r| c64::new(number(r), 0.0)).collect();
        let single: Vec<usize> = (0..=eps.len()).collect();
        let first = spoilt(&mut eps, &single);
        let mut a = source::assembled(&self.lattices[0], &eps, self.shift);
        let own = spoilt(&mut a.values, &a.starts);
        let mut f = Reach { eps: vec![first.clone()], averaged: vec![first], operators: vec![own], forward: Vec::new(), turned: Vec::new() };
        let mut averaged = eps.clone();
        for t in 0..self.nodes.len() {
            let (fine, coarse) = (&self.lattices[t], &self.lattices[t + 1]);
            let lines = (&self.levels[t].lines, &self.levels[t + 1].lines);
            let mut next = source::coarse_eps(&fine.grid, &coarse.grid, &eps, &self.nodes[t]);
            f.eps.push(spoilt(&mut next, &single));
            averaged = source::averaged_eps(&fine.grid, &coarse.grid, &averaged, lines, [0, 1, 2].map(|a| self.is_bloch(a)));
            f.averaged.push(spoilt(&mut averaged, &single));
            let mut p = Transfer::from_rows(&source::prolongation((fine, &eps), (coarse, &next), lines, &self.stretched));
            f.forward.push(spoilt(&mut p.values, &p.starts));
            let mut r = p.transpose(coarse.grid.unknowns());
            f.turned.push(spoilt(&mut r.values, &r.starts));
            a = match self.rediscretized {
                true => source::assembled(coarse, &averaged, self.shift),
                false => source::galerkin(
                    &|k, _, row: &mut Vec<(usize, c64)>| {
                        row.clear();
                        row.extend(a.row(k));
                    },
                    &p,
                    &r,
                ),
            };
            f.operators.push(spoilt(&mut a.values, &a.starts));
            eps = next;
        }
        f
    }

    // How many stored numbers stand in reached rows, the changed permittivity among them.
    pub fn stored(&self, f: &Reach) -> usize {
        let ones = |flags: &[Vec<bool>]| flags.iter().flatten().filter(|&&x| x).count();
        let terms = |flags: &[bool], starts: &[usize]| (0..flags.len()).filter(|&r| flags[r]).map(|r| starts[r + 1] - starts[r]).sum::<usize>();
        let mut n = ones(&f.eps);
        if self.rediscretized {
            n += ones(&f.averaged[1..]) + ones(&f.turned);
        }
        for (k, level) in self.levels.iter().enumerate() {
            if let Some((p, r)) = &level.transfer {
                n += terms(&f.forward[k], &p.starts) + terms(&f.turned[k], &r.starts);
            }
            if let Some(o) = &level.operator {
                n += terms(&f.operators[k], &o.starts);
            }
        }
        n
    }
}

// The numbers of a store: on each level those of both chains and of its operator, of each transfer those of the forward and the turned rows, the fine
// volumes and the inverse shares. Empty where the store has none.
pub struct Numbers {
    eps: Vec<Vec<c64>>,
    averaged: Vec<Vec<c64>>,
    operators: Vec<Vec<c64>>,
    forward: Vec<Vec<c64>>,
    turned: Vec<Vec<c64>>,
    volumes: Vec<Vec<c64>>,
    inverse: Vec<Vec<c64>>,
}

impl Numbers {
    // As they stand in the five lists.
    pub fn found(s: &Shape, doubles: &[Vec<f64>; 5]) -> Numbers {
        let zeros = |n: usize| vec![c64::new(0.0, 0.0); n];
        let edges = |level: usize| s.grid(level).unknowns();
        let last = s.levels.len();
        let scaled = |n: usize| zeros(if s.rediscretized { n } else { 0 });
        let transfer = |t: usize| zeros(s.levels[t].transfer.as_ref().map_or(0, |(p, _)| p.values.len()));
        let mut n = Numbers {
            eps: (0..last).map(|k| zeros(edges(k))).collect(),
            averaged: (0..last).map(|k| scaled(if k == 0 { 0 } else { edges(k) })).collect(),
            operators: s.levels.iter().map(|l| zeros(l.operator.as_ref().map_or(0, |o| o.values.len()))).collect(),
            forward: (1..last).map(|k| transfer(k - 1)).collect(),
            turned: (1..last).map(|k| transfer(k - 1)).collect(),
            volumes: (1..last).map(|k| scaled(edges(k - 1))).collect(),
            inverse: (1..last).map(|k| scaled(edges(k))).collect(),
        };
        for (parts, list) in n.parts().into_iter().zip(doubles) {
            for (z, at) in parts.into_iter().flatten().zip(list.chunks_exact(2)) {
                *z = c64::new(at[0], at[1]);
            }
        }
        n
    }

    // Their parts in the order of each of the five lists.
    fn parts(&mut self) -> [Vec<&mut Vec<c64>>; 5] {
        [
            self.eps.iter_mut().chain(&mut self.averaged).collect(),
            self.forward.iter_mut().collect(),
            self.turned.iter_mut().collect(),
            self.operators.iter_mut().collect(),
            self.volumes.iter_mut().zip(&mut self.inverse).flat_map(|(v, i)| [v, i]).collect(),
        ]
    }

    // Laid over the five lists.
    pub fn lay(&mut self, doubles: &mut [Vec<f64>; 5]) {
        for (parts, list) in self.parts().into_iter().zip(doubles) {
            for (z, at) in parts.into_iter().flatten().zip(list.chunks_exact_mut(2)) {
                at.copy_from_slice(&[z.re, z.im]);
            }
        }
    }

    // The permittivity of an edge set, and each reached row worked out from what is found, in order. The first level with a number or a share worked out
    // anew that is not finite; what is found then is of no use.
    pub fn change(&mut self, s: &Shape, f: &Reach, edge: usize, value: c64) -> Option<usize> {
        self.eps[0][edge] = value;
        if s.levels.len() == 1 {
            return if self.stencil_rows(s, f, 0) { None } else { Some(0) };
        }
        (1..s.levels.len()).find(|&level| !self.transfer(s, f, level - 1) || !self.operator(s, f, level))
    }

    // The transfer to level t + 1, and the permittivities there.
    fn transfer(&mut self, s: &Shape, f: &Reach, t: usize) -> bool {
        let Some((p, r)) = &s.levels[t].transfer else { return true };
        let (fine, coarse) = (&s.lattices[t], &s.lattices[t + 1]);
        let lines = (&s.levels[t].lines, &s.levels[t + 1].lines);
        let single: Vec<usize> = (0..=coarse.grid.unknowns()).collect();
        let eps = source::coarse_eps(&fine.grid, &coarse.grid, &self.eps[t], &s.nodes[t]);
        let mut finite = take(&mut self.eps[t + 1], &eps, &single, &f.eps[t + 1]);
        if s.rediscretized {
            let from = if t == 0 { &self.eps[0] } else { &self.averaged[t] };
            let averaged = source::averaged_eps(&fine.grid, &coarse.grid, from, lines, [0, 1, 2].map(|a| s.is_bloch(a)));
            finite &= take(&mut self.averaged[t + 1], &averaged, &single, &f.averaged[t + 1]);
        }
        let rows = source::prolongation((fine, &self.eps[t]), (coarse, &self.eps[t + 1]), lines, &s.stretched);
        finite &= take(&mut self.forward[t], &Transfer::from_rows(&rows).values, &p.starts, &f.forward[t]);
        let turned = with(p, &self.forward[t]).transpose(coarse.grid.unknowns());
        finite &= take(&mut self.turned[t], &turned.values, &r.starts, &f.turned[t]);
        if s.rediscretized {
            let shares = with(r, &self.turned[t]).apply(&self.volumes[t]);
            let is_zero = |v: &c64| v.re == 0.0 && v.im == 0.0;
            let inverse: Vec<c64> = shares.iter().map(|v| if is_zero(v) { c64::new(1.0, 0.0) } else { 1.0 / v }).collect();
            finite &= (0..shares.len()).all(|k| !f.turned[t][k] || all_finite(&shares[k..k + 1]));
            finite &= take(&mut self.inverse[t], &inverse, &single, &f.turned[t]);
        }
        finite
    }

    fn operator(&mut self, s: &Shape, f: &Reach, level: usize) -> bool {
        if s.rediscretized {
            return self.stencil_rows(s, f, level);
        }
        let t = level - 1;
        let (Some((p, r)), Some(o)) = (&s.levels[t].transfer, &s.levels[level].operator) else { return true };
        let (p, r) = (with(p, &self.forward[t]), with(r, &self.turned[t]));
        let stored = s.levels[t].operator.as_ref().map(|a| (a, &self.operators[t]));
        let rows = source::galerkin(
            &|k, scratch: &mut Vec<(usize, c64)>, row: &mut Vec<(usize, c64)>| match stored {
                None => source::stencil_row(&s.lattices[t], &self.eps[t], s.shift, k, scratch, row),
                Some((a, values)) => {
                    row.clear();
                    row.extend((a.starts[k]..a.starts[k + 1]).map(|q| (a.columns[q], values[q])));
                }
            },
            &p,
            &r,
        );
        take(&mut self.operators[level], &rows.values, &o.starts, &f.operators[level])
    }

    // The rows of a level's own lattice.
    fn stencil_rows(&mut self, s: &Shape, f: &Reach, level: usize) -> bool {
        let Some(Sparse { starts, .. }) = &s.levels[level].operator else { return true };
        let eps = if level == 0 { &self.eps[0] } else { &self.averaged[level] };
        let mut finite = true;
        for r in (0..starts.len() - 1).filter(|&r| f.operators[level][r]) {
            let row: Vec<c64> = s.stencil(level, eps, r).into_iter().map(|(_, v)| v).collect();
            finite &= all_finite(&row);
            self.operators[level][starts[r]..starts[r + 1]].copy_from_slice(&row);
        }
        finite
    }
}

// Whether a row has a NaN, by its number; each number of such a row is one afterwards, every other number is 1.
fn spoilt(values: &mut [c64], starts: &[usize]) -> Vec<bool> {
    let rows = starts.windows(2).take_while(|s| s[1] <= values.len()).map(|s| (s[0], s[1])).collect::<Vec<_>>();
    rows.into_iter()
        .map(|(from, to)| {
            let nan = values[from..to].iter().any(|z| z.re.is_nan() || z.im.is_nan());
            values[from..to].fill(if nan { c64::new(f64::NAN, f64::NAN) } else { c64::new(1.0, 0.0) });
            nan
        })
        .collect()
}

// Rows of these starts and columns, with other values.
fn with(t: &Transfer, values: &[c64]) -> Transfer {
    Transfer { starts: t.starts.clone(), columns: t.columns.clone(), values: values.to_vec() }
}

// The reached rows taken over, and whether all their numbers are finite.
fn take(old: &mut [c64], new: &[c64], starts: &[usize], reached: &[bool]) -> bool {
    let mut finite = true;
    for r in (0..reached.len()).filter(|&r| reached[r]) {
        let row = starts[r]..starts[r + 1];
        finite &= all_finite(&new[row.clone()]);
        old[row.clone()].copy_from_slice(&new[row]);
    }
    finite
}
