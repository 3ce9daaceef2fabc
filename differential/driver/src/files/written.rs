// Setup files as they are written.

use crate::case::Case;

// The bytes of a body, by kind.
pub fn body(kind: u8) -> usize {
    match kind {
        1 => 46,
        3 | 4 | 5 => 16,
        6 => 5,
        7 => 20,
        _ => 0,
    }
}

// The doubles of a lattice's stretches and permittivities.
pub fn doubles(cells: [usize; 3]) -> usize {
    let [nx, ny, nz] = cells;
    2 * (2 * (nx + ny + nz) + 3 * nx * ny * nz)
}

#[derive(Clone)]
pub struct Written {
    pub bytes: Vec<u8>,
    // where each record begins
    pub starts: Vec<usize>,
}

impl Written {
    fn record(&mut self, kind: u8, parts: &[&[u8]]) {
        self.starts.push(self.bytes.len());
        self.bytes.push(kind);
        self.bytes.extend(parts.concat());
        assert!(self.bytes.len() == self.starts[self.starts.len() - 1] + 1 + body(kind), "kind {kind}");
    }

    // A lattice, a choice and the lattice's changes. `coarsest` and edges that no file can name become the greatest that one can.
    pub fn of(c: &Case, choice: usize) -> Written {
        let mut w = Written { bytes: Vec::new(), starts: Vec::new() };
        let four = |n: usize| (n.min(u32::MAX as usize) as u32).to_le_bytes();
        let mut grid: Vec<u8> = c.cells.iter().flat_map(|&n| (n as u16).to_le_bytes()).collect();
        grid.extend(c.scalars[..5].iter().flat_map(|x| x.to_le_bytes()));
        w.record(1, &[&grid]);
        for axis in 0..3 {
            let p = c.phase(axis);
            match c.is_bloch(axis) {
                false => w.record(2, &[]),
                true => w.record(3, &[&p.re.to_le_bytes(), &p.im.to_le_bytes()]),
            }
        }
        for list in 0..7 {
            for z in c.numbers(list) {
                w.record(if list < 6 { 4 } else { 5 }, &[&z.re.to_le_bytes(), &z.im.to_le_bytes()]);
            }
        }
        w.record(6, &[&[choice as u8], &four(c.coarsest)]);
        for (edge, value) in &c.changes {
            w.record(7, &[&four(*edge), &value.re.to_le_bytes(), &value.im.to_le_bytes()]);
        }
        w.record(255, &[]);
        w
    }

    // The bytes of record k.
    pub fn part(&self, k: usize) -> &[u8] {
        &self.bytes[self.starts[k]..self.starts.get(k + 1).copied().unwrap_or(self.bytes.len())]
    }

    // The records of a kind.
    pub fn of_kind(&self, kind: u8) -> Vec<usize> {
        (0..self.starts.len()).filter(|&k| self.bytes[self.starts[k]] == kind).collect()
    }

    // Where the doubles of record k begin.
    pub fn doubles_of(&self, k: usize) -> Vec<usize> {
        let at = self.starts[k];
        match self.bytes[at] {
            1 => (0..5).map(|q| at + 7 + 8 * q).collect(),
            3 | 4 | 5 => vec![at + 1, at + 9],
            7 => vec![at + 5, at + 13],
            _ => Vec::new(),
        }
    }
}
