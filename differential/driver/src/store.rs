// A setup of one input and one choice on both sides: the answer, and every place of the twelve lists against the Rust's levels, laid out as the
// specification says. In lists with room, exactly full, one place short and of any lengths; what lies behind a list's need, and behind its end, is looked
// at too.

use crate::case::Case;
use crate::lent::{self, lent};
use crate::ours;
use crate::table;
use num_complex::Complex64 as c64;
use source::{Coarse, Level, Multigrid};

// What was found equal.
#[derive(Default)]
pub struct Counts {
    // setups by choice, those of a single level among them
    pub setups: [u64; 2],
    pub single: u64,
    pub levels: [u64; 2],
    // calls in lists with room, exactly full and of any lengths that were not refused
    pub filled: [u64; 3],
    // calls refused, by number, and those of number 6 by list
    pub refused: [u64; 9],
    pub short: [u64; 6],
    // of each setup once, what its lists hold: words and numbers
    pub words: u64,
    pub numbers: u64,
    // of all calls, the words and doubles looked at
    pub looked_at: u64,
    // setups with a shift, and with a Bloch axis of 1, 2 or 3 cells on some level, its phase of a modulus other than 1
    pub shifted: u64,
    pub wrapped: [u64; 3],
    // lines, transfers, their rows forward and turned, and the weights of these
    pub lines: u64,
    pub transfers: u64,
    pub weight_rows: u64,
    pub weights: u64,
    // operator rows and their entries; those of level 0, straight from the lattice
    pub rows: [u64; 2],
    pub entries: [u64; 2],
    pub own_rows: u64,
    pub own_entries: u64,
    // Galerkin levels over stored rows, and diagonals of 1 that no term touches
    pub stored: u64,
    pub untouched: u64,
    pub permittivities: u64,
    pub averaged: u64,
    pub volumes: u64,
    pub shares: u64,
    pub zero_shares: u64,
}

// Rows of several levels, one part behind another.
#[derive(Default)]
pub struct Parts {
    pub starts: Vec<usize>,
    pub columns: Vec<usize>,
    pub values: Vec<c64>,
    // for each part its level and where its starts and its terms begin
    pub begin: Vec<(usize, usize, usize)>,
}

impl Parts {
    fn add(&mut self, level: usize, starts: &[usize], columns: &[usize], values: &[c64]) {
        self.begin.push((level, self.starts.len(), self.columns.len()));
        self.starts.extend(starts);
        self.columns.extend(columns);
        self.values.extend(values);
    }

    // Where start k stands.
    fn start(&self, k: usize) -> String {
        match self.begin.iter().rev().find(|b| b.1 <= k).filter(|_| k < self.starts.len()) {
            Some(b) => format!("level {}, start {}", b.0, k - b.1),
            None => format!("start {k}, behind the last"),
        }
    }

    // Where term k stands.
    fn term(&self, k: usize) -> String {
        let Some(p) = self.begin.iter().rposition(|b| b.2 <= k).filter(|_| k < self.columns.len()) else {
            return format!("term {k}, behind the last");
        };
        let (level, s, from) = self.begin[p];
        let end = self.begin.get(p + 1).map_or(self.starts.len(), |b| b.1);
        let r = self.starts[s..end].partition_point(|&start| start <= k - from) - 1;
        format!("level {level}, row {r}, term {}, column {}", k - from - self.starts[s + r], self.columns[k])
    }
}

// Words or numbers of several parts, one behind another; for each part its name and where it begins.
pub struct Named<T> {
    pub all: Vec<T>,
    pub begin: Vec<(String, usize)>,
}

impl<T: Copy> Named<T> {
    fn add(&mut self, name: String, more: &[T]) {
        self.begin.push((name, self.all.len()));
        self.all.extend(more);
    }

    fn place(&self, k: usize) -> String {
        match self.begin.iter().rev().find(|p| p.1 <= k).filter(|_| k < self.all.len()) {
            Some((name, from)) => format!("{name}, number {}", k - from),
            None => format!("number {k}, behind the last"),
        }
    }
}

// The store. Of the twelve lists, as a setup is lent them, those of WORDS hold words, those of NUMBERS numbers.
pub struct Lists {
    pub ends: Named<usize>,
    pub chains: Named<c64>,
    pub forward: Parts,
    pub turned: Parts,
    pub operators: Parts,
    pub scaling: Named<c64>,
}

pub const WORDS: [usize; 7] = [0, 2, 3, 5, 6, 8, 9];
pub const NUMBERS: [usize; 5] = [1, 4, 7, 10, 11];
pub const LISTS: [&str; 12] = [
    "line ends", "permittivities", "forward starts", "forward columns", "forward numbers", "turned starts", "turned columns", "turned numbers",
    "operator starts", "operator columns", "operator numbers", "scaling",
];

impl Lists {
    // The store as the Rust's levels fill it.
    pub fn of(levels: &[Level], rediscretized: bool) -> Lists {
        let mut l = Lists {
            ends: Named { all: Vec::new(), begin: Vec::new() },
            chains: Named { all: Vec::new(), begin: Vec::new() },
            forward: Parts::default(),
            turned: Parts::default(),
            operators: Parts::default(),
            scaling: Named { all: Vec::new(), begin: Vec::new() },
        };
        for (k, level) in levels.iter().enumerate() {
            for (axis, line) in level.lines.iter().enumerate() {
                l.ends.add(format!("level {k}, axis {axis}"), &line.ends);
            }
            l.chains.add(format!("level {k}"), &level.eps);
            if let Some(o) = &level.operator {
                l.operators.add(k, &o.starts, &o.columns, &o.values);
            }
            if let Some((p, r)) = &level.transfer {
                l.forward.add(k, &p.starts, &p.columns, &p.values);
                l.turned.add(k, &r.starts, &r.columns, &r.values);
            }
            if let Some((volumes, inverse)) = &level.scaling {
                l.scaling.add(format!("volumes of level {k}"), volumes);
                l.scaling.add(format!("inverse shares of level {}", k + 1), inverse);
            }
        }
        for (k, level) in levels.iter().enumerate().skip(1).filter(|_| rediscretized) {
            l.chains.add(format!("averaged, level {k}"), &level.eps_operator);
        }
        l
    }

    pub fn words(&self) -> [&[usize]; 7] {
        let [f, t, o] = [&self.forward, &self.turned, &self.operators];
        [&self.ends.all, &f.starts, &f.columns, &t.starts, &t.columns, &o.starts, &o.columns]
    }

    pub fn numbers(&self) -> [&[c64]; 5] {
        [&self.chains.all, &self.forward.values, &self.turned.values, &self.operators.values, &self.scaling.all]
    }

    // How many places each list needs.
    pub fn need(&self) -> [usize; 12] {
        let mut need = [0; 12];
        for (k, list) in WORDS.iter().zip(self.words()) {
            need[*k] = list.len();
        }
        for (k, list) in NUMBERS.iter().zip(self.numbers()) {
            need[*k] = list.len();
        }
        need
    }

    // What place k of a list is.
    pub fn place(&self, list: usize, k: usize) -> String {
        let rows = [&self.forward, &self.turned, &self.operators][(list.clamp(2, 10) - 2) / 3];
        match list {
            0 => self.ends.place(k),
            1 => self.chains.place(k),
            11 => self.scaling.place(k),
            2 | 5 | 8 => rows.start(k),
            _ => rows.term(k),
        }
    }
}

pub fn is_number(list: usize) -> bool {
    NUMBERS.contains(&list)
}

// The length of a list with so many places, in words or doubles.
pub fn length(list: usize, places: usize) -> usize {
    if is_number(list) { 2 * places } else { places }
}

// What a call leaves in the lists.
#[derive(Clone, Copy)]
pub enum Left<'a> {
    Untouched,
    Zeros,
    Filled(&'a Lists),
}

impl Left<'_> {
    fn words(&self, q: usize) -> lent::Left<'_, usize> {
        match self {
            Left::Untouched => lent::Left::Untouched,
            Left::Zeros => lent::Left::Zeros,
            Left::Filled(e) => lent::Left::Given(e.words()[q]),
        }
    }

    fn numbers(&self, q: usize) -> lent::Left<'_, c64> {
        match self {
            Left::Untouched => lent::Left::Untouched,
            Left::Zeros => lent::Left::Zeros,
            Left::Filled(e) => lent::Left::Given(e.numbers()[q]),
        }
    }
}

// Every place of the twelve lists as a call leaves it, in lists that were lent to a setup. How many words and doubles they are.
pub fn same(what: &str, s: &ours::Store, left: Left) -> Result<u64, String> {
    let name = |list: usize, k: usize| match left {
        Left::Filled(e) => format!("{}, {}", LISTS[list], e.place(list, k)),
        _ => format!("{}, place {k}", LISTS[list]),
    };
    let mut looked_at = 0;
    for (q, &list) in WORDS.iter().enumerate() {
        if let Some((k, told)) = lent::words_depart(&s.words[q], left.words(q)) {
            return Err(format!("{what}, {}: {told}", name(list, k)));
        }
        looked_at += s.words[q].len() as u64;
    }
    for (q, &list) in NUMBERS.iter().enumerate() {
        if let Some((k, told)) = lent::doubles_depart(&s.doubles[q], left.numbers(q)) {
            return Err(format!("{what}, {}, {} part: {told}", name(list, k / 2), ["real", "imaginary"][k % 2]));
        }
        looked_at += s.doubles[q].len() as u64;
    }
    Ok(looked_at)
}

// One call with lists of these lengths, and `out` words for the answer.
pub fn call(
    c: &Case,
    choice: usize,
    lengths: [usize; 12],
    out: usize,
    answer: [usize; 2],
    left: Left,
    counts: &mut Counts,
) -> Result<ours::Store, String> {
    let what = format!("{} setup, answer {answer:?}", ["Galerkin", "rediscretized"][choice.min(1)]);
    let mut s = ours::Store::lent(lengths, out);
    ours::setup(c, choice, &mut s);
    lent::same_words(&format!("{what}, out"), &s.out, lent::Left::Given(&answer))?;
    counts.looked_at += same(&what, &s, left)?;
    counts.refused[answer[0]] += 1;
    if answer[0] == 6 {
        counts.short[answer[1]] += 1;
    }
    Ok(s)
}

// The Rust's levels, with these permittivities; none where there are over 12.
pub fn theirs(c: &Case, eps: &[c64], rediscretized: bool) -> Option<Vec<Level>> {
    let coarse = if rediscretized { Coarse::Rediscretized } else { Coarse::Galerkin };
    source::setup(&c.lattice(), eps, &Multigrid { shift: c.scalars[4], coarsest: c.coarsest, coarse })
}

// A setup that is refused before anything is counted, in lists of some length and, now and then, of another.
pub fn refused(c: &Case, choices: [usize; 3], answer: [usize; 2], left: Left, counts: &mut Counts) -> Result<(), String> {
    call(c, choices[0], [41; 12], 2, answer, left, counts)?;
    if c.room != [0; 8] {
        let lengths = std::array::from_fn(|k| lent(9, c.room[k % 8]));
        call(c, choices[2], lengths, lent(2, c.room[6]), answer, left, counts)?;
    }
    Ok(())
}

// How many lists are tried one place short, each in turn: all of a small lattice.
fn tried_short(c: &Case) -> usize {
    match c.total() {
        0..=40 => 12,
        41..=200 => 4,
        _ => 1,
    }
}

// A setup that has levels, in lists of several lengths. Gives back the lists exactly full, unless it is refused.
pub fn sound(c: &Case, choices: [usize; 3], levels: &[Level], e: &Lists, counts: &mut Counts) -> Result<Option<ours::Store>, String> {
    let need = e.need();
    let (twice, no_number) = (table::twice(levels), table::no_number(levels));
    // the table's order: 8, 6, 7
    let one = |choice: usize, lengths: [usize; 12], out: usize, counts: &mut Counts| -> Result<Option<ours::Store>, String> {
        let places: [usize; 12] = std::array::from_fn(|k| if is_number(k) { lengths[k] / 2 } else { lengths[k] });
        let refused = twice.map(|l| [8, l]).or(table::short(&need, &places).map(|l| [6, l])).or(no_number.map(|l| [7, l]));
        let left = if refused.is_some() { Left::Zeros } else { Left::Filled(e) };
        let s = call(c, choice, lengths, out, refused.unwrap_or([0, levels.len()]), left, counts)?;
        Ok(if refused.is_none() { Some(s) } else { None })
    };
    // with room, so that wrong rows find place too, and an odd double behind
    let exact: [usize; 12] = std::array::from_fn(|k| length(k, need[k]));
    let ample = std::array::from_fn(|k| length(k, need[k] + need[k] / 4 + 256) + k % 2);
    if one(choices[0], ample, 2, counts)?.is_some() {
        counts.filled[0] += 1;
        count(c, levels, e, choices[0].min(1), counts);
    }
    let full = one(choices[1], exact, 2, counts)?;
    counts.filled[1] += full.is_some() as u64;
    // one place short: of numbers by both doubles, or by one
    let some: Vec<usize> = (0..12).filter(|&k| need[k] > 0).collect();
    let first = c.coarsest.wrapping_add(c.scalars[0].to_bits() as usize) % some.len();
    for q in 0..tried_short(c).min(some.len()) {
        let k = some[(q + first) % some.len()];
        let mut lengths = exact;
        lengths[k] -= if is_number(k) { 1 + (c.coarsest + k) % 2 } else { 1 };
        one(choices[0], lengths, 2, counts)?;
    }
    if c.room != [0; 8] {
        let lengths = std::array::from_fn(|k| lent(exact[k], c.room[k % 8]));
        counts.filled[2] += one(choices[2], lengths, lent(2, c.room[6]), counts)?.is_some() as u64;
    }
    Ok(full)
}

// What a setup's lists hold, once.
fn count(c: &Case, levels: &[Level], e: &Lists, choice: usize, counts: &mut Counts) {
    counts.setups[choice] += 1;
    counts.single += (levels.len() == 1) as u64;
    counts.levels[choice] += levels.len() as u64;
    counts.words += e.words().iter().map(|list| list.len() as u64).sum::<u64>();
    counts.numbers += e.numbers().iter().map(|list| list.len() as u64).sum::<u64>();
    counts.shifted += (c.scalars[4] != 0.0) as u64;
    for n in 1..4 {
        let turned = |axis: usize| c.is_bloch(axis) && (c.phase(axis).norm() - 1.0).abs() > 1e-9;
        let met = (0..3).any(|axis| turned(axis) && levels.iter().any(|l| l.lines[axis].cells() == n));
        counts.wrapped[n - 1] += met as u64;
    }
    let rows_of = |p: &Parts| (p.starts.len() - p.begin.len()) as u64;
    counts.lines += 3 * levels.len() as u64;
    counts.transfers += e.forward.begin.len() as u64;
    counts.weight_rows += rows_of(&e.forward) + rows_of(&e.turned);
    counts.weights += 2 * e.forward.columns.len() as u64;
    counts.permittivities += levels.iter().skip(1).map(|l| l.eps.len() as u64).sum::<u64>();
    counts.rows[choice] += rows_of(&e.operators);
    counts.entries[choice] += e.operators.columns.len() as u64;
    if levels.len() == 1 {
        counts.own_rows += rows_of(&e.operators);
        counts.own_entries += e.operators.columns.len() as u64;
    }
    if choice == 0 {
        counts.stored += levels.len().saturating_sub(2) as u64;
        for level in levels {
            if let Some((_, r)) = &level.transfer {
                counts.untouched += r.starts.windows(2).filter(|s| s[0] == s[1]).count() as u64;
            }
        }
        return;
    }
    counts.averaged += levels.iter().skip(1).map(|l| l.eps_operator.len() as u64).sum::<u64>();
    for level in levels {
        if let Some((fine, inverse)) = &level.scaling {
            counts.volumes += fine.len() as u64;
            counts.shares += inverse.len() as u64;
        }
        if let (Some((_, r)), Some((fine, _))) = (&level.transfer, &level.scaling) {
            counts.zero_shares += r.apply(fine).iter().filter(|v| v.re == 0.0 && v.im == 0.0).count() as u64;
        }
    }
}
