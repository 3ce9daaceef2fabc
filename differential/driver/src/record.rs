// Writes the test file of crates/store_cases, `stdin`, and what the program has to print for it, `stdout`: levels, lists and rows from the Rust, refusals
// from the table. Nothing of the code under test is called.

mod changes;

use crate::case::Case;
use crate::generate;
use crate::random::Random;
use crate::store::{Lists, NUMBERS, WORDS};
use crate::table;
use num_complex::Complex64 as c64;
use source::{Coarse, Level, Multigrid};
use std::fmt::Write;

// What stands in every lent place before a call, as a word and as the bits of a double.
pub const MARK: u64 = 0xc0de_c0de_c0de_c0de;

// The rows of a level that are asked for.
const ROWS: usize = 200;

// What a setup is called with, beside the lattice.
#[derive(Clone, Copy, PartialEq)]
enum Room {
    // every list exactly full
    Exact,
    // places to spare, and an odd double in every second list
    Spare,
    Lengths([usize; 12]),
}

// Number and place, 0 and the level count if nothing is refused.
type Answer = (usize, usize);

struct Recorder {
    stdin: String,
    stdout: String,
    // what each kind of line has set, and what the seven lists hold
    lines: Vec<(&'static str, String)>,
    lists: [Vec<u64>; 7],
}

// ---- printing, as the program does

fn bits(x: f64) -> u64 {
    if x.is_finite() { x.to_bits() } else { u64::MAX }
}

fn runs(values: &[u64], shown: impl Fn(u64) -> String) -> String {
    let mut out = String::new();
    let mut k = 0;
    while k < values.len() {
        let n = values[k..].iter().take_while(|&&v| v == values[k]).count();
        out.push(' ');
        if n > 1 {
            let _ = write!(out, "{n}*");
        }
        out += &if values[k] == MARK { "-".to_string() } else { shown(values[k]) };
        k += n;
    }
    out
}

pub fn mixed(d: u64, x: u64) -> u64 {
    d.rotate_left(7).wrapping_add(x)
}

pub fn digest(first: u64, values: &[u64]) -> u64 {
    values.iter().fold(mixed(first, values.len() as u64), |d, &v| mixed(d, v))
}

fn in_decimal(values: &[usize]) -> String {
    runs(&values.iter().map(|&v| v as u64).collect::<Vec<_>>(), |v| v.to_string())
}

pub fn laid(numbers: &[c64]) -> Vec<u64> {
    numbers.iter().flat_map(|z| [bits(z.re), bits(z.im)]).collect()
}

// The words of a line of the test file: hexadecimal, several equal ones as a count and one of them.
fn in_hex(values: &[u64]) -> String {
    let mut out = String::new();
    let mut k = 0;
    while k < values.len() {
        let n = values[k..].iter().take_while(|&&v| v == values[k]).count();
        let _ = if n > 1 { write!(out, " {n:x}*{:x}", values[k]) } else { write!(out, " {:x}", values[k]) };
        k += n;
    }
    out
}

fn told(a: Answer) -> String {
    if a.0 == 0 { format!("levels {}", a.1) } else { format!("refused {} {}", a.0, a.1) }
}

// ---- what is expected

fn options(c: &Case, choice: usize) -> Multigrid {
    let coarse = if choice > 0 { Coarse::Rediscretized } else { Coarse::Galerkin };
    Multigrid { shift: c.scalars[4], coarsest: c.coarsest, coarse }
}

// Refusals 1 to 5, of the first `lists` lists, or the Rust's levels with these permittivities.
fn levels_of(c: &Case, choice: usize, lists: usize, eps: &[c64]) -> Result<Vec<Level>, Answer> {
    match table::refusal(c, lists) {
        Some(refused) => Err(refused),
        None => source::setup(&c.lattice(), eps, &options(c, choice)).ok_or((5, 12)),
    }
}

// How long the twelve lists are.
fn lengths(need: &[usize; 12], room: Room) -> [usize; 12] {
    let length = |k: usize, places: usize| if NUMBERS.contains(&k) { 2 * places } else { places };
    match room {
        Room::Exact => std::array::from_fn(|k| length(k, need[k])),
        Room::Spare => std::array::from_fn(|k| length(k, need[k] + 2) + (k % 2) * NUMBERS.contains(&k) as usize),
        Room::Lengths(all) => all,
    }
}

// What a setup of levels answers in lists of these lengths: 8, 6, 7, or the level count.
fn answer_of(levels: &[Level], need: &[usize; 12], lengths: &[usize; 12]) -> Answer {
    let places = std::array::from_fn(|k| if NUMBERS.contains(&k) { lengths[k] / 2 } else { lengths[k] });
    let refused = table::twice(levels).map(|l| (8, l)).or(table::short(need, &places).map(|l| (6, l))).or(table::no_number(levels).map(|l| (7, l)));
    refused.unwrap_or((0, levels.len()))
}

// The answer in lists exactly full.
fn exact_answer(c: &Case, choice: usize) -> Answer {
    match levels_of(c, choice, 7, &c.numbers(6)) {
        Err(refused) => refused,
        Ok(levels) => {
            let need = Lists::of(&levels, choice > 0).need();
            answer_of(&levels, &need, &lengths(&need, Room::Exact))
        }
    }
}

impl Recorder {
    // A line of the test file, left out where it would set what is set already.
    fn set(&mut self, name: &'static str, text: String) {
        match self.lines.iter_mut().find(|l| l.0 == name) {
            Some(l) if l.1 == text => return,
            Some(l) => l.1 = text.clone(),
            None => self.lines.push((name, text.clone())),
        }
        let _ = writeln!(self.stdin, "{name}{text}");
    }

    fn title(&mut self, text: &str) {
        let _ = writeln!(self.stdin, "# {text}");
        let _ = writeln!(self.stdout, "# {text}");
    }

    fn input(&mut self, c: &Case, choice: usize, brief: bool, lengths: &[usize; 12]) {
        let of = |list: &[usize]| in_hex(&list.iter().map(|&v| v as u64).collect::<Vec<_>>());
        // any NaN will do: the program makes its own
        let all = |list: &[f64]| list.iter().map(|x| x.to_bits()).collect::<Vec<_>>();
        self.set("grid", of(&c.cells));
        self.set("numbers", in_hex(&all(&c.scalars)));
        for k in 0..7 {
            let list = all(&c.lists[k]);
            if !self.lists[k].starts_with(&list) {
                let _ = writeln!(self.stdin, "list {k}{}", in_hex(&list));
                self.lists[k] = list;
            }
        }
        self.set("doubles", of(&c.lists.each_ref().map(|l| l.len())));
        self.set("choice", of(&[choice, c.coarsest, brief as usize]));
        self.set("room", of(lengths));
        self.stdin += "setup\n";
    }

    fn list(&mut self, name: &str, values: &[u64], hex: bool, brief: bool) {
        let text = match (brief, hex) {
            (true, _) => format!(" {:x}", digest(0, values)),
            (false, true) => runs(values, |v| format!("{v:x}")),
            (false, false) => runs(values, |v| v.to_string()),
        };
        let _ = writeln!(self.stdout, "{name}{text}");
    }

    // What setup_needs answers. The permittivities are not looked at: any serve.
    fn needs(&mut self, c: &Case, choice: usize) -> [usize; 12] {
        let one = c64::new(1.0, 0.0);
        let (answer, need, cells) = match levels_of(c, choice, 6, &vec![one; if table::refusal(c, 6).is_none() { 3 * c.total() } else { 0 }]) {
            Err(refused) => (refused, [0; 12], Vec::new()),
            Ok(levels) => {
                let cells = levels.iter().flat_map(|l| l.lines.each_ref().map(|line| line.cells())).collect();
                ((0, levels.len()), Lists::of(&levels, choice > 0).need(), cells)
            }
        };
        let _ = writeln!(self.stdout, "needs {}", told(answer));
        let _ = writeln!(self.stdout, "places{}", in_decimal(&[0, 1, 2, 3, 5, 8, 9, 11].map(|k| need[k])));
        let levels = cells.len() / 3;
        let all: Vec<usize> = cells.into_iter().chain(std::iter::repeat(0)).take(36).collect();
        let _ = writeln!(self.stdout, "cells {levels} levels{}", in_decimal(&all));
        need
    }

    // The rows handed back, level by level, and those that do not exist.
    fn rows(&mut self, levels: &[Level]) {
        let one_level = |k: usize| -> [u64; 3] {
            let mut out = [0; 3];
            for row in 0..ROWS {
                let numbers = |starts: &[usize], values: &[c64]| match row + 1 < starts.len() {
                    true => laid(&values[starts[row]..starts[row + 1]]),
                    false => Vec::new(),
                };
                let (mut forward, mut turned, mut columns) = (Vec::new(), Vec::new(), Vec::new());
                if let Some((p, r)) = levels.get(k).and_then(|l| l.transfer.as_ref()) {
                    forward = numbers(&p.starts, &p.values);
                    turned = numbers(&r.starts, &r.values);
                }
                if let Some(o) = levels.get(k).and_then(|l| l.operator.as_ref()).filter(|o| row + 1 < o.starts.len()) {
                    columns = o.columns[o.starts[row]..o.starts[row + 1]].iter().map(|&v| v as u64).collect();
                }
                out = [digest(out[0], &forward), digest(out[1], &turned), digest(out[2], &columns)];
            }
            out
        };
        for k in 0..=levels.len() {
            let [f, t, o] = one_level(k);
            let _ = writeln!(self.stdout, "rows {k} {f:x} {t:x} {o:x}");
        }
    }

    // A setup, in lists whole or by digests. The answer.
    fn call(&mut self, c: &Case, choice: usize, room: Room, brief: bool) -> Answer {
        let need = self.needs(c, choice);
        let lent = lengths(&need, room);
        self.input(c, choice, brief, &lent);
        let found = levels_of(c, choice, 7, &c.numbers(6));
        let answer = match &found {
            Err(refused) => *refused,
            Ok(levels) => answer_of(levels, &need, &lent),
        };
        let filled = found.as_ref().ok().filter(|_| answer.0 == 0).map(|levels| Lists::of(levels, choice > 0));
        let beyond = if (1..5).contains(&answer.0) || answer.0 == 0 { MARK } else { 0 };
        let _ = writeln!(self.stdout, "{}", told(answer));
        let names = [
            "ends", "permittivities", "forward starts", "forward columns", "forward values", "turned starts", "turned columns", "turned values",
            "operator starts", "operator columns", "operator values", "scaling",
        ];
        for k in 0..12 {
            let number = NUMBERS.iter().position(|&n| n == k);
            let mut values = match (&filled, number) {
                (None, _) => Vec::new(),
                (Some(l), Some(q)) => laid(l.numbers()[q]),
                (Some(l), None) => l.words()[WORDS.iter().position(|&w| w == k).unwrap()].iter().map(|&v| v as u64).collect(),
            };
            assert!(values.len() <= lent[k]);
            values.resize(lent[k], beyond);
            self.list(names[k], &values, number.is_some(), brief && k > 0);
        }
        if let (0, Ok(levels)) = (answer.0, &found) {
            self.rows(levels);
        }
        answer
    }

    fn titled(&mut self, title: &str, c: &Case, choice: usize, room: Room, brief: bool) -> Answer {
        self.title(title);
        self.call(c, choice, room, brief)
    }

    // A setup that has to be answered so: a title must be true.
    fn sure(&mut self, title: &str, c: &Case, choice: usize, room: Room, answer: Answer) {
        let got = self.titled(title, c, choice, room, false);
        assert!(got == answer, "{title}: {got:?}, not {answer:?}");
    }
}

// ---- inputs

// A wall on x, phases 1 and i, every number 1.
fn mixed_kinds(cells: [usize; 3]) -> Case {
    let mut c = Case::plain(cells);
    c.set_kind(1, true);
    c.set_kind(2, true);
    c.set_phase(2, c64::new(0.0, 1.0));
    c
}

// Number k of a list is (re + k up, k side).
fn grown(n: usize, re: f64, up: f64, side: f64) -> Vec<f64> {
    (0..n).flat_map(|k| [re + k as f64 * up, k as f64 * side]).collect()
}

// Kinds by a number: 0 Bloch with p = 1, 1 walls, 2 a wall on x, 3 phases, 4 phases and a wall on y. Stretches that grow, and permittivities.
pub fn small(cells: [usize; 3], kinds: usize, up: f64, side: f64) -> Case {
    let mut c = Case::plain(cells);
    for axis in 0..3 {
        c.set_kind(axis, [[true; 3], [false; 3], [false, true, true], [true; 3], [true, false, true]][kinds][axis]);
        if kinds > 2 && c.is_bloch(axis) {
            c.set_phase(axis, [c64::new(0.5, 0.25), c64::new(-2.0, 1.0), c64::new(0.0, -1.5)][axis]);
        }
        c.lists[2 * axis] = grown(cells[axis], 1.0, up, side);
        c.lists[2 * axis + 1] = grown(cells[axis], 1.0, up, side);
    }
    c.lists[6] = grown(3 * c.total(), 2.0, 0.25, -0.125);
    c
}

// The operator of a level that is the only one: a wall where the binary digit of `walls` is 1, phases of 1 for 8; every stretch another number.
fn sole(cells: [usize; 3], walls: usize, shift: f64) -> Case {
    let mut c = Case::plain(cells);
    c.scalars[..5].copy_from_slice(&[0.5, 0.75, 1.25, 1.5, shift]);
    let st = grown(24, 1.0, 0.125, 0.0625);
    for axis in 0..3 {
        c.set_kind(axis, walls == 8 || walls >> axis & 1 == 0);
        let phases = [c64::new(0.5, -1.5), c64::new(-1.5, 2.0), c64::new(0.0, -1.5)];
        c.set_phase(axis, if walls == 8 { c64::new(1.0, 0.0) } else { phases[axis] });
        for half in 0..2 {
            let from = 8 * (2 * axis + half);
            c.lists[2 * axis + half] = st[from..from + 2 * cells[axis]].to_vec();
        }
    }
    c.lists[6] = grown(3 * c.total(), 2.0, 0.25, -0.125);
    c.coarsest = 81;
    c
}

// Cells along x of stretch 1.5, 1.5, 3, 6, 12, ..: each level joins one pair.
pub fn doubling(n: usize, coarsest: usize) -> Case {
    let mut c = mixed_kinds([n, 1, 1]);
    for m in 0..n {
        c.set_number(1, m, c64::new(1.5 * 2f64.powi(m.saturating_sub(1) as i32), 0.0));
    }
    c.coarsest = coarsest;
    c
}

// ---- the cases

const FEW: Room = Room::Lengths([3; 12]);
const NONE: Room = Room::Lengths([0; 12]);

impl Recorder {
    // Refusals 1 and 2, each at each place.
    fn grids_and_scalars(&mut self) {
        self.titled("64 1 1 cells", &mixed_kinds([64, 1, 1]), 0, Room::Spare, true);
        for cells in [[0, 1, 1], [1, 0, 1], [1, 1, 0], [65, 1, 1], [1, 65, 1], [1, 1, 65]] {
            let at = cells.iter().position(|&n| n != 1).unwrap();
            self.sure(&format!("{cells:?} cells"), &mixed_kinds(cells), 0, FEW, (1, at));
        }
        for (cells, answer) in [([16, 16, 16], (6, 0)), ([64, 64, 1], (6, 0)), ([1, 64, 64], (6, 0)), ([64, 64, 2], (1, 3)), ([17, 16, 16], (1, 3))] {
            for choice in 0..2 {
                let mut c = mixed_kinds(cells);
                c.lists[6].fill(1.0);
                self.sure(&format!("{cells:?} cells, no room, {}", NAMES[choice]), &c, choice, NONE, answer);
            }
        }
        let mut c = mixed_kinds([1, 65, 65]);
        c.cells[0] = usize::MAX;
        c.lists[6].clear();
        self.sure("the most cells that a number can say", &c, 0, FEW, (1, 0));
        let (nan, infinite) = (f64::NAN, f64::INFINITY);
        for (title, place, v) in [
            ("dx 0", 0, 0.0), ("dy -1", 1, -1.0), ("dz infinite", 2, infinite), ("dx not a number", 0, nan), ("k0 -0", 3, -0.0), ("k0 not a number", 3, nan),
            ("k0 infinite", 3, infinite), ("shift not a number", 4, nan), ("shift infinite", 4, -infinite),
        ] {
            let mut c = mixed_kinds([2, 2, 2]);
            c.scalars[place] = v;
            self.sure(title, &c, 0, FEW, (2, place));
        }
        let mut c = mixed_kinds([2, 2, 2]);
        c.scalars[4] = -1.0;
        self.sure("shift -1", &c, 0, Room::Exact, (0, 1));
        for (title, axis, p) in [
            ("phase of x zero", 0, c64::new(0.0, -0.0)), ("phase of y not a number", 1, c64::new(1.0, nan)), ("phase of z infinite", 2, c64::new(-infinite, 0.0)),
            ("phase of x infinite", 0, c64::new(1.0, infinite)), ("phase of y zero", 1, c64::new(-0.0, 0.0)), ("phase of z not a number", 2, c64::new(nan, nan)),
        ] {
            let mut c = Case::plain([2, 2, 2]);
            c.set_phase(axis, p);
            self.sure(&format!("{title}, which a wall does not read"), &c, 0, Room::Exact, (0, 1));
            c.set_kind(axis, true);
            self.sure(title, &c, 0, FEW, (2, 5 + axis));
        }
        let mut c = Case::plain([2, 2, 2]);
        c.set_kind(2, true);
        c.set_phase(2, c64::new(3.0, 0.0));
        self.sure("phase of z 3", &c, 0, Room::Exact, (0, 1));
    }

    // Refusals 3 and 4, each at each place.
    fn lists(&mut self) {
        let plain = mixed_kinds([3, 2, 1]);
        for (more, what) in [(1, "a double too long"), (2, "a number too long"), (-1, "a double too short"), (-2, "a number too short")] {
            for list in 0..7 {
                let mut c = plain.clone();
                let n = (c.lists[list].len() as i64 + more) as usize;
                c.lists[list].resize(n, 1.0);
                self.sure(&format!("list {list} {what}"), &c, list % 2, FEW, (3, list));
            }
        }
        let mut position = 0;
        for list in 0..7 {
            for (k, v, what) in [(0, c64::new(0.0, 0.0), "zero"), (plain.needed(list) - 1, c64::new(1.0, f64::NAN), "not a number")] {
                let mut c = plain.clone();
                c.set_number(list, k, v);
                self.sure(&format!("list {list} with number {k} {what}"), &c, list % 2, FEW, (4, position + k));
            }
            position += plain.needed(list);
        }
        for (list, k, v, at, what) in [
            (1, 2, c64::new(f64::NAN, 1.0), 5, "x halves with number 2 not a number"), (6, 2, c64::new(f64::NAN, 1.0), 14, "permittivity 2 not a number"),
            (6, 17, c64::new(-0.0, 0.0), 29, "permittivity 17 zero"), (6, 17, c64::new(1.0, f64::INFINITY), 29, "permittivity 17 infinite"),
        ] {
            let mut c = plain.clone();
            c.set_number(list, k, v);
            self.sure(what, &c, 0, FEW, (4, at));
        }
        let mut c = plain.clone();
        c.set_number(6, 17, c64::new(0.0, 1.0));
        self.sure("permittivity 17 imaginary", &c, 0, Room::Exact, (0, 1));
        let mut c = mixed_kinds([65, 2, 1]);
        c.scalars[0] = 0.0;
        c.lists[0].pop();
        c.lists[6][0] = f64::NAN;
        self.sure("four faults at once, the first is told", &c, 0, FEW, (1, 0));
        c.cells[0] = 64;
        self.sure("three", &c, 0, FEW, (2, 0));
        c.scalars[0] = 1.0;
        self.sure("two", &c, 0, FEW, (3, 0));
    }

    // Lines, and 5.
    fn lines(&mut self) {
        let line = |n: usize, stretch: f64, coarsest: usize| -> Case {
            let mut c = mixed_kinds([n, 1, 1]);
            (0..n).for_each(|m| c.set_number(1, m, c64::new(stretch, 0.0)));
            c.coarsest = coarsest;
            c
        };
        for (title, c, levels) in [
            ("3 cells", line(3, 1.0, 1), 1), ("4 cells", line(4, 1.0, 1), 2), ("5 cells", line(5, 1.0, 1), 2), ("4 cells of stretch 1.5", line(4, 1.5, 1), 2),
            ("4 cells of stretch 1.75", line(4, 1.75, 1), 1), ("4 cells, coarsest 12", line(4, 1.0, 12), 1), ("4 cells, coarsest 11", line(4, 1.0, 11), 2),
        ] {
            self.sure(title, &c, 0, Room::Exact, (0, levels));
        }
        for choice in 0..2 {
            let name = NAMES[choice];
            self.titled(&format!("64 cells, {name}"), &line(64, 1.0, 1), choice, Room::Exact, true);
            self.titled(&format!("14 cells that double, {name}"), &doubling(14, 1), choice, Room::Exact, true);
            self.sure(&format!("15 cells that double, {name}"), &doubling(15, 1), choice, FEW, (5, 12));
            self.titled(&format!("15 cells that double, coarsest 12, {name}"), &doubling(15, 12), choice, Room::Exact, true);
        }
    }

    // Transfers of small lattices.
    fn transfers(&mut self) {
        for (title, cells, kinds, up, side) in [
            ("1 1 1 Bloch", [1, 1, 1], 0, 0.0, 0.0), ("3 2 1 walls", [3, 2, 1], 1, 0.0, 0.0), ("4 1 1 Bloch", [4, 1, 1], 0, 0.0, 0.0),
            ("4 1 1 wall on x", [4, 1, 1], 2, 0.0, 0.0), ("4 1 1 wall on x, stretched", [4, 1, 1], 2, 0.125, 0.0625), ("1 4 1 walls", [1, 4, 1], 1, 0.0, 0.0),
            ("2 1 5 phases", [2, 1, 5], 3, 0.0, 0.0), ("1 4 3 phases, stretched", [1, 4, 3], 3, 0.0625, 0.125),
            ("4 5 1 phase and wall, stretched", [4, 5, 1], 4, 0.03125, 0.0625), ("4 1 4 phases and no wall", [4, 1, 4], 4, 0.0, 0.0),
            ("9 1 1 several levels, wall", [9, 1, 1], 2, 0.0, 0.0), ("1 1 17 several levels, phase", [1, 1, 17], 3, 0.0, 0.0),
        ] {
            for choice in 0..2 {
                let brief = choice == 1 && cells != [4, 1, 1];
                self.titled(&format!("{title}, {}", NAMES[choice]), &small(cells, kinds, up, side), choice, Room::Exact, brief);
            }
        }
    }

    // Operators of a single level: some whole, then all of 1 to 3 cells an axis with each mix of walls, every second one shifted.
    fn soles(&mut self) {
        for (title, cells, walls, shift) in [
            ("1 1 1 Bloch", [1, 1, 1], 8, 0.0), ("1 1 1 phases, shifted", [1, 1, 1], 0, 0.375), ("2 1 1 phases", [2, 1, 1], 0, 0.0),
            ("1 2 3 phases, shifted", [1, 2, 3], 0, 0.375), ("3 2 1 walls, shifted", [3, 2, 1], 7, 0.375), ("2 1 3 wall on x and z", [2, 1, 3], 5, 0.0),
        ] {
            self.sure(&format!("{title}, one level"), &sole(cells, walls, shift), 0, Room::Exact, (0, 1));
        }
        for q in 0..243 {
            let cells = [q % 3 + 1, q / 3 % 3 + 1, q / 9 % 3 + 1];
            let c = sole(cells, q / 27, if q % 2 == 1 { 0.375 } else { 0.0 });
            self.titled(&format!("{cells:?} cells, mix {} of walls, one level", q / 27), &c, q % 2, Room::Exact, true);
        }
    }

    // One lattice in lists of every kind of length.
    fn rooms(&mut self, title: &str, c: &Case, choice: usize) {
        let Ok(levels) = levels_of(c, choice, 7, &c.numbers(6)) else { panic!("{title}") };
        let need = Lists::of(&levels, choice > 0).need();
        let exact = lengths(&need, Room::Exact);
        let accepted = (0, levels.len());
        self.sure(&format!("{title}, exactly full"), c, choice, Room::Exact, accepted);
        self.sure(&format!("{title}, with room"), c, choice, Room::Spare, accepted);
        let odd = std::array::from_fn(|k| exact[k] + NUMBERS.contains(&k) as usize);
        self.sure(&format!("{title}, an odd double at each end"), c, choice, Room::Lengths(odd), accepted);
        for k in (0..12).filter(|&k| need[k] > 0) {
            let list = [0, 1, 2, 2, 2, 3, 3, 3, 4, 4, 4, 5][k];
            for less in 1..2 + NUMBERS.contains(&k) as usize {
                let mut lent = exact;
                lent[k] -= less;
                self.sure(&format!("{title}, lent list {k} shorter by {less}"), c, choice, Room::Lengths(lent), (6, list));
            }
            let mut lent = exact;
            lent[k] = 0;
            self.sure(&format!("{title}, lent list {k} empty"), c, choice, Room::Lengths(lent), (6, list));
        }
        let mut lent = exact;
        for k in [3, 7, 10] {
            lent[k] -= 1;
        }
        self.sure(&format!("{title}, three short, the first is told"), c, choice, Room::Lengths(lent), (6, 2));
        self.sure(&format!("{title}, all empty"), c, choice, NONE, (6, 0));
    }

    // Levels that are all there is, lattices without a free edge.
    fn fixed(&mut self) {
        for choice in 0..2 {
            let name = NAMES[choice];
            let mut c = small([4, 2, 1], 4, 0.0, 0.0);
            c.coarsest = usize::MAX;
            self.sure(&format!("4 2 1 one level, {name}"), &c, choice, Room::Spare, (0, 1));
            self.sure(&format!("1 1 1 walls, {name}"), &small([1, 1, 1], 1, 0.0, 0.0), choice, Room::Spare, (0, 1));
            self.sure(&format!("1 1 5 walls, every edge fixed, {name}"), &small([1, 1, 5], 1, 0.0625, 0.0), choice, Room::Spare, (0, 2));
            self.sure(&format!("9 1 1 walls, every edge fixed, {name}"), &small([9, 1, 1], 1, 0.0, 0.0), choice, Room::Spare, (0, 3));
        }
    }
}

const NAMES: [&str; 2] = ["Galerkin", "rediscretized"];

// The first of these that is answered so.
fn first(cases: impl Iterator<Item = Case>, choice: usize, answer: Answer) -> Case {
    cases.into_iter().find(|c| exact_answer(c, choice) == answer).unwrap_or_else(|| panic!("no input with the answer {answer:?}, {}", NAMES[choice]))
}

fn finite(z: &c64) -> bool {
    z.re.is_finite() && z.im.is_finite()
}

impl Recorder {
    // 7: numbers that are not finite.
    fn not_finite(&mut self) {
        let tiny = 5e-324;
        let with = |cells: [usize; 3], kinds: usize, at: usize, v: f64| -> Case {
            let mut c = small(cells, kinds, 0.0, 0.0);
            c.scalars[3] = 2.0;
            c.set_number(6, at, c64::new(v, 0.0));
            c
        };
        let scaled = |cells: [usize; 3], v: f64| -> Case {
            let mut c = small(cells, 3, 0.0, 0.0);
            c.lists[6].iter_mut().for_each(|x| *x *= v);
            c
        };
        let halved = || (0..400).map(|j| 2f64.powi(1023 - j / 2) * if j % 2 == 1 { 0.75 } else { 1.0 });
        for choice in 0..2 {
            let name = NAMES[choice];
            self.sure(&format!("permittivities near 1e-308, one level, {name}"), &scaled([2, 1, 1], 1e-308), choice, Room::Spare, (7, 0));
            self.sure(&format!("a permittivity of 1e308, one level, {name}"), &with([1, 2, 1], 0, 3, 1e308), choice, Room::Spare, (7, 0));
            self.sure(&format!("a permittivity of 5e-324, two levels, {name}"), &with([4, 1, 1], 0, 0, tiny), choice, Room::Spare, (7, 1));
            self.sure(&format!("a permittivity of 1e308, two levels, {name}"), &with([1, 1, 5], 0, 2, 1e308), choice, Room::Spare, (7, 1));
            let c = first(halved().map(|v| scaled([9, 1, 1], v)), choice, (7, 1));
            self.sure(&format!("large permittivities, not finite from level 1 on, {name}"), &c, choice, Room::Spare, (7, 1));
        }
        for place in [2, 3] {
            let numbers = (0..200).map(|j| {
                let mut c = small([17, 1, 1], 3, 0.0, 0.0);
                c.scalars[3] = 2f64.powi(511) * 0.9f64.powi(j);
                c
            });
            let c = first(numbers, 0, (7, place));
            self.sure(&format!("a large k0, not finite from level {place} on, Galerkin"), &c, 0, Room::Spare, (7, place));
            let steps = halved().map(|v| {
                let mut c = small([1, 17, 1], 3, 0.0, 0.0);
                c.scalars[0] = v;
                c
            });
            let c = first(steps, 1, (7, place));
            self.sure(&format!("a long step, not finite from level {place} on, rediscretized"), &c, 1, Room::Spare, (7, place));
        }
        self.shares();
        // an edge on the wall of y, between two coarse nodes along z: only averaging reads it
        let mut c = small([1, 2, 4], 4, 0.0, 0.0);
        c.set_number(6, 2, c64::new(tiny, 0.0));
        self.sure("a permittivity of 5e-324 that nothing reads, Galerkin", &c, 0, Room::Spare, (0, 2));
        self.sure("the same, which averaging reads, rediscretized", &c, 1, Room::Spare, (7, 1));
    }

    // A share or its inverse that is not finite, where every other number is. The inverse of an infinite share is not a number; for a share that is not a number
    // the Rust stores 1 and has nothing against it.
    fn shares(&mut self) {
        let all_finite = |lists: &[&[c64]]| lists.iter().all(|list| list.iter().all(finite));
        let kind = |c: &Case| -> Option<usize> {
            let levels = levels_of(c, 1, 7, &c.numbers(6)).ok()?;
            if !all_finite(&Lists::of(&levels, true).numbers()[..4]) {
                return None;
            }
            levels.iter().find_map(|l| {
                let (Some((_, r)), Some((volumes, inverse))) = (&l.transfer, &l.scaling) else { return None };
                let shares = r.apply(volumes);
                let k = (0..shares.len()).find(|&k| !finite(&shares[k]) || !finite(&inverse[k])).filter(|_| all_finite(&[volumes]))?;
                Some(if shares[k].norm().is_nan() { 1 } else { 2 * finite(&shares[k]) as usize })
            })
        };
        let mut random = Random::new(1);
        let mut found = [false; 3];
        for turn in 0.. {
            assert!(turn < 20_000, "no such shares: {found:?}");
            if found == [true; 3] {
                break;
            }
            let cells = generate::cells(&mut random, 8);
            let kinds = random.below(5);
            let mut c = small(cells, kinds, random.one_of(&[0.0, 0.25]), random.one_of(&[0.0, 0.5]));
            c.lists[6].iter_mut().for_each(|x| *x = random.between(-10.0, 10.0));
            // a volume is a product of three steps: none of the operator's numbers has them all
            let power = random.between(330.0, 346.0) * random.one_of(&[1.0, -1.0]);
            (0..3).for_each(|axis| c.scalars[axis] = power.exp2());
            let answer = exact_answer(&c, 1);
            if let (7, Some(k)) = (answer.0, kind(&c)) && !found[k] {
                found[k] = true;
                let what = ["a share that is infinite", "a share that is not a number", "a share whose inverse is infinite"][k];
                self.sure(&format!("{what}, rediscretized"), &c, 1, Room::Spare, answer);
            }
        }
    }

    // Random lattices: by fours of a single level, of two or more, again, of three or more; a third each of one, two and three axes
    // of several cells.
    fn sample(&mut self, n: usize) {
        let mut random = Random::new(20_261_117);
        for k in 0..n {
            let choice = k % 2;
            let least = [1, 2, 2, 3][k / 2 % 4];
            let c = loop {
                let cells = generate::cells(&mut random, if least > 1 { 24 } else { 9 });
                let bloch = generate::kinds(&mut random);
                let c = generate::filled(&mut random, cells, bloch);
                let axes = c.cells.iter().filter(|&&n| n > 1).count();
                let (number, levels) = exact_answer(&c, choice);
                if number == 0 && axes == 1 + k % 3 && (levels == 1) == (least == 1) && levels >= least {
                    break c;
                }
            };
            let [x, y, z] = [0, 1, 2].map(|a| c.cells[a]);
            // those of many terms by digests
            let terms = levels_of(&c, choice, 7, &c.numbers(6)).map_or(0, |levels| Lists::of(&levels, choice > 0).need()[9]);
            let room = if k % 4 == 0 { Room::Spare } else { Room::Exact };
            self.titled(&format!("random lattice {k}, {x} {y} {z} cells, {}", NAMES[choice]), &c, choice, room, terms > 700);
        }
    }
}

// ---- rows of a store of any content

// The terms of a row, the rule written a second time. Part q of the lists has the rows of level q + first.
fn span(levels: usize, cells: &[usize], first: usize, starts: &[usize], room: usize, part: usize, row: usize) -> Option<(usize, usize)> {
    let edges = |level: usize| -> usize { 3 * cells[3 * level..3 * level + 3].iter().product::<usize>() };
    debug_assert!(part + first < levels);
    let (mut at, mut terms) = (0, 0);
    for q in 0..part {
        let last = *starts.get(at + edges(q + first))?;
        at += edges(q + first) + 1;
        terms += last;
        if terms > room {
            return None;
        }
    }
    if row >= edges(part + first) {
        return None;
    }
    let (a, b) = (*starts.get(at + row)?, *starts.get(at + row + 1)?);
    (a <= b && terms + b <= room).then_some((terms + a, terms + b))
}

impl Recorder {
    fn handed(&mut self, title: &str, levels: usize, cells: &[usize], starts: &[usize], rows: &[(usize, usize)], doubles: usize, words: usize) {
        self.title(title);
        let of = |list: &[usize]| in_hex(&list.iter().map(|&v| v as u64).collect::<Vec<_>>());
        let cells: Vec<usize> = cells.iter().copied().chain(std::iter::repeat(0)).take(36).collect();
        self.set("built", of(&[&[levels], &cells[..]].concat()));
        self.set("places", of(starts));
        // a level exists that is below `levels` and 12 and has 1 to 64 cells an axis
        let there = |n: usize| n <= levels.min(12) && cells[..3 * n].iter().all(|c| (1..=64).contains(c));
        for &(level, row) in rows {
            let _ = writeln!(self.stdin, "handed{}", of(&[level, row, doubles, words]));
            let transfer = level < 11 && there(level + 2);
            let forward = if transfer { span(levels, &cells, 0, starts, doubles / 2, level, row) } else { None };
            let turned = if transfer { span(levels, &cells, 1, starts, doubles / 2, level, row) } else { None };
            let stored = (levels > 1) as usize;
            let operator = if level >= stored && level < 12 && there(level + 1) { span(levels, &cells, stored, starts, words, level - stored, row) } else { None };
            for (name, found, begin) in [("forward", forward, 0.0), ("turned", turned, 0.5)] {
                let (a, b) = found.unwrap_or((0, 0));
                let values: Vec<u64> = (2 * a..2 * b).map(|k| bits(begin + k as f64)).collect();
                self.list(name, &values, true, false);
            }
            let (a, b) = operator.unwrap_or((0, 0));
            self.list("operator", &(a as u64..b as u64).collect::<Vec<_>>(), false, false);
        }
    }

    // Stores of 3 and 6 edges a level, sound ones and others.
    fn wrong_stores(&mut self) {
        let two = [2, 1, 1, 1, 1, 1];
        let rows = [(0, 0), (0, 2), (0, 3), (0, 5), (0, 6), (1, 0), (1, 2), (1, 3), (2, 0), (11, 0), (12, 0), (usize::MAX, usize::MAX)];
        let sound = [0, 2, 4, 5, 6, 6, 8];
        self.handed("rows of two levels", 2, &two, &sound, &rows, 20, 10);
        self.handed("one number and an odd double too few", 2, &two, &sound, &rows[..8], 15, 7);
        self.handed("starts that fall", 2, &two, &[0, 4, 2, 5, 3, 7, 8], &rows[..8], 20, 10);
        self.handed("starts past the list", 2, &two, &[0, 2, 11, 12, usize::MAX, 3, 4], &rows[..8], 20, 10);
        self.handed("starts that end early", 2, &two, &[0, 2, 4], &rows[..8], 20, 10);
        self.handed("no starts", 2, &two, &[], &rows[..8], 20, 10);
        self.handed("empty lists", 2, &two, &sound, &rows[..8], 0, 0);
        self.handed("one level", 1, &two, &sound, &rows[..8], 20, 10);
        self.handed("no level", 0, &two, &sound, &rows[..8], 20, 10);
        self.handed("a level of 0 cells", 2, &[2, 1, 1, 1, 0, 1], &sound, &rows[..8], 20, 10);
        self.handed("a level of 65 cells", 2, &[65, 1, 1, 1, 1, 1], &sound, &rows[..8], 20, 10);
        self.handed("a level of the most cells that a number can say", 2, &[2, 1, 1, 1, 1, usize::MAX], &sound, &rows[..8], 20, 10);
        let three = [1, 1, 1, 1, 1, 1, 1, 1, 1];
        let parts = [0, 1, 2, 3, 0, 1, 2, 2, 0, 0, 1, 3];
        let deep: Vec<(usize, usize)> = (0..4).flat_map(|level| (0..4).map(move |row| (level, row))).collect();
        self.handed("three levels", 3, &three, &parts, &deep, 20, 10);
        self.handed("three levels, a first part that ends past the list", 3, &three, &[0, 1, 2, usize::MAX, 0, 1, 2, 2], &deep, 20, 10);
        self.handed("more levels than 12", usize::MAX, &[1; 36], &[[0, 0, 1, 1]; 12].concat(), &[(0, 1), (10, 1), (11, 1), (12, 1), (13, 0)], 64, 64);
    }
}

// Writes the two files into a folder.
pub fn write(folder: &str) -> Result<(), String> {
    let mut r = Recorder { stdin: String::new(), stdout: String::new(), lines: Vec::new(), lists: Default::default() };
    r.stdout += "none once\n0 once\n0 0 twice\n1 0 once\n2 1 0 once\n1 0 1 twice\n";
    r.grids_and_scalars();
    r.lists();
    r.lines();
    r.transfers();
    r.soles();
    r.rooms("4 1 1 Bloch, Galerkin", &small([4, 1, 1], 0, 0.0, 0.0), 0);
    r.rooms("4 2 1 wall on x, rediscretized", &small([4, 2, 1], 2, 0.0, 0.0), 1);
    r.fixed();
    r.not_finite();
    r.changes();
    r.wrong_stores();
    r.sample(40);
    for (name, text) in [("stdin", &r.stdin), ("stdout", &r.stdout)] {
        std::fs::write(format!("{folder}/{name}"), text).map_err(|e| format!("{folder}/{name}: {e}"))?;
    }
    println!("{folder}: stdin has {} bytes, stdout {}", r.stdin.len(), r.stdout.len());
    Ok(())
}
