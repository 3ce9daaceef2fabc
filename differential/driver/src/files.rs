// Setup files: a second reader, written from the specification over the whole file, against `yonaduvi_read`. Parsing, the order of the refusals, 1, 12 and
// 13 are its own; what a setup gives comes from the Rust, what a change gives from the book (book.rs). Files are whole or damaged (files/damage.rs).

mod damage;
pub mod record;
mod written;

use crate::book::Book;
use crate::case::Case;
use crate::generate;
use crate::lent::{self, doubles};
use crate::ours::{self, Store};
use crate::random::Random;
use crate::store::{self, Left, Lists, is_number, length};
use crate::table;
use num_complex::Complex64 as c64;
use written::Written;

// ---- the second reader

// How a file comes to its refusal 12.
#[derive(Clone, Copy, PartialEq)]
pub enum Fault {
    OutOfTurn,
    CutOff,
    NoKind,
    Choice,
    Behind,
    // of another number
    Other,
}

pub struct Refused {
    pub answer: [usize; 2],
    pub fault: Fault,
}

fn refused<T>(number: usize, place: usize) -> Result<T, Refused> {
    Err(Refused { answer: [number, place], fault: Fault::Other })
}

fn broken<T>(place: usize, fault: Fault) -> Result<T, Refused> {
    Err(Refused { answer: [12, place], fault })
}

// What the records left in the lists.
pub enum Kept {
    Untouched,
    Zeros,
    Filled(Lists),
}

impl Kept {
    pub fn left(&self) -> Left<'_> {
        match self {
            Kept::Untouched => Left::Untouched,
            Kept::Zeros => Left::Zeros,
            Kept::Filled(e) => Left::Filled(e),
        }
    }
}

pub struct Reading {
    pub answer: [usize; 2],
    pub fault: Fault,
    pub kept: Kept,
    pub choice: usize,
    // the changes accepted before the end, or before the refusal
    pub changes: usize,
}

// What a file is read with: the most cells taken, the doubles that hold its numbers, the lengths of the twelve lists.
#[derive(Clone, Copy, Debug)]
pub struct Room {
    pub limit: usize,
    pub held: usize,
    pub lent: [usize; 12],
}

// The records from an offset on.
struct Records<'a> {
    file: &'a [u8],
    at: usize,
}

impl<'a> Records<'a> {
    // The next record, which has to be of one of these kinds: the offset of its kind byte, its kind, its body.
    fn next(&mut self, kinds: &[u8]) -> Result<(usize, u8, &'a [u8]), Refused> {
        let at = self.at;
        let Some(&kind) = self.file.get(at) else {
            return broken(self.file.len(), Fault::NoKind);
        };
        if !kinds.contains(&kind) {
            return broken(at, Fault::OutOfTurn);
        }
        let Some(body) = self.file[at + 1..].get(..written::body(kind)) else {
            return broken(at, Fault::CutOff);
        };
        self.at = at + 1 + body.len();
        Ok((at, kind, body))
    }
}

fn word16(body: &[u8], k: usize) -> usize {
    u16::from_le_bytes([body[k], body[k + 1]]) as usize
}

fn word32(body: &[u8], k: usize) -> usize {
    u32::from_le_bytes(std::array::from_fn(|q| body[k + q])) as usize
}

fn double(body: &[u8], k: usize) -> f64 {
    f64::from_le_bytes(std::array::from_fn(|q| body[k + q]))
}

fn number(body: &[u8], k: usize) -> c64 {
    c64::new(double(body, k), double(body, k + 8))
}

// The setup's input and its choice, up to the record of kind 6.
fn input(r: &mut Records, room: &Room) -> Result<(Case, usize), Refused> {
    let (_, _, grid) = r.next(&[1])?;
    let cells = [word16(grid, 0), word16(grid, 2), word16(grid, 4)];
    if let Some(axis) = cells.iter().position(|&n| n == 0 || n > 64) {
        return refused(1, axis);
    }
    let mut c = Case::plain(cells);
    if c.total() > 4096 {
        return refused(1, 3);
    }
    if c.total() > room.limit || room.held < written::doubles(cells) {
        return refused(13, c.total());
    }
    for k in 0..5 {
        c.scalars[k] = double(grid, 6 + 8 * k);
    }
    for axis in 0..3 {
        let (_, kind, phase) = r.next(&[2, 3])?;
        c.set_kind(axis, kind == 3);
        if kind == 3 {
            c.set_phase(axis, number(phase, 0));
        }
    }
    for list in 0..7 {
        for k in 0..c.needed(list) {
            let (_, _, body) = r.next(&[if list < 6 { 4 } else { 5 }])?;
            c.set_number(list, k, number(body, 0));
        }
    }
    let (at, _, chosen) = r.next(&[6])?;
    if chosen[0] > 1 {
        return broken(at, Fault::Choice);
    }
    c.coarsest = word32(chosen, 1);
    Ok((c, chosen[0] as usize))
}

// What a setup answers in lists of these lengths, and leaves in them.
fn set_up(c: &Case, choice: usize, lent: &[usize; 12]) -> ([usize; 2], Kept) {
    if let Some((number, place)) = table::refusal(c, 7) {
        return ([number, place], Kept::Untouched);
    }
    let Some(levels) = store::theirs(c, &c.numbers(6), choice > 0) else {
        return ([5, 12], Kept::Zeros);
    };
    let lists = Lists::of(&levels, choice > 0);
    let places = std::array::from_fn(|k| if is_number(k) { lent[k] / 2 } else { lent[k] });
    let short = || table::short(&lists.need(), &places).map(|l| [6, l]);
    match table::twice(&levels).map(|l| [8, l]).or_else(short).or_else(|| table::no_number(&levels).map(|l| [7, l])) {
        Some(answer) => (answer, Kept::Zeros),
        None => ([0, levels.len()], Kept::Filled(lists)),
    }
}

// The changes, up to the end of the file.
fn change(r: &mut Records, book: &mut Book, accepted: &mut usize) -> Result<(), Refused> {
    loop {
        let (_, kind, body) = r.next(&[7, 255])?;
        if kind == 255 {
            return if r.at < r.file.len() { broken(r.at, Fault::Behind) } else { Ok(()) };
        }
        match book.told(word32(body, 0), number(body, 4)) {
            Ok([0, _]) => *accepted += 1,
            Ok([n, place]) => return refused(n, place),
            Err(what) => panic!("{what}"),
        }
    }
}

// What a reading of the file answers and leaves.
pub fn read(file: &[u8], room: &Room) -> Reading {
    let mut r = Records { file, at: 0 };
    let (c, choice) = match input(&mut r, room) {
        Ok(found) => found,
        Err(e) => return Reading { answer: e.answer, fault: e.fault, kept: Kept::Untouched, choice: 0, changes: 0 },
    };
    let (answer, kept) = set_up(&c, choice, &room.lent);
    let Kept::Filled(lists) = kept else {
        return Reading { answer, fault: Fault::Other, kept, choice, changes: 0 };
    };
    let mut book = Book::opened(&c, choice > 0, lists);
    let mut changes = 0;
    let told = change(&mut r, &mut book, &mut changes);
    let kept = Kept::Filled(book.lists);
    match told {
        Ok(()) => Reading { answer, fault: Fault::Other, kept, choice, changes },
        Err(e) => Reading { answer: e.answer, fault: e.fault, kept, choice, changes },
    }
}

// ---- the comparison

// What was found equal.
#[derive(Default)]
struct Counts {
    files: u64,
    whole: u64,
    readings: u64,
    // by number: 0 of those that were accepted
    told: [u64; 14],
    // 12 by its fault; 1, 2 and 6 by place; those of each number in which the lists hold what a setup or changes gave
    faults: [u64; 5],
    cells: [u64; 4],
    scalars: [u64; 8],
    short: [u64; 6],
    filled: [u64; 14],
    // accepted by choice, changes accepted, words and doubles looked at
    choices: [u64; 2],
    changes: u64,
    places: u64,
}

fn hex(file: &[u8]) -> String {
    file.iter().map(|b| format!("{b:02x}")).collect()
}

// One file in lists of some lengths.
fn one(what: &str, file: &[u8], room: &Room, out: usize, counts: &mut Counts) -> Result<(), String> {
    let e = read(file, room);
    let mut s = Store::lent(room.lent, out);
    let mut held = doubles(room.held);
    ours::read(file, room.limit, &mut held, &mut s);
    let told = |text: String| format!("{what}, answer {:?}: {text}\n  limit {}, {} doubles held, lists of {:?}\n  {}", e.answer, room.limit, room.held, room.lent, hex(file));
    lent::same_words("out", &s.out, lent::Left::Given(&e.answer)).map_err(told)?;
    counts.places += store::same("lists", &s, e.kept.left()).map_err(told)?;
    if let Some((k, text)) = lent::doubles_depart(&held[room.held..], lent::Left::Untouched) {
        return Err(told(format!("behind the list that holds the numbers, place {k}: {text}")));
    }
    counts.readings += 1;
    let [n, place] = e.answer;
    counts.told[n] += 1;
    counts.changes += e.changes as u64;
    counts.filled[n] += matches!(e.kept, Kept::Filled(_)) as u64;
    match n {
        0 => counts.choices[e.choice] += 1,
        1 => counts.cells[place] += 1,
        2 => counts.scalars[place] += 1,
        6 => counts.short[place] += 1,
        12 => counts.faults[e.fault as usize] += 1,
        _ => {}
    }
    Ok(())
}

// Cells: most lattices have at most 16, some 60, few up to 4,096.
fn cells(random: &mut Random) -> [usize; 3] {
    match random.below(1000) {
        0 => generate::large_cells(random),
        1 => random.one_of(&[[16, 16, 16], [64, 64, 1], [1, 8, 64]]),
        2..5 => generate::cells(random, 1000),
        5..60 => generate::cells(random, 60),
        60..400 => generate::cells(random, 4),
        _ => generate::cells(random, 16),
    }
}

// A lattice with its changes: now and then one that has over 12 levels, or numbers that are refused.
fn lattice(random: &mut Random, k: usize) -> Case {
    let bloch = generate::kinds(random);
    if k % 40 == 7 {
        let mut c = Case::plain([random.from_to(13, 16), 1, 1]);
        (0..3).for_each(|axis| c.set_kind(axis, bloch[axis]));
        for m in 0..c.cells[0] {
            c.set_number(1, m, c64::new(1.5 * 2f64.powi(m.saturating_sub(1) as i32), 0.0));
        }
        c.changes = generate::changes(random, &c, 3);
        return c;
    }
    let cells = cells(random);
    let mut c = generate::filled(random, cells, bloch);
    if random.once_in(3) {
        c.coarsest = random.below(12);
    }
    if !random.once_in(4) {
        let most = if c.total() > 60 { 2 } else { 6 };
        c.changes = generate::changes(random, &c, most);
    }
    // of the values that are refused few, or no file is long
    let plain = c64::new(random.between(1.0, 4.0), 0.0);
    for (edge, value) in c.changes.iter_mut() {
        if random.once_in(2) {
            (*edge, *value) = (*edge % c.lists[6].len().div_ceil(2), plain);
        }
    }
    c
}

// The lengths that a file is read with: 768 places a list, as the listing program lends; exactly those of its lattice, now and then one of them
// less; and longer ones, with an odd double.
fn rooms(random: &mut Random, c: &Case, need: &[usize; 12]) -> [Room; 3] {
    let exact: [usize; 12] = std::array::from_fn(|k| length(k, need[k]));
    let mut tight = exact;
    if random.once_in(3) {
        let k = random.below(12);
        tight[k] = tight[k].saturating_sub(random.from_to(1, 2));
    }
    let longer = std::array::from_fn(|k| length(k, need[k] + 5 + k) + k % 2);
    let held = written::doubles([c.cells[0], c.cells[1], c.cells[2]]);
    let some = held + random.below(3);
    let most = random.one_of(&[16, 4096, 4096, 4096, c.total(), c.total(), c.total(), c.total() - 1]);
    [
        Room { limit: 16, held: 168, lent: std::array::from_fn(|k| length(k, 768)) },
        Room { limit: 4096, held: if random.once_in(16) { held - 1 } else { held }, lent: tight },
        Room { limit: most, held: some, lent: longer },
    ]
}

// Files of one lattice: as it was written, and damaged up to 20 times, of a large lattice fewer.
fn files(random: &mut Random, k: usize, most: usize, before: &mut Written, counts: &mut Counts) -> Result<(), String> {
    let c = lattice(random, k);
    let times = if c.total() > 60 { 6 } else { 20 }.min(most);
    let choice = random.below(2);
    let need = store::theirs(&c, &c.numbers(6), choice > 0).map_or([9; 12], |levels| Lists::of(&levels, choice > 0).need());
    let w = Written::of(&c, choice);
    for time in 0..=times {
        let (what, file) = if time == 0 { ("a file".to_string(), w.bytes.clone()) } else { damage::damaged(random, &w, before) };
        let out = if random.once_in(20) { random.below(6) } else { 2 };
        for room in rooms(random, &c, &need) {
            one(&format!("lattice {k}, {what}"), &file, &room, out, counts)?;
        }
        counts.whole += (time == 0) as u64;
        counts.files += (time > 0) as u64;
    }
    *before = w;
    Ok(())
}

fn report(c: &Counts) {
    println!("files     {:>12}   damaged, {} as they were written; {} readings", c.files, c.whole, c.readings);
    println!("          {:>12}   accepted: {} Galerkin, {} rediscretized; {} changes accepted", c.told[0], c.choices[0], c.choices[1], c.changes);
    let listed: Vec<String> = (1..14).map(|n| format!("{n}: {}", c.told[n])).collect();
    println!("          {:>12}   refused, {}", c.told[1..].iter().sum::<u64>(), listed.join(", "));
    let [turn, cut, none, choice, behind] = c.faults;
    println!("                         12: {turn} out of turn, {cut} cut off, {none} with no kind byte left, {choice} by the choice, {behind} behind the end");
    println!("                         1 by place {:?}, 2 by place {:?}, 6 by list {:?}", c.cells, c.scalars, c.short);
    println!("                         after a setup: 7: {}, 9: {}, 10: {}, 12: {}", c.filled[7], c.filled[9], c.filled[10], c.filled[12]);
    println!("places    {:>12}   words and doubles of the lists", c.places);
}

// So many damaged files.
pub fn run(args: &[String]) -> Result<(), String> {
    let number = |k: usize, otherwise: u64| args.get(k).map_or(otherwise, |a| a.parse().expect("a number"));
    let (seed, count) = (number(0, 1), number(1, 200_000));
    println!("seed {seed}, {count} damaged files");
    let mut random = Random::new(seed);
    let mut counts = record::compare(Counts::default())?;
    println!("recorded  {:>12}   readings of the files of crates/file_cases", counts.readings);
    let mut before = Written::of(&Case::plain([1, 1, 1]), 0);
    for room in [Room { limit: 16, held: 168, lent: [9; 12] }, Room { limit: 0, held: 0, lent: [0; 12] }] {
        one("an empty file", &[], &room, 2, &mut counts)?;
    }
    let mut k = 0;
    while counts.files < count {
        files(&mut random, k, (count - counts.files) as usize, &mut before, &mut counts)?;
        k += 1;
    }
    report(&counts);
    println!("everything equal");
    Ok(())
}
