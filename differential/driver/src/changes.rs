// Changes of a store. A list of them after an accepted setup, against the book of permittivities: every answer, and every place of every list. The checks
// of a change in their order, in any lists. Stores whose words or numbers were altered, and other inputs on them, against what the lists hold
// (reach.rs). A refusal leaves every list as it was, bit for bit.

use crate::book::Book;
use crate::case::Case;
use crate::generate;
use crate::lent::{self, BEHIND, lent, words};
use crate::ours::{self, Store};
use crate::random::Random;
use crate::reach::{Numbers, Shape};
use crate::store::{self, LISTS, Left, Lists, NUMBERS, WORDS, is_number, length};
use crate::table;
use num_complex::Complex64 as c64;
use source::Level;

// What was found equal.
#[derive(Default)]
pub struct Counts {
    // lists of changes by choice, the changes in them that were accepted, and those refused by number, 7 by level too
    pub lists: [u64; 2],
    pub accepted: u64,
    pub refused: [u64; 12],
    pub levels: [u64; 12],
    // words and doubles compared after them
    pub places: u64,
    // single changes, in lists of any content, of words or lengths that were altered, or of an input that was spoiled: accepted, and refused by number
    pub tried: u64,
    pub spoiled: [u64; 12],
    // single changes of stores whose numbers were altered or that another input is given with: accepted, and refused by number
    pub found: u64,
    pub unsound: [u64; 12],
    // of the accepted ones of both kinds: the stored numbers in reached rows, and those in others
    pub reached: u64,
    pub kept: u64,
    // accepted ones with another input, and those with the other choice among them
    pub inputs: u64,
    pub choices: u64,
    // edges whose reach was compared with how far a NaN gets in the Rust
    pub spread: u64,
}

fn name(choice: usize) -> &'static str {
    ["Galerkin", "rediscretized"][choice.min(1)]
}

fn shown(value: c64) -> String {
    format!("({:?}, {:?})", value.re, value.im)
}

fn bits(list: &[f64]) -> impl Iterator<Item = u64> + '_ {
    list.iter().map(|x| x.to_bits())
}

// Every word and every double of the lists, behind their ends too, as before: bit for bit. How many they are.
fn untouched(what: &str, before: &Store, after: &Store) -> Result<u64, String> {
    let doubles = |s: &Store, q: usize, k: usize| format!("{:?} ({:016x})", s.doubles[q][k], s.doubles[q][k].to_bits());
    let mut looked_at = 0;
    for (q, &list) in WORDS.iter().enumerate() {
        if before.words[q] != after.words[q] {
            return Err(format!("{what}: {}, which are lent to be read alone, were written to", LISTS[list]));
        }
        looked_at += after.words[q].len() as u64;
    }
    for (q, &list) in NUMBERS.iter().enumerate() {
        let (a, b) = (&before.doubles[q], &after.doubles[q]);
        if let Some(k) = bits(a).zip(bits(b)).position(|(x, y)| x != y) {
            let part = ["real", "imaginary"][k % 2];
            return Err(format!("{what}: {}, number {}, {part} part: ours {}, expected {}", LISTS[list], k / 2, doubles(after, q, k), doubles(before, q, k)));
        }
        looked_at += b.len() as u64;
    }
    Ok(looked_at)
}

// ---- lists of changes

// A list of changes after an accepted setup, in lists exactly full and, of a small lattice, in lists with room and an odd double behind too. Every answer is
// the book's; what is in force is compared after each change of a small lattice, of others after the last.
pub fn list(c: &Case, choices: [usize; 3], e: Lists, counts: &mut Counts) -> Result<(), String> {
    let need = e.need();
    let exact: [usize; 12] = std::array::from_fn(|k| length(k, need[k]));
    let ample = std::array::from_fn(|k| length(k, need[k] + need[k] / 4 + 3 * k) + 1);
    let (small, odd) = (c.total() <= 40, c.changes.len() % 2 == 1);
    let lengths = if small { vec![exact, ample] } else { vec![if odd { exact } else { ample }] };
    let mut stores: Vec<Store> = lengths.into_iter().map(|lengths| Store::lent(lengths, 2)).collect();
    for s in &mut stores {
        ours::setup(c, choices[0], s);
        lent::same_words("the setup before a list of changes, out", &s.out, lent::Left::Given(&[0, need_levels(&e)]))?;
    }
    let mut book = Book::opened(c, choices[0] > 0, e);
    for (k, &(edge, value)) in c.changes.iter().enumerate() {
        let answer = book.told(edge, value)?;
        let what = format!("{} change {k}, edge {edge} to {}, answer {answer:?}", name(choices[0]), shown(value));
        let whole = small || k + 1 == c.changes.len();
        for (q, s) in stores.iter_mut().enumerate() {
            let before = if answer[0] > 0 { Some(s.clone()) } else { None };
            s.out = words(if k % 8 == 5 { k % 5 } else { 2 });
            ours::change(c, choices[(k + q) % 3], edge, value, s);
            lent::same_words(&format!("{what}, out"), &s.out, lent::Left::Given(&answer))?;
            if let Some(before) = before {
                counts.places += untouched(&what, &before, s)?;
            }
            if whole {
                counts.places += store::same(&what, s, Left::Filled(&book.lists))?;
            }
        }
        match answer[0] {
            0 => counts.accepted += 1,
            number => counts.refused[number] += 1,
        }
        if answer[0] == 7 {
            counts.levels[answer[1]] += 1;
        }
    }
    counts.lists[choices[0].min(1)] += 1;
    Ok(())
}

// The level count of a filled store: three lines a level.
fn need_levels(e: &Lists) -> usize {
    e.ends.begin.len() / 3
}

// ---- single changes

// What a change has to answer and to leave: the table's rows in their order, then the reached rows worked out from what the lists hold. `levels`: the
// Rust's, none where there are over 12; only lines, starts and columns are read.
pub struct Expected {
    pub answer: [usize; 2],
    // the numbers after it, where they are not those before it; and how many stand in reached rows
    pub doubles: Option<[Vec<f64>; 5]>,
    reached: usize,
}

pub fn expected(c: &Case, rediscretized: bool, levels: Option<&[Level]>, s: &Store, edge: usize, value: c64) -> Expected {
    let refused = |number: usize, place: usize| Expected { answer: [number, place], doubles: None, reached: 0 };
    if let Some((number, place)) = table::refusal(c, 6) {
        return refused(number, place);
    }
    if edge >= c.edges() {
        return refused(9, edge);
    }
    if table::bad_number(value.re, value.im) {
        return refused(10, edge);
    }
    let Some(levels) = levels else {
        return refused(5, 12);
    };
    if let Some(level) = table::twice(levels) {
        return refused(8, level);
    }
    let mut places = [0; 12];
    for (k, list) in WORDS.iter().zip(&s.words) {
        places[*k] = list.len() - BEHIND;
    }
    for (k, list) in NUMBERS.iter().zip(&s.doubles) {
        places[*k] = (list.len() - BEHIND) / 2;
    }
    if let Some(list) = table::short(&Lists::of(levels, rediscretized).need(), &places) {
        return refused(6, list);
    }
    if let Some(level) = table::differs(levels, &s.words) {
        return refused(11, level);
    }
    let shape = Shape::of(c, levels, rediscretized);
    let reach = shape.reach(edge);
    let mut numbers = Numbers::found(&shape, &s.doubles);
    if let Some(level) = numbers.change(&shape, &reach, edge, value) {
        return refused(7, level);
    }
    let mut doubles = s.doubles.clone();
    numbers.lay(&mut doubles);
    Expected { answer: [0, levels.len()], doubles: Some(doubles), reached: shape.stored(&reach) }
}

// The Rust's levels of an input that passes the checks, for their lines, starts and columns.
pub fn structure(c: &Case, rediscretized: bool) -> Option<Vec<Level>> {
    match table::refusal(c, 6) {
        Some(_) => None,
        None => store::theirs(c, &vec![c64::new(1.0, 0.0); c.edges()], rediscretized),
    }
}

// One change of a store of any content. `told`: what was done to the store or the input before.
#[allow(clippy::too_many_arguments)]
fn one(
    told: &str,
    c: &Case,
    choice: usize,
    levels: Option<&[Level]>,
    s: &mut Store,
    edge: usize,
    value: c64,
    altered: bool,
    counts: &mut Counts,
) -> Result<bool, String> {
    let e = expected(c, choice > 0, levels, s, edge, value);
    let what = format!("{} change of {told}, edge {edge} to {}, answer {:?}", name(choice), shown(value), e.answer);
    let mut before = s.clone();
    ours::change(c, choice, edge, value, s);
    lent::same_words(&format!("{what}, out"), &s.out, lent::Left::Given(&e.answer))?;
    s.out = words(2);
    let numbers = before.doubles.iter().map(|list| list.len() / 2).sum::<usize>() as u64;
    if let Some(doubles) = e.doubles {
        before.doubles = doubles;
        counts.reached += e.reached as u64;
        counts.kept += numbers - e.reached as u64;
    }
    counts.places += untouched(&what, &before, s)?;
    let (accepted, refused) = if altered { (&mut counts.found, &mut counts.unsound) } else { (&mut counts.tried, &mut counts.spoiled) };
    match e.answer[0] {
        0 => *accepted += 1,
        number => refused[number] += 1,
    }
    Ok(e.answer[0] == 0)
}

// ---- the checks, in any lists

// An edge, most often one that is there.
fn some_edge(random: &mut Random, c: &Case) -> usize {
    let edges = c.cells.iter().take(3).fold(3usize, |n, k| n.wrapping_mul(*k));
    match random.below(8) {
        0 => random.one_of(&[edges, edges.wrapping_add(1), usize::MAX, usize::MAX - 1]),
        1 => random.one_of(&[0, edges.wrapping_sub(1)]),
        _ => random.below(edges.clamp(1, 20_000)),
    }
}

// Changes in lists that no setup filled: of some length, and now and then of others. `levels`: the Rust's, if there are.
pub fn anywhere(c: &Case, choices: [usize; 3], levels: Option<&[Level]>, counts: &mut Counts) -> Result<(), String> {
    let mut random = Random::new(c.mark());
    let (edge, value) = (some_edge(&mut random, c), generate::value(&mut random));
    let lengths = std::array::from_fn(|k| if c.room == [0; 8] { 41 } else { lent(41, c.room[k % 8]) });
    let mut s = Store::lent(lengths, if random.once_in(8) { random.below(4) } else { 2 });
    one("lists that no setup filled", c, choices[random.below(3)], levels, &mut s, edge, value, false, counts)?;
    Ok(())
}

// Where the parts of a list of words begin and end: of each level that has one, of the ends on each axis.
pub fn parts(e: &Lists, q: usize) -> Vec<(usize, usize)> {
    let rows = [&e.forward, &e.turned, &e.operators];
    let begin: Vec<usize> = match q {
        0 => e.ends.begin.iter().map(|b| b.1).collect(),
        _ => rows[(q - 1) / 2].begin.iter().map(|b| if q % 2 == 1 { b.1 } else { b.2 }).collect(),
    };
    let ends = begin.iter().skip(1).copied().chain([e.words()[q].len()]);
    begin.iter().copied().zip(ends).filter(|(a, b)| a < b).collect()
}

// A list with fewer words or doubles lent.
fn shorten(s: &mut Store, list: usize, by: usize) {
    if let Some(q) = WORDS.iter().position(|&k| k == list) {
        let left = (s.words[q].len() - BEHIND).saturating_sub(by);
        s.words[q].truncate(left);
        s.words[q].extend(words(0));
    }
    if let Some(q) = NUMBERS.iter().position(|&k| k == list) {
        let left = (s.doubles[q].len() - BEHIND).saturating_sub(by);
        s.doubles[q].truncate(left);
        s.doubles[q].extend(lent::doubles(0));
    }
}

// A word altered; what is told of it.
fn alter_word(random: &mut Random, s: &mut Store, q: usize, k: usize) -> String {
    let old = s.words[q][k];
    s.words[q][k] = match random.below(6) {
        0 => random.one_of(&[0, 1, usize::MAX, 1 << 32, 1 << 63]),
        1 => old ^ (1 << random.below(64)),
        2 | 3 => old.wrapping_add(1),
        _ => old.wrapping_sub(1),
    };
    format!("{} {k}: {} for {old}", LISTS[WORDS[q]], s.words[q][k])
}

// A double altered; what is told of it.
fn alter_number(random: &mut Random, s: &mut Store) -> String {
    let some: Vec<usize> = (0..5).filter(|&q| s.doubles[q].len() > BEHIND).collect();
    let q = random.one_of(&some);
    let k = random.below(s.doubles[q].len() - BEHIND);
    s.doubles[q][k] = any_double(random);
    format!("{} {}.{}: {:?}", LISTS[NUMBERS[q]], k / 2, k % 2, s.doubles[q][k])
}

fn any_double(random: &mut Random) -> f64 {
    match random.below(24) {
        0 => random.one_of(&[f64::NAN, -f64::NAN, f64::INFINITY, f64::NEG_INFINITY]),
        1 => random.any_double(),
        2 => random.one_of(&[0.0, -0.0]),
        3 => random.one_of(&[1e308, -1e308, 5e-324, 1e155, 1e-155]),
        _ => random.between(-4.0, 4.0),
    }
}

// A store filled by a setup: in lists exactly full, and in lists with room and an odd double behind, long enough for the other choice too.
fn stores(c: &Case, choice: usize, e: &Lists, other: &Lists) -> [Store; 2] {
    let (need, more) = (e.need(), other.need());
    let exact = std::array::from_fn(|k| length(k, need[k]));
    let ample = std::array::from_fn(|k| length(k, need[k].max(more[k]) + 5 + k) + k % 2);
    [exact, ample].map(|lengths| {
        let mut s = Store::lent(lengths, 2);
        ours::setup(c, choice, &mut s);
        s.out = words(2);
        s
    })
}

// Everything about single changes of a store that a setup filled.
pub fn tries(c: &Case, choices: [usize; 3], levels: &[Level], e: &Lists, counts: &mut Counts) -> Result<(), String> {
    let rediscretized = choices[0] > 0;
    let Some(others) = structure(c, !rediscretized) else {
        return Err("the Rust has levels of one choice alone".to_string());
    };
    let filled = stores(c, choices[0], e, &Lists::of(&others, !rediscretized));
    let random = &mut Random::new(c.mark());
    short(random, c, choices, levels, e, &filled[0], counts)?;
    differing(random, c, choices, levels, e, &filled, counts)?;
    for _ in 0..3 {
        spoiled(random, c, choices, levels, &filled, counts)?;
    }
    if c.total() > 60 {
        return Ok(());
    }
    spread(c, rediscretized, levels, random.below(c.edges()), counts)?;
    for _ in 0..3 {
        altered(random, c, choices, levels, &filled, counts)?;
        other_input(random, c, choices, &filled, counts)?;
    }
    Ok(())
}

// 6: each list one place short, of numbers by both doubles or by one; now and then a second one, and a word altered, which 6 comes before.
fn short(random: &mut Random, c: &Case, choices: [usize; 3], levels: &[Level], e: &Lists, filled: &Store, counts: &mut Counts) -> Result<(), String> {
    let need = e.need();
    let some: Vec<usize> = (0..12).filter(|&k| need[k] > 0).collect();
    let tried = if c.total() <= 40 { some.clone() } else { vec![random.one_of(&some)] };
    for list in tried {
        let mut s = filled.clone();
        shorten(&mut s, list, if is_number(list) { random.from_to(1, 2) } else { 1 });
        let mut told = format!("a store with {} short", LISTS[list]);
        if random.once_in(3) {
            let second = random.one_of(&some);
            shorten(&mut s, second, 2);
            told += &format!(", {} too", LISTS[second]);
        }
        if random.once_in(3) && s.words[0].len() > BEHIND {
            told += &format!(", {}", alter_word(random, &mut s, 0, 0));
        }
        let (edge, value) = (some_edge(random, c), generate::value(random));
        one(&told, c, random.one_of(&choices), Some(levels), &mut s, edge, value, false, counts)?;
    }
    Ok(())
}

// 11: a word altered in each part of each list of words, of larger lattices in some; several; and words beyond the need, which are not noticed.
fn differing(
    random: &mut Random,
    c: &Case,
    choices: [usize; 3],
    levels: &[Level],
    e: &Lists,
    filled: &[Store; 2],
    counts: &mut Counts,
) -> Result<(), String> {
    let all: Vec<(usize, (usize, usize))> = (0..7).flat_map(|q| parts(e, q).into_iter().map(move |p| (q, p))).collect();
    let tried = if c.total() <= 40 { all.clone() } else { (0..5).map(|_| random.one_of(&all)).collect() };
    for (k, &(q, (from, to))) in tried.iter().enumerate() {
        let mut s = filled[k % 2].clone();
        // the first of a part, the last, or any
        let place = match random.below(4) {
            0 => from,
            1 => to - 1,
            _ => random.from_to(from, to - 1),
        };
        let mut told = format!("a store with {}", alter_word(random, &mut s, q, place));
        for _ in 0..random.below(6).saturating_sub(3) {
            let (q, (from, to)) = random.one_of(&all);
            let place = random.from_to(from, to - 1);
            told += &format!(", {}", alter_word(random, &mut s, q, place));
        }
        let edge = random.below(c.edges());
        one(&told, c, random.one_of(&choices), Some(levels), &mut s, edge, generate::value(random), false, counts)?;
    }
    let mut s = filled[1].clone();
    let mut told = "a store with words beyond the need altered".to_string();
    for q in 0..7 {
        let (need, length) = (e.words()[q].len(), s.words[q].len() - BEHIND);
        if need < length {
            let any = random.from_to(need, length - 1);
            let place = random.one_of(&[need, any, length - 1]);
            told += &format!(", {}", alter_word(random, &mut s, q, place));
        }
    }
    let edge = random.below(c.edges());
    one(&told, c, random.one_of(&choices), Some(levels), &mut s, edge, generate::value(random), false, counts)?;
    Ok(())
}

// Several faults at once: of the input, the edge, the value, the lengths, the words.
fn spoiled(random: &mut Random, c: &Case, choices: [usize; 3], levels: &[Level], filled: &[Store; 2], counts: &mut Counts) -> Result<(), String> {
    let mut s = random.one_of(&[&filled[0], &filled[1]]).clone();
    let mut d = c.clone();
    let mut told = "a store".to_string();
    let input = random.once_in(2);
    for _ in 0..if input { random.from_to(1, 2) } else { 0 } {
        generate::spoil(random, &mut d);
        told = "a store, its input spoiled".to_string();
    }
    if random.once_in(3) {
        let list = random.below(12);
        shorten(&mut s, list, random.from_to(1, 3));
        told += &format!(", {} shorter", LISTS[list]);
    }
    if random.once_in(3) {
        let q = random.below(7);
        if s.words[q].len() > BEHIND {
            let k = random.below(s.words[q].len() - BEHIND);
            told += &format!(", {}", alter_word(random, &mut s, q, k));
        }
    }
    let choice = random.one_of(&choices);
    let other = if input { structure(&d, choice > 0) } else { None };
    let levels = if input { other.as_deref() } else { Some(levels) };
    let (edge, value) = (some_edge(random, &d), generate::value(random));
    one(&told, &d, choice, levels, &mut s, edge, value, false, counts).map_err(|text| with_input(text, &d))?;
    Ok(())
}

// ---- altered stores

fn with_input(text: String, d: &Case) -> String {
    format!("{text}\nthe input that it is given with:\n{}---", d.text())
}

// Some numbers altered by their holder, or all, the odd double too; then one change or several.
fn altered(random: &mut Random, c: &Case, choices: [usize; 3], levels: &[Level], filled: &[Store; 2], counts: &mut Counts) -> Result<(), String> {
    let mut s = random.one_of(&[&filled[0], &filled[1]]).clone();
    let told = if random.once_in(6) {
        for list in &mut s.doubles {
            let length = list.len() - BEHIND;
            list[..length].fill_with(|| random.between(-4.0, 4.0));
        }
        "a store of other numbers".to_string()
    } else {
        let told: Vec<String> = (0..random.from_to(1, 12)).map(|_| alter_number(random, &mut s)).collect();
        format!("a store with {}", told.join(", "))
    };
    for _ in 0..random.from_to(1, 3) {
        let edge = random.below(c.edges());
        one(&told, c, random.one_of(&choices), Some(levels), &mut s, edge, generate::value(random), true, counts)?;
    }
    Ok(())
}

// The store given with another input: numbers that leave the lines as they are, or don't; the other choice; another `coarsest` or kind. Some of its
// numbers altered too.
fn other_input(random: &mut Random, c: &Case, choices: [usize; 3], filled: &[Store; 2], counts: &mut Counts) -> Result<(), String> {
    let mut s = filled[if random.once_in(3) { 0 } else { 1 }].clone();
    let (mut d, mut choice) = (c.clone(), random.one_of(&choices));
    for _ in 0..random.from_to(1, 3) {
        let axis = random.below(3);
        match random.below(12) {
            0 | 1 => d.scalars[axis] = random.between(0.1, 4.0),
            2 => d.scalars[3] = random.between(0.1, 4.0),
            3 => d.scalars[4] = random.one_of(&[0.0, 0.5, -0.0, -2.5, 1e300]),
            4 => d.set_phase(axis, c64::new(random.between(-2.0, 2.0), random.between(-2.0, 2.0))),
            5 | 6 => {
                let k = random.below(c.cells[axis]);
                d.set_number(2 * axis, k, c64::new(random.between(0.1, 4.0), random.between(-1.0, 1.0)));
            }
            7 | 8 => {
                let k = 2 * random.below(c.cells[axis]);
                d.lists[2 * axis + 1][k] *= 1.0 + random.between(-0.01, 0.01);
            }
            9 => d.set_kind(axis, !c.is_bloch(axis)),
            10 => d.coarsest = random.one_of(&[0, c.coarsest.wrapping_add(1), c.coarsest.wrapping_sub(1), c.edges(), c.edges() / 2]),
            _ => choice = if choices[0] > 0 { 0 } else { 1 },
        }
    }
    let mut told = "a store, with another input".to_string();
    for _ in 0..random.below(4) {
        told += &format!(", {}", alter_number(random, &mut s));
    }
    let levels = structure(&d, choice > 0);
    for _ in 0..random.from_to(1, 2) {
        let (edge, value) = (random.below(c.edges()), generate::value(random));
        let accepted = one(&told, &d, choice, levels.as_deref(), &mut s, edge, value, true, counts).map_err(|text| with_input(text, &d))?;
        counts.inputs += accepted as u64;
        counts.choices += (accepted && (choice > 0) != (choices[0] > 0)) as u64;
    }
    Ok(())
}

// The reach of an edge, written from the specification, is how far a NaN gets in the Rust.
fn spread(c: &Case, rediscretized: bool, levels: &[Level], edge: usize, counts: &mut Counts) -> Result<(), String> {
    let shape = Shape::of(c, levels, rediscretized);
    let (reach, nan) = (shape.reach(edge), shape.spread(edge));
    // level 0's operator is compared where it is stored
    let stored = if levels.len() > 1 { 1 } else { 0 };
    let averaged = !rediscretized || reach.averaged == nan.averaged;
    if reach.eps != nan.eps || !averaged || reach.forward != nan.forward || reach.turned != nan.turned || reach.operators[stored..] != nan.operators[stored..] {
        // from permittivities of 1 some lattices have NaNs of their own
        let none = shape.spread(usize::MAX);
        if none.operators.iter().flatten().any(|&x| x) {
            return Ok(());
        }
        return Err(format!("{}: the reach of edge {edge}, written from the specification, is not that of a NaN in the Rust", name(rediscretized as usize)));
    }
    counts.spread += 1;
    Ok(())
}
