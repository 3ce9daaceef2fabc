// Changes behind a setup, as the test program runs them: the steps of one line, and what must be printed of them. What a change answers and leaves comes
// from the table and from the reached rows worked out a second time (changes.rs, reach.rs); while nothing is altered it is held to the book as well.

use super::{Answer, MARK, NAMES, Recorder, Room, digest, doubling, exact_answer, in_hex, lengths, levels_of, mixed_kinds, small, told};
use crate::book::Book;
use crate::case::Case;
use crate::changes::{expected, parts, structure};
use crate::generate;
use crate::lent::BEHIND;
use crate::ours::Store;
use crate::random::Random;
use crate::store::{Lists, NUMBERS, WORDS};
use num_complex::Complex64 as c64;
use std::fmt::Write;

struct Story {
    title: String,
    // the setup, and what the calls behind it are handed
    c: Case,
    choice: usize,
    room: Room,
    now: Case,
    chosen: usize,
    lent: [usize; 12],
    // the lists, what is in force, and whether neither a number nor the input was altered
    held: Store,
    eps: Vec<c64>,
    sound: bool,
    steps: Vec<u64>,
    out: String,
    brief: bool,
}

fn one(re: f64) -> c64 {
    c64::new(re, 0.0)
}

// Where in the program's doubles input list k begins.
fn list_place(k: usize) -> usize {
    [16, 160, 304, 448, 592, 736, 880][k]
}

impl Story {
    fn new(title: &str, c: &Case, choice: usize, room: Room, brief: bool) -> Story {
        let Ok(levels) = levels_of(c, choice, 7, &c.numbers(6)) else { panic!("{title}: no levels") };
        let e = Lists::of(&levels, choice > 0);
        let lent = lengths(&e.need(), room);
        let mut held = Store::lent([0; 12], 2);
        for (q, &k) in WORDS.iter().enumerate() {
            held.words[q] = e.words()[q].to_vec();
            held.words[q].resize(lent[k] + BEHIND, MARK as usize);
        }
        for (q, &k) in NUMBERS.iter().enumerate() {
            held.doubles[q] = e.numbers()[q].iter().flat_map(|z| [z.re, z.im]).collect();
            held.doubles[q].resize(lent[k] + BEHIND, f64::from_bits(MARK));
        }
        let title = format!("{title}, {}", NAMES[choice]);
        Story {
            title, c: c.clone(), choice, room, now: c.clone(), chosen: choice, lent, held, eps: c.numbers(6), sound: true, steps: Vec::new(), out: String::new(), brief,
        }
    }

    fn step(&mut self, words: [usize; 4]) {
        self.steps.extend(words.map(|w| w as u64));
    }

    // The lists as they are lent.
    fn view(&self) -> Store {
        let mut s = self.held.clone();
        for (q, &k) in WORDS.iter().enumerate() {
            s.words[q].truncate(self.lent[k]);
            s.words[q].resize(self.lent[k] + BEHIND, 0);
        }
        for (q, &k) in NUMBERS.iter().enumerate() {
            s.doubles[q].truncate(self.lent[k]);
            s.doubles[q].resize(self.lent[k] + BEHIND, 0.0);
        }
        s
    }

    fn change(&mut self, edge: usize, value: c64) -> Answer {
        let levels = structure(&self.now, self.chosen > 0);
        let e = expected(&self.now, self.chosen > 0, levels.as_deref(), &self.view(), edge, value);
        if let Some(doubles) = e.doubles {
            for (q, &k) in NUMBERS.iter().enumerate() {
                self.held.doubles[q][..self.lent[k]].copy_from_slice(&doubles[q][..self.lent[k]]);
            }
        }
        let answer = (e.answer[0], e.answer[1]);
        if self.sound {
            self.held_to_the_book(edge, value, answer);
        }
        self.step([1, edge, value.re.to_bits() as usize, value.im.to_bits() as usize]);
        let _ = writeln!(self.out, "change {}", told(answer));
        self.left();
        answer
    }

    // The same, which has to be answered so.
    fn sure(&mut self, edge: usize, value: c64, answer: Answer) {
        let got = self.change(edge, value);
        assert!(got == answer, "{}: {got:?}, not {answer:?}", self.title);
    }

    fn held_to_the_book(&mut self, edge: usize, value: c64, answer: Answer) {
        if !(answer.0 == 0 || [7, 9, 10].contains(&answer.0)) {
            return;
        }
        let mut c = self.c.clone();
        c.lists[6] = self.eps.iter().flat_map(|z| [z.re, z.im]).collect();
        let Ok(levels) = levels_of(&c, self.choice, 7, &self.eps) else { panic!("{}: no levels", self.title) };
        let mut book = Book::opened(&c, self.choice > 0, Lists::of(&levels, self.choice > 0));
        let noted = book.told(edge, value).expect("a book");
        assert!((noted[0], noted[1]) == answer, "{}: {answer:?}, the book {noted:?}", self.title);
        if answer.0 == 0 {
            self.eps[edge] = value;
        }
        for (q, list) in book.lists.numbers().iter().enumerate() {
            let same = |(z, at): (&c64, &[f64])| [z.re, z.im].iter().zip(at).all(|(a, b)| a.to_bits() == b.to_bits());
            assert!(list.iter().zip(self.held.doubles[q].chunks_exact(2)).all(same), "{}: list {q} departs from the book", self.title);
        }
    }

    // What the program prints of the lists.
    fn left(&mut self) {
        let lent = lengths_of(&self.held);
        let words = WORDS.iter().enumerate().fold(0, |d, (q, &k)| digest(d, &self.held.words[q][..lent[k]].iter().map(|&w| w as u64).collect::<Vec<_>>()));
        let _ = writeln!(self.out, "words {words:x}");
        for (q, name) in ["permittivities", "forward", "turned", "operator", "scaling"].into_iter().enumerate() {
            let values: Vec<u64> = self.held.doubles[q][..lent[NUMBERS[q]]].iter().map(|&x| super::bits(x)).collect();
            let text = if self.brief { format!(" {:x}", digest(0, &values)) } else { super::runs(&values, |v| format!("{v:x}")) };
            let _ = writeln!(self.out, "{name}{text}");
        }
    }

    // ---- what a holder does

    fn alter_word(&mut self, q: usize, k: usize, v: usize) -> usize {
        self.step([2, WORDS[q], k, v]);
        std::mem::replace(&mut self.held.words[q][k], v)
    }

    fn alter_double(&mut self, q: usize, k: usize, v: f64) {
        self.step([7, NUMBERS[q], k, v.to_bits() as usize]);
        self.held.doubles[q][k] = v;
        self.sound = false;
    }

    fn lend(&mut self, list: usize, n: usize) {
        self.step([3, list, n, 0]);
        self.lent[list] = n;
    }

    // ---- what is handed in

    fn hand(&mut self, list: usize, n: usize) {
        self.step([4, list, n, 0]);
        self.now.lists[list] = self.c.lists[list][..n].to_vec();
    }

    fn cells(&mut self, axis: usize, n: usize) {
        self.step([5, axis, n, 0]);
        self.now.cells[axis] = n;
    }

    fn choose(&mut self, choice: usize, coarsest: usize) {
        self.step([5, 3, choice, 0]);
        self.step([5, 4, coarsest, 0]);
        (self.chosen, self.now.coarsest) = (choice, coarsest);
    }

    fn scalar(&mut self, k: usize, v: f64) {
        self.step([6, k, v.to_bits() as usize, 0]);
        self.now.scalars[k] = v;
        self.sound = false;
    }

    fn number(&mut self, list: usize, k: usize, v: c64) {
        for (part, x) in [v.re, v.im].into_iter().enumerate() {
            self.step([6, list_place(list) + 2 * k + part, x.to_bits() as usize, 0]);
        }
        self.now.set_number(list, k, v);
        self.sound = false;
    }
}

fn lengths_of(s: &Store) -> [usize; 12] {
    let mut n = [0; 12];
    WORDS.iter().enumerate().for_each(|(q, &k)| n[k] = s.words[q].len() - BEHIND);
    NUMBERS.iter().enumerate().for_each(|(q, &k)| n[k] = s.doubles[q].len() - BEHIND);
    n
}

impl Recorder {
    fn told_story(&mut self, s: Story) {
        assert!(s.steps.len() <= 1024, "{}: {} words", s.title, s.steps.len());
        self.title(&s.title);
        let _ = writeln!(self.stdin, "steps{}", in_hex(&s.steps));
        self.call(&s.c, s.choice, s.room, s.brief);
        self.stdout += &s.out;
        // the steps may have altered what the lines had set
        self.lines.clear();
        self.lists = Default::default();
    }

    // Lists of changes: each is compared with a setup from what is in force.
    fn lists_of_changes(&mut self) {
        let mut random = Random::new(11);
        let lattices = [([4, 1, 1], 0), ([4, 1, 1], 2), ([4, 2, 1], 2), ([3, 5, 2], 3), ([9, 1, 1], 4), ([2, 4, 4], 4), ([1, 1, 5], 1), ([2, 2, 1], 3)];
        for (n, (cells, kinds)) in lattices.into_iter().enumerate() {
            for choice in 0..2 {
                let c = small(cells, kinds, 0.125, 0.0625);
                let mut s = Story::new(&format!("changes, {cells:?} cells"), &c, choice, if n % 2 == 0 { Room::Spare } else { Room::Exact }, n > 1);
                s.change(0, c64::new(3.0, 0.5));
                s.sure(c.edges(), one(1.0), (9, c.edges()));
                s.sure(c.edges() - 1, one(0.0), (10, c.edges() - 1));
                for _ in 0..6 {
                    let edge = random.below(c.edges());
                    s.change(edge, generate::value(&mut random));
                    s.change(edge, c64::new(random.between(0.5, 4.0), random.between(-1.0, 1.0)));
                }
                s.sure(usize::MAX, one(f64::NAN), (9, usize::MAX));
                s.sure(1, c64::new(1.0, f64::NAN), (10, 1));
                s.sure(1, c64::new(f64::INFINITY, 0.0), (10, 1));
                s.sure(1, c64::new(0.0, -0.0), (10, 1));
                s.change(0, one(5e-324));
                s.change(0, one(1e308));
                self.told_story(s);
            }
        }
    }

    // A level that is the only one, and changes that nothing refuses or that 7 refuses there.
    fn sole_changes(&mut self) {
        for choice in 0..2 {
            let mut c = small([3, 2, 1], 4, 0.125, 0.0);
            c.coarsest = usize::MAX;
            c.scalars[3] = 2.0;
            let mut s = Story::new("changes of a sole level", &c, choice, Room::Spare, false);
            s.sure(0, c64::new(3.0, 0.5), (0, 1));
            s.sure(3, one(1e308), (7, 0));
            s.sure(17, c64::new(-1.0, 2.0), (0, 1));
            s.sure(18, one(1.0), (9, 18));
            self.told_story(s);
        }
    }

    // 7 at several levels.
    fn not_finite_changes(&mut self) {
        let values: Vec<f64> = [1.25, 1.5, 2.0, 3.0, 8.0, 1e3, 1e10, 1e100, 1e200, 1e300].into_iter().flat_map(|v| [v, 1.0 / v]).collect();
        // a large k0; or steps whose product, a volume, is large, so that the shares are
        let large = |choice: usize, j: i32| {
            let mut c = small(if choice == 0 { [17, 1, 1] } else { [1, 17, 1] }, 3, 0.0, 0.0);
            match choice {
                0 => c.scalars[3] = 2f64.powi(511) * 0.9f64.powi(j),
                _ => c.scalars[..3].fill((342.0 - 0.05 * j as f64).exp2()),
            }
            c
        };
        for choice in 0..2 {
            for place in 1..4 {
                let found = (0..250).map(|j| large(choice, j)).filter(|c| exact_answer(c, choice).0 == 0).take(8).find_map(|c| {
                    let story = || Story::new(&format!("a change that is not finite from level {place} on"), &c, choice, Room::Exact, true);
                    let hit = (0..c.edges()).step_by(5).flat_map(|e| values.iter().map(move |&v| (e, v))).find(|&(e, v)| story().change(e, one(v)) == (7, place))?;
                    Some((story(), hit))
                });
                let Some((mut s, (edge, value))) = found else { panic!("no change with 7 at {place}, {}", NAMES[choice]) };
                s.sure(edge, one(value), (7, place));
                s.change(edge, one(2.5));
                s.sure(edge, one(value), (7, place));
                self.told_story(s);
            }
        }
    }

    // The checks in their order; a call that passes comes last.
    fn checks(&mut self) {
        for choice in 0..2 {
            let c = small([4, 2, 1], 2, 0.0, 0.0);
            let mut s = Story::new("changes, the checks in order", &c, choice, Room::Exact, true);
            let full = s.lent;
            s.cells(1, 0);
            s.sure(usize::MAX, one(0.0), (1, 1));
            s.cells(1, 65);
            s.sure(0, one(1.0), (1, 1));
            s.cells(1, 2);
            for (k, v) in [(0, 0.0), (2, f64::NAN), (3, -1.0), (4, f64::INFINITY), (9, 0.0)] {
                let before = s.now.scalars[k];
                s.scalar(k, v);
                s.sure(usize::MAX, one(0.0), (2, [0, 0, 2, 3, 4, 0, 0, 0, 0, 6][k]));
                s.scalar(k, before);
            }
            for list in 0..6 {
                s.hand(list, c.lists[list].len() - 1);
                s.sure(24, one(0.0), (3, list));
                s.hand(list, c.lists[list].len());
                s.number(list, 0, one(-0.0));
                s.sure(24, one(0.0), (4, (0..list).map(|k| c.needed(k)).sum()));
                s.number(list, 0, c.numbers(list)[0]);
            }
            // 9, 10, 6, then 11
            let word = s.alter_word(0, 0, 7);
            for list in (0..12).filter(|&k| full[k] > 0) {
                s.lend(list, full[list] - 1);
                s.sure(24, one(0.0), (9, 24));
                s.sure(23, one(0.0), (10, 23));
                s.sure(23, one(1.5), (6, [0, 1, 2, 2, 2, 3, 3, 3, 4, 4, 4, 5][list]));
                s.lend(list, full[list]);
            }
            s.sure(23, one(1.5), (11, 0));
            s.alter_word(0, 0, word);
            s.sure(23, one(1.5), (0, 2));
            self.told_story(s);
            // 5 before 6: the store has fewer levels than the change asks for
            let c = doubling(15, 12);
            if exact_answer(&c, choice).0 == 0 {
                let mut s = Story::new("a change with more than 12 levels", &c, choice, Room::Exact, true);
                s.choose(choice, 0);
                s.sure(45, one(1.0), (9, 45));
                s.sure(3, one(1.0), (5, 12));
                self.told_story(s);
            } else {
                panic!("no fewer levels");
            }
        }
    }

    // 11: a word of each list and level altered, the first and the last of its part, and one behind the need, which nothing reads.
    fn differing_changes(&mut self) {
        for (cells, kinds) in [([4, 2, 1], 2), ([9, 1, 1], 3)] {
            for choice in 0..2 {
                let c = small(cells, kinds, 0.0, 0.0);
                let mut s = Story::new(&format!("changes, words altered, {cells:?} cells"), &c, choice, Room::Spare, true);
                let Ok(levels) = levels_of(&c, choice, 7, &c.numbers(6)) else { panic!("no levels") };
                let e = Lists::of(&levels, choice > 0);
                for q in 0..7 {
                    for (from, to) in parts(&e, q) {
                        for k in [from, to - 1] {
                            let old = s.alter_word(q, k, s.held.words[q][k] ^ 1);
                            assert!(s.change(1, one(4.0)).0 == 11, "{}: list {q}, word {k}", s.title);
                            s.alter_word(q, k, old);
                        }
                    }
                    let behind = e.words()[q].len();
                    s.alter_word(q, behind, 5);
                }
                s.sure(1, one(4.0), (0, levels.len()));
                self.told_story(s);
            }
        }
    }

    // Numbers that a holder altered: kept by a refusal, read by an acceptance, kept outside the reach.
    fn altered_changes(&mut self) {
        let mut random = Random::new(12);
        for (n, (cells, kinds)) in [([4, 1, 1], 3), ([4, 2, 1], 2), ([3, 4, 2], 4), ([9, 1, 1], 0)].into_iter().enumerate() {
            for choice in 0..2 {
                let c = small(cells, kinds, 0.125, 0.0625);
                let mut s = Story::new(&format!("changes of altered numbers, {cells:?} cells"), &c, choice, Room::Spare, n > 0);
                for q in 0..5 {
                    let n = s.held.doubles[q].len() - BEHIND;
                    for _ in 0..if n > 8 { 3 } else { 0 } {
                        let k = random.below(n);
                        s.alter_double(q, k, random.between(-3.0, 3.0));
                    }
                }
                s.sure(c.edges(), one(1.0), (9, c.edges()));
                s.sure(0, one(0.0), (10, 0));
                s.change(0, one(5e-324));
                for _ in 0..6 {
                    s.change(random.below(c.edges()), c64::new(random.between(0.5, 4.0), random.between(-1.0, 1.0)));
                }
                // not finite where it is read, and where it is not
                let last = s.held.doubles[3].len() - BEHIND - 3;
                s.alter_double(0, 2 * (c.edges() - 1), f64::NAN);
                s.alter_double(3, last, f64::INFINITY);
                for _ in 0..4 {
                    s.change(random.below(c.edges()), c64::new(random.between(0.5, 4.0), 0.25));
                }
                self.told_story(s);
            }
        }
    }

    // Another lattice's input, or the other choice, on a store that passes every check.
    fn other_inputs(&mut self) {
        for choice in 0..2 {
            let c = small([4, 2, 1], 3, 0.0, 0.0);
            let mut s = Story::new("changes with another lattice's numbers", &c, choice, Room::Spare, choice == 1);
            s.scalar(0, 0.5);
            s.scalar(3, 1.25);
            s.scalar(4, 0.75);
            s.scalar(7, -0.5);
            s.number(2, 1, c64::new(1.25, 0.25));
            s.sure(2, c64::new(2.0, 1.0), (0, 2));
            s.sure(9, one(1.5), (0, 2));
            self.told_story(s);
            let mut c = mixed_kinds([3, 2, 1]);
            c.coarsest = usize::MAX;
            let mut s = Story::new("changes by the other choice, one level", &c, choice, Room::Spare, false);
            s.choose(1 - choice, usize::MAX);
            s.sure(4, one(3.0), (0, 1));
            self.told_story(s);
        }
        // rediscretized lists have more places of list 1 than a Galerkin change asks for; its operator has other columns
        let c = small([9, 1, 1], 0, 0.0, 0.0);
        let mut s = Story::new("a Galerkin change of a rediscretized store", &c, 1, Room::Exact, true);
        s.choose(0, 0);
        s.change(4, one(3.0));
        self.told_story(s);
    }

    pub(super) fn changes(&mut self) {
        self.lists_of_changes();
        self.sole_changes();
        self.not_finite_changes();
        self.checks();
        self.differing_changes();
        self.altered_changes();
        self.other_inputs();
    }
}
