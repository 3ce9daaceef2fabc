// Writes the test file of crates/file_cases, `stdin`, and what the program has to print for it, `stdout`: by the second reader, so from the Rust, the table and the
// book. Nothing of the code under test is called.

use super::damage;
use super::written::Written;
use super::{Counts, Kept, Reading, Room, one as compared, read};
use crate::case::Case;
use crate::generate;
use crate::random::Random;
use crate::record::{MARK, digest, doubling, laid, mixed, small};
use crate::store::{Lists, NUMBERS, WORDS, length, theirs};
use num_complex::Complex64 as c64;
use std::fmt::Write;

type Answer = [usize; 2];

struct Recorder {
    stdin: String,
    stdout: String,
    // the file as the lines have set it, and what is lent
    file: Vec<u8>,
    limit: usize,
    held: usize,
    places: usize,
    // what was found equal, where each reading is the library's too, and the first departure
    counts: Option<Counts>,
    departure: Option<String>,
}

fn in_hex(bytes: &[u8]) -> String {
    bytes.iter().map(|b| format!("{b:02x}")).collect()
}

// Words of whole bytes, equal ones as a count and one of them.
fn packed(parts: &[&[u8]]) -> String {
    let mut out = String::new();
    let mut k = 0;
    while k < parts.len() {
        let n = parts[k..].iter().take_while(|p| **p == parts[k]).count();
        let _ = if n > 1 { write!(out, " {n:x}*{}", in_hex(parts[k])) } else { write!(out, " {}", in_hex(parts[k])) };
        k += n;
    }
    out
}

// A digest of what a reading leaves in lists of these lengths.
fn left(kept: &Kept, lent: &[usize; 12]) -> u64 {
    (0..12).fold(0, |d, k| {
        let mut values = match kept {
            Kept::Untouched => Vec::new(),
            Kept::Zeros => vec![0; lent[k]],
            Kept::Filled(l) => match NUMBERS.iter().position(|&n| n == k) {
                Some(q) => laid(l.numbers()[q]),
                None => l.words()[WORDS.iter().position(|&w| w == k).unwrap()].iter().map(|&v| v as u64).collect(),
            },
        };
        values.resize(lent[k], MARK);
        digest(d, &values)
    })
}

// Answers in runs, and a digest of all that was left.
fn runs(all: &[(Answer, u64)]) -> String {
    let mut out = String::new();
    let mut k = 0;
    while k < all.len() {
        let [number, place] = all[k].0;
        let n = all[k..].iter().take_while(|(a, _)| *a == all[k].0).count();
        let _ = if n > 1 { write!(out, " {n}*{number}/{place}") } else { write!(out, " {number}/{place}") };
        k += n;
    }
    format!("{out}\ndigest {:x}\n", all.iter().fold(0, |d, (_, left)| mixed(d, *left)))
}

impl Recorder {
    // ---- lines that set something

    fn title(&mut self, text: &str) {
        let _ = writeln!(self.stdin, "# {text}");
        let _ = writeln!(self.stdout, "# {text}");
    }

    fn lend(&mut self, limit: usize, held: usize, places: usize) {
        assert!(held <= 256 && places <= 768);
        if (self.limit, self.held, self.places) != (limit, held, places) {
            (self.limit, self.held, self.places) = (limit, held, places);
            let _ = writeln!(self.stdin, "lend {limit:x} {held:x} {places:x}");
        }
    }

    // As the listing program lends.
    fn lend_as_the_program(&mut self) {
        self.lend(16, 168, 768);
    }

    fn line(&mut self, text: String) {
        assert!(text.len() < 8192 && self.file.len() < 8192, "a line of {} bytes", text.len());
        self.stdin += &text;
        self.stdin += "\n";
    }

    fn file(&mut self, w: &Written) {
        self.file = w.bytes.clone();
        let parts: Vec<&[u8]> = (0..w.starts.len()).map(|k| w.part(k)).collect();
        self.line(format!("file{}", packed(&parts)));
    }

    fn bytes(&mut self, file: &[u8]) {
        self.file = file.to_vec();
        self.line(format!("file{}", if file.is_empty() { String::new() } else { format!(" {}", in_hex(file)) }));
    }

    fn put(&mut self, at: usize, bytes: &[u8]) {
        let behind = at + bytes.len();
        self.file.resize(self.file.len().max(behind), 0);
        self.file[at..behind].copy_from_slice(bytes);
        self.line(format!("put {at:x} {}", in_hex(bytes)));
    }

    fn size(&mut self, n: usize) {
        self.file.truncate(n);
        self.line(format!("size {n:x}"));
    }

    // ---- lines that read

    fn room(&self) -> Room {
        Room { limit: self.limit, held: self.held, lent: std::array::from_fn(|k| length(k, self.places)) }
    }

    fn reading(&mut self, file: &[u8], room: &Room) -> (Answer, u64) {
        if let (Some(counts), None) = (&mut self.counts, &self.departure) {
            self.departure = compared("a recorded file", file, room, 2, counts).err();
        }
        let Reading { answer, kept, .. } = read(file, room);
        (answer, left(&kept, &room.lent))
    }

    fn read(&mut self) -> Answer {
        let ([number, place], left) = self.reading(&self.file.clone(), &self.room());
        self.stdin += "read\n";
        let _ = match number {
            0 => writeln!(self.stdout, "levels {place} {left:x}"),
            _ => writeln!(self.stdout, "refused {number} {place} {left:x}"),
        };
        [number, place]
    }

    // The same, which has to be answered so.
    fn sure(&mut self, answer: Answer) {
        let got = self.read();
        assert!(got == answer, "{got:?}, not {answer:?}: {}", in_hex(&self.file));
    }

    // With other bytes at an offset; then as before.
    fn with(&mut self, at: usize, bytes: &[u8], answer: Answer) {
        let old = self.file[at..at + bytes.len()].to_vec();
        self.put(at, bytes);
        self.sure(answer);
        self.put(at, &old);
    }

    fn swept(&mut self, line: String, all: Vec<(Answer, u64)>) -> Vec<Answer> {
        self.line(line);
        self.stdout += &runs(&all);
        all.into_iter().map(|(answer, _)| answer).collect()
    }

    fn cuts(&mut self, from: usize, to: usize) -> Vec<Answer> {
        let (file, room) = (self.file.clone(), self.room());
        let all = (from..to).map(|n| self.reading(&file[..n], &room)).collect();
        self.swept(format!("cuts {from:x} {to:x}"), all)
    }

    fn altered(&mut self, at: usize, b: u8) -> (Answer, u64) {
        let mut file = self.file.clone();
        file[at] = b;
        self.reading(&file, &self.room())
    }

    fn kinds(&mut self, offsets: &[usize]) -> Vec<Answer> {
        assert!(offsets.len() <= 240);
        let all = offsets.iter().flat_map(|&at| (0..=255).map(move |b| (at, b))).map(|(at, b)| self.altered(at, b)).collect();
        let words: String = offsets.iter().map(|at| format!(" {at:x}")).collect();
        self.swept(format!("kinds{words}"), all)
    }

    fn bits(&mut self, from: usize, to: usize) -> Vec<Answer> {
        let file = self.file.clone();
        let all = (from..to).flat_map(|at| (0..8).map(move |k| (at, k))).map(|(at, k)| self.altered(at, file[at] ^ (1 << k))).collect();
        self.swept(format!("bits {from:x} {to:x}"), all)
    }

    fn grow(&mut self, from: usize, to: usize) -> Vec<Answer> {
        let (file, room) = (self.file.clone(), self.room());
        let all = (from..to).map(|n| self.reading(&file, &Room { lent: std::array::from_fn(|k| length(k, n)), ..room })).collect();
        self.swept(format!("grow {from:x} {to:x}"), all)
    }

    fn hold(&mut self, from: usize, to: usize) -> Vec<Answer> {
        let (file, room) = (self.file.clone(), self.room());
        let all = (from..to).map(|n| self.reading(&file, &Room { held: n, ..room })).collect();
        self.swept(format!("hold {from:x} {to:x}"), all)
    }
}

// ---- inputs

fn one(x: f64) -> c64 {
    c64::new(x, 0.0)
}

fn pair(z: c64) -> Vec<u8> {
    [z.re.to_le_bytes(), z.im.to_le_bytes()].concat()
}

// The places of the longest list that a setup needs.
fn longest(c: &Case, choice: usize) -> usize {
    let levels = theirs(c, &c.numbers(6), choice > 0).expect("levels");
    *Lists::of(&levels, choice > 0).need().iter().max().unwrap()
}

const NAMES: [&str; 2] = ["Galerkin", "rediscretized"];

// NaNs of both signs, quiet or not, and of several payloads.
const NANS: [u64; 7] = [
    0x7ff8_0000_0000_0000, 0xfff8_0000_0000_0000, 0x7ff0_0000_0000_0001, 0xfff0_0000_0000_0001, 0x7fff_ffff_ffff_ffff, 0x7ff0_0000_0001_0000, 0xfff4_0000_0000_0000,
];
const INFINITIES: [u64; 2] = [0x7ff0_0000_0000_0000, 0xfff0_0000_0000_0000];
const ZEROS: [u64; 2] = [0, 0x8000_0000_0000_0000];

// A number with a part that is not finite, or a zero: the k-th of several.
fn bad_pair(k: usize) -> Vec<u8> {
    let good = 1.5f64.to_bits();
    let parts = match k % 4 {
        0 => [NANS[k / 4 % 7], good],
        1 => [good, NANS[k / 4 % 7]],
        2 => [ZEROS[k / 4 % 2], ZEROS[k / 8 % 2]],
        _ => [[INFINITIES[k / 4 % 2], good], [good, INFINITIES[k / 4 % 2]]][k / 8 % 2],
    };
    parts.map(|b| b.to_le_bytes()).concat()
}

impl Recorder {
    // The lattice of the specification's example, with its variations.
    fn example(&mut self) {
        self.lend_as_the_program();
        for (wall, name) in [(false, "Bloch"), (true, "a wall on x")] {
            for choice in 0..2 {
                let mut c = Case::plain([4, 1, 1]);
                (0..3).for_each(|axis| c.set_kind(axis, axis > 0 || !wall));
                c.coarsest = 1;
                let w = Written::of(&c, choice);
                self.title(&format!("4 1 1 cells, {name}, {}", NAMES[choice]));
                self.file(&w);
                self.sure([0, 2]);
                let at = w.starts[w.of_kind(6)[0]] + 2;
                for (coarsest, levels) in [(0u32, 2), (11, 2), (12, 1), (256, 1), (65536, 1), (1 << 24, 1), (u32::MAX, 1)] {
                    self.with(at, &coarsest.to_le_bytes(), [0, levels]);
                }
            }
        }
    }

    // Every cut, every byte in place of each kind byte, and every bit turned of a small file.
    fn small_files(&mut self) {
        for (cells, kinds, choice) in [([1, 1, 1], 4, 0), ([1, 1, 1], 2, 1), ([4, 1, 1], 3, 0), ([4, 1, 1], 2, 1)] {
            let mut c = small(cells, kinds, 0.125, 0.0625);
            c.changes = vec![(0, c64::new(3.0, 0.5)), (c.edges() - 1, c64::new(-2.0, 0.25))];
            let w = Written::of(&c, choice);
            self.title(&format!("{cells:?} cells, {}, with two changes", NAMES[choice]));
            self.lend(16, 168, longest(&c, choice) + 1);
            self.file(&w);
            assert!(self.read()[0] == 0);
            self.title("cut off everywhere");
            let all = self.cuts(0, w.bytes.len() + 1);
            assert!(all[..w.bytes.len()].iter().all(|a| a[0] == 12) && all[w.bytes.len()][0] == 0);
            self.title("each byte for each kind byte");
            self.kinds(&w.starts);
            if c.total() == 1 {
                self.title("each bit turned");
                self.bits(0, w.bytes.len());
            }
        }
    }

    // Bytes behind the end; no end; nothing.
    fn ends(&mut self) {
        self.lend(16, 168, 48);
        let w = Written::of(&small([1, 1, 1], 1, 0.0, 0.0), 0);
        let n = w.bytes.len();
        self.title("each byte behind the end");
        self.file(&w);
        self.put(n, &[0]);
        assert!(self.kinds(&[n]).iter().all(|a| *a == [12, n]));
        self.title("a second end; a change behind the end; the file twice");
        self.put(n, &[255]);
        self.sure([12, n]);
        self.put(n, &[[7, 0, 0, 0, 0].to_vec(), pair(one(2.0)), vec![255]].concat());
        self.sure([12, n]);
        self.bytes(&[w.bytes.clone(), w.bytes.clone()].concat());
        self.sure([12, n]);
        self.title("no end");
        self.file(&w);
        self.size(n - 1);
        self.sure([12, n - 1]);
        self.title("an empty file; an end alone; a choice alone");
        self.bytes(&[]);
        self.sure([12, 0]);
        for kind in [255, 6, 0] {
            self.bytes(&[kind]);
            self.sure([12, 0]);
        }
    }

    // 1 and 13: at the grid's record, before anything behind it.
    fn grids(&mut self) {
        let w = Written::of(&small([2, 1, 1], 2, 0.0, 0.0), 0);
        self.lend(16, 168, 64);
        self.title("cells: 0 and over 64 on each axis");
        self.file(&w);
        self.sure([0, 1]);
        for axis in 0..3 {
            for n in [0u16, 65, 66, 255, 256, 257, 512, 16384, 65535] {
                self.with(1 + 2 * axis, &n.to_le_bytes(), [1, axis]);
            }
        }
        let cells = |n: [u16; 3]| n.map(|k| k.to_le_bytes()).concat();
        for (n, answer) in [([0, 0, 0], [1, 0]), ([65, 0, 65], [1, 0]), ([1, 0, 65], [1, 1]), ([64, 64, 0], [1, 2])] {
            self.with(1, &cells(n), answer);
        }
        self.title("cells: over 4,096 in all");
        for n in [[64, 64, 2], [64, 64, 64], [17, 16, 16], [16, 16, 17], [64, 65 - 1, 2], [5, 64, 13]] {
            self.with(1, &cells(n), [1, 3]);
        }
        self.title("cells: more than are taken");
        let next = w.starts[4] + 17 * 4;
        for (n, answer) in [([17, 1, 1], 17), ([1, 1, 64], 64), ([64, 64, 1], 4096), ([16, 16, 16], 4096), ([3, 3, 2], 18)] {
            self.with(1, &cells(n), [13, answer]);
        }
        // taken, and then numbers are missing: the eight stretches are followed by permittivities
        for n in [[16, 1, 1], [1, 16, 1], [2, 2, 4], [4, 4, 1]] {
            let at = w.starts[w.of_kind(5)[0]];
            self.with(1, &cells(n), [12, at]);
        }
        assert!(next < w.bytes.len());
        for (limit, answer) in [(0, [13, 2]), (1, [13, 2]), (2, [0, 1]), (4096, [0, 1])] {
            self.lend(limit, 168, 64);
            self.sure(answer);
        }
        self.lend(4096, 256, 64);
        self.with(1, &cells([64, 64, 1]), [13, 4096]);
        self.with(1, &cells([64, 64, 2]), [1, 3]);
        self.title("doubles to hold the numbers");
        self.lend(16, 168, 64);
        let held = self.hold(0, 33);
        assert!(held.iter().enumerate().all(|(n, a)| *a == if n < 28 { [13, 2] } else { [0, 1] }));
        self.title("a grid that is refused: cut off before");
        self.put(1, &cells([0, 1, 1]));
        let all = self.cuts(0, 60);
        assert!(all[46] == [12, 0] && all[47] == [1, 0] && all[59] == [1, 0]);
        self.put(1, &cells([17, 1, 1]));
        let all = self.cuts(0, 60);
        assert!(all[46] == [12, 0] && all[47] == [13, 17]);
        self.title("a grid that is refused, and everything behind it out of turn");
        self.put(47, &[9, 9, 9]);
        self.sure([13, 17]);
    }

    // 2, behind the choice.
    fn scalars(&mut self) {
        self.lend(16, 168, 48);
        let w = Written::of(&small([1, 1, 1], 3, 0.0, 0.0), 0);
        self.file(&w);
        self.title("steps and k0");
        for place in 0..4 {
            let at = 7 + 8 * place;
            for bits in NANS.into_iter().chain(INFINITIES).chain(ZEROS).chain([(-1.0f64).to_bits(), (-5e-324f64).to_bits()]) {
                self.with(at, &bits.to_le_bytes(), [2, place]);
            }
        }
        self.title("shift");
        for bits in NANS.into_iter().chain(INFINITIES) {
            self.with(39, &bits.to_le_bytes(), [2, 4]);
        }
        for x in [0.0, -0.0, -1.0, 0.5, 5e-324f64] {
            self.with(39, &x.to_le_bytes(), [0, 1]);
        }
        self.title("phases");
        for axis in 0..3 {
            for k in 0..16 {
                self.with(w.starts[1 + axis] + 1, &bad_pair(k + axis), [2, 5 + axis]);
            }
        }
        self.title("the first of several");
        let nan = NANS[2].to_le_bytes();
        for (places, answer) in [(vec![7, 15], 0), (vec![31, 39], 3), (vec![39, w.starts[1] + 1], 4), (vec![w.starts[2] + 1, w.starts[3] + 9, w.starts[4] + 1], 6)] {
            places.iter().for_each(|&at| self.put(at, &nan));
            self.sure([2, answer]);
            self.file(&w);
        }
        self.title("a step that is refused, and before that the file is: by the choice, by a record, by its end");
        let choice = w.starts[w.of_kind(6)[0]];
        self.put(7, &nan);
        self.with(choice + 1, &[2], [12, choice]);
        self.with(w.starts[9], &[3], [12, w.starts[9]]);
        self.size(choice + 5);
        self.sure([12, choice]);
        self.title("a step that is refused, and nothing or anything behind the choice");
        self.put(choice + 5, &[0]);
        self.sure([2, 0]);
        self.put(choice + 6, &[1, 2, 3]);
        self.sure([2, 0]);
    }

    // 4 at every position, and which numbers are none.
    fn numbers(&mut self) {
        for (cells, choice) in [([2, 1, 1], 0), ([1, 2, 1], 1), ([1, 1, 2], 0)] {
            let c = small(cells, 4, 0.125, 0.0);
            let w = Written::of(&c, choice);
            self.lend(16, 168, longest(&c, choice));
            self.title(&format!("each number refused, {cells:?} cells"));
            self.file(&w);
            self.sure([0, 1]);
            for k in 0..w.starts.len() - 6 {
                for q in 0..if cells[0] == 2 { 3 } else { 1 } {
                    self.with(w.starts[4 + k] + 1, &bad_pair(3 * k + q), [4, k]);
                }
            }
        }
        let c = small([2, 1, 1], 4, 0.125, 0.0);
        let w = Written::of(&c, 0);
        self.lend(16, 168, longest(&c, 0));
        self.file(&w);
        self.title("every pattern in the first permittivity");
        let k = w.of_kind(5)[0];
        for bits in NANS.into_iter().chain(INFINITIES) {
            for part in 0..2 {
                self.with(w.starts[k] + 1 + 8 * part, &bits.to_le_bytes(), [4, k - 4]);
            }
        }
        self.title("numbers that are none, and numbers that only look so");
        for bits in damage::PATTERNS {
            self.put(w.starts[k + 1] + 1, &bits.to_le_bytes());
            self.read();
        }
        self.put(w.starts[k + 1] + 1, &pair(c64::new(-0.0, 5e-324)));
        self.read();
    }

    // 5, and the same line with fewer levels.
    fn levels(&mut self) {
        self.lend_as_the_program();
        for choice in 0..2 {
            let w = Written::of(&doubling(15, 0), choice);
            self.title(&format!("more than 12 levels, {}", NAMES[choice]));
            self.file(&w);
            self.sure([5, 12]);
            let choice = w.starts[w.of_kind(6)[0]];
            self.with(choice + 1, &[2], [12, choice]);
            self.size(choice + 5);
            self.sure([12, choice]);
            self.file(&w);
            for coarsest in [12u32, 30, 44, 45] {
                self.put(choice + 2, &coarsest.to_le_bytes());
                self.read();
            }
        }
    }

    // 6: with every number of places, and with the program's.
    fn places(&mut self) {
        for choice in 0..2 {
            for cells in [[1, 1, 1], [4, 1, 1], [2, 2, 1]] {
                let mut c = small(cells, 3, 0.0, 0.0);
                c.changes = vec![(0, one(3.0))];
                let need = longest(&c, choice);
                self.title(&format!("lists of 0 places on, {cells:?} cells, {}", NAMES[choice]));
                self.lend(16, 168, 0);
                self.file(&Written::of(&c, choice));
                let all = self.grow(0, need + 2);
                assert!(all[0] == [6, 0] && all[need - 1][0] == 6 && all[need][0] == 0);
            }
            self.lend_as_the_program();
            for (c, answer) in [(small([4, 2, 2], 3, 0.0, 0.0), [0, 2]), (small([16, 1, 1], 3, 0.0, 0.0), [0, 4]), (doubling(14, 0), [6, 4]), (doubling(9, 0), [0, 7])] {
                self.title(&format!("768 places a list, {:?} cells, {}", c.cells, NAMES[choice]));
                self.file(&Written::of(&c, choice));
                self.sure(answer);
            }
        }
    }

    // 7 of a setup, at several levels.
    fn not_finite(&mut self) {
        self.lend_as_the_program();
        let mut random = Random::new(21);
        for choice in 0..2 {
            let mut found = [false; 3];
            for k in 0..200_000 {
                let cells = generate::cells(&mut random, if k % 2 == 0 { 6 } else { 9 });
                let bloch = generate::kinds(&mut random);
                let c = generate::filled(&mut random, cells, bloch);
                let w = Written::of(&c, choice);
                let [number, place] = read(&w.bytes, &self.room()).answer;
                if number == 7 && place < 3 && !found[place] {
                    found[place] = true;
                    self.title(&format!("not finite from level {place} on, {}", NAMES[choice]));
                    self.file(&w);
                    self.sure([7, place]);
                }
                if found == [true; 3] {
                    break;
                }
            }
            assert!(found == [true; 3], "{found:?}");
        }
    }

    // 9 and 10, and a change that 7 refuses; a refusal ends the reading.
    fn changes(&mut self) {
        for choice in 0..2 {
            let mut c = small([4, 1, 1], 4, 0.0, 0.0);
            c.changes = vec![(0, c64::new(3.0, 0.5)), (5, one(2.0)), (11, one(-4.0))];
            let w = Written::of(&c, choice);
            let [first, second, third] = w.of_kind(7)[..] else { panic!("three changes") };
            let end = w.bytes.len() - 1;
            self.title(&format!("changes, {}", NAMES[choice]));
            self.lend(16, 168, longest(&c, choice) + 2);
            self.file(&w);
            self.sure([0, 2]);
            self.title("edges");
            for (record, edges) in [(first, vec![12u32, 13, 256, 65536, 1 << 24, u32::MAX]), (second, vec![12, 255, 1 << 31]), (third, vec![12, 0x0b00_0000])] {
                for edge in edges {
                    self.with(w.starts[record] + 1, &edge.to_le_bytes(), [9, edge as usize]);
                }
            }
            for edge in 0..12u32 {
                self.with(w.starts[second] + 1, &edge.to_le_bytes(), [0, 2]);
            }
            self.title("values");
            for k in 0..28 {
                let (record, edge) = [(first, 0), (second, 5), (third, 11)][k % 3];
                self.with(w.starts[record] + 5, &bad_pair(k), [10, edge]);
            }
            self.title("no such edge, and no value either");
            self.put(w.starts[second] + 5, &bad_pair(0));
            self.with(w.starts[second] + 1, &12u32.to_le_bytes(), [9, 12]);
            self.title("a refusal ends the reading: what stands behind it is not looked at");
            self.sure([10, 5]);
            self.with(w.starts[third], &[6], [10, 5]);
            self.with(w.starts[third] + 5, &bad_pair(1), [10, 5]);
            self.put(end, &[9, 255, 255]);
            self.sure([10, 5]);
            for n in [w.starts[third], w.starts[third] + 3, end] {
                self.size(n);
                self.sure([10, 5]);
            }
            self.title("a change that is cut off is no change");
            for n in [w.starts[third] - 1, w.starts[second] + 1] {
                self.size(n);
                self.sure([12, w.starts[second]]);
            }
            self.size(w.starts[second]);
            self.sure([12, w.starts[second]]);
            self.title("a change whose numbers are not finite");
            let values = [1e308, 1e-308, 5e-324, 1e-160, 1e200, 1e155].map(one);
            for z in values {
                self.file(&w);
                self.put(w.starts[second] + 5, &pair(z));
                self.read();
            }
        }
    }

    // 12 by the choice, before whatever the setup is refused by.
    fn choices(&mut self) {
        let c = small([1, 2, 1], 4, 0.0, 0.0);
        for choice in 0..2 {
            let w = Written::of(&c, choice);
            let k = w.of_kind(6)[0];
            let at = w.starts[k];
            self.lend(16, 168, longest(&c, choice));
            self.title(&format!("each byte for the choice {choice}"));
            self.file(&w);
            let all = self.kinds(&[at + 1]);
            assert!(all[0][0] == 0 && all[1][0] % 6 == 0 && all[2..].iter().all(|a| *a == [12, at]));
            self.title("the same, with a step, a number, and places too few");
            self.put(7, &bad_pair(2)[..8]);
            assert!(self.kinds(&[at + 1])[..2] == [[2, 0]; 2]);
            self.put(7, &1f64.to_le_bytes());
            self.put(w.starts[6] + 1, &bad_pair(0));
            assert!(self.kinds(&[at + 1])[..2] == [[4, 2]; 2]);
            self.file(&w);
            self.lend(16, 168, 3);
            assert!(self.kinds(&[at + 1])[..2] == [[6, 0]; 2]);
        }
    }

    // Random lattices and what was done to their files.
    fn sample(&mut self, lattices: usize, times: usize) {
        let mut random = Random::new(22);
        let mut before = Written::of(&Case::plain([1, 1, 1]), 0);
        self.lend_as_the_program();
        for k in 0..lattices {
            let cells = generate::cells(&mut random, if k % 4 == 0 { 8 } else { 2 });
            let bloch = generate::kinds(&mut random);
            let mut c = generate::filled(&mut random, cells, bloch);
            c.changes = generate::changes(&mut random, &c, 2);
            let w = Written::of(&c, k % 2);
            self.title(&format!("sample {k}, {}", NAMES[k % 2]));
            self.file(&w);
            self.read();
            for _ in 0..if c.total() < 3 { times } else { 0 } {
                let (_, file) = damage::damaged(&mut random, &w, &before);
                // told by what differs, where that is short
                let same = file.iter().zip(&self.file).take_while(|(a, b)| a == b).count();
                if file.len() == self.file.len() && same < file.len() {
                    let tail = file.iter().zip(&self.file).rev().take_while(|(a, b)| a == b).count();
                    self.put(same, &file[same..file.len() - tail]);
                } else if file.len() > self.file.len() && same == self.file.len() {
                    self.put(same, &file[same..]);
                } else if file.len() < self.file.len() && same == file.len() {
                    self.size(file.len());
                } else if file.len() < 600 {
                    self.bytes(&file);
                } else {
                    continue;
                }
                self.read();
            }
            before = w;
        }
    }
}

fn recorded(counts: Option<Counts>) -> Recorder {
    let mut r = Recorder { stdin: String::new(), stdout: String::new(), file: Vec::new(), limit: 0, held: 0, places: 0, counts, departure: None };
    r.example();
    r.small_files();
    r.ends();
    r.grids();
    r.scalars();
    r.numbers();
    r.levels();
    r.places();
    r.not_finite();
    r.changes();
    r.choices();
    r.sample(40, 8);
    r
}

// The same readings by the library, against the second reader.
pub(super) fn compare(counts: Counts) -> Result<Counts, String> {
    let r = recorded(Some(counts));
    r.departure.map_or(Ok(r.counts.unwrap_or_default()), Err)
}

pub fn write(folder: &str) -> Result<(), String> {
    let r = recorded(None);
    for (name, text) in [("stdin", &r.stdin), ("stdout", &r.stdout)] {
        std::fs::write(format!("{folder}/{name}"), text).map_err(|e| format!("{folder}/{name}: {e}"))?;
    }
    println!("{folder}: stdin has {} bytes, stdout {}", r.stdin.len(), r.stdout.len());
    Ok(())
}
