// The library against the Rust that it was carried over from. Prints what was equal; the first departure ends the run with status 1.
//
//     differential [SEED [LATTICES [PART/PARTS]]]     every PARTSth lattice, from PART on (1 to PARTS)
//     differential faults [SEED [LATTICES]]           few lattices, in an order that soon notices a fault; no smaller input is looked for
//     differential files [SEED [COUNT]]               setup files, whole and damaged, against a second reader
//     differential bench NAME CELLS CHOICE [EDGE]
//     differential stack
//     differential record FOLDER                      the calls of the test program, and what they must answer
//     differential record-files FOLDER                the same of the test program that reads setup files

mod bench;
mod book;
mod case;
mod changes;
mod compare;
mod files;
mod generate;
mod handed;
mod lent;
mod needs;
mod norm;
mod numbers;
mod ours;
mod random;
mod reach;
mod record;
mod shrink;
mod stack;
mod store;
mod table;

use case::Case;
use compare::{Counts, compare};
use num_complex::Complex64 as c64;
use random::Random;

struct Run {
    random: Random,
    // for changes alone: the lattices are the same with them and without
    changing: Random,
    counts: Counts,
    // lattices met, those compared, and which are: every `parts`th, from `part` on
    met: usize,
    lattices: u64,
    // those with a list of changes after an accepted setup, and the last of them
    changed: u64,
    last_changed: usize,
    part: usize,
    parts: usize,
    // whether a departure is told of a small input
    shrinks: bool,
    // lines of the Rust alone, their cells as long as T allows
    near: norm::Departures,
}

impl Run {
    fn own(&self) -> bool {
        self.met % self.parts == self.part % self.parts
    }

    // A lattice.
    fn one(&mut self, name: &str, c: &Case) -> Result<(), String> {
        self.met += 1;
        self.lattices += self.own() as u64;
        self.again(name, c)
    }

    // One input, perhaps of a lattice met before, with another `coarsest`; what departs is made small and told.
    fn again(&mut self, name: &str, c: &Case) -> Result<(), String> {
        if !self.own() {
            return Ok(());
        }
        let lists = |counts: &Counts| counts.changes.lists.iter().sum::<u64>();
        let before = lists(&self.counts);
        let Err(mut what) = compare(c, &mut self.counts) else {
            if lists(&self.counts) > before && self.last_changed < self.met {
                self.changed += 1;
                self.last_changed = self.met;
            }
            return Ok(());
        };
        if !self.shrinks {
            return Err(format!("{name}, lattice {}: {what}\nthe input:\n{}", self.met, c.text()));
        }
        let small = shrink::smallest(c);
        what = compare(&small, &mut Counts::default()).err().unwrap_or(what);
        Err(format!("{name}, lattice {}: {what}\nthe smallest input found:\n{}", self.met, small.text()))
    }

    // The same input with a list of changes, and with tries on its store.
    fn with_changes(&mut self, c: &Case) -> Case {
        let most = match c.total() {
            0..=40 => 30,
            41..=200 => 5,
            _ => 2,
        };
        let mut d = c.clone();
        d.changes = generate::changes(&mut self.changing, c, most);
        if self.changing.once_in(4) {
            d.tries = self.changing.bits();
        }
        d
    }

    // The same lattice with the other kind of `coarsest`: a single level, so that level 0's rows are there, or all levels.
    fn other_depth(&mut self, name: &str, c: &Case) -> Result<(), String> {
        let mut d = c.clone();
        d.coarsest = match c.coarsest < c.edges() {
            true => [c.edges(), usize::MAX][self.met % 2],
            false => self.met % 2,
        };
        self.again(name, &d)
    }

    // Every lattice of 1 to 4 cells an axis and every mix of kinds: plain numbers with every `coarsest` that matters, then random numbers, so many times.
    fn small(&mut self, times: usize) -> Result<(), String> {
        for q in 0..64 {
            let cells = [q % 4 + 1, q / 4 % 4 + 1, q / 16 + 1];
            for mix in 0..8 {
                let bloch = [mix & 1 > 0, mix & 2 > 0, mix & 4 > 0];
                let mut c = Case::plain(cells);
                for axis in 0..3 {
                    c.set_kind(axis, bloch[axis]);
                }
                self.every_coarsest("small lattices", &c)?;
                for k in 0..times {
                    let mut c = generate::filled(&mut self.random, cells, bloch);
                    if k % 4 == 0 {
                        c = self.with_changes(&c);
                    }
                    self.one("small lattices", &c)?;
                    self.other_depth("small lattices", &c)?;
                }
            }
        }
        Ok(())
    }

    // A lattice with every `coarsest` that matters: 0, the greatest, and those on both sides of a change in the levels.
    fn every_coarsest(&mut self, name: &str, c: &Case) -> Result<(), String> {
        self.one(name, c)?;
        let lattice = c.lattice();
        let count = |coarsest: usize| source::level_lines(&lattice, &source::Options { coarsest }).map(|l| l.len());
        let counts: Vec<Option<usize>> = (0..c.edges() + 2).map(count).collect();
        let mut d = c.clone();
        for k in (1..counts.len()).filter(|&k| counts[k] != counts[k - 1]) {
            for coarsest in [k - 1, k] {
                d.coarsest = coarsest;
                self.again(name, &d)?;
            }
            // where there are many, the first few with changes
            d.changes.truncate(3);
            d.tries = 0;
        }
        d.coarsest = usize::MAX;
        d.changes.clear();
        d.tries = 0;
        self.again(name, &d)
    }

    fn random(&mut self, lattices: usize) -> Result<(), String> {
        for k in 0..lattices {
            // most have at most 40 cells, some a long line or up to 1,000 cells, some all 4,096
            let cells = match k % 500 {
                0 => generate::large_cells(&mut self.random),
                1 => [[16, 16, 16], [64, 64, 1], [64, 8, 8], [4, 32, 32]][k / 500 % 4],
                2..8 => generate::cells(&mut self.random, 1000),
                8..40 => generate::cells(&mut self.random, 130),
                40..300 => generate::cells(&mut self.random, 40),
                _ => generate::cells(&mut self.random, 12),
            };
            let bloch = generate::kinds(&mut self.random);
            let mut c = generate::filled(&mut self.random, cells, bloch);
            // of every tenth large lattice
            if k % 4 == 2 || (k % 500 < 2 && k / 500 % 10 == 5) {
                c = self.with_changes(&c);
            }
            self.one("random lattices", &c)?;
            // of every tenth large lattice
            if c.total() <= 200 || k / 500 % 10 == 0 {
                self.other_depth("random lattices", &c)?;
            }
        }
        Ok(())
    }

    // Refusals: each bad number at each place, then several faults at once.
    fn refusals(&mut self, lattices: usize) -> Result<(), String> {
        let plain = Case::plain([2, 3, 1]);
        let bad = [
            c64::new(f64::NAN, 1.0), c64::new(1.0, f64::NAN), c64::new(f64::INFINITY, 1.0), c64::new(1.0, f64::NEG_INFINITY),
            c64::new(0.0, 0.0), c64::new(-0.0, 0.0), c64::new(0.0, -0.0), c64::new(0.0, 1.0), c64::new(-0.0, 5e-324),
        ];
        for list in 0..7 {
            for k in 0..plain.needed(list) {
                for v in bad {
                    let mut c = plain.clone();
                    c.set_number(list, k, v);
                    self.one("refusals", &c)?;
                }
            }
            for length in 0..2 * plain.needed(list) + 5 {
                let mut c = plain.clone();
                c.lists[list].resize(length, 1.0);
                self.one("refusals", &c)?;
            }
        }
        // cells and scalars given too short, or longer than they are read
        for length in 0..18 {
            let mut c = plain.clone();
            c.scalars.resize(length, 1.0);
            self.one("refusals", &c)?;
            c = plain.clone();
            c.cells.resize(length / 3, 1);
            self.one("refusals", &c)?;
        }
        for place in 0..5 {
            for v in [0.0, -0.0, -1.0, f64::NAN, f64::INFINITY, f64::NEG_INFINITY, 5e-324, -5e-324, f64::MAX] {
                let mut c = plain.clone();
                c.scalars[place] = v;
                self.one("refusals", &c)?;
            }
        }
        for axis in 0..3 {
            for v in bad {
                for bloch in [false, true] {
                    let mut c = plain.clone();
                    c.set_kind(axis, bloch);
                    c.set_phase(axis, v);
                    self.one("refusals", &c)?;
                }
            }
            for n in [0, 64, 65, usize::MAX] {
                let mut c = plain.clone();
                c.cells[axis] = n;
                self.one("refusals", &c)?;
            }
        }
        for cells in [[64, 64, 1], [64, 64, 2], [16, 16, 16], [17, 16, 16], [64, 1, 64], [63, 65, 1], [65, 63, 1]] {
            self.one("refusals", &Case::plain(cells))?;
        }
        for _ in 0..lattices {
            let cells = generate::cells(&mut self.random, 12);
            let bloch = generate::kinds(&mut self.random);
            let mut c = generate::filled(&mut self.random, cells, bloch);
            // 0 is a wall, anything else Bloch
            if self.random.once_in(4) {
                c.scalars[5 + 3 * self.random.below(3)] = self.random.one_of(&[2.0, -1.0, 0.5, f64::NAN, f64::INFINITY, -0.0]);
            }
            for _ in 0..self.random.below(5) {
                generate::spoil(&mut self.random, &mut c);
            }
            if self.random.once_in(40) {
                generate::cut_off(&mut self.random, &mut c);
            }
            self.one("refusals", &c)?;
        }
        Ok(())
    }

    // Lines of up to so many cells, which double in length: 14 cells make 12 levels, 15 make 13, which is refused.
    fn deep(&mut self, most: usize) -> Result<(), String> {
        for n in 4..=most {
            for axis in 0..3 {
                let mut cells = [1, 1, 1];
                cells[axis] = n;
                let mut c = Case::plain(cells);
                for m in 0..n {
                    c.set_number(2 * axis + 1, m, c64::new(1.5 * 2f64.powi(m.saturating_sub(1) as i32), 0.0));
                }
                let answer = source::level_lines(&c.lattice(), &source::Options { coarsest: 0 }).map(|l| l.len());
                if (n == 14 && answer != Some(12)) || (n == 15 && answer.is_some()) {
                    return Err(format!("{n} cells that double in length: {answer:?} levels"));
                }
                let c = self.with_changes(&c);
                self.every_coarsest("deep lines", &c)?;
            }
        }
        Ok(())
    }

    // The two lines on which norm and the squares part ways.
    fn known(&mut self) -> Result<(), String> {
        let mut known = norm::Departures::default();
        for half in norm::known(&mut known)? {
            for axis in 0..3 {
                let mut cells = [1, 1, 1];
                cells[axis] = 4;
                let mut c = Case::plain(cells);
                for m in 0..4 {
                    c.set_number(2 * axis + 1, m, half);
                }
                self.one("the known lines", &c)?;
            }
        }
        println!("norm and the squares part ways on both known lines");
        for text in known.shown {
            println!("  {text}");
        }
        Ok(())
    }

    fn all(&mut self, lattices: usize) -> Result<(), String> {
        let operations = numbers::check(&mut self.random, 200_000)?;
        println!("num-complex: {operations} results are the specification's");
        self.small(16)?;
        self.deep(64)?;
        self.refusals(lattices / 5)?;
        self.random(lattices)?;
        self.known()?;
        norm::stress(&mut self.random, 1_000_000, &mut self.near)
    }

    // The same in another order, with fewer small lattices and without the checks of the Rust alone.
    fn faults(&mut self, lattices: usize) -> Result<(), String> {
        self.refusals(lattices / 5)?;
        self.random(lattices)?;
        self.known()?;
        self.deep(16)?;
        self.small(1)
    }
}

fn by_number(r: &[u64; 9]) -> String {
    let listed: Vec<String> = [1, 2, 3, 4, 5, 8, 6, 7].map(|n| format!("{n}: {}", r[n])).to_vec();
    format!("{:>12}   refused, {}", r[1..].iter().sum::<u64>(), listed.join(", "))
}

fn report(lattices: u64, c: &Counts, near: &norm::Departures) {
    println!("lattices  {lattices:>12}   with every `coarsest` tried {} inputs", c.inputs);
    store_report(&c.store);
    println!("needs     {:>12}   given; {} calls in lists of other lengths too", c.needs.given, c.needs.other_lengths);
    println!("          {}", by_number(&c.needs.refused));
    let h = &c.handed;
    println!("rows      {:>12}   handed back: {} forward, {} turned, {} operator; {} that aren't there",
        h.rows.iter().sum::<u64>(), h.rows[0], h.rows[1], h.rows[2], h.none);
    println!("          {:>12}   asked for in altered lists: {} handed back, {} not", h.altered[0] + h.altered[1], h.altered[0], h.altered[1]);
    departures("of the lines above", &c.norm);
    departures("of lines near the limit", near);
}

fn changes_report(lattices: u64, o: &changes::Counts) {
    let by_number = |r: &[u64; 12]| -> String {
        let listed: Vec<String> = [1, 2, 3, 4, 9, 10, 5, 8, 6, 11, 7].map(|n| format!("{n}: {}", r[n])).to_vec();
        format!("{} refused, {}", r.iter().sum::<u64>(), listed.join(", "))
    };
    println!("changes   {lattices:>12}   lattices with changes: {} Galerkin, {} rediscretized lists of them", o.lists[0], o.lists[1]);
    println!("          {:>12}   accepted, {} (7 by level {:?})", o.accepted, by_number(&o.refused), o.levels);
    println!("          {:>12}   in lists of any lengths and words: accepted, {}", o.tried, by_number(&o.spoiled));
    println!("          {:>12}   of altered stores or with another input: accepted, {} with another input, {} with the other choice; {}", o.found, o.inputs, o.choices,
        by_number(&o.unsound));
    println!("          {:>12}   stored numbers in the rows that these accepted ones reach, {} in others; the reach of {} edges is a NaN's", o.reached, o.kept, o.spread);
    println!("          {:>12}   words and doubles compared after changes", o.places);
}

fn store_report(o: &store::Counts) {
    for choice in 0..2 {
        println!("{} {:>8}   setups, {} levels; {} operator rows, {} entries", ["Galerkin     ", "rediscretized"][choice],
            o.setups[choice], o.levels[choice], o.rows[choice], o.entries[choice]);
    }
    println!("          {} of these setups of a single level, with {} rows of the lattice, {} entries", o.single, o.own_rows, o.own_entries);
    println!("          {} lines; {} transfers, {} rows of weights forward and turned, {} weights; {} coarse permittivities",
        o.lines, o.transfers, o.weight_rows, o.weights, o.permittivities);
    println!("          {} Galerkin levels over stored rows, {} untouched diagonals", o.stored, o.untouched);
    println!("          {} permittivities averaged, {} volumes, {} inverse shares, {} of a zero share", o.averaged, o.volumes, o.shares, o.zero_shares);
    println!("          {} with a shift; {}, {} and {} with a Bloch axis of 1, 2 and 3 cells on some level and a phase of modulus other than 1",
        o.shifted, o.wrapped[0], o.wrapped[1], o.wrapped[2]);
    println!("compared  {:>12}   numbers and {} words of these setups; {} words and doubles looked at in all calls", o.numbers, o.words, o.looked_at);
    println!("calls     {:>12}   filled: {} in lists with room, {} exactly full, {} of other lengths", o.filled.iter().sum::<u64>(),
        o.filled[0], o.filled[1], o.filled[2]);
    println!("          {} (6 by list {:?})", by_number(&o.refused), o.short);
}

fn departures(of: &str, d: &norm::Departures) {
    println!(
        "norm      {:>12}   departures, {of} ({} joined both ways): {} pairs joined by norm alone, {} by the squares alone,",
        d.found(), d.lines, d.only_norm, d.only_squares
    );
    println!("          the sum at most {:.3} x 2^-52 x T x T from T x T (8 allowed), im never 0", d.farthest);
    for text in &d.shown {
        println!("          {text}");
    }
}

// 1/2 and 2/2 are the halves.
fn part_of(text: &str) -> (usize, usize) {
    let both: Vec<usize> = text.split('/').filter_map(|n| n.parse().ok()).collect();
    match both[..] {
        [part, parts] if 0 < part && part <= parts => (part, parts),
        _ => panic!("a part as 1/2"),
    }
}

fn run(args: &[String], faults: bool) -> Result<(), String> {
    let number = |k: usize, otherwise: u64| args.get(k).map_or(otherwise, |a| a.parse().expect("a number"));
    let (seed, lattices) = (number(0, 1), number(1, if faults { 1000 } else { 100_000 }));
    let (part, parts) = args.get(2).map_or((1, 1), |a| part_of(a));
    println!("seed {seed}, {lattices} random lattices{}", if parts > 1 { format!(", part {part} of {parts}") } else { String::new() });
    let mut run = Run {
        random: Random::new(seed),
        changing: Random::new(!seed),
        counts: Counts::default(),
        met: 0,
        lattices: 0,
        changed: 0,
        last_changed: 0,
        part,
        parts,
        shrinks: !faults,
        near: norm::Departures::default(),
    };
    if faults { run.faults(lattices as usize) } else { run.all(lattices as usize) }?;
    report(run.lattices, &run.counts, &run.near);
    changes_report(run.changed, &run.counts.changes);
    println!("everything equal");
    Ok(())
}

// Where code with a fault in it ends the process itself, by an index past a list's end, that is a departure too.
fn told_when_ended() {
    let usual = std::panic::take_hook();
    std::panic::set_hook(Box::new(move |info| {
        if info.location().is_some_and(|l| l.file().ends_with("unproved.rs")) {
            println!("DEPARTURE\nthe code under test ended itself: {}", info.to_string().replace('\n', " "));
            std::process::exit(1);
        }
        usual(info);
    }));
}

fn main() {
    told_when_ended();
    let args: Vec<String> = std::env::args().skip(1).collect();
    let told = match args.first().map(|a| a.as_str()) {
        Some("bench") => bench::run(&args[1..]),
        Some("stack") => stack::run(),
        Some("record") => record::write(args.get(1).map_or(".", |a| a.as_str())),
        Some("record-files") => files::record::write(args.get(1).map_or(".", |a| a.as_str())),
        Some("files") => files::run(&args[1..]),
        Some("faults") => run(&args[1..], true),
        _ => run(&args, false),
    };
    if let Err(text) = told {
        println!("DEPARTURE\n{text}");
        std::process::exit(1);
    }
}
