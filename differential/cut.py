#!/usr/bin/env python3
"""Cuts the Rust that the run compares with out of a checkout of its source.

    cut.py SOURCE OUT [FAULT]

SOURCE is the folder that holds src/fdfd/three.rs; what is cut becomes OUT/source/src/lib.rs. Each item is cut whole,
by its name. What is changed in it stands in CHANGES, with the reason; each change must hit exactly once, and so must
each name and each pattern. FAULT is one of FAULTS, a wrong change that the run has to notice; `--list` names them, and
`--check SOURCE` tries each of their patterns and writes nothing.
"""

import os
import re
import sys

THREE = "src/fdfd/three.rs"
MULTIGRID = "src/fdfd/three/multigrid.rs"

# What is cut: file, the type whose `impl` holds it (None: it stands alone), the names.
ITEMS = [
    (THREE, None, ["enum Axis"]),
    (THREE, "Axis", ["const ALL", "fn index", "fn others"]),
    (THREE, None, ["struct Grid3d"]),
    (THREE, "Grid3d", ["fn cells", "fn unknowns", "fn n", "fn step", "fn index", "fn at"]),
    (THREE, None, ["struct Boundaries3d"]),
    (THREE, "Boundaries3d", ["fn edges"]),
    (THREE, None, ["struct Lattice"]),
    (THREE, "Lattice", [
        "fn shift", "fn fixed", "fn neighbour", "fn curl_e", "fn curl_h", "fn curl_curl_into", "fn row_into",
        "fn node_fixed", "fn divergence", "fn node_eps", "fn gradient",
    ]),
    (MULTIGRID, None, ["struct Line"]),
    (MULTIGRID, "Line", ["fn finest", "fn cells", "fn coarser", "fn nodes_of", "fn place"]),
    (MULTIGRID, "Line", ["fn coarser as coarser_by_norm"]),
    (MULTIGRID, None, ["const ANISOTROPY", "struct Stretched"]),
    (MULTIGRID, "Stretched", ["fn new"]),
    (MULTIGRID, None, ["fn stencil_row"]),
    (MULTIGRID, None, ["struct Transfer"]),
    (MULTIGRID, "Transfer", ["fn from_rows", "fn transpose", "fn row", "fn apply"]),
    (MULTIGRID, None, ["fn interpolate_line", "fn coarse_eps", "type Weights", "fn prolongation"]),
    (MULTIGRID, None, [
        "enum Coarse", "type Rows", "fn galerkin", "fn assembled", "fn volumes", "fn rediscretized_lattice", "fn averaged_eps",
    ]),
]

# What is changed: the item, a pattern, what takes its place, the reason. All are ordered by the specification but those
# that only give the second copy of `coarser` its name, leave out a count of memory traffic, or leave the stretches of a
# Galerkin level empty, which nothing reads.
CHANGES = [
    ("Lattice::shift", r"\{ k \}", "{ p }", "a Bloch axis carries its phase p in place of the wavenumber"),
    ("Lattice::shift", r"\n *let turns = [^\n]*", "", "p is handed in in place of from_polar"),
    ("Lattice::shift", r"\n *let period = [^\n]*", "", "p is handed in in place of from_polar"),
    ("Lattice::shift", r"c64::from_polar\([^)]*\)", "if to < 0 { p.conj() } else { p }",
     "p is handed in; in the operator the backward phase is the conjugate of p"),
    ("Line::coarser", r"\((x\[[^\n]*\])\)\.norm\(\) <= target\b", r"squares(\1) <= target * target",
     "the squares take the place of norm"),
    ("Line::coarser_by_norm", r"\bfn coarser\b", "fn coarser_by_norm", "the original, kept beside the changed one"),
    ("stencil_row", r"\bsort_unstable_by_key\b", "sort_by_key", "the sort is a stable one"),
    ("prolongation", r"Edges::Bloch \{ k \} => \{\s*Some\(c64::from_polar\([^\n]*\)\)\s*\}", "Edges::Bloch { p } => Some(p),",
     "p is handed in in place of from_polar"),
    ("prolongation", r"Edges::Pml \{ \.\. \}", "Edges::Pml", "a wall holds nothing"),
    ("prolongation", r"\n *use rayon::prelude::\*;", "", "a plain loop in place of rayon's"),
    ("prolongation", r"\n *\.into_par_iter\(\)\n *\.with_min_len\(4096\)", "", "a plain loop in place of rayon's"),
    ("Transfer::apply", r"\n *use rayon::prelude::\*;", "", "a plain loop in place of rayon's"),
    ("Transfer::apply", r"\n *crate::traffic::add\([^\n]*", "", "nothing counts memory traffic here"),
    ("Transfer::apply", r"par_iter_mut\(\)\n *\.with_min_len\(4096\)", "iter_mut()", "a plain loop in place of rayon's"),
    ("galerkin", r"\n *use rayon::prelude::\*;", "", "a plain loop in place of rayon's"),
    ("galerkin", r"\n *\.into_par_iter\(\)(\n *//[^\n]*)*\n *\.with_min_len\([^\n]*\)", "", "a plain loop in place of rayon's"),
    ("assembled", r"\n *use rayon::prelude::\*;", "", "a plain loop in place of rayon's"),
    ("assembled", r"\n *\.into_par_iter\(\)\n *\.with_min_len\(4096\)", "", "a plain loop in place of rayon's"),
    ("averaged_eps", r"\n *use rayon::prelude::\*;", "", "a plain loop in place of rayon's"),
    ("averaged_eps", r"\n *\.into_par_iter\(\)\n *\.with_min_len\(4096\)", "", "a plain loop in place of rayon's"),
    ("setup", r"Lattice::new\(gc, fine\.boundaries, fine\.k0\)",
     "Lattice { grid: gc, boundaries: fine.boundaries, k0: fine.k0, nodes: Default::default(), halves: Default::default() }",
     "a Galerkin level's stretches, which nothing reads"),
]

# The level loop, twice: statements of Hierarchy::build, in their order, cut by how they begin, and lines of our own (marked
# +). A part marked * is a whole statement, any other the line alone. First the lines of the levels, without the work on
# matrices between them; then all of it but the factorization and the smoothers, called with no matrix.
LOOP = [
    "+pub fn level_lines(lattice: &Lattice, options: &Options) -> Option<Vec<[Line; 3]>> {",
    "+let mut levels = Vec::new();",
    "let mut fine = ",
    "let g = lattice",
    "let mut lines = ",
    "let stretched = ",
    "loop {",
    "+if levels.len() == 12 { return None; }",
    "let n = ",
    "let anisotropy = ANISOTROPY",
    "let target = ",
    "let next_lines = ",
    "let cells = ",
    "if n <= options.coarsest",
    "+levels.push(lines);",
    "+return Some(levels);",
    "+}",
    "*let gc = Grid3d {",
    "+fine.grid = gc;",
    "+levels.push(lines);",
    "lines = next_lines",
    "+}",
    "+}",
]
SETUP = [
    "+pub fn setup(lattice: &Lattice, eps: &[c64], options: &Multigrid) -> Option<Vec<Level>> {",
    "+let matrix: Option<Sparse> = None;",
    "+let mut levels: Vec<Level> = Vec::new();",
    "let mut fine = ",
    "let g = lattice",
    "let mut lines = ",
    "let stretched = ",
    "let mut a = matrix",
    "let mut eps = ",
    "let mut eps_operator = ",
    "*let bloch =",
    "loop {",
    "+if levels.len() == 12 { return None; }",
    "let n = ",
    "let anisotropy = ANISOTROPY",
    "let target = ",
    "let next_lines = ",
    "let cells = ",
    "if n <= options.coarsest",
    "*let a = match a {",
    "+levels.push(Level { lines, eps, eps_operator, operator: Some(a), transfer: None, scaling: None });",
    "+return Some(levels);",
    "+}",
    "*let gc = Grid3d {",
    "let rediscretized = ",
    "*let coarse = if rediscretized {",
    "let gc = coarse",
    "let nodes = ",
    "let eps_c = ",
    "*let prolongation = prolongation(",
    "let prolongation = Transfer",
    "let restriction = ",
    "*let (next, eps_next, scaling) = if rediscretized {",
    "+levels.push(Level { lines, eps, eps_operator, operator: a, transfer: Some((prolongation, restriction)), scaling });",
    "a = Some(next)",
    "fine = coarse",
    "lines = next_lines",
    "eps = eps_c",
    "eps_operator = eps_next",
    "+}",
    "+}",
]

# Stand-ins for what is not in the source at hand, or holds more than is needed here.
STAND_INS = """\
// In place of crate::fdfd::Edges: a wall holds nothing, a Bloch axis its phase.
#[derive(Clone, Copy, Debug, PartialEq)]
pub enum Edges {
    Pml,
    Bloch { p: c64 },
}

// In place of Multigrid: of its options the level loop reads this one.
pub struct Options {
    pub coarsest: usize,
}

// What the specification has in place of norm.
pub fn squares(d: c64) -> f64 {
    d.re * d.re + d.im * d.im
}

// What a setup reads of Multigrid.
pub struct Multigrid {
    pub shift: f64,
    pub coarsest: usize,
    pub coarse: Coarse,
}

// In place of krylov's: the rows, without their transpose.
pub struct Sparse {
    pub starts: Vec<usize>,
    pub columns: Vec<usize>,
    pub values: Vec<c64>,
}

impl Sparse {
    pub fn from_rows(rows: Vec<Vec<(usize, c64)>>) -> Sparse {
        let Transfer { starts, columns, values } = Transfer::from_rows(&rows);
        Sparse { starts, columns, values }
    }

    pub fn row(&self, r: usize) -> impl Iterator<Item = (usize, c64)> + '_ {
        (self.starts[r]..self.starts[r + 1]).map(|k| (self.columns[k], self.values[k]))
    }
}

// In place of rayon's map_init: one scratch for all rows.
trait MapInit: Iterator + Sized {
    fn map_init<S, R>(self, init: impl FnOnce() -> S, mut each: impl FnMut(&mut S, Self::Item) -> R) -> impl Iterator<Item = R> {
        let mut scratch = init();
        self.map(move |item| each(&mut scratch, item))
    }
}

impl<I: Iterator> MapInit for I {}

// What the level loop leaves of a level: its lines, the permittivities of the transfers and of the operators, its matrix if it has one; and of the
// transfer to the next level the rows, forward and turned, the fine volumes and the inverse shares.
pub struct Level {
    pub lines: [Line; 3],
    pub eps: Vec<c64>,
    pub eps_operator: Vec<c64>,
    pub operator: Option<Sparse>,
    pub transfer: Option<(Transfer, Transfer)>,
    pub scaling: Option<(Vec<c64>, Vec<c64>)>,
}
"""

# Wrong changes, to see that the run can fail: the item, a pattern, what takes its place.
FAULTS = {
    "lost-conjugate": ("Lattice::shift", r"p\.conj\(\)", "p"),
    "inverse-phase": ("Lattice::shift", r"p\.conj\(\)", "p.inv()"),
    "swapped-neighbour": ("Lattice::curl_e", r"along, 1\)", "along, -1)"),
    "swapped-axes": ("Lattice::curl_h", r"\(b, c, 1\.0\), \(c, b, -1\.0\)", "(c, b, 1.0), (b, c, -1.0)"),
    "wrong-factor": ("Stretched::new", r"0\.5 \* s", "0.25 * s"),
    "lost-sign": ("Lattice::curl_curl_into", r"-wh \* we", "wh * we"),
    "grouping": ("Lattice::row_into", r"-s \* wg \* wd \* eps\[col\] \* inverse",
                 "-s * wg * wd * (eps[col] * inverse)"),
    "strict-bound": ("Line::coarser", r"<= target \* target", "< target * target"),
    "one-cell-less": ("Line::coarser", r"n < 4", "n < 3"),
    "lost-wall": ("Lattice::fixed", r"a != c && ", ""),
    "unfixed-node": ("Lattice::gradient", r"!self\.node_fixed\(here\)", "true"),
    "far-neighbour": ("interpolate_line", r"Some\(ph\) => Some\(\(0, ph\)\)", "Some(ph) => Some((0, ph.inv()))"),
    "turned-early": ("Transfer::transpose", r"cols\[\*at\] = r;", "cols[*at] = r.saturating_sub(1);"),
    "mean-of-two": ("coarse_eps", r"1\.0 / eps", "2.0 / eps"),
    "fixed-weighted": ("prolongation", r"if coarse\.fixed\(col\)", "if false"),
    "other-map": ("setup", r"stretched\.across", "stretched.along"),
    "graddiv-order": ("Lattice::row_into", r"-s \* wg \* wd \* eps\[col\] \* inverse", "-s * wg * wd * inverse * eps[col]"),
    "sums-from-zero": ("stencil_row", r"_ => out\.push\(\(col, v\)\)", "_ => out.push((col, c64::new(0.0, 0.0) + v))"),
    "shift-first": ("stencil_row", r"(row_into\([^\n]*)((?:.|\n)*?)\n    if shift (?:.|\n)*\n    \}\n",
                    r"\1\n    if shift != 0.0 && !lattice.fixed(r) {\n"
                    r"        scratch.insert(0, (r, c64::new(0.0, shift * (lattice.k0 * lattice.k0)) * eps[r]));\n    }\2\n"),
    "shift-grouping": ("stencil_row", r"shift \* k2", "shift * lattice.k0 * lattice.k0"),
    "two-weights-first": ("galerkin", r"wv \* u", "w * u * v"),
    "value-first": ("galerkin", r"wv \* u", "w * (v * u)"),
    "diagonal-everywhere": ("galerkin", r"touched\.sort_unstable\(\)", "sums[c] = c64::new(1.0, 0.0); touched.sort_unstable()"),
    "diagonal-zero": ("galerkin", r"sums\[c\] = c64::new\(1\.0, 0\.0\)", "sums[c] = zero"),
    "entry-left-out": ("galerkin", r"touched\.sort_unstable\(\)", "touched.truncate(59); touched.sort_unstable()"),
    "walk-too-short": ("averaged_eps", r"if place >= at", "if place + 2.0 >= at"),
    "grouped-mean": ("averaged_eps", r"wb \* wc \* count / inverse", "wb * wc * (count / inverse)"),
    "grouped-step": ("rediscretized_lattice", r"g\.step\(axis\) \* g\.n\(axis\) as f64 / n as f64", "g.step(axis) * (g.n(axis) as f64 / n as f64)"),
    "wall-node-once": ("rediscretized_lattice", r"2\.0 \* \(along", "1.0 * (along"),
    "bloch-node-stretched": ("rediscretized_lattice", r"else if bloch", "else if false"),
    "volume-of-nodes": ("volumes", r"if b == a", "if b != a"),
    "zero-share": ("setup", r"c64::new\(1\.0, 0\.0\)", "c64::new(0.0, 0.0)"),
    "first-chain": ("setup", r"assembled\(&coarse, &eps_next,", "assembled(&coarse, &eps_c,"),
    "finest-volumes": ("setup", r"volumes\(&fine\)", "volumes(lattice)"),
}


def stop(message):
    sys.exit("differential/cut.py: " + message)


def read(source, name):
    path = os.path.join(source, name)
    if not os.path.isfile(path):
        stop(f"no {name} in {source}: give the folder of the source's checkout as the first argument of differential/run")
    with open(path, encoding="utf-8") as file:
        return file.read().split("\n")


def block(lines, at, name):
    """The item that starts at a line: its attributes, up to the line that closes it."""
    first = at
    while lines[first - 1].strip().startswith("#["):
        first -= 1
    if lines[at].endswith(";"):
        return lines[first:at + 1]
    indent = re.match(" *", lines[at]).group()
    for last in range(at + 1, len(lines)):
        if lines[last] in (indent + "}", indent + "};"):
            return lines[first:last + 1]
    stop(f"{name} doesn't end")


def only(hits, what):
    if len(hits) != 1:
        stop(f"{what} is met {len(hits)} times, not once")
    return hits[0]


def inside(lines, of, name):
    """The line numbers of a file in which an item is looked for: all, or those of the type's impl blocks."""
    if of is None:
        return range(len(lines)), ""
    found = []
    for at in [k for k, line in enumerate(lines) if line == f"impl {of} {{"]:
        found += range(at + 1, at + len(block(lines, at, name)))
    return found, "    "


def cut(lines, of, item):
    """One item, and the name that it goes by here."""
    word, name = item.split(" as ")[0].split(" ")
    alias = item.split(" as ")[-1] if " as " in item else name
    full = f"{of}::{alias}" if of else alias
    where, indent = inside(lines, of, full)
    start = re.compile(rf"{indent}(pub(\(crate\))? )?{word} {name}\b")
    at = only([k for k in where if start.match(lines[k])], f"{word} {name}" + (f" of {of}" if of else ""))
    return full, "\n".join(block(lines, at, full))


def statement(lines, at, name):
    """The statement that starts at a line: up to the semicolon that ends it."""
    depth = 0
    for last in range(at, len(lines)):
        code = lines[last].split("//")[0].rstrip()
        depth += sum(code.count(c) for c in "([{") - sum(code.count(c) for c in ")]}")
        if depth == 0 and code.endswith(";"):
            return lines[at:last + 1]
    stop(f"the statement `{name}..` of build doesn't end")


def cut_loop(lines, parts):
    """The level loop, put together from statements of Hierarchy::build."""
    where, _ = inside(lines, "Hierarchy", "build")
    at = only([k for k in where if re.match(r"    fn build\(", lines[k])], "fn build of Hierarchy")
    body = block(lines, at, "build")
    out, last = [], 0
    for part in parts:
        if part.startswith("+"):
            out.append(part[1:])
            continue
        start = part.lstrip("*")
        hit = only([k for k, line in enumerate(body) if line.strip().startswith(start)], f"the line `{start}..` of build")
        if hit <= last:
            stop(f"the line `{start}..` of build stands before the one that it should follow")
        last = hit
        out += statement(body, hit, start) if part.startswith("*") else [body[hit]]
    return "\n".join(line for line in out if not line.strip().startswith("#["))


def change(items, full, pattern, text, why):
    old = items[full]
    new, hits = re.subn(pattern, text, old)
    if hits != 1:
        stop(f"the change of {full} ({why}) hits {hits} times, not once")
    items[full] = new


def public(text):
    """Everything visible: the one change that is made throughout."""
    text = text.replace("pub(crate) ", "pub ")
    text = re.sub(r"^( *)(fn|struct|const|enum) ", r"\1pub \2 ", text, count=1, flags=re.M)
    if re.search(r"^pub struct", text, flags=re.M):
        text = re.sub(r"^    (\w+:)", r"    pub \1", text, flags=re.M)
    return text


def cut_all(source):
    """Every item, with the changes."""
    files = {name: read(source, name) for name in (THREE, MULTIGRID)}
    items, of_type = {}, {}
    for name, of, wanted in ITEMS:
        for item in wanted:
            full, text = cut(files[name], of, item)
            items[full], of_type[full] = text, of
    for full, parts in (("level_lines", LOOP), ("setup", SETUP)):
        items[full], of_type[full] = cut_loop(files[MULTIGRID], parts), None
    for full, pattern, text, why in CHANGES:
        change(items, full, pattern, text, why)
    return items, of_type


def main():
    if sys.argv[1:] == ["--list"]:
        print("\n".join(FAULTS))
        return
    if len(sys.argv) not in (3, 4):
        stop("usage: cut.py SOURCE OUT [FAULT]")
    if sys.argv[1] == "--check":
        items, _ = cut_all(sys.argv[2])
        for fault, (full, pattern, text) in FAULTS.items():
            change(dict(items), full, pattern, text, "the planted fault " + fault)
        print(f"{len(FAULTS)} faults of the Rust, each hits once")
        return
    source, out = sys.argv[1:3]
    fault = sys.argv[3] if len(sys.argv) == 4 else ""
    if fault and fault not in FAULTS:
        stop(f"no fault {fault}: there are {', '.join(FAULTS)}")
    items, of_type = cut_all(source)
    if fault:
        full, pattern, text = FAULTS[fault]
        change(items, full, pattern, text, "the planted fault " + fault)
    parts = ["// Cut out of the source by differential/cut.py. Not part of the repository.\n"
             "#![allow(dead_code)]\n\nuse num_complex::Complex64 as c64;\n", STAND_INS]
    for full, text in items.items():
        text = public(text)
        parts.append(f"impl {of_type[full]} {{\n{text}\n}}\n" if of_type[full] else text + "\n")
    write(os.path.join(out, "source/src/lib.rs"), "\n".join(parts))
    print(f"cut {len(items)} items out of {source}, {len(CHANGES)} changes" + (f", the fault {fault}" if fault else ""))


def write(path, text):
    """The file, left alone where it holds the text already, so that nothing is built again without need."""
    os.makedirs(os.path.dirname(path), exist_ok=True)
    if os.path.isfile(path):
        with open(path, encoding="utf-8") as file:
            if file.read() == text:
                return
    with open(path, "w", encoding="utf-8") as file:
        file.write(text)


main()
