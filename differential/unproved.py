#!/usr/bin/env python3
"""The code under test, as it is or with a planted fault, as a library that nothing proves.

    unproved.py CRATES OUT [FAULT]

The prover makes no library of code with a fault in it, so here the .rt files, contracts left out, are put together
as one Rust file and compiled by rustc into a library in OUT. Only to see that the run can fail, and to compare a layer
before its proofs are there. Without FAULT the code is left as it is; each of FAULTS must hit exactly once. `--list`
names them, and `--check CRATES` tries each of their patterns and writes nothing.
"""

import os
import re
import subprocess
import sys

# The file, what is found there, what takes its place.
FAULTS = {
    "lost-conjugate": ("lattice/src/neighbours.rt", "p.conj()", "p"),
    "swapped-neighbour": ("lattice/src/curls.rt", "grid::with_component(p, field), along, true)",
                          "grid::with_component(p, field), along, false)"),
    "swapped-axes": ("lattice/src/curls.rt", "behind(l, p, b, c, 1.0, 0, columns, values)",
                     "behind(l, p, c, b, 1.0, 0, columns, values)"),
    "wrong-factor": ("lattice/src/stretched.rt", "lattice::half(l, st, axis, p / 2)", "0.5 * lattice::half(l, st, axis, p / 2)"),
    "wrong-node": ("lattice/src/stretched.rt", "(p + 1) / 2", "p / 2"),
    "lost-sign": ("lattice/src/rows.rt", "-wh * we", "wh * we"),
    "grouping": ("lattice/src/rows.rt", "w * numbers::get(eps, column) * inverse",
                 "w * (numbers::get(eps, column) * inverse)"),
    "negated-zero": ("numbers/src/lib.rt", "0.0 - self * y.im / n", "-(self * y.im / n)"),
    "strict-bound": ("lattice/src/line.rt", "<= target * target", "< target * target"),
    "one-cell-less": ("lattice/src/line.rt", "n < 4", "n < 3"),
    "one-level-less": ("lattice/src/levels.rt", "for level in 0..12", "for level in 0..11"),
    "wrong-coarsest": ("lattice/src/levels.rt", "edges(t) <= coarsest", "edges(t) < coarsest"),
    "lost-wall": ("lattice/src/neighbours.rt", "on_other_wall(l, st, p, 2)", "on_wall(l, st, p, 2)"),
    "wrong-position": ("lattice/src/check.rt", "Refusal::Entry(position + n + m)", "Refusal::Entry(position + m)"),
    "wrong-order": ("lattice/src/check.rt", "if bad_length(g.dx) {", "if bad_length(v.k0) {\n        return Err(Refusal::Scalar(3));\n    }\n    if bad_length(g.dx) {"),
    "turned-conjugate": ("numbers/src/transpose.rt", "crate::put(tvalues, tk + at, v);", "crate::put(tvalues, tk + at, v.conj());"),
    "dropped-given-away": ("weights/src/interpolate.rt", "first: low.map(|to| Share::Low(to))", "first: low.map(|to| if high.is_none() { Share::There(to.at) } else { Share::Low(to) })"),
    "lost-inverse": ("weights/src/interpolate.rt", "p.inv()", "p"),
    "another-order": ("weights/src/rows.rt", "x.weight * y.weight * z.weight", "x.weight * (y.weight * z.weight)"),
    "own-places": ("weights/src/tables.rt", "if slot_along(q) {\n        return q % 64;", "if q < 384 {\n        return q % 64;"),
    "arithmetic-mean": ("weights/src/eps.rt", "1.0 / numbers::get(eps, from + c)", "numbers::get(eps, from + c)"),
    "weight-one-left-out": ("weights/src/interpolate.rt", "Share::High(to) => t * to.phase", "Share::High(_) => t"),
    "wrong-limit": ("lattice/src/check.rt", "4096 < g.nx", "4095 < g.nx"),
    "operator-inverse": ("lattice/src/neighbours.rt", "p.conj()", "p.inv()"),
    "graddiv-order": ("lattice/src/rows.rt", "w * numbers::get(eps, column) * inverse",
                      "w * inverse * numbers::get(eps, column)"),
    "sums-from-zero": ("numbers/src/collect.rt", "columns[p] = c;\n    crate::put(values, p, v);",
                       "columns[p] = c;\n    crate::put(values, p, C64::zero() + v);"),
    "shift-first": ("operators/src/stencil.rt", """\
    let n = unshifted_row(l, eps, r, columns, values);
    if l.lattice.shift != 0.0 {
        if !neighbours::fixed(l, r) {
            return collect::insert(columns, values, n, r, shift_number(l.lattice, l.st, eps, r));
        }
    }
    n
""", """\
    if l.lattice.shift == 0.0 || neighbours::fixed(l, r) {
        return unshifted_row(l, eps, r, columns, values);
    }
    let mut cs = [0usize; 29];
    let mut xs = [0.0; 58];
    let n = rows::row_into(l, eps, r, &mut cs, &mut xs);
    let mut k = collect::insert(columns, values, 0, r, shift_number(l.lattice, l.st, eps, r));
    for m in 0..n {
        k = collect::insert(columns, values, k, cs[m], numbers::get(&xs, m));
    }
    k
"""),
    "shift-grouping": ("operators/src/stencil.rt", "l.shift * (l.k0 * l.k0)", "l.shift * l.k0 * l.k0"),
    "fixed-shifted": ("operators/src/stencil.rt", "if !neighbours::fixed(l, r) {", "if r < 12288 {"),
    "last-row-finite": ("operators/src/stencil.rt", "finite = finite && row.finite;", "finite = row.finite;"),
    "two-weights-first": ("operators/src/galerkin.rt", "add_column(w * v, cs[q], p, sums);", """\
let c = cs[q];
        for e in p.part.k + p.starts[p.part.s + c]..p.part.k + p.starts[p.part.s + c + 1] {
            add_term(sums, p.columns[e], w * numbers::get(p.values, e) * v);
        }"""),
    "diagonal-everywhere": ("operators/src/galerkin.rt", "if tstarts[ts + c] == tstarts[ts + c + 1] {", "if tstarts[ts + c] <= tstarts[ts + c + 1] {"),
    "diagonal-zero": ("operators/src/galerkin.rt", "numbers::put(sums, c, C64::one());", "numbers::put(sums, c, C64::zero());"),
    "sums-kept": ("operators/src/galerkin.rt", "numbers::put(sums, c, C64::zero());", ""),
    "entry-left-out": ("operators/src/base.rt", "return live(bloch, false, j) && (here || up);", "return live(bloch, false, j) && here;"),
    "period-left-out": ("operators/src/base.rt", "near || (bloch && i + 1 == n && j == 0)", "near"),
    "entry-too-many": ("operators/src/base.rt", "return live(bloch, w == 0, i) && here;", "return live(bloch, w == 0, i) && (here || up);"),
    "same-for-near": ("operators/src/tables.rt", "ty: word(t, 1, a, b, a == b, y),", "ty: word(t, 1, a, b, false, y),"),
    "one-weight": ("operators/src/pattern.rt", "&ps[2 * q..2 * q + n]", "&ps[2 * q..2 * q + n % 2]"),
    "fixed-counted": ("operators/src/pattern.rt", "tables::row_count(t, g, fixed, p)", "tables::row_count(t, g, false, p)"),
    "walk-too-short": ("operators/src/averaged.rt", "if place >= at {", "if place + 2 >= at {"),
    "hat-by-difference": ("operators/src/averaged.rt", "1.0 - distance as f64 / width as f64", "(width - distance) as f64 / width as f64"),
    "wall-wraps": ("operators/src/averaged.rt", "let wy = lattice::lattice::is_wall(y);", "let wy = false;"),
    "grouped-mean": ("operators/src/averaged.rt", "w * count as f64 / inverse",
                     "w * (count as f64 / inverse)"),
    "grouped-step": ("operators/src/rediscretized.rt", "grid::step(g, axis) * cells as f64 / n as f64", "grid::step(g, axis) * (cells as f64 / n as f64)"),
    "wall-node-once": ("operators/src/rediscretized.rt", "2.0 * (", "1.0 * ("),
    "volume-of-nodes": ("operators/src/volumes.rt", "if axis == p.component {", "if axis != p.component {"),
    "zero-share": ("operators/src/volumes.rt", "return C64::one();", "return C64::zero();"),
    "share-without-last": ("operators/src/volumes.rt", "for q in first..last {", "for q in first..last - (last - first) / 2 {"),
    "inverse-finite": ("operators/src/volumes.rt", "v.is_finite() && w.is_finite()\n", "v.is_finite()\n"),
    "operator-part-late": ("store/src/galerkin_levels.rt", "k: q.k + w,", "k: q.k + w + 1,"),
    "averaged-from-first": ("store/src/rediscretized_levels.rt", "        from = to;\n", ""),
    "turned-part-kept": ("store/src/transfers.rt", "ts: o.ts + m + 1,", "ts: o.ts,"),
    "last-bad-level": ("store/src/lines.rt", "bad.or((!ok).then_some(level))", "(!ok).then_some(level).or(bad)"),
    "full-list-refused": ("store/src/needs.rt", "n.eps <= h.eps / 2;", "n.eps < h.eps / 2;"),
    "one-list-kept": ("store/src/lists.rt", "        self.ostarts.fill(0);\n        self.ocolumns.fill(0);\n        self.ovalues.fill(0.0);\n", ""),
    "finest-stretches": ("store/src/scaling.rt", "st: &stretches,", "st: h.l.st,"),
    "row-behind-the-last": ("store/src/handed.rt", "if n <= row {", "if n < row {"),
    "starts-fall": ("store/src/handed.rt", "if b < a {", "if b + 1 < a {"),
    "row-past-the-room": ("store/src/handed.rt", "if room - terms < b {", "if room - terms + 1 < b {"),
    "part-past-the-room": ("store/src/handed.rt", "if room - terms < last {", "if room < last {"),
    "cells-over-64": ("store/src/handed.rt", "0 < n && n <= 64", "0 < n && n <= 65"),
    "level-0-stored": ("store/src/handed.rt", "if c.levels <= 1 {", "if c.levels <= 2 {"),
    "turned-as-forward": ("store/src/handed.rt", "transfer_row(c, 1, tstarts, troom, level, row)", "transfer_row(c, 0, tstarts, troom, level, row)"),
    "one-level-enough": ("store/src/handed.rt", "levels_there(c, level + 2)", "levels_there(c, level + 1)"),
    "start-too-few": ("store/src/handed.rt", "at += n + 1;", "at += n;"),
    "level-count-less": ("store/src/needed.rt", "levels: h.m + 1,", "levels: h.m,"),
    "ten-levels-counted": ("store/src/needed.rt", "lines.map(|f| f.cells)", "let mut cells = lines.map(|f| f.cells);\n    cells[30..].fill(0);\n    cells"),
    "galerkin-needs": ("store/src/needed.rt", "needs::count(h, choice)", "needs::count(h, Choice::Galerkin)"),
    "one-choice": ("store/src/lib.rt", "if n == 0 {", "if n != 1 {"),
    "one-kind": ("yonaduvi/src/input.rt", "if kind == 0.0 {", "if kind != 1.0 {"),
    "three-cells-alone": ("yonaduvi/src/input.rt", "if cells.len() < 3 {", "if cells.len() != 3 {"),
    "other-refusal": ("store/src/told.rt", "Refusal::TooMany => Told::new(5, 12)", "Refusal::TooMany => Told::new(5, 11)"),
    "needs-order": ("yonaduvi/src/answers.rt", "n.terms, n.tstarts, n.terms,", "n.tstarts, n.terms, n.terms,"),
    "needs-kept": ("yonaduvi/src/answers.rt", "Err(_) => list.fill(0),", "Err(_) => {}"),
    "counts-early": ("yonaduvi/src/answers.rt", "words[q + 1] = cells[q];", "words[q] = cells[q];"),
    "counts-read-early": ("yonaduvi/src/rows.rt", "word(counts, q + 1)", "word(counts, q)"),
    "place-in-numbers": ("yonaduvi/src/rows.rt", "put_two(out, k * i,", "put_two(out, i,"),
    "end-for-count": ("yonaduvi/src/rows.rt", "k * (j - i))", "k * j)"),
    "odd-double-room": ("yonaduvi/src/lib.rt", "let room = values.len() / 2;", "let room = (values.len() + 1) / 2;"),
    "one-turned": ("yonaduvi/src/lib.rt", "turned != 0", "turned == 1"),
    "deeper-levels-left": ("renew/src/parts.rt", "for level in 0..h.m {", "for level in 0..1 {"),
    "coarse-permittivities-left": ("reach/src/hits.rt", "let mut at = raise_bits(flags, base, k, &hits.eps);", "let mut at = base + k;"),
    "averaged-left": ("reach/src/hits.rt", "at = raise_bits(flags, at, only, &hits.averaged);", "at = at + only;"),
    "forward-rows-left": ("reach/src/hits.rt", "at = raise_bits(flags, at, n, &hits.forward);", "at = at + n;"),
    "turned-rows-left": ("reach/src/hits.rt", "raise_bits(flags, at, k, &hits.turned)", "at + k"),
    "shares-left": ("reach/src/hits.rt", "at = raise_bits(flags, at + volumes, only, &hits.turned);", "at = at + volumes + only;"),
    "sole-rows-left": ("reach/src/hits.rt", "raise_bits(flags, 0, n, &hits.operator)", "n"),
    "first-operator-left": ("reach/src/hits.rt", "    flags::lattice_flags(l, flags, out);\n", ""),
    "forward-by-coarse-left": ("reach/src/hits.rt", """\
    flags::stored_flags(
        a.forward,
        n,
        s.starts,
        s.columns,
        &hits.eps,
        &mut hits.forward,
    );
""", ""),
    "operator-by-computed-rows-left": ("reach/src/hits.rt", "        flags::first_flags(l, flags, out);\n", ""),
    "operator-by-forward-left": ("reach/src/hits.rt", "    flags::stored_flags(o, n, ostarts, ocolumns, flags, out);\n", ""),
    "operator-by-fine-left": ("reach/src/hits.rt", "let mut leads = hits.operator;", "let mut leads = [false; EDGES];"),
    "rediscretized-operator-left": ("reach/src/hits.rt", "    flags::rediscretized_flags(h, level, &hits.averaged, &mut hits.operator);\n", ""),
    "divergence-left": ("operators/src/stencil.rt", "for &q in &cs[..n] {", "for &q in &cs[..n / 2] {"),
    "fixed-row-reached": ("operators/src/stencil.rt", "    if neighbours::fixed(l, r) {\n        return;\n    }\n    out[r] = true;",
                          "    out[r] = true;"),
    "beyond-the-reach": ("renew/src/flag.rt", "words::bit(flags[q / 64], q % 64)", "words::bit(flags[q / 64], q % 64) || q % 7 == 0"),
    "nothing-put-back": ("renew/src/guard.rt", "        cursor::put_back(", "        if bad.0 < 100 {\n            return Err(bad);\n        }\n        cursor::put_back("),
    "turned-not-put-back": ("renew/src/cursor.rt", "NumberList::Turned => v.tvalues[at] = x,", "NumberList::Turned => {}"),
    "half-put-back": ("renew/src/cursor.rt", "for &x in &old[..n] {", "for &x in &old[..n / 2] {"),
    "same-double-saved": ("renew/src/cursor.rt", "at: c.at + 1,", "at: c.at,"),
    "permittivity-not-put-back": ("changes/src/change.rt", "        numbers::put(n.eps, edge, old);\n", ""),
    "ten-before-nine": ("changes/src/change.rt", "    if n <= edge {", "    if bad {\n        return Err(Refusal::BadValue(edge));\n    }\n    if n <= edge {"),
    "nine-too-late": ("changes/src/change.rt", "if n <= edge {", "if n < edge {"),
    "eleven-before-six": ("changes/src/change.rt", "    let count = setup::structure(",
                          "    if s.ends.len() > 0 && s.ends[0] != 0 {\n        return Err(Refusal::Differs(0));\n    }\n    let count = setup::structure("),
    "seven-at-the-last": ("changes/src/change.rt", "setup::Refusal::NotFinite(level)", "setup::Refusal::NotFinite(h.m)"),
    "ends-not-compared": ("changes/src/compare.rt", "let e = first_ends(h, s.ends);", "let e = None;"),
    "forward-starts-not-compared": ("changes/src/compare.rt", """\
0, &mut row);
        if !same_row(starts, s + r, k, columns, o.k + k, &row, count) {
            return false;
        }
        k += count;
    }
    starts[s + n] == k
""", """\
0, &mut row);
        if !same(columns, o.k + k, &row, count) {
            return false;
        }
        k += count;
    }
    true
"""),
    "forward-columns-not-compared": ("changes/src/compare.rt", """\
grid::at(gf, r), 0, &mut row);
        if !same_row(starts, s + r, k, columns, o.k + k, &row, count) {
""", """\
grid::at(gf, r), 0, &mut row);
        if starts[s + r] != k {
"""),
    "turned-starts-not-compared": ("changes/src/compare.rt", "tstarts[ts] == 0 && tstarts[ts + 1..ts + m + 1] == next[..m]", "tstarts[ts] == 0"),
    "turned-columns-not-compared": ("changes/src/compare.rt", "if tcolumns[tk + at] != r {", "if false {"),
    "operator-starts-not-compared": ("changes/src/compare.rt", """\
r, p, &mut row, 0);
        if !same_row(starts, s + r, k, columns, o.k + k, &row, count) {
            return false;
        }
        k += count;
    }
    starts[s + n] == k
""", """\
r, p, &mut row, 0);
        if !same(columns, o.k + k, &row, count) {
            return false;
        }
        k += count;
    }
    true
"""),
    "operator-columns-not-compared": ("changes/src/compare.rt", """\
r, p, &mut row, 0);
        if !same_row(starts, s + r, k, columns, o.k + k, &row, count) {
""", """\
r, p, &mut row, 0);
        if starts[s + r] != k {
"""),
    "eleven-at-the-coarse": ("changes/src/compare.rt", "            return Some(level);\n", "            return Some(level + 1);\n"),
    "ends-first": ("changes/src/compare.rt", "earlier(e, earlier(t, o))", "e.or(earlier(t, o))"),
    "other-change-refusal": ("store/src/told.rt", "Told::new(11, level)", "Told::new(11, level + 1)"),
    # of the reader of setup files: their names begin with file-, and damaged files show them
    "file-cut-off-as-1": ("programs/src/reader.rt", "Some(o) => Err(Told::new(12, o.start)),", "Some(_) => Err(Told::new(1, 0)),"),
    "file-end-for-kind-byte": ("programs/src/reader.rt", "Some(o) => Err(Told::new(12, o.start)),", "Some(_) => Err(Told::new(12, r.at)),"),
    "file-last-record-for-length": ("programs/src/reader.rt", "None => Err(Told::new(12, r.at)),", "None => Err(Told::new(12, r.at.saturating_sub(1))),"),
    "file-behind-the-end": ("programs/src/reader.rt", "    if r.at == usize::MAX {", "    if r.seen.stage == Stage::Over {\n        return r;\n    }\n    if r.at == usize::MAX {"),
    "file-limit-refused": ("programs/src/reader.rt", "if limit < cells {", "if limit <= cells {"),
    "file-doubles-for-numbers": ("programs/src/reader.rt", "room < 2 * (records::stretch_count(b) + records::edge_count(b))",
                                 "room < records::stretch_count(b) + records::edge_count(b)"),
    "file-13-before-1": ("programs/src/reader.rt", "    if let Err(c) = check::check_grid(g) {\n",
                         "    if limit < records::cell_count(b) {\n        return Told::new(13, records::cell_count(b));\n    }\n    if let Err(c) = check::check_grid(g) {\n"),
    "file-coarsest-of-two-bytes": ("programs/src/reader.rt", "bytes::word32(&b, 1)", "bytes::word16(&b, 1)"),
    "file-edge-of-two-bytes": ("programs/src/feed.rt", "bytes::word32(&b, 0)", "bytes::word16(&b, 0)"),
    "file-choice-of-two": ("programs/src/feed.rt", "o.body[0] > 1", "o.body[0] > 2"),
    "file-refusal-goes-on": ("programs/src/feed.rt", "reader::answered(r, Told::from(a).answer())", "reader::between(r, s)"),
    "file-wall-among-numbers": ("programs/src/records.rt", "Stage::AxisX | Stage::AxisY | Stage::AxisZ => Some(Kind::Wall),",
                                "Stage::AxisX | Stage::AxisY | Stage::AxisZ | Stage::Numbers => Some(Kind::Wall),"),
    "file-nodes-for-halves": ("programs/src/records.rt", "cut(held, 2 * x + 2 * y + z, z)", "cut(held, 2 * x + 2 * y, z)"),
    "file-high-byte-first": ("programs/src/bytes.rt", "u16::from_le_bytes(", "u16::from_be_bytes("),
    "file-nan-as-one": ("programs/src/bytes.rt", "num::f64_from_bits_with_nan(bits)", "if f64::from_bits(bits).is_nan() { 1.0 } else { f64::from_bits(bits) }"),
}


def stop(message):
    sys.exit("differential/unproved.py: " + message)


def planted(text, fault):
    """A file's text with a fault in it."""
    name, old, new = FAULTS[fault]
    if text.count(old) != 1:
        stop(f"the fault {fault} hits {text.count(old)} times in {name}, not once")
    return text.replace(old, new)


def check(crates):
    """Each fault hits once."""
    wrong = []
    for fault, (name, old, _) in FAULTS.items():
        with open(os.path.join(crates, name), encoding="utf-8") as file:
            hits = file.read().count(old)
        if hits != 1:
            wrong.append(f"the fault {fault} hits {hits} times in {name}, not once")
    if wrong:
        stop("\n".join(wrong))
    print(f"{len(FAULTS)} faults of the code under test, each hits once")


def plain(crates, name, fault):
    """A file with its contracts and what else is for proofs left out."""
    with open(os.path.join(crates, name), encoding="utf-8") as file:
        text = file.read()
    if fault and FAULTS[fault][0] == name:
        text = planted(text, fault)
    # std's name for what Rust's does, and a derive that Rust has no need of
    text = text.replace("num::f64_from_bits_with_nan(", "f64::from_bits(").replace("#[derive(Drop)]\n", "")
    lines, depth = [], 0
    for line in text.split("\n"):
        start = line.strip()
        if depth > 0 or re.match(r"(requires|ensures)( \w+)? \{|(pub )?ghost (?!use )\w+( =|:) \{|by \{", start):
            depth += line.count("{") - line.count("}")
            # a trait's function without a body ends with its last clause
            if depth == 0 and start.endswith("};") and "ghost " not in start and lines[-1].endswith(")"):
                lines[-1] += ";"
        elif not start.startswith(("ghost use", "#![tactic", "#[tactic")):
            lines.append(line)
    return "\n".join(lines)


def inside(text, crate, above):
    """A file as a module of one Rust crate: its paths begin with the crates that it names."""
    text = text.replace("crate::", f"crate::{crate}::")
    for name in above:
        text = re.sub(rf"^use {name}::", f"use crate::{name}::", text, flags=re.M)
    return "".join(f"use crate::{name};\n" for name in above if f"use crate::{name};" not in text) + text


def for_c(text):
    """The functions for C with each slice as a pointer and then a length: rustc would hand it over as a struct of the two."""
    def one(function):
        parameters, slices = [], []
        for part in function[2].split(","):
            name, _, kind = (p.strip() for p in part.partition(":"))
            found = re.fullmatch(r"&(mut )?\[(\w+)\]", kind)
            if found:
                lasting = "mut" if found[1] else "const"
                parameters.append(f"{name}: *{lasting} {found[2]}, {name}_len: usize")
                slices.append(f"    let {name} = unsafe {{ core::slice::from_raw_parts{'_mut' if found[1] else ''}({name}, {name}_len) }};\n")
            elif name:
                parameters.append(part)
        return f'pub extern "C" fn {function[1]}({", ".join(parameters)})\n{{\n{"".join(slices)}'
    return re.sub(r'pub extern "C" fn (\w+)\(([^)]*)\)\s*\{', one, text)


def module(crates, crate, above, fault):
    """A crate as a module."""
    own = for_c(plain(crates, f"{crate}/src/lib.rt", fault))
    parts = [f"pub mod {crate} {{", inside(re.sub(r"^pub mod \w+;$", "", own, flags=re.M), crate, above)]
    for name in sorted(os.listdir(os.path.join(crates, crate, "src"))):
        if name != "lib.rt":
            parts.append(f"pub mod {name[:-3]} {{\n{inside(plain(crates, f'{crate}/src/{name}', fault), crate, above)}\n}}")
    return parts + ["}"]


def main():
    if sys.argv[1:] == ["--list"]:
        print("\n".join(FAULTS))
        return
    if sys.argv[1:2] == ["--check"] and len(sys.argv) == 3:
        check(sys.argv[2])
        return
    if len(sys.argv) not in (3, 4):
        stop("usage: unproved.py CRATES OUT [FAULT]")
    crates, out = sys.argv[1:3]
    fault = sys.argv[3] if len(sys.argv) == 4 else ""
    if fault and fault not in FAULTS:
        stop(f"no fault {fault}")
    parts = ["#![allow(unused)]"]
    # each sees those before it
    crates_in_order = ["numbers", "lattice", "weights", "operators", "store", "reach", "renew", "changes", "programs", "yonaduvi"]
    for k, crate in enumerate(crates_in_order):
        parts += module(crates, crate, crates_in_order[:k], fault)
    os.makedirs(out, exist_ok=True)
    with open(os.path.join(out, "unproved.rs"), "w", encoding="utf-8") as file:
        file.write("\n".join(parts))
    # an object alone: what it needs of Rust's core is in the driver
    made = subprocess.run(["rustc", "--edition", "2021", "--crate-type", "rlib", "--emit", "obj", "-C", "opt-level=2",
                           "-C", "codegen-units=1", "-C", "panic=abort", "unproved.rs", "-o", "unproved.o"],
                          cwd=out, stderr=subprocess.PIPE, text=True)
    if made.returncode != 0:
        stop("the files don't compile as Rust:\n" + made.stderr)
    library = os.path.join(out, "libyonaduvi.a")
    if os.path.exists(library):
        os.remove(library)
    subprocess.run(["ar", "crs", "libyonaduvi.a", "unproved.o"], cwd=out, check=True)


main()
