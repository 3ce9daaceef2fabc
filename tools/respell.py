#!/usr/bin/env python3
"""Spells the repository's own names in snake case: definitions, lemmas, fields and bound names of specs/ and proofs/, and where clauses cite them.

usage: python3 tools/respell.py [--check]        at the top of the repository; --check writes nothing and only reports

A name that begins with a small letter and has a dash or a capital gets underscores, `nodesAt` to `nodes_at` and `row-local` to `row_local`, but for names that a
file imports from the library and names that the checker makes. Types and modules, which begin with a capital, stay. In comments a name with a capital turns, and
one with a dash only between backticks. It reports names that would meet another. Functions, strings, inputs and outputs are not touched.
"""

import collections
import glob
import os
import re
import sys

TOKEN = re.compile(r'--[^\n]*|"(?:[^"\\\n]|\\.)*"|[^\s(){}.;,@"«»]+')
RUST = re.compile(r'//[^\n]*|"(?:[^"\\\n]|\\.)*"|(?<![\w-])[a-z][\w\'-]*|.', re.S)
DECLARED = re.compile(r"^ *(?:abbrev |unfoldable |pub |opaque |ruleset |data |record )*([^\s:(){}]+)(?: [^\s:(){}]+)*(?: [\[({].*)? :(?: |$)")
NAME = re.compile(r"[a-z][A-Za-z0-9_'-]*'*$")
# Modules of the library that are named in full before a name of theirs.
LIBRARY = ("Memᴰ.",)
# Two names that would meet a third: their other spelling.
OTHER = {}


def turned(name):
    if name in OTHER:
        return OTHER[name]
    if not NAME.match(name) or not ("-" in name.strip("-") or re.search("[a-z0-9][A-Z]", name)):
        return name
    words = re.sub(r"(?<=[a-z0-9])([A-Z]+)(?=[A-Z][a-z])", lambda m: "_" + m[1].lower(), name)
    words = re.sub(r"(?<=[a-z0-9])[A-Z]", lambda m: "_" + m[0], words)
    words = re.sub(r"(?<=[A-Z])([A-Z])(?=[a-z])", r"_\1", words)
    return re.sub("_+", "_", words.replace("-", "_").lower())


def crates():
    return {os.path.basename(d) for d in glob.glob("crates/*")}


def antt_files():
    return sorted(glob.glob("crates/*/specs/**/*.antt", recursive=True) + glob.glob("crates/*/proofs/**/*.antt", recursive=True))


def by_hand(path):
    """A proof that walks the code: it has names that the checker makes."""
    return path.endswith("/Proof.antt")


USE = re.compile(r"^\s*(?:ghost )?use ([^\s{;]+?)\.?(?:\{([^}]*)\})?(?: as ([^\s;]+))?;?$", re.M)


def imports(text, own):
    library, ours = set(), set()
    for m in USE.finditer(text):
        path = m[1].split(".")
        to = ours if path[0] == "Rattle" and len(path) > 1 and path[1] in own else library
        for n in (m[2] or "").split(","):
            n = n.strip().split(" as ")[0].strip()
            if n:
                to.add(n)
    return library, ours


def comment(text, names):
    def word(m):
        w = m[0]
        if re.search("[a-z0-9][A-Z]", w) and w in names:
            return turned(w)
        return w

    text = re.sub(r"(?<![\w'-])[a-z][\w'-]*", word, text)
    return re.sub(r"`([^`]+)`", lambda m: "`" + re.sub(r"(?<![\w'-])[a-z][\w'-]*", lambda n: turned(n[0]) if n[0] in names else n[0], m[1]) + "`", text)


def antt(text, path, names, own):
    library, _ = imports(text, own)

    def one(m):
        w = m[0]
        if w.startswith("--"):
            return comment(w, names)
        if w.startswith('"') or w in library or w == "-" or text[: m.start()].endswith(LIBRARY):
            return w
        if by_hand(path):
            before = text[max(0, m.start() - 5) : m.start()]
            if w not in names or before.endswith("tie."):
                return w
        return turned(w)

    return TOKEN.sub(one, text)


def rust(text, names):
    def one(m):
        w = m[0]
        if w.startswith("//"):
            return comment(w, names)
        if w.startswith('"'):
            return w
        return turned(w) if w in names else w

    return RUST.sub(one, text)


def choose(texts, own):
    """Names that would get one spelling: a definition has it, a lemma gets _lem behind it, a field _is or _are."""
    olds, kinds = collections.defaultdict(set), collections.defaultdict(set)
    for p, t in texts.items():
        if by_hand(p):
            continue
        library, _ = imports(t, own)
        for m in TOKEN.finditer(t):
            w = m[0]
            if not w.startswith(("--", '"')) and NAME.match(w):
                olds[w if w in library else turned(w)].add("library" if w in library else w)
        for line in t.split("\n"):
            m = DECLARED.match(line)
            if m:
                kinds[m[1]].add(("/specs/" in p, len(line) - len(line.lstrip()) == 0))
    for new, old in sorted(olds.items()):
        if len(old) < 2 or old == {new, "library"}:
            continue

        def rank(w):
            k = kinds.get(w, set())
            return (w != "library", (True, True) not in k, not any(s for s, _ in k), "-" in w, w != new, w)

        first, *rest = sorted(old, key=rank)
        for w in rest:
            if w == "library":
                continue
            k = kinds.get(w, set())
            field = (True, False) in k and (False, True) not in k
            OTHER[w] = new + (("_are" if new.endswith("s") else "_is") if field else "_lem")


def main(argv):
    own = crates()
    names = set()
    texts = {}
    for p in antt_files():
        with open(p, encoding="utf-8") as f:
            texts[p] = f.read()
    for p, t in texts.items():
        if by_hand(p):
            continue
        library, _ = imports(t, own)
        for m in TOKEN.finditer(t):
            w = m[0]
            if not w.startswith(("--", '"')) and w not in library and turned(w) != w and not t[: m.start()].endswith(LIBRARY):
                names.add(w)
    choose(texts, own)
    names |= set(OTHER)
    meet = collections.defaultdict(set)
    for p, t in texts.items():
        if by_hand(p):
            continue
        library, _ = imports(t, own)
        seen = collections.defaultdict(set)
        for m in TOKEN.finditer(t):
            w = m[0]
            if not w.startswith(("--", '"')):
                seen[w if w in library else turned(w)].add(w)
        for new, old in seen.items():
            if len(old) > 1:
                meet[new, tuple(sorted(old))].add(p)
    for (new, old), ps in sorted(meet.items()):
        print("meet:", new, *old, "in", *sorted(p[7:] for p in ps)[:4])
    rts = sorted(glob.glob("crates/*/src/**/*.rt", recursive=True))
    for p in rts:
        with open(p, encoding="utf-8") as f:
            texts[p] = f.read()
        t = re.sub(r"//[^\n]*", "", texts[p])
        words = set(re.findall(r"\w+", re.sub(r"ghost use [^;]*;", "", t)))
        for n in {n for m in re.finditer(r"ghost use [^;]*;", t) for n in re.findall(r"[\w'-]+", m[0])}:
            if n in names and turned(n) in words:
                print("meet:", n, turned(n), "in", p[7:])
    if "--check" in argv:
        return 0
    for p, t in texts.items():
        new = rust(t, names) if p.endswith(".rt") else antt(t, p, names, own)
        if new != t:
            with open(p, "w", encoding="utf-8") as f:
                f.write(new)
    for p in sorted(glob.glob("crates/*/must-fail/*.edit") + glob.glob("must-fail/**/*.edit", recursive=True)):
        with open(p, encoding="utf-8") as f:
            t = f.read()
        new = "".join(re.sub(r"(?<![\w'-])[a-z][\w'-]*", lambda m: turned(m[0]) if m[0] in names else m[0], l) if re.match("(old|new): ", l) else l for l in t.splitlines(keepends=True))
        if new != t:
            with open(p, "w", encoding="utf-8") as f:
                f.write(new)
    for p in sorted(glob.glob("*.md") + glob.glob("docs/*.md") + glob.glob("crates/*/*.md")):
        with open(p, encoding="utf-8") as f:
            t = f.read()
        new = comment(t, names)
        if new != t:
            with open(p, "w", encoding="utf-8") as f:
                f.write(new)
    return 0


if __name__ == "__main__":
    raise SystemExit(main(sys.argv[1:]))
