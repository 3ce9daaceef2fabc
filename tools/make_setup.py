#!/usr/bin/env python3
"""Writes a setup file from a text: make_setup.py TEXT [-o FILE].

The text has one statement a line, in the order of the file's records; # begins a comment.

  cells NX NY NZ                       cells of each axis          these four make the grid's record,
  steps DX DY DZ                       steps                       in any order
  k0 K                                 wave number
  shift S                              shift
  axis x wall                          each of x, y, z in turn
  axis x bloch RE IM                   with its phase
  stretch x nodes LIST                 at the nodes of an axis; its nodes, then its halves, axes in turn
  stretch x halves LIST                half a step after each node
  stretch x uniform V                  both lists of an axis, every number V; `stretch all uniform V`: all six lists
  stretch x absorber N V P             both lists: 1, and within N cells of each side 1 + V d^P, d growing from 0 to 1 at the side; P whole
  permittivity uniform V               every edge
  permittivity x LIST                  or the edges of component x, then those of y, of z (x fastest, then y, then z)
  box I:I J:J K:K V                    behind it: all edges at places from the first on and before the second
  edge x I J K V                       or a single edge; `edge E V` by its number
  choice galerkin                      or rediscretized, or a byte       these two make the choice's record,
  coarsest N                           edges of the coarsest level       in any order
  change x I J K V                     any number of changes; `change E V` by the edge's number
  end                                  the end; written by itself where no line says it

A double is a decimal number, nan, inf, -inf, or its bits, 0x and sixteen digits. A number V is RE or RE,IM. A LIST is numbers; COUNT*V is V
that often. Values are not judged: a file that the reader refuses can be written. Two lines write files that are broken in other ways:

  raw HEX ..                           these bytes, as they are
  no end                               no end behind the last line

With one of them in the text nothing is said of records that are missing or too many.
"""

import argparse
import sys

from setup_format import (AXES, BLOCH, CHOICES, END, PERMITTIVITY, STRETCH, WALL, bits_of, edge_number, float_of, pack_change, pack_choice, pack_grid,
                          pack_pair, parse_double, parse_list, parse_number)

MOST = 1_000_000
GRID_LINES = ("cells", "steps", "k0", "shift")
CHOICE_LINES = ("choice", "coarsest")
LISTS = [(axis, kind) for axis in AXES for kind in ("nodes", "halves")]


def whole(word, most):
    """A whole number from 0 to `most`."""
    if not (word.isascii() and word.isdigit() and int(word) <= most):
        raise ValueError(f"{word} is no whole number from 0 to {most}")
    return int(word)


def axis_of(word):
    """0, 1 or 2 for x, y or z."""
    if len(word) != 1 or word not in AXES:
        raise ValueError(f"{word} is none of x, y, z")
    return AXES.index(word)


def counted(words, least, most, usage):
    """The words, if there are as many as a statement takes."""
    if not least <= len(words) <= most:
        raise ValueError(f"write `{usage}`")
    return words


def absorber(cells, width, strength, power):
    """The stretches of an axis, nodes and halves: 1 + strength x d^power, d the depth within `width` cells of a side over `width`."""
    def at(place):
        depth = max(width - place, place - (cells - width), 0.0) / width if width else 0.0
        grown = 1.0
        for _ in range(power):
            grown *= depth
        re, im = (float_of(part) for part in strength)
        return bits_of(1.0 + re * grown), bits_of(im * grown)
    return [at(float(m)) for m in range(cells)], [at(m + 0.5) for m in range(cells)]


class Maker:
    """The bytes of a file, put together line by line."""

    def __init__(self, checked):
        self.checked = checked
        self.parts = []
        self.cells = None
        self.grid, self.given, self.choice = {}, None, {}
        self.axes = self.lists = 0
        self.done = set()

    # ---- order

    def turn(self, stage, what):
        """A statement of stage 0 grid, 1 axes, 2 stretches, 3 permittivities, 4 choice, 5 changes, 6 end: what is pending from others is written."""
        self.flush(stage)
        full = ["grid" in self.done, self.axes == 3, self.lists == 6, "permittivities" in self.done, "choice" in self.done, False, "end" in self.done]
        if not self.checked:
            return
        if full[stage] or full[6]:
            raise ValueError(f"{what} stands too late")
        if not all(full[:min(stage, 5)]):
            stretches = f"the {' '.join(LISTS[self.lists % 6])} stretches"
            due = ["the grid", f"the kind of axis {AXES[self.axes % 3]}", stretches, "the permittivities", "the choice"]
            raise ValueError(f"{what} stands before {due[full.index(False)]}")

    def flush(self, stage=None):
        """Writes the records that are made of several lines, but for those of this stage."""
        if self.grid and stage != 0:
            self.write_grid()
        if self.given is not None and stage != 3:
            self.write_given()
        if self.choice and stage != 4:
            self.write_choice()

    def need_cells(self):
        """The cells, which a statement needs to be known before it."""
        if self.cells is None:
            raise ValueError("this needs the line `cells` before it")
        if 3 * self.cells[0] * self.cells[1] * self.cells[2] > MOST:
            raise ValueError(f"over {MOST} numbers")
        return self.cells

    # ---- records made of several lines

    def write_grid(self):
        """The grid's record."""
        g = self.lines_there(self.grid, GRID_LINES)
        self.parts.append(pack_grid(g["cells"], g["steps"], g["k0"][0], g["shift"][0]))
        self.grid = {}
        self.done.add("grid")

    def write_given(self):
        """The permittivities."""
        if self.checked and len(self.given) != 3 * self.cells[0] * self.cells[1] * self.cells[2]:
            raise ValueError(f"{len(self.given)} permittivities for {3 * self.cells[0] * self.cells[1] * self.cells[2]} edges")
        self.parts += [pack_pair(PERMITTIVITY, number) for number in self.given]
        self.given = None
        self.done.add("permittivities")

    def write_choice(self):
        """The choice's record."""
        c = self.lines_there(self.choice, CHOICE_LINES)
        self.parts.append(pack_choice(c["choice"], c["coarsest"]))
        self.choice = {}
        self.done.add("choice")

    def lines_there(self, found, names):
        """The lines that make a record, if all of them are there."""
        for name in names:
            if name not in found:
                raise ValueError(f"before this a line `{name}` is missing")
        return found

    # ---- statements

    def grid_line(self, name, words):
        """cells, steps, k0, shift."""
        self.turn(0, f"`{name}`")
        many = 3 if name in ("cells", "steps") else 1
        counted(words, many, many, name + (" X Y Z" if many == 3 else " VALUE"))
        if name in self.grid:
            raise ValueError(f"a second line `{name}`")
        self.grid[name] = [whole(word, 65535) if name == "cells" else parse_double(word) for word in words]
        if name == "cells":
            self.cells = self.grid[name]

    def axis(self, words):
        """The kind of an axis."""
        self.turn(1, "an axis")
        counted(words, 2, 4, "axis x wall` or `axis x bloch RE IM")
        if axis_of(words[0]) != self.axes and self.checked:
            raise ValueError("the axes x, y, z stand in turn, once each")
        if words[1] == "wall" and len(words) == 2:
            self.parts.append(bytes([WALL]))
        elif words[1] == "bloch" and len(words) == 4:
            self.parts.append(pack_pair(BLOCH, (parse_double(words[2]), parse_double(words[3]))))
        else:
            raise ValueError("write `axis x wall` or `axis x bloch RE IM`")
        self.axes += 1

    def stretch_list(self, axis, kind, numbers):
        """One of the six lists."""
        if self.checked and (self.lists == 6 or (axis, kind) != LISTS[self.lists]):
            raise ValueError("the lists stand in turn, once each: x nodes, x halves, y nodes, ..")
        if self.checked and len(numbers) != self.need_cells()[AXES.index(axis)]:
            raise ValueError(f"{len(numbers)} stretches for {self.cells[AXES.index(axis)]} cells")
        self.parts += [pack_pair(STRETCH, number) for number in numbers]
        self.lists += 1

    def stretch(self, words):
        """stretch AXIS nodes | halves | uniform | absorber .."""
        self.turn(2, "a stretch")
        counted(words, 2, MOST, "stretch x nodes LIST")
        axes = AXES if words[:2] == ["all", "uniform"] else AXES[axis_of(words[0])]
        if words[1] in ("nodes", "halves"):
            self.stretch_list(axes, words[1], parse_list(words[2:]))
            return
        if words[1] == "uniform":
            value = parse_number(counted(words, 3, 3, "stretch x uniform V")[2])
            made = {axis: ([value] * self.need_cells()[AXES.index(axis)],) * 2 for axis in axes}
        elif words[1] == "absorber":
            counted(words, 5, 5, "stretch x absorber N V P")
            cells = self.need_cells()[AXES.index(axes)]
            made = {axes: absorber(cells, whole(words[2], cells), parse_number(words[3]), whole(words[4], 16))}
        else:
            raise ValueError(f"{words[1]} is none of nodes, halves, uniform, absorber")
        for axis, lists in made.items():
            for kind, numbers in zip(("nodes", "halves"), lists):
                self.stretch_list(axis, kind, numbers)

    def permittivity(self, words):
        """permittivity uniform V, or the edges of a component."""
        self.turn(3, "a permittivity")
        counted(words, 1, MOST, "permittivity uniform V` or `permittivity x LIST")
        given = self.given or []
        if words[0] == "uniform":
            value = parse_number(counted(words, 2, 2, "permittivity uniform V")[1])
            nx, ny, nz = self.need_cells()
            self.given = [value] * (3 * nx * ny * nz)
            return
        component, numbers = axis_of(words[0]), parse_list(words[1:])
        if self.checked:
            nx, ny, nz = self.need_cells()
            if len(given) != component * nx * ny * nz or len(numbers) != nx * ny * nz:
                raise ValueError(f"the components x, y, z stand in turn, {nx * ny * nz} numbers each")
        self.given = given + numbers

    def edge_of(self, words):
        """The number of an edge: E, or x I J K."""
        if len(words) == 1:
            return whole(words[0], 2**32 - 1)
        cells = self.need_cells()
        place = [whole(word, max(n - 1, 0)) for word, n in zip(words[1:], cells)]
        return edge_number(cells, axis_of(words[0]), place)

    def replace(self, edges, number):
        """Other permittivities for these edges."""
        self.turn(3, "this")
        for edge in edges:
            if self.given is None or edge >= len(self.given):
                raise ValueError(f"edge {edge} has no permittivity yet")
            self.given[edge] = number

    def box(self, words):
        """A permittivity for all edges in a box."""
        counted(words, 4, 4, "box I:I J:J K:K V")
        cells, ranges = self.need_cells(), []
        for word, n in zip(words, cells):
            first, colon, last = word.partition(":")
            if not colon:
                raise ValueError(f"{word}: write FIRST:LAST, the last not included")
            ranges.append(range(whole(first, n), whole(last, n)))
        edges = [edge_number(cells, c, (i, j, k)) for c in range(3) for k in ranges[2] for j in ranges[1] for i in ranges[0]]
        self.replace(edges, parse_number(words[3]))

    def edge(self, words):
        """A permittivity for one edge."""
        if len(words) not in (2, 5):
            raise ValueError("write `edge E V` or `edge x I J K V`")
        self.replace([self.edge_of(words[:-1])], parse_number(words[-1]))

    def choice_line(self, name, words):
        """choice, coarsest."""
        self.turn(4, f"`{name}`")
        counted(words, 1, 1, name + " VALUE")
        if name in self.choice:
            raise ValueError(f"a second line `{name}`")
        if name == "coarsest":
            self.choice[name] = whole(words[0], 2**32 - 1)
        else:
            self.choice[name] = CHOICES.index(words[0]) if words[0] in CHOICES else whole(words[0], 255)

    def change(self, words):
        """A change."""
        self.turn(5, "a change")
        if len(words) not in (2, 5):
            raise ValueError("write `change E V` or `change x I J K V`")
        self.parts.append(pack_change(self.edge_of(words[:-1]), parse_number(words[-1])))

    def end(self, words):
        """The end."""
        counted(words, 0, 0, "end")
        self.turn(6, "the end")
        self.parts.append(bytes([END]))
        self.done.add("end")

    def raw(self, words):
        """Bytes as they are."""
        self.flush()
        try:
            self.parts.append(bytes.fromhex("".join(words)))
        except ValueError:
            raise ValueError("write pairs of hexadecimal digits") from None

    def statement(self, words):
        """One line."""
        name, rest = words[0], words[1:]
        plain = {"axis": self.axis, "stretch": self.stretch, "permittivity": self.permittivity, "box": self.box, "edge": self.edge,
                 "change": self.change, "end": self.end, "raw": self.raw}
        if name in GRID_LINES:
            self.grid_line(name, rest)
        elif name in CHOICE_LINES:
            self.choice_line(name, rest)
        elif name in plain:
            plain[name](rest)
        else:
            raise ValueError(f"no statement begins with {name}")


def lines_of(text):
    """The words of each line that has any, with the line's number."""
    for number, line in enumerate(text.split("\n"), 1):
        words = line.split("#")[0].split()
        if words:
            yield number, words


def make(text):
    """The bytes that a text stands for. A ValueError names the line."""
    lines = list(lines_of(text))
    open_end = any(words == ["no", "end"] for _, words in lines)
    maker = Maker(not open_end and all(words[0] != "raw" for _, words in lines))
    number = 0
    try:
        for number, words in lines:
            if words != ["no", "end"]:
                maker.statement(words)
        number += 1
        if open_end:
            maker.flush()
        elif "end" not in maker.done:
            maker.end([])
    except ValueError as error:
        raise ValueError(f"line {number}: {error}") from None
    return b"".join(maker.parts)


def main():
    """The command."""
    parser = argparse.ArgumentParser(description=__doc__, formatter_class=argparse.RawDescriptionHelpFormatter)
    parser.add_argument("text", metavar="TEXT", help="the text; - is standard input")
    parser.add_argument("-o", "--output", metavar="FILE", help="where the bytes go; standard output where it is left out")
    options = parser.parse_args()
    try:
        if options.text == "-":
            text = sys.stdin.read()
        else:
            with open(options.text, encoding="utf-8") as file:
                text = file.read()
        made = make(text)
        if options.output:
            with open(options.output, "wb") as file:
                file.write(made)
        else:
            sys.stdout.buffer.write(made)
    except (OSError, UnicodeDecodeError) as error:
        sys.exit(f"make_setup.py: {error}")
    except ValueError as error:
        sys.exit(f"make_setup.py: {options.text}: {error}")


if __name__ == "__main__":
    main()
