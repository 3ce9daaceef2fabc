#!/usr/bin/env python3
"""Writes the text of a setup file, as make_setup.py takes it: read_setup.py FILE.

Behind each line stands, as a comment, the offset of its record's kind byte; a list of numbers has a record for each, 17 bytes apart.
Of a broken file it writes what can be read, then where it breaks and why, and the rest as `raw`. make_setup.py makes the same bytes of
the text again. It does not judge values: only the listing program, or yonaduvi_read, says whether they are refused.
"""

import argparse
import struct
import sys

from setup_format import (AXES, BLOCH, BODY, CHANGE, CHOICE, CHOICES, END, GRID, NAMES, PERMITTIVITY, STRETCH, WALL, show_double, show_list,
                          show_number)


class Broken(Exception):
    """The file breaks at an offset."""

    def __init__(self, at, why):
        super().__init__(why)
        self.at, self.why = at, why


class Reader:
    """A file's bytes, the next record's offset, and the lines so far."""

    def __init__(self, data):
        self.data, self.at, self.lines = data, 0, []

    def line(self, text, at, note=""):
        """One line with the offset of its record."""
        self.lines.append(f"{text:<40}  # at {at}{note}")

    def next_kind(self, kinds):
        """The next record's kind, which is to be one of these."""
        due = " or ".join(NAMES[kind] for kind in kinds)
        if self.at == len(self.data):
            raise Broken(self.at, f"the file ends where {due} is due")
        kind = self.data[self.at]
        if kind not in kinds:
            raise Broken(self.at, f"kind {kind} where {due} ({' or '.join(map(str, kinds))}) is due")
        return kind

    def body(self, kind):
        """The body of the record here, which is then behind us."""
        first, last = self.at + 1, self.at + 1 + BODY[kind]
        if last > len(self.data):
            raise Broken(self.at, f"the record ({NAMES[kind]}) is cut off: {len(self.data) - first} of {BODY[kind]} bytes")
        self.at = last
        return self.data[first:last]

    def numbers(self, kind, count, name):
        """A list of `count` records that hold a number each; as many as there are, if the file breaks in it."""
        at, found, broken = self.at, [], None
        try:
            for _ in range(count):
                self.next_kind([kind])
                found.append(struct.unpack("<QQ", self.body(kind)))
        except Broken as error:
            broken = error
        if found or not broken:
            self.line(f"{name} {show_list(found)}", at, f", {len(found)} records" if len(found) != 1 else "")
        if broken:
            raise broken

    def grid(self):
        """The grid; its cells."""
        at = self.at
        self.next_kind([GRID])
        fields = struct.unpack("<3H5Q", self.body(GRID))
        self.line("cells " + " ".join(map(str, fields[:3])), at)
        self.lines.append("steps " + " ".join(map(show_double, fields[3:6])))
        self.lines.append("k0 " + show_double(fields[6]))
        self.lines.append("shift " + show_double(fields[7]))
        return fields[:3]

    def axis(self, name):
        """The kind of an axis."""
        at, kind = self.at, self.next_kind([WALL, BLOCH])
        body = self.body(kind)
        self.line(f"axis {name} " + ("wall" if kind == WALL else "bloch " + " ".join(map(show_double, struct.unpack("<QQ", body)))), at)

    def choice(self):
        """Choice and coarsest."""
        at = self.at
        self.next_kind([CHOICE])
        choice, coarsest = struct.unpack("<BI", self.body(CHOICE))
        self.line(f"choice {CHOICES[choice] if choice < 2 else choice}", at)
        self.lines.append(f"coarsest {coarsest}")
        if choice > 1:
            self.lines.append(f"# a reader refuses the file here: choice {choice}")

    def changes(self):
        """Changes, and the end."""
        while True:
            at, kind = self.at, self.next_kind([CHANGE, END])
            body = self.body(kind)
            if kind == END:
                self.line("end", at)
                return
            edge, *number = struct.unpack("<IQQ", body)
            self.line(f"change {edge} {show_number(tuple(number))}", at)

    def file(self):
        """All records."""
        cells = self.grid()
        for name in AXES:
            self.axis(name)
        for axis, n in zip(AXES, cells):
            self.numbers(STRETCH, n, f"stretch {axis} nodes")
            self.numbers(STRETCH, n, f"stretch {axis} halves")
        for axis in AXES:
            self.numbers(PERMITTIVITY, cells[0] * cells[1] * cells[2], f"permittivity {axis}")
        self.choice()
        self.changes()
        if self.at < len(self.data):
            raise Broken(self.at, f"{len(self.data) - self.at} bytes after the end")


def read(data):
    """The text of a file's bytes."""
    reader = Reader(data)
    try:
        reader.file()
    except Broken as broken:
        reader.lines.append(f"# breaks at {broken.at}: {broken.why}")
        for k in range(broken.at, len(data), 32):
            reader.lines.append("raw " + data[k:k + 32].hex(" "))
        # an end that was read stands there as a line of its own
        if not any(line.split()[0] == "end" for line in reader.lines):
            reader.lines.append("no end")
    return "\n".join(reader.lines) + "\n"


def main():
    """The command."""
    parser = argparse.ArgumentParser(description=__doc__, formatter_class=argparse.RawDescriptionHelpFormatter)
    parser.add_argument("file", metavar="FILE", help="the setup file; - is standard input")
    options = parser.parse_args()
    try:
        if options.file == "-":
            data = sys.stdin.buffer.read()
        else:
            with open(options.file, "rb") as file:
                data = file.read()
    except OSError as error:
        sys.exit(f"read_setup.py: {error}")
    sys.stdout.write(read(data))


if __name__ == "__main__":
    main()
