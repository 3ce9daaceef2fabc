"""What make_setup.py and read_setup.py share: the records of a setup file, and how a double is written in a text.

A double is kept as its 64 bits (an int), a number as a pair of them, so that no NaN pattern and no sign of zero is lost.
"""

import math
import re
import struct

GRID, WALL, BLOCH, STRETCH, PERMITTIVITY, CHOICE, CHANGE, END = 1, 2, 3, 4, 5, 6, 7, 255
BODY = {GRID: 46, WALL: 0, BLOCH: 16, STRETCH: 16, PERMITTIVITY: 16, CHOICE: 5, CHANGE: 20, END: 0}
NAMES = {GRID: "grid", WALL: "wall", BLOCH: "Bloch", STRETCH: "stretch", PERMITTIVITY: "permittivity", CHOICE: "choice",
         CHANGE: "change", END: "end"}
AXES = "xyz"
CHOICES = ["galerkin", "rediscretized"]
NAN = 0x7FF8000000000000


def bits_of(value):
    """The bits of a Python float."""
    return struct.unpack("<Q", struct.pack("<d", value))[0]


def float_of(bits):
    """The Python float of these bits."""
    return struct.unpack("<d", struct.pack("<Q", bits))[0]


def parse_double(word):
    """The bits of a double as it stands in a text: a decimal number, nan, inf, -inf, or sixteen hexadecimal digits behind 0x."""
    if word.lower().startswith("0x"):
        if not re.fullmatch(r"0[xX][0-9a-fA-F]{16}", word):
            raise ValueError(f"{word}: a pattern has sixteen hexadecimal digits behind 0x")
        return int(word, 16)
    if word == "nan":
        return NAN
    if word in ("inf", "-inf"):
        return bits_of(float(word))
    if not re.fullmatch(r"[-+]?([0-9]+\.?[0-9]*|\.[0-9]+)([eE][-+]?[0-9]+)?", word):
        raise ValueError(f"{word} is no double")
    value = float(word)
    if math.isinf(value):
        raise ValueError(f"{word} is beyond the doubles: write inf for the infinity")
    return bits_of(value)


def show_double(bits):
    """The shortest text that parse_double takes back to these bits."""
    value = float_of(bits)
    if math.isnan(value):
        return "nan" if bits == NAN else f"0x{bits:016x}"
    text = repr(value)
    return text[:-2] if text.endswith(".0") else text


def parse_number(word):
    """A number: RE, or RE,IM without a space."""
    parts = word.split(",")
    if len(parts) > 2:
        raise ValueError(f"{word}: a number is RE or RE,IM")
    return parse_double(parts[0]), parse_double(parts[1]) if len(parts) == 2 else 0


def show_number(number):
    """RE where the imaginary part is +0, else RE,IM."""
    re_bits, im_bits = number
    return show_double(re_bits) if im_bits == 0 else f"{show_double(re_bits)},{show_double(im_bits)}"


def parse_list(words):
    """Numbers one behind another; COUNT*NUMBER stands for that many of it."""
    numbers = []
    for word in words:
        count, star, number = word.rpartition("*")
        if star and not re.fullmatch(r"[0-9]{1,7}", count):
            raise ValueError(f"{word}: write COUNT*NUMBER, with a count of at most seven digits")
        numbers += [parse_number(number)] * (int(count) if star else 1)
    return numbers


def show_list(numbers):
    """The text of a list; three or more of a number in a row are written as COUNT*NUMBER."""
    words, k = [], 0
    while k < len(numbers):
        n = 1
        while k + n < len(numbers) and numbers[k + n] == numbers[k]:
            n += 1
        word = show_number(numbers[k])
        words += [f"{n}*{word}"] if n > 2 else [word] * n
        k += n
    return " ".join(words)


def pack_pair(kind, number):
    """A record whose body is one number."""
    return struct.pack("<BQQ", kind, *number)


def pack_grid(cells, steps, k0, shift):
    """The grid's record."""
    return struct.pack("<B3H5Q", GRID, *cells, *steps, k0, shift)


def pack_choice(choice, coarsest):
    """The choice's record."""
    return struct.pack("<BBI", CHOICE, choice, coarsest)


def pack_change(edge, number):
    """A change's record."""
    return struct.pack("<BIQQ", CHANGE, edge, *number)


def edge_number(cells, component, place):
    """The number of an edge: its component, then its place, x fastest."""
    nx, ny, nz = cells
    i, j, k = place
    return component * nx * ny * nz + (k * ny + j) * nx + i
