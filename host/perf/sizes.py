"""Bytes of code and constants, as the sections and symbols of x86-64 objects give them, and bytes
of stack, as a program tells that has measured them."""

import re

import kit
from counting import run

# What eighty_bytes takes.
KNOWN_STACK = 80

# What no call takes more of, as host/include/vennebruis.h says. One has a bound of its own, since
# it keeps the bytes of a line.
MOST_STACK = 400
MOST_STACK_OF = {"vb_ascii": 700}


def sections(file, name):
    """The bytes of the sections with a name, and of those whose names go on from it: in an object,
    in all objects of an archive, or in a shared library."""
    listed = run(["readelf", "--wide", "--sections", file])
    sizes = re.findall(rf"\] \.{name}\S* +PROGBITS +\S+ +\S+ +(\S+)", listed)
    return sum(int(size, 16) for size in sizes)


def both(file):
    """The bytes of code, and of the constants that it reads."""
    return {"code": sections(file, "text"), "constants": sections(file, "rodata")}


def function(file, name):
    """The bytes of one function that a shared library exports."""
    listed = run(["readelf", "--wide", "--dyn-syms", file])
    return int(re.search(rf": \S+ +(\d+) FUNC .* {name}$", listed, re.MULTILINE)[1])


def stack(program):
    """The bytes of stack that each function of the link takes."""
    printed = run([kit.ROOT / "host" / "build" / "run", program])
    lines = re.findall(r"^stack (\w+) (\d+)$", printed, re.MULTILINE)
    figures = {name: int(taken) for name, taken in lines}
    known = figures.pop("eighty_bytes")
    if known != KNOWN_STACK:
        raise SystemExit(f"perf: {known} bytes of stack measured where {KNOWN_STACK} are taken")
    for name, taken in figures.items():
        most = MOST_STACK_OF.get(name, MOST_STACK)
        if taken > most:
            raise SystemExit(f"perf: {name} takes {taken} bytes of stack, the header says {most}")
    return figures
