"""The panel as its hosts know it: the item list, registers and number text."""

from collections import namedtuple
from decimal import Decimal

Item = namedtuple("Item", "name register writable decimals low high start")

# The decimals of an item that has as many as XU says.
OF_XU = None

ITEMS = (
    Item("M1", 0x0000, False, OF_XU, -1999, 9999, 0),
    Item("AA", 0x0001, False, 0, 0, 1, 0),
    Item("AB", 0x0002, False, 0, 0, 1, 0),
    Item("B1", 0x0003, False, 0, 0, 1, 0),
    Item("ER", 0x0004, False, 0, 0, 255, 0),
    Item("S1", 0x000B, True, OF_XU, -1999, 9999, 0),
    Item("A1", 0x000C, True, OF_XU, -1999, 9999, 500),
    Item("A2", 0x000E, True, OF_XU, -1999, 9999, 500),
    Item("PB", 0x0010, True, 2, -1000, 1000, 0),
    Item("PR", 0x0011, True, 3, 500, 1500, 1000),
    Item("F1", 0x0012, True, 0, 0, 100, 0),
    Item("TM", 0x0008, True, 0, 0, 999, 0),
    Item("XU", 0x0013, True, 0, 0, 3, 1),
)

WRITABLE = tuple(row for row in ITEMS if row.writable)

# The map is 0000H to 0013H.
MAP_LENGTH = 20

# Registers that no host may write: read-only, unlisted, and the first one past the map.
UNWRITABLE = sorted(set(range(MAP_LENGTH + 1)) - {row.register for row in WRITABLE})

TEXT_LENGTH = 6


def item(name):
    """The item with this identifier."""
    return next(row for row in ITEMS if row.name == name)


# Writable items whose registers follow each other.
NEIGHBOURS = (
    (item("S1"), item("A1")),
    (item("PB"), item("PR"), item("F1"), item("XU")),
)


def register_of(value):
    """A value as a register: 16-bit two's complement."""
    return value % 0x10000


def registers_of(values):
    return [register_of(value) for value in values]


def value_of(register):
    """The value that a register holds."""
    return register - 0x10000 if register >= 0x8000 else register


def start_registers():
    """The whole map at the start; unlisted registers read 0."""
    registers = [0] * MAP_LENGTH
    for row in ITEMS:
        registers[row.register] = register_of(row.start)
    return registers


def outside(row):
    """The nearest values below and above an item's range."""
    return (row.low - 1, row.high + 1)


def one_outside(rows):
    """Values for items of which one is just outside its range; the others are at their lowest."""
    for place, row in enumerate(rows):
        for value in outside(row):
            values = [other.low for other in rows]
            values[place] = value
            yield tuple(values)


def text_of(row, value, xu=1):
    """A value as the panel writes it: six characters, a minus first, zeros on the left. XU is 1 at
    the start."""
    decimals = xu if row.decimals is OF_XU else row.decimals
    number = Decimal(value).scaleb(-decimals)
    return format(number, f"0{TEXT_LENGTH}.{decimals}f")


def number_of(text):
    """The number that the panel wrote so, its point left out."""
    return int(text.replace(".", ""))
