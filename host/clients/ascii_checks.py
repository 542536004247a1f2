"""Lines of our own on the Modbus ASCII line: gaps and junk that do not matter, colons that start
afresh, and lines that are passed over."""

import contextlib
import re
import struct
from functools import partial

import panel
from checks import Simulator, exchange
from modbus_checks import ILLEGAL_VALUE
from rkc_host import Host, open_port

# 5AH, which has a digit that could be in lower case.
ADDRESS = 90
WORDS = ("ascii", "--address", str(ADDRESS))

# That a line may have, the LRC included.
MOST_BYTES = 255

# Far more than the simulator has room for.
FLOOD = 10000

ACCEPTED = 0
OTHER_ADDRESS = 23
WRONG_LINE = 24
WRONG_LRC = 25
WRONG_DATA = 33

# Between two bytes as the radio modem sends them, and over the second that Modbus speaks of.
GAP_SECONDS = 0.06
LONG_GAP_SECONDS = 1.5

VALUE = 13


def line_of(message):
    """A message from its address on as a line. The LRC makes the sum of all bytes 0."""
    checked = message + bytes([-sum(message) % 0x100])
    return b":" + checked.hex().upper().encode() + b"\r\n"


def words_line(address, function, *words):
    return line_of(struct.pack(f">BB{len(words)}H", address, function, *words))


def setting(address):
    """TM is set, which the panel repeats."""
    return words_line(address, 0x06, panel.item("TM").register, VALUE)


def long_line(count):
    """A line of this many bytes: function 10H with a quantity of 0."""
    return line_of(bytes([ADDRESS, 0x10]) + bytes(count - 3))


SET = setting(ADDRESS)
READ = words_line(ADDRESS, 0x03, panel.item("TM").register, 1)
REFUSED = line_of(bytes([ADDRESS, 0x90, ILLEGAL_VALUE]))

# What is sent, and the numbers that it gives. None of it is answered, and TM stays.
PASSED_OVER = {
    "a wrong LRC": (SET[:-3] + b"0\r\n", [WRONG_LRC]),
    "a wrong byte": (SET.replace(b"5A06", b"5A07"), [WRONG_LRC]),
    "another address": (setting(ADDRESS - 1), [OTHER_ADDRESS]),
    "address 0": (setting(0), [OTHER_ADDRESS]),
    "another address and a wrong LRC": (SET.replace(b"5A", b"59"), [WRONG_LRC]),
    "lower case": (SET.lower(), [WRONG_LINE]),
    "one digit in lower case": (SET.replace(b"5A", b"5a"), [WRONG_LINE]),
    "a blank inside": (SET.replace(b"5A", b"5A "), [WRONG_LINE]),
    "a top bit": (SET.replace(b"5A", b"5\xc1"), [WRONG_LINE]),
    "a digit too few": (SET.replace(b"5A", b"5"), [WRONG_LINE]),
    "no colon": (SET[1:], [WRONG_LINE]),
    "no CR": (SET.replace(b"\r", b""), [WRONG_LINE]),
    "two CR": (SET.replace(b"\r", b"\r\r"), [WRONG_LINE]),
    "no LF": (SET[:-1], []),
    "LF before CR": (SET[:-2] + b"\n\r", [WRONG_LINE]),
    "CR LF inside": (SET.replace(b"5A", b"5A\r\n"), [WRONG_LINE, WRONG_LINE]),
    "a colon behind the LRC": (SET.replace(b"\r", b":\r"), [WRONG_LINE]),
    "no bytes": (b":\r\n", [WRONG_LINE]),
    "an address alone": (line_of(bytes([ADDRESS])), [WRONG_LINE]),
    "a byte too many": (long_line(MOST_BYTES + 1), [WRONG_LINE]),
    "far too many bytes": (long_line(FLOOD), [WRONG_LINE]),
    "as many without an end": (long_line(FLOOD)[:-2], []),
    "the first half of a line": (SET[:9], []),
    "text": (b"NO CARRIER\r\n", [WRONG_LINE]),
}

# What is sent, the numbers that it gives, and the answers, of which the last one sets TM.
ANSWERED = {
    "a line": (SET, [ACCEPTED], SET),
    "junk before the colon": (b"\x00\xff5A\r" + SET, [ACCEPTED], SET),
    "far too much junk": (b"F" * FLOOD + SET, [ACCEPTED], SET),
    "CR LF before the colon": (b"\r\n" + SET, [WRONG_LINE, ACCEPTED], SET),
    "a colon inside": (SET[:9] + SET, [ACCEPTED], SET),
    "a colon in the place of CR": (SET[:-2] + SET, [ACCEPTED], SET),
    "a colon in the place of LF": (SET[:-1] + SET, [ACCEPTED], SET),
    "three colons": (b"::" + SET, [ACCEPTED], SET),
    "text behind CR LF": (SET + b"NO CARRIER", [ACCEPTED], SET),
    "two lines at once": (SET + SET, [ACCEPTED, ACCEPTED], SET + SET),
    "a line behind one too long": (long_line(FLOOD) + SET, [WRONG_LINE, ACCEPTED], SET),
    "a line behind the longest": (
        long_line(MOST_BYTES) + SET,
        [WRONG_DATA, ACCEPTED],
        REFUSED + SET,
    ),
}


def numbers_in(shown):
    """The numbers in the lines that a simulator shows."""
    found = (re.match(r"number  (\d+), ", line) for line in shown)
    return [int(number[1]) for number in found if number]


def attempt(checks, command, name, parts, numbers, answers=b"", gap_seconds=0):
    """Sends parts, and a read of TM right behind the last. That is answered last, so nobody needs
    to wait to find out that something else is not answered."""
    *before, last = parts
    expected = answers + line_of(struct.pack(">BBBH", ADDRESS, 0x03, 2, VALUE if answers else 0))
    sent = [*before, last + READ]
    got, shown = exchange(command, WORDS, sent, len(expected), gap_seconds)
    checks.same(name, (got, numbers_in(shown)), (expected, [*numbers, ACCEPTED]))


def lines(checks, command):
    for name, (sent, numbers) in PASSED_OVER.items():
        attempt(checks, command, f"passed over: {name}", [sent], numbers)
    for name, (sent, numbers, answers) in ANSWERED.items():
        attempt(checks, command, f"answered: {name}", [sent], numbers, answers)


def gaps(checks, command):
    """A line may take as long as it likes."""
    slow = partial(attempt, checks, command, numbers=[ACCEPTED], answers=SET)
    each = [bytes([byte]) for byte in SET]
    slow(f"{GAP_SECONDS} s behind each byte", each, gap_seconds=GAP_SECONDS)
    for name, place in (("the colon", 1), ("CR", -1)):
        parts = [SET[:place], SET[place:]]
        slow(f"{LONG_GAP_SECONDS} s behind {name}", parts, gap_seconds=LONG_GAP_SECONDS)


def next_client(checks, command):
    """What a client leaves behind is dropped at the colon of the next."""
    with Simulator(command, *WORDS) as simulator:
        for sent, expected in ((SET[:9], b""), (SET, SET)):
            with contextlib.closing(Host(open_port(simulator.port))) as host:
                host.send_bytes(sent)
                got = host.hear_bytes(len(expected))
        checks.same("a client that goes within a line, and the next", got, SET)


def run(checks, command):
    for part in (lines, gaps, next_client):
        with checks.of("ascii"):
            part(checks, command)
