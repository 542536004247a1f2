"""The decimal point of M1, S1, A1 and A2, which is where XU says on the RKC line: hosts set XU, and
the text of these four items moves its point, while stored numbers, registers and ranges stay."""

import contextlib
import itertools
from functools import partial

import modbus_checks
import panel
import rkc_checks
from captures import Playback, capture, file_with, found, frame_of, never, setting, table
from checks import Simulator
from modbus_checks import ILLEGAL_VALUE, WRITTEN, refuses, words_for
from rkc_checks import ACKNOWLEDGED, ENDED, REFUSED
from rkc_host import Host, open_port

XU = panel.item("XU")

# Every value of XU, each another than the one before; XU is 1 at the start.
ORDER = (3, 0, 2, 1)

# Settings as blocks, and the stored numbers as registers. M1 is 0, so AA becomes 1.
TEXTS = {"S1": "100.5", "A1": "-199.9", "A2": "999.9", "PB": "-8", "PR": "1.25"}
STORED = {"S1": 1005, "A1": -1999, "A2": 9999}

# The items whose point moves, as they are sent at each XU, and those whose point does not.
MOVED = (
    {"M1": "000000", "S1": "001005", "A1": "-01999", "A2": "009999"},
    {"M1": "0000.0", "S1": "0100.5", "A1": "-199.9", "A2": "0999.9"},
    {"M1": "000.00", "S1": "010.05", "A1": "-19.99", "A2": "099.99"},
    {"M1": "00.000", "S1": "01.005", "A1": "-1.999", "A2": "09.999"},
)
UNMOVED = {
    "AA": "000001",
    "AB": "000000",
    "B1": "000000",
    "ER": "000000",
    "PB": "-08.00",
    "PR": "01.250",
    "F1": "000000",
    "TM": "000000",
}

# Text for S1, and how it is sent back at each XU from 0 to 3; None where it is refused.
FOR_S1 = {
    "12": ("000012", "0012.0", "012.00", None),
    "-12": ("-00012", "-012.0", "-12.00", None),
    "9999": ("009999", None, None, None),
    "9.999": ("000009", "0009.9", "009.99", "09.999"),
    "-1.999": ("-00001", "-001.9", "-01.99", "-1.999"),
    "-.5": ("000000", "-000.5", "-00.50", "-0.500"),
    ".0019": ("000000", "0000.0", "000.00", "00.001"),
}

# Text for XU, and what it then is, whatever it was before; None where it is refused.
FOR_XU = {
    "0": 0,
    "1": 1,
    "000002": 2,
    "3.9999": 3,
    "-.9": 0,
    "4": None,
    "-1": None,
    "": None,
}

# Frames that set XU or try to, the items that they leave at values other than those of the start,
# and the last write to XU.
CAPTURES = {
    "XU at 0": ([setting("XU", 0)], {"XU": 0}, found(0, 1)),
    "XU at 3, then at 2": ([setting("XU", 3), setting("XU", 2)], {"XU": 2}, found(2, 1)),
    "XU at 3, then outside its range": (
        [setting("XU", 3), setting("XU", 4), setting("XU", -1)],
        {"XU": 3},
        found(3, 3),
    ),
    "XU at another address": ([setting("XU", 3, address=2)], {}, never(1)),
    "S1 and A1 at both ends behind XU": (
        [setting("XU", 3), setting("S1", 9999), setting("A1", -1999)],
        {"XU": 3, "S1": 9999, "A1": -1999, "AA": 1},
        found(3, 3),
    ),
    "F1 and XU together": (
        [frame_of(1, bytes.fromhex("10 00 12 00 02 04 00 05 00 02"))],
        {"F1": 5, "XU": 2},
        found(2, 1),
    ),
    "F1 together with an XU out of range": (
        [frame_of(1, bytes.fromhex("10 00 12 00 02 04 00 05 00 04"))],
        {},
        never(1),
    ),
    "XU and one past the map": (
        [frame_of(1, bytes.fromhex("10 00 13 00 02 04 00 02 00 02"))],
        {},
        never(1),
    ),
}


def set_xu(host, value):
    """Sets XU. Where it is not taken, no check behind this could tell anything."""
    if host.select("XU", str(value)) != ACKNOWLEDGED:
        raise RuntimeError(f"XU does not take {value}")


def settings(checks, host):
    for name, text in TEXTS.items():
        checks.same(f'{name} takes "{text}"', host.select(name, text), ACKNOWLEDGED)


def all_items(checks, host):
    """A poll run at each XU, to the end of the list."""
    for xu in ORDER:
        set_xu(host, xu)
        got = [host.poll("M1"), *(host.next() for _ in panel.ITEMS)]
        texts = {**MOVED[xu], **UNMOVED, "XU": f"00000{xu}"}
        expected = [*((row.name, texts[row.name]) for row in panel.ITEMS), ENDED]
        checks.same(f"all items with XU at {xu}", got, expected)


def end_of_list(checks, host):
    """XU, which is 1, is the last item."""
    got = (host.poll("TM"), host.next(), host.again(), host.next())
    last = ("XU", "000001")
    checks.same("TM, XU, XU again, the end", got, (("TM", "000000"), last, last, ENDED))
    host.poll("TM")
    got = (host.poll_on("XU"), host.poll_on("S1"))
    checks.same("XU and S1 polled on", got, (last, ("S1", "0100.5")))


def taken(checks, host):
    """Text for S1 has the decimals of XU, and what is refused leaves S1 at 0."""
    for xu, text in itertools.product(ORDER, FOR_S1):
        set_xu(host, xu)
        host.select("S1", "0")
        got = (host.select("S1", text), host.poll("S1"))
        sent = FOR_S1[text][xu]
        answer = REFUSED if sent is None else ACKNOWLEDGED
        left = panel.text_of(panel.item("S1"), 0, xu) if sent is None else sent
        checks.same(f'S1 and "{text}" with XU at {xu}', got, (answer, ("S1", left)))


def ranges(checks, host):
    """The range of S1, A1 and A2 is one of stored numbers."""
    for xu, name in itertools.product(ORDER, STORED):
        set_xu(host, xu)
        rkc_checks.ends(checks, host, panel.item(name), xu)


def own_text(checks, host):
    """Text for XU has no decimals, whatever XU is, and what is refused leaves it."""
    for before, text in itertools.product(ORDER, FOR_XU):
        set_xu(host, before)
        got = (host.select("XU", text), host.poll("XU"))
        value = FOR_XU[text]
        answer, left = (REFUSED, before) if value is None else (ACKNOWLEDGED, value)
        name = f'XU and "{text}" with XU at {before}'
        checks.same(name, got, (answer, ("XU", f"00000{left}")))


def rkc(checks, command, structure):
    words = ("rkc", "--structure", str(structure))
    with checks.of(f"point, rkc {structure}"), Simulator(command, *words) as simulator:
        with contextlib.closing(Host(open_port(simulator.port), structure=structure)) as host:
            for part in (settings, all_items, end_of_list, taken, ranges, own_text):
                part(checks, host)


def stored(checks, client):
    for name, value in STORED.items():
        got = client.write(panel.item(name).register, panel.register_of(value))
        checks.same(f"{name} takes {value}", got, WRITTEN)


def registers(checks, client):
    """XU moves no other register, and S1 has one range at each XU."""
    for xu in ORDER:
        others = client.read(0, XU.register)
        got = (client.write(XU.register, xu), client.read(0, panel.MAP_LENGTH))
        checks.same(f"all registers with XU at {xu}", got, (WRITTEN, [*others, xu]))
        modbus_checks.ends(checks, client, panel.item("S1"))


def outside(checks, client):
    """What XU refuses moves no register either."""
    for xu, value in itertools.product(ORDER, panel.outside(XU)):
        client.write(XU.register, xu)
        write = partial(client.write, XU.register, panel.register_of(value))
        refuses(checks, client, f"XU at {xu} refuses {value}", ILLEGAL_VALUE, write)


def modbus(checks, command, client_of):
    with checks.of(f"point, {client_of.NAME}"):
        with Simulator(command, *words_for(client_of)) as simulator:
            with contextlib.closing(client_of(simulator.port)) as client:
                for part in (stored, registers, outside):
                    part(checks, client)


def captures(checks, command):
    playback = Playback(command)
    with checks.of("point, playback"):
        for name, (frames, left, last) in CAPTURES.items():
            with file_with(capture(frames)) as path:
                got = (playback.table(path), playback.last(path, "XU"))
                checks.same(name, got, (table(**left), last))


def run(checks, command, clients):
    for structure in (0, 1, 2):
        rkc(checks, command, structure)
    for client_of in clients:
        modbus(checks, command, client_of)
    captures(checks, command)
