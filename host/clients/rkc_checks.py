"""A host on the RKC line: polling, polling on, selecting, refusals and three seconds of silence."""

import contextlib
import time

import panel
from checks import Simulator
from rkc_host import ACK, ENQ, EOT, NAK, STX, Host, block, open_port

ACKNOWLEDGED = bytes([ACK])
REFUSED = bytes([NAK])
ENDED = bytes([EOT])
NOTHING = b""

# How long to listen where no reply is due.
QUIET_SECONDS = 0.3

# A host that is silent for three seconds loses the line. The panel counts whole milliseconds, and
# a busy machine may be late.
PATIENCE_SECONDS = 3.0
CLOCK_STEP_SECONDS = 0.001
LATE_SECONDS = 1.0


def polling(checks, host):
    """The whole list by ACK, one item again by NAK, and what is no item."""
    got = host.poll(panel.ITEMS[0].name)
    for row in panel.ITEMS:
        checks.same(f"poll of {row.name}", got, (row.name, panel.text_of(row, row.start)))
        got = host.next()
    checks.same("ACK after the last item", got, ENDED)
    host.poll("PR")
    checks.same("NAK", host.again(), ("PR", "01.000"))
    host.send([EOT])
    checks.same("poll of an unknown identifier", host.poll("ZZ"), ENDED)


def polling_on(checks, host):
    """Polls without the address: the list backwards, S1 behind M1 with NAK and ACK, and what ends
    them."""
    host.poll("M1")
    for row in reversed(panel.ITEMS):
        got = host.poll_on(row.name)
        checks.same(f"{row.name} polled on", got, (row.name, panel.text_of(row, row.start)))
    checks.same("S1 behind M1", host.poll_on("S1"), ("S1", "0000.0"))
    checks.same("NAK behind S1", host.again(), ("S1", "0000.0"))
    checks.same("ACK behind S1", host.next(), ("A1", "0050.0"))
    checks.same("an unknown identifier polled on", host.poll_on("ZZ"), ENDED)
    host.send([*b"M1", ENQ])
    checks.same("no address after that", host.hear(1, QUIET_SECONDS), NOTHING)
    host.poll("M1")
    host.send([*b"S", ACK])
    checks.same("ACK behind a first character", host.hear(1), ENDED)
    host.poll("M1")
    host.send([STX])
    checks.same("STX while waiting", host.hear(1), ENDED)


def ends(checks, host, row, xu=1):
    """A writable item at both ends of its range, and refused outside."""
    for value in (row.low, row.high):
        text = panel.text_of(row, value, xu)
        got = (host.select(row.name, text), host.poll(row.name))
        checks.same(f"{row.name} takes {text}", got, (ACKNOWLEDGED, (row.name, text)))
    for value in panel.outside(row):
        text = panel.text_of(row, value, xu)
        checks.same(f"{row.name} refuses {text}", host.select(row.name, text), REFUSED)
    kept = (row.name, panel.text_of(row, row.high, xu))
    checks.same(f"{row.name} still has {row.high}", host.poll(row.name), kept)


def selecting(checks, host):
    """Every writable item, XU as the last, so that the others are set at its start value."""
    for row in panel.WRITABLE:
        ends(checks, host, row)


def number_text(checks, host):
    """Short text, the limit with more decimals than the item has, and what is no number."""
    checks.same('PB takes "-.5"', host.select("PB", "-.5"), ACKNOWLEDGED)
    checks.same("poll of PB", host.poll("PB"), ("PB", "-00.50"))
    for name, text in (("PB", "-10.01"), ("PB", "+0"), ("PB", "-01.500"), ("M1", "1"), ("ZZ", "1")):
        checks.same(f'{name} refuses "{text}"', host.select(name, text), REFUSED)
    checks.same("PB still the same", host.poll("PB"), ("PB", "-00.50"))


def line_rules(checks, host):
    """A second block behind the first one's answer, a wrong BCC, and another address."""
    checks.same("a first block", host.select("F1", "5"), ACKNOWLEDGED)
    host.send(block("TM", "12"))
    checks.same("a second block", host.hear(1), ACKNOWLEDGED)
    host.send([EOT, *host.address, *block("TM", "13")[:-1], 0x7F])
    checks.same("a wrong BCC", host.hear(1), REFUSED)
    host.send([EOT, *b"98TM", ENQ])
    checks.same("another address", host.hear(1, QUIET_SECONDS), NOTHING)
    checks.same("poll of TM", host.poll("TM"), ("TM", "000012"))


def line_errors(checks, host):
    """A character whose top bit is wrong: in a block, in the place of EOT, and while waiting."""
    stx, *text, bcc = block("TM", "13")
    host.send([EOT, *host.address, stx])
    host.send_damaged(text[0])
    host.send([*text[1:], bcc])
    checks.same("a line error in a block", host.hear(1), REFUSED)
    host.send_damaged(EOT)
    host.send([*host.address, *b"TM", ENQ])
    checks.same("EOT with a line error", host.hear(1, QUIET_SECONDS), NOTHING)
    checks.same("poll of TM", host.poll("TM"), ("TM", "000012"))
    host.send_damaged(ord("S"))
    checks.same("a line error while waiting", host.hear(1), ENDED)


def silence(checks, host):
    """Three seconds after its reply the panel sends EOT, and takes ACK no more."""
    start = time.monotonic()
    host.poll("M1")
    got = host.hear(1, PATIENCE_SECONDS + LATE_SECONDS)
    waited = time.monotonic() - start
    checks.same("three seconds of silence", got, ENDED)
    too_soon = waited < PATIENCE_SECONDS - CLOCK_STEP_SECONDS
    checks.same(f"not sooner ({waited:.2f} s)", too_soon, False)
    host.send([ACK])
    checks.same("ACK after that", host.hear(1, QUIET_SECONDS), NOTHING)


def slow_poll(checks, host):
    """Once the first character of a poll has come, the panel waits for the rest without limit."""
    host.poll("M1")
    host.send(b"T")
    got = host.hear(1, PATIENCE_SECONDS + LATE_SECONDS)
    checks.same("silence behind a first character", got, NOTHING)
    host.send([*b"M", ENQ])
    checks.same("the rest of that poll", host.data(), ("TM", "000012"))


def run(checks, command):
    for structure, address in ((0, 1), (1, 42), (2, 0)):
        words = ("rkc", "--address", str(address), "--structure", str(structure))
        with checks.of(f"rkc {structure}"), Simulator(command, *words) as simulator:
            with contextlib.closing(Host(open_port(simulator.port), address, structure)) as host:
                polling(checks, host)
                polling_on(checks, host)
                selecting(checks, host)
                number_text(checks, host)
                line_rules(checks, host)
                line_errors(checks, host)
                # Time does not depend on the structure, and takes its time to try.
                if structure == 1:
                    silence(checks, host)
                    slow_poll(checks, host)
            checks.same("end of the simulator", simulator.end(), 0)
