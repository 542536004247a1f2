"""Instructions and bytes: the library, libmodbus and the reference side by side.

Prints a table, or says what is missing on this machine (status 2)."""

import re

import building
import kit
import sizes
from counting import METHOD, count

# What ten_rounds_twice executes.
KNOWN = 47

# What the longer damaged request has more than the shorter one.
MORE_BYTES = 256 - 8

# The bytes of a CRC, which are not among those that it is of.
CRC_BYTES = 2

ROWS = {
    "read": "read of all 20 registers (03H)",
    "read, CRC apart": "the same, both CRCs apart",
    "write": "write of one register (06H)",
    "write, CRC apart": "the same, both CRCs apart",
    "write-three": "write of three registers (10H)",
    "write-three, CRC apart": "the same, both CRCs apart",
    "write-four": "write of four registers (10H)",
    "write-four, CRC apart": "the same, both CRCs apart",
    "write-alarm": "write of A1 (06H), which alters AA",
    "write-alarm-10H": "the same by 10H",
    "loopback": "loopback (08H)",
    "loopback, CRC apart": "the same, both CRCs apart",
    "CRC": "CRC, per byte",
    "read, ASCII": "read of all 20 registers (03H), as a line of ASCII",
    "write, ASCII": "write of one register (06H), as a line",
    "write-three, ASCII": "write of three registers (10H), as a line",
    "loopback, ASCII": "loopback (08H), as a line",
    "poll": "RKC: all items polled, per byte",
    "select": "RKC: all settings written, per byte",
    "session": "RKC: one after the other, per byte",
    "alarm-block": "RKC: the BCC of a block that sets A1, which alters AA",
    "measured, XU 0": "RKC: the ENQ of a poll of M1, XU at 0",
    "measured, XU 1": "the same, XU at 1",
    "measured, XU 2": "the same, XU at 2",
    "measured, XU 3": "the same, XU at 3",
    "put-measured": "put of M1, which alters AA and AB",
    "put-code": "put of ER",
    "put-nothing": "put of no item (6), which is the table check",
    "full": "playback of 21,843 frames of one byte",
    "half": "playback of 10,921 frames of one byte",
    "writes": "playback of 6,553 writes (06H), per write",
    "show": "show of the first of 21,843 frames",
    "last-of-29": "last write, in the last record of 100 bytes",
    "last-of-21841": "last write, in the last record of 65,536 bytes",
    "first-of-10921": "last write, in the first of 10,921 records",
    "first-of-21841": "last write, in the first of 21,841 records",
    "code": "code, bytes",
    "constants": "constants, bytes",
    "stack": "stack of the deepest call, bytes",
}

# The blocks and polls of which the byte that ends them is counted: the case, and what stands behind
# it.
LAST_BYTES = {
    "alarm-block": ["alarm-block"],
    "measured, XU 0": ["measured", "0"],
    "measured, XU 1": ["measured", "1"],
    "measured, XU 2": ["measured", "2"],
    "measured, XU 3": ["measured", "3"],
}

# The captures in which the last write to PB is looked for: their bytes, and the records that are
# read.
LAST_WRITES = {
    "last-of-29": (100, 1),
    "last-of-21841": (65536, 1),
    "first-of-10921": (32776, 10921),
    "first-of-21841": (65536, 21841),
}

# What a call takes more of, at most, where it reads twice as many records. A walk through the
# capture for each of them would take four times as much.
MOST_GROWTH = 2.5

# A byte of the RKC line takes fewer instructions than this, over all bytes of the sessions.
RKC_BOUND = 200

# The requests that libmodbus knows, too, all of them, and those that go as lines of ASCII as well.
SHARED = ["read", "write", "write-three", "write-four", "write-alarm", "write-alarm-10H"]
REQUESTS = [*SHARED, "loopback"]
LINES = ["read", "write", "write-three", "loopback"]


def replies(printed):
    """The numbers and replies that came back."""
    return re.findall(r"^gave (.*)$", printed, re.MULTILINE)


def handed_over(printed, what="bytes"):
    """The number of bytes that the calls were handed, or of frames or bytes in a capture."""
    return int(re.search(rf"^{what} (\d+)$", printed, re.MULTILINE)[1])


def modbus(program, functions, cases):
    """The instructions of Modbus calls, with the CRC and without, and what came back."""
    figures, gave = {}, {}
    short, long = (count([*program, f"damaged-{n}"], functions)[0] for n in ("short", "long"))
    figures["CRC"] = (long - short) / MORE_BYTES
    for case in cases:
        figures[case], printed = count([*program, case], functions)
        gave[case] = replies(printed)
        reply_bytes = len(gave[case][0].split()) - 1  # without the number
        checked = handed_over(printed) + reply_bytes - 2 * CRC_BYTES
        figures[f"{case}, CRC apart"] = figures[case] - figures["CRC"] * checked
    return figures, gave


def lines(program):
    """The instructions of the requests in LINES as lines of ASCII, and what came back."""
    figures, gave = {}, {}
    for case in LINES:
        row = f"{case}, ASCII"
        figures[row], printed = count([*program, case, "ascii"], ["vb_ascii"])
        gave[row] = replies(printed)
    return figures, gave


def rkc(program):
    """The instructions per byte on the RKC line, and what came back."""
    totals, lengths, gave = {}, {}, {}
    for case in ("poll", "select"):
        totals[case], printed = count([*program, case], ["vb_byte"])
        lengths[case] = handed_over(printed)
        gave[case] = replies(printed)
    figures = {case: totals[case] / lengths[case] for case in totals}
    figures["session"] = sum(totals.values()) / sum(lengths.values())
    return figures, gave


def last_bytes(program):
    """The instructions of the byte that ends a block or a poll, and what came back. The bytes in
    front of it are taken off."""
    figures, gave = {}, {}
    for row, (case, *behind) in LAST_BYTES.items():
        before = count([*program, f"{case}-begun", *behind], ["vb_byte"])[0]
        whole, printed = count([*program, case, *behind], ["vb_byte"])
        figures[row] = whole - before
        gave[row] = replies(printed)
    return figures, gave


def puts(program):
    """The instructions of a put, and what came back. Each run begins with a put of M1, which is
    taken off."""
    figures, gave = {}, {}
    before = count(program, ["vb_put"])[0]
    for case in ("put-measured", "put-code", "put-nothing"):
        total, printed = count([*program, case], ["vb_put"])
        figures[case] = total - before
        gave[case] = replies(printed)
    return figures, gave


def captures(program):
    """The instructions of a capture played back and of a frame shown, and what came back."""
    figures, frames, gave = {}, {}, {}
    for case in ("full", "half", "writes"):
        figures[case], printed = count([*program, "playback", case], ["vb_playback"])
        frames[case] = handed_over(printed, "frames")
        gave[case] = replies(printed)
    figures["writes"] /= frames["writes"]
    figures["show"], printed = count([*program, "show", "full"], ["vb_show"])
    gave["show"] = replies(printed)
    return figures, gave


def last_writes(program):
    """The instructions of a last write that is found, and what came back."""
    figures, gave = {}, {}
    for case, (length, records) in LAST_WRITES.items():
        figures[case], printed = count([*program, "last-write", case], ["vb_last_write"])
        gave[case] = replies(printed)
        got = (handed_over(printed, "capture"), gave[case])
        if got != (length, [f"0: found -150 {records}"]):
            raise SystemExit(f"perf: {case} is {got}")
    return figures, gave


def link(program, file):
    """All figures of an implementation with the C functions of the link."""
    figures, gave = modbus(program, ["vb_rtu"], REQUESTS)
    for part in (lines, rkc, last_bytes, puts, captures, last_writes):
        more, gave_more = part(program)
        figures, gave = figures | more, gave | gave_more
    refused = [case for case, given in gave.items() if not given[0].startswith("0:")]
    if refused != ["put-nothing"]:
        raise SystemExit(f"perf: what is refused is {refused}: {gave}")
    return figures | sizes.both(file), gave


def libmodbus(program):
    """Those of libmodbus, which knows neither the loopback, ASCII, the RKC line nor captures."""
    figures, gave = modbus(program, ["libmodbus_check", "modbus_reply"], SHARED)
    return figures | sizes.both(kit.libmodbus()), gave


def table(library, others):
    """The rows, with the library's share of what each other one takes."""
    heads = "".join(f" {name} | library / {name} |" for name in others)
    yield f"| | library |{heads}"
    yield "|---" * (2 + 2 * len(others)) + "|"
    for row, title in ROWS.items():
        cells = [title, f"{library[row]:.0f}"]
        for figures in others.values():
            known = row in figures
            cells.append(f"{figures[row]:.0f}" if known else "-")
            cells.append(f"{library[row] / figures[row]:.2f}" if known else "-")
        yield f"| {' | '.join(cells)} |"


def growth(library):
    """Tells what the cost of a capture grows with, and ends with an error where it must not."""
    for name, twice, once in (
        ("Playback of twice as many frames", "full", "half"),
        ("A last write with twice as many records to pass over", "first-of-21841", "first-of-10921"),
    ):
        times = library[twice] / library[once]
        print(f"{name} takes {times:.2f} times the instructions.")
        if times > MOST_GROWTH:
            raise SystemExit(f"perf: that is more than {MOST_GROWTH} times")
    short, long = library["last-of-29"], library["last-of-21841"]
    print(f"One in the last record takes {short} in 100 bytes and {long} in 65,536.")
    if short != long:
        raise SystemExit("perf: that grows with the capture, and not with the records read")


def bound(library):
    """Ends with an error where a byte of the RKC line takes too much."""
    if library["session"] >= RKC_BOUND:
        raise SystemExit(f"perf: a byte of the RKC line takes {RKC_BOUND} instructions or more")


def main():
    """Measures all three and prints the table."""
    kit.refuse_what_is_missing()
    kit.TARGET.mkdir(parents=True, exist_ok=True)
    program = building.library()
    known = count([*program, "known"], ["ten_rounds_twice"])[0]
    if known != KNOWN:
        raise SystemExit(f"perf: {known} instructions counted where {KNOWN} are executed")

    library, gave = link(program, building.LIBRARY)
    stack = sizes.stack(building.stack())
    library["stack"] = max(stack.values())
    reference, gave_same = link(building.reference(), building.REFERENCE)
    other, gave_some = libmodbus(building.libmodbus())
    if not gave == gave_same == gave | gave_some:
        raise SystemExit("perf: the implementations do not give the same replies")
    print(f"Instructions are counted by {METHOD}.\n")
    print("\n".join(table(library, {"libmodbus": other, "reference": reference})))
    reply = sizes.function(kit.libmodbus(), "modbus_reply")
    print(f"\nOf libmodbus's code, which is all of it, modbus_reply alone has {reply} bytes.")
    print(f"Stack by function: {', '.join(f'{name} {n}' for name, n in stack.items())}.")
    growth(library)
    bound(library)


main()
