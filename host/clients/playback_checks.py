"""Playback of captures that are written here, byte by byte: good ones, the longest, damaged ones,
and what is no capture; and the program's command line."""

import panel
from captures import (
    BAD_CAPTURE,
    EMPTY,
    LENGTH_BYTES,
    LONGEST_FRAME,
    NO_SUCH_FRAME,
    TRAILER_BYTES,
    Playback,
    capture,
    changed,
    file_with,
    found,
    frame_of,
    nearly_full,
    never,
    setting,
    shown,
    table,
)
from checks import run_once

BAD_COMMAND_LINES = (
    "",
    "one two",
    "capture --address 0",
    "capture --address 100",
    "capture --address first",
    "capture --frame -1",
    "capture --frame first",
    "capture --frame 4294967296",
    "capture --address 1 --frame 1",
    "capture --last",
    "capture --last 9",
    "capture --last pb",
    "capture --last PB1",
    "capture --last PB --frame 1",
    "capture --last PB --address 0",
    "capture --unheard-of",
)

# F1 is set, then set again.
FRAMES = [setting("F1", 5), bytes(1), setting("F1", 6), setting("PB", -8)]

# Frames that are close to a write of F1 at address 1.
PASSED_OVER = [
    changed(setting("F1", 7), -1),
    setting("F1", 7, address=2),
    setting("F1", 101),  # above its range
    setting("PR", 1007),
    frame_of(1, bytes.fromhex("03 00 12 00 01")),  # a read of F1
    frame_of(1, bytes.fromhex("06 00 12 00 07 00")),  # a byte too long
    frame_of(1, bytes.fromhex("10 00 11 00 02 04 00 07 00 07")),  # with PR below its range
]

# PR is set to 1008, and F1 to 8.
TOGETHER = frame_of(1, bytes.fromhex("10 00 11 00 02 04 03 F0 00 08"))

# Frames that set the alarms around M1, which is 0, or try to, and the items that they leave at
# values other than those of the start.
ALARMS = {
    "A1 above M1": ([setting("A1", 1)], {"A1": 1}),
    "A1 at M1": ([setting("A1", 0)], {"A1": 0, "AA": 1}),
    "A2 above M1": ([setting("A2", 1)], {"A2": 1}),
    "A2 at M1": ([setting("A2", 0)], {"A2": 0, "AB": 1}),
    "both below M1": (
        [setting("A1", -1), setting("A2", -1999)],
        {"A1": -1, "A2": -1999, "AA": 1, "AB": 1},
    ),
    "A1 at M1, then above it": ([setting("A1", 0), setting("A1", 1)], {"A1": 1}),
    "A1 at M1, then again": ([setting("A1", 0), setting("A1", 0)], {"A1": 0, "AA": 1}),
    "S1 and A1 together": (
        [frame_of(1, bytes.fromhex("10 00 0B 00 02 04 00 05 00 00"))],
        {"S1": 5, "A1": 0, "AA": 1},
    ),
    "A1 together with an S1 out of range": (
        [frame_of(1, bytes.fromhex("10 00 0B 00 02 04 7F FF 00 00"))],
        {},
    ),
    "A1 at another address": ([setting("A1", 0, address=2)], {}),
    "AA and AB themselves": ([setting("AA", 1), setting("AB", 1)], {}),
}

# The parts of the capture of FRAMES, and what is shown where a bit in one is wrong: the table, and
# the last write to PB, which is in the last record, to F1, which is in the third, and to S1.
ANSWERED_BEHIND = (BAD_CAPTURE, found(-8, 1), found(6, 2), BAD_CAPTURE)
DAMAGE = {
    "length of record 1": (range(8, 10), ANSWERED_BEHIND),
    "length of record 2": (range(11, 13), ANSWERED_BEHIND),
    "frame 3": (range(13, 21), (table(F1=5, PB=-8), found(-8, 1), found(5, 4), never(4))),
    "length of record 3": (range(21, 23), (BAD_CAPTURE, found(-8, 1), BAD_CAPTURE, BAD_CAPTURE)),
    "frame 4": (range(23, 31), (table(F1=6), never(4), found(6, 2), never(4))),
    "length of record 4": (range(31, 33), (BAD_CAPTURE,) * 4),
    "number of records": (range(33, 35), ANSWERED_BEHIND),
    "place of the last record": (range(35, 39), (BAD_CAPTURE,) * 4),
}


def command_line(checks, playback):
    for words in BAD_COMMAND_LINES:
        status, output, message = run_once(playback.command, words.split())
        checks.same(f'"{words}" is refused', (status, output, message != ""), (2, "", True))
    status, output, message = run_once(playback.command, ["--help"])
    checks.same("--help", (status, "usage:" in output, message), (0, True, ""))
    for path in ("no-such-capture", "/"):
        status, output, message = run_once(playback.command, [path])
        checks.same(f'"{path}" is not read', (status, output, path in message), (1, "", True))


def good(checks, playback):
    """Each frame counts, in its order; the address is 1 where none is given."""
    with file_with(capture(FRAMES)) as path:
        checks.same("a capture", playback.ask(path), table(F1=6, PB=-8))
        checks.same("at another address", playback.table(path, 99), table())
        for number in range(1, len(FRAMES) + 1):
            checks.same(f"frame {number}", playback.frame(path, number), shown(FRAMES, number))
        for number in (0, len(FRAMES) + 1, 0xFFFFFFFF):
            checks.same(f"no frame {number}", playback.frame(path, number), NO_SUCH_FRAME)


def last_writes(checks, playback):
    """The last frame that writes the item answers, and what stands behind it is counted."""
    behind, frames = len(PASSED_OVER), FRAMES + PASSED_OVER
    with file_with(capture(frames)) as path:
        got = playback.ask(path, "--last", "F1")
        checks.same("last write behind others", got, found(6, behind + 2))
        checks.same("at another address", playback.last(path, "F1", 2), found(7, behind - 1))
        checks.same("no last write", playback.last(path, "S1"), never(len(frames)))
    with file_with(capture([*FRAMES, TOGETHER])) as path:
        got = [playback.last(path, name) for name in ("PR", "F1", "PB")]
        checks.same("written together", got, [found(1008, 1), found(8, 1), found(-8, 2)])
    with file_with(EMPTY) as path:
        got = [playback.last(path, row.name) for row in panel.ITEMS]
        checks.same("no last write in no record", got, [never(0)] * len(panel.ITEMS))


def alarm_states(checks, playback):
    """AA and AB are true in the table, though no frame writes them."""
    for name, (frames, left) in ALARMS.items():
        with file_with(capture(frames)) as path:
            got = (playback.table(path), playback.last(path, "AA"), playback.last(path, "AB"))
            none = never(len(frames))
            checks.same(name, got, (table(**left), none, none))


def longest(checks, playback):
    frames = nearly_full(244)
    with file_with(capture(frames)) as path:
        checks.same("a capture of 65,536 bytes", playback.table(path), table(S1=123))
        got = playback.frame(path, len(frames))
        checks.same("its last frame", got, shown(frames, len(frames)))
        got = playback.last(path, "S1")
        checks.same("a last write in its first frame", got, found(123, len(frames)))


def damaged(checks, playback):
    """A last write is found whatever stands in front of it, where playback refuses."""
    for part, (places, expected) in DAMAGE.items():
        for place in places:
            with file_with(changed(capture(FRAMES), place)) as path:
                last = (playback.last(path, name) for name in ("PB", "F1", "S1"))
                checks.same(f"{part}, at {place}", (playback.table(path), *last), expected)


def no_captures():
    """What is no capture, by name. The last length and the trailer can't be changed without being
    found out."""
    right = capture(FRAMES)
    for place in range(len(right) - TRAILER_BYTES - LENGTH_BYTES, len(right)):
        yield f"another byte at {place}", changed(right, place)
    yield "the first byte missing", right[1:]
    yield "the last byte missing", right[:-1]
    yield "a byte more before it", bytes(1) + right
    yield "a byte more behind it", right + bytes(1)
    yield "nothing", b""
    yield "five bytes", EMPTY[:-1]
    yield "seven bytes", EMPTY + bytes(1)
    yield "no record, and a place of the last one", EMPTY[:-1] + bytes([1])
    yield "a frame of no byte", capture([b""])
    yield "a frame of 257 bytes", capture([bytes(LONGEST_FRAME + 1)])
    yield "65,537 bytes", capture(nearly_full(245))
    yield "65,536 bytes and one more", capture(nearly_full(244)) + bytes(1)


def bad(checks, playback):
    """None of them writes TM, so its last write is looked for to the front."""
    for name, held in no_captures():
        with file_with(held) as path:
            got = (playback.table(path), playback.frame(path, 1), playback.last(path, "TM"))
            checks.same(name, got, (BAD_CAPTURE,) * 3)


def run(checks, command):
    playback = Playback(command)
    for part in (command_line, good, last_writes, alarm_states, longest, damaged, bad):
        with checks.of("playback"):
            part(checks, playback)
