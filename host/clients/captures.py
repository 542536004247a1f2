"""Captures of RTU frames, as document 02 has them, and the program that plays them back."""

import contextlib
import os
import re
import struct
import tempfile

from pymodbus.utilities import computeCRC

import panel
from checks import run_once

LONGEST_CAPTURE = 65536
LONGEST_FRAME = 256
LENGTH_BYTES = 2
TRAILER_BYTES = 6

EMPTY = bytes(TRAILER_BYTES)

BAD_CAPTURE = 51
NO_SUCH_FRAME = 52


def capture(frames):
    """Each frame with its length behind it, then their number and where the last one begins."""
    records = [frame + struct.pack(">H", len(frame)) for frame in frames]
    last = sum(map(len, records[:-1]))
    return b"".join(records) + struct.pack(">HI", len(records), last)


def frame_of(address, message):
    """A message as a frame: with the address before it and the CRC behind it."""
    body = bytes([address]) + message
    return body + struct.pack(">H", computeCRC(body))


def setting(name, value, address=1):
    """A frame that writes an item, by 06H."""
    words = (panel.item(name).register, panel.register_of(value))
    return frame_of(address, struct.pack(">BHH", 0x06, *words))


def changed(held, place):
    """These bytes with a bit changed in the one at a place."""
    other = bytearray(held)
    other[place] ^= 1
    return bytes(other)


def nearly_full(last):
    """The frames of a capture of 65,290 bytes, of which the first sets S1 to 123, and one more. If
    that has 244 bytes, their capture has 65,536, which is the most."""
    long = [bytes([2, number]) + bytes(LONGEST_FRAME - 2) for number in range(253)]
    return [setting("S1", 123), *long, bytes(last)]


def table(**changed):
    """The start table with some items at other values, as the program shows it."""
    return [f"{row.name} {changed.get(row.name, row.start)}" for row in panel.ITEMS]


def shown(frames, number):
    """The frame of a number, as the program shows it."""
    frame = frames[number - 1]
    place = sum(len(before) + LENGTH_BYTES for before in frames[: number - 1])
    return [f"place   {place}", f"length  {len(frame)}", f"bytes   {frame.hex(' ').upper()}"]


def found(value, records):
    """A last write, as the program shows it, with the records up to the one that holds it."""
    return [f"value   {value}", f"records {records}"]


def never(records):
    """That there is none in all of the records."""
    return ["never written", f"records {records}"]


def content(path):
    with open(path, "rb") as file:
        return file.read()


@contextlib.contextmanager
def file_with(held):
    """The path of a file that holds these bytes."""
    with tempfile.NamedTemporaryFile() as file:
        file.write(held)
        file.flush()
        yield file.name


class Playback:
    """The program, which stands beside the simulator and is started as that is."""

    def __init__(self, command):
        *runner, simulator = command
        self.command = [*runner, os.path.join(os.path.dirname(simulator), "panel-playback")]

    def ask(self, *words):
        """The lines that it shows, or the number by which it refuses the capture."""
        status, output, message = run_once(self.command, words)
        refused = re.match(r"number  (\d+), ", message)
        if (status, output) == (1, "") and refused:
            return int(refused[1])
        return output.splitlines() if (status, message) == (0, "") else (status, output, message)

    def table(self, path, address=1):
        return self.ask(path, "--address", str(address))

    def last(self, path, name, address=1):
        return self.ask(path, "--last", name, "--address", str(address))

    def frame(self, path, number):
        return self.ask(path, "--frame", str(number))
