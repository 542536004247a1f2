"""What the simulator records: sessions of clients, frames of our own, a full capture, a file that
can't be written, and a simulator that is killed."""

import contextlib
import os
import resource
import signal
import struct
import subprocess
import tempfile
import time
from collections import namedtuple
from functools import partial

import panel
from captures import (
    EMPTY,
    LENGTH_BYTES,
    LONGEST_CAPTURE,
    LONGEST_FRAME,
    NO_SUCH_FRAME,
    Playback,
    capture,
    changed,
    content,
    file_with,
    found,
    frame_of,
    nearly_full,
    never,
    setting,
    shown,
    table,
)
from checks import Simulator, run_once
from modbus_checks import ILLEGAL_ADDRESS, ILLEGAL_VALUE, WRITTEN, exception
from rkc_host import Host, open_port

# How long to wait for what the simulator does by itself, and how often to look.
WAIT_SECONDS = 2
LOOK_SECONDS = 0.0005

# After how many frames the simulator is killed, and the time from one to the next.
KILLED_BEHIND = (1, 2, 5, 10, 20)
FRAME_SECONDS = 0.002

# A call of a client, the message that it sends, and what comes of it.
Step = namedtuple("Step", "call words message outcome")


def write(name, value, outcome=WRITTEN):
    words = (panel.item(name).register, panel.register_of(value))
    return Step("write", words, struct.pack(">BHH", 0x06, *words), outcome)


def write_together(name, values, outcome=WRITTEN):
    start, registers = panel.item(name).register, panel.registers_of(values)
    head = struct.pack(">BHHB", 0x10, start, len(registers), 2 * len(registers))
    message = head + struct.pack(f">{len(registers)}H", *registers)
    return Step("write_together", (start, registers), message, outcome)


def read(start, quantity, outcome):
    words = (start, quantity)
    return Step("read", words, struct.pack(">BHH", 0x03, *words), outcome)


# M1 is 0, and A1 ends up below it: AA ends up as 1.
SESSION = (
    write("S1", -1234),
    write("A1", 1),
    write("A2", 9999),
    write("PB", -1000),
    write("PR", 500),
    write("F1", 100),
    write("TM", 999),
    write("XU", 0),
    read(panel.item("TM").register, 1, [999]),
    write_together("S1", (77, -1999)),
    write_together("PB", (1000, 1500, 7, 3)),
    write("TM", 1000, exception(ILLEGAL_VALUE)),
    write("XU", 4, exception(ILLEGAL_VALUE)),
    write("M1", 1, exception(ILLEGAL_ADDRESS)),
    write_together("S1", (1, 10000), exception(ILLEGAL_VALUE)),
    write_together("A1", (1, 1, 1), exception(ILLEGAL_ADDRESS)),
    read(0, panel.MAP_LENGTH + 1, exception(ILLEGAL_ADDRESS)),
)

# What is recorded of a session: its steps, and a read of all registers behind them.
RECORDS = len(SESSION) + 1

# Each item's last write in a session. What is refused behind it is not one.
LAST_WRITES = {
    "S1": found(77, 9),
    "A1": found(-1999, 9),
    "A2": found(9999, 16),
    "PB": found(1000, 8),
    "PR": found(1500, 8),
    "F1": found(7, 8),
    "TM": found(999, 12),
    "XU": found(3, 8),
}


@contextlib.contextmanager
def recording(command, *words, said=None):
    """A simulator that records, and the path of its capture."""
    with tempfile.TemporaryDirectory() as folder:
        path = os.path.join(folder, "capture")
        with Simulator(command, "rtu", "--record", path, *words, shown=said) as simulator:
            yield simulator, path


def until(condition):
    """Waits for what the simulator does by itself, and tells whether it came."""
    end = time.monotonic() + WAIT_SECONDS
    while not condition() and time.monotonic() < end:
        time.sleep(LOOK_SECONDS)
    return condition()


def text_of(file):
    """All that the simulator said so far. The place at which it goes on is left alone."""
    return os.pread(file.fileno(), 10**6, 0).decode()


def send(host, path, frame):
    """Sends a frame, and tells whether it comes into the capture."""
    length = os.path.getsize(path) + len(frame) + LENGTH_BYTES
    host.send_bytes(frame)
    return until(lambda: os.path.getsize(path) == length)


def whole(checks, playback, path, frames):
    """The file is the capture of these frames, and each of them is shown, and no other."""
    checks.same("the file", content(path), capture(frames))
    numbers = range(1, len(frames) + 1)
    got = [playback.frame(path, number) for number in numbers]
    checks.same("each frame", got, [shown(frames, number) for number in numbers])
    checks.same("one frame more", playback.frame(path, len(frames) + 1), NO_SUCH_FRAME)


def last_writes(checks, playback, path, address):
    """Each item's last write in a session, which no other panel has taken."""
    for row in panel.ITEMS:
        expected = LAST_WRITES.get(row.name, never(RECORDS))
        checks.same(f"last write to {row.name}", playback.last(path, row.name, address), expected)
    got = [playback.last(path, name, address - 1) for name in LAST_WRITES]
    checks.same("none at another address", got, [never(RECORDS)] * len(LAST_WRITES))


def session(checks, command, client_of):
    """A client's session. Playback has what the client reads at the end, AA and AB included."""
    address = client_of.ADDRESS
    words = ("--address", str(address), "--baud", str(client_of.BAUD))
    with recording(command, *words) as (simulator, path):
        with contextlib.closing(client_of(simulator.port)) as client:
            got = [getattr(client, step.call)(*step.words) for step in SESSION]
            checks.same("a session", got, [step.outcome for step in SESSION])
            registers = client.read(0, panel.MAP_LENGTH)
        checks.same("end of the simulator", simulator.end(), 0)

        playback = Playback(command)
        values = {row.name: panel.value_of(registers[row.register]) for row in panel.ITEMS}
        checks.same("AA and AB as read", (values["AA"], values["AB"]), (1, 0))
        checks.same("played back", playback.table(path, address), table(**values))
        checks.same("at another address", playback.table(path, address - 1), table())
        last_writes(checks, playback, path, address)
        steps = (*SESSION, read(0, panel.MAP_LENGTH, registers))
        whole(checks, playback, path, [frame_of(address, step.message) for step in steps])


def empty(checks, command):
    """A capture of no frame, in place of what the file held before."""
    with file_with(b"something else") as path:
        with Simulator(command, "rtu", "--record", path) as simulator:
            checks.same("empty at the start", content(path), EMPTY)
            checks.same("end of the simulator", simulator.end(), 0)
        checks.same("played back", Playback(command).table(path), table())
        whole(checks, Playback(command), path, [])


def frames_of_our_own(checks, command):
    """Frames that a panel passes over or refuses, then one that it acts on. The file is a whole
    capture after each."""
    right = setting("S1", 321)
    frames = {
        "a damaged frame": changed(right, -1),
        "a frame for another address": setting("A1", 7, address=2),
        "a frame of one byte": right[:1],
        "a frame of 256 bytes": frame_of(1, bytes(LONGEST_FRAME - 3)),
        "a write": right,
    }
    sent = []
    with recording(command) as (simulator, path):
        with contextlib.closing(Host(open_port(simulator.port))) as host:
            for name, frame in frames.items():
                sent.append(frame)
                got = (send(host, path, frame), content(path))
                checks.same(name, got, (True, capture(sent)))
        playback = Playback(command)
        checks.same("played back meanwhile", playback.table(path), table(S1=321))
        checks.same("last write meanwhile", playback.last(path, "S1"), found(321, 1))
        checks.same("none for this address", playback.last(path, "A1"), never(len(sent)))
        checks.same("one for another", playback.last(path, "A1", 2), found(7, len(sent) - 1))
        whole(checks, playback, path, sent)


def too_long(checks, command):
    """A frame that no record can hold is left out. The panel passes it over (21)."""
    with tempfile.TemporaryFile() as said, recording(command, "-v", said=said) as (simulator, path):
        with contextlib.closing(Host(open_port(simulator.port))) as host:
            host.send_bytes(frame_of(1, bytes(LONGEST_FRAME - 2)))
            checks.same("a frame of 257 bytes", until(lambda: "number  21" in text_of(said)), True)
            checks.same("is left out", content(path), EMPTY)
            host.send_bytes(setting("F1", 9))
            host.hear_bytes(len(setting("F1", 9)))
        checks.same("a write behind it", Playback(command).table(path), table(F1=9))


def full(checks, command, last):
    """A capture in which the last frame just has room, or just not. Then recording ends, which is
    said once, and the panel goes on."""
    frames, more = nearly_full(last), setting("S1", 456)
    kept = frames if len(capture(frames)) <= LONGEST_CAPTURE else frames[:-1]
    with tempfile.TemporaryFile() as said, recording(command, said=said) as (simulator, path):
        with contextlib.closing(Host(open_port(simulator.port))) as host:
            got = all(send(host, path, frame) for frame in kept)
            checks.same(f"{len(kept)} frames", (got, text_of(said)), (True, ""))
            for frame in (*frames[len(kept) :], more):
                host.send_bytes(frame)
                until(lambda: text_of(said))
            answers = frames[0] + more
            checks.same("answers before and after", host.hear_bytes(len(answers)), answers)
        checks.same("end of the simulator", simulator.end(), 0)
        lines = text_of(said).splitlines()
        checks.same("one line says so", [path in line for line in lines], [True])
        checks.same("what had room", content(path), capture(kept))
        checks.same("played back", Playback(command).table(path), table(S1=123))


def killed(checks, command):
    """A simulator that is killed leaves a capture that has all that it answered."""
    frame = setting("TM", 5)
    with recording(command) as (simulator, path):
        with contextlib.closing(Host(open_port(simulator.port))) as host:
            host.send_bytes(frame)
            host.hear_bytes(len(frame))
            simulator.process.kill()
        checks.same("killed", simulator.wait(), -signal.SIGKILL)
        checks.same("played back", Playback(command).table(path), table(TM=5))
        whole(checks, Playback(command), path, [frame])


def killed_at_work(checks, command):
    """Killed while frames come in, sooner or later."""
    for count in KILLED_BEHIND:
        with recording(command, "--silence", "1") as (simulator, path):
            with contextlib.closing(Host(open_port(simulator.port))) as host:
                for _ in range(count):
                    host.send_bytes(bytes(LONGEST_FRAME))
                    time.sleep(FRAME_SECONDS)
                simulator.process.kill()
            simulator.wait()
            got = Playback(command).table(path)
            checks.same(f"killed behind frame {count}", got, table())


def no_room(checks, command):
    """A file that takes only a part of a frame is made the capture that it was before, and the
    simulator ends. A limit on the length of files stands for a full disk."""
    frames = [setting("F1", 1), setting("F1", 2)]
    for limit in range(len(capture(frames[:1])), len(capture(frames))):
        with recording(command, said=subprocess.PIPE) as (simulator, path):
            resource.prlimit(simulator.process.pid, resource.RLIMIT_FSIZE, (limit, limit))
            with contextlib.closing(Host(open_port(simulator.port))) as host:
                host.send_bytes(frames[0])
                answer = host.hear_bytes(len(frames[0]))
                host.send_bytes(frames[1])
                status = simulator.wait()
            with simulator.process.stderr as said:
                got = (answer, status, path in said.read(), content(path))
            expected = (frames[0], 1, True, capture(frames[:1]))
            checks.same(f"room for {limit} bytes", got, expected)


def not_to_be_had(checks, command):
    """Files that can't be written, and a line that is not there, which leaves the file alone."""
    with tempfile.TemporaryDirectory() as folder:
        pipe = os.path.join(folder, "pipe")
        os.mkfifo(pipe)
        for name, path in (("a folder", folder), ("a pipe", pipe), ("a full device", "/dev/full")):
            status, output, message = run_once(command, ["rtu", "--record", path])
            checks.same(name, (status, output, path in message), (1, "", True))
    with file_with(b"an older capture") as path:
        status, *_ = run_once(command, ["rtu", "no-such-device", "--record", path])
        checks.same("where there is no line", (status, content(path)), (1, b"an older capture"))


PARTS = {
    "empty": empty,
    "own frames": frames_of_our_own,
    "too long": too_long,
    "killed": killed,
    "killed at work": killed_at_work,
    "no room": no_room,
    "no file": not_to_be_had,
    "just full": partial(full, last=244),
    "over full": partial(full, last=245),
}


def run(checks, command, clients):
    for client_of in clients:
        with checks.of(f"recording, {client_of.NAME}"):
            session(checks, command, client_of)
    for name, part in PARTS.items():
        with checks.of(f"recording, {name}"):
            part(checks, command)
