"""The simulator as a program: its command line, a device in the place of a pseudo-terminal, a
link, and what it shows."""

import contextlib
import os
import pty
import tempfile
import termios

from checks import Simulator, exchange, run_once
from rkc_host import Host, open_port

BAD_COMMAND_LINES = (
    "",
    "rtc",
    "rtu one two",
    "rtu --address 0",
    "rkc --address 100",
    "rkc --structure 3",
    "rtu --structure 1",
    "rtu --baud 9601",
    "rtu --silence 0",
    "rkc --record capture",
    "ascii --address 0",
    "ascii --structure 0",
    "ascii --silence 20",
    "ascii --record capture",
    "rtu --unheard-of",
)

# A block that sets PB to "-8", with a BCC that looks like EOT, then a poll of PB.
QUESTION = bytes.fromhex("04 30 31 02 50 42 2D 38 03 04 04 30 31 50 42 05")
ANSWER = bytes.fromhex("06 02 50 42 2D 30 38 2E 30 30 03 1A")

LOOPBACK = bytes.fromhex("01 08 00 00 1F 34 E9 EC")

# The loopback test in each mode, and how that is shown.
SHOWN = {
    "rtu": (LOOPBACK, "01 08 00 00 1F 34 E9 EC"),
    "ascii": (b":010800001F34A4\r\n", ":010800001F34A4<CR><LF>"),
}


def command_line(checks, command):
    for words in BAD_COMMAND_LINES:
        status, output, message = run_once(command, words.split())
        checks.same(f'"{words}" is refused', (status, output, message != ""), (2, "", True))
    status, output, message = run_once(command, ["--help"])
    checks.same("--help", (status, "usage:" in output, message), (0, True, ""))
    status, output, message = run_once(command, ["rtu", "no-such-device"])
    checks.same("a device that is not there", (status, output, message != ""), (1, "", True))


def link(checks, command):
    """A link to the pseudo-terminal, and one client after the other on it."""
    with tempfile.TemporaryDirectory() as folder:
        path = os.path.join(folder, "panel")
        with Simulator(command, "rkc", "--link", path) as simulator:
            checks.same("the link leads to the port", os.path.realpath(path), simulator.port)
            for client in ("first", "second"):
                with contextlib.closing(Host(open_port(path))) as host:
                    host.send_bytes(QUESTION)
                    got = host.hear_bytes(len(ANSWER))
                    checks.same(f"answer to the {client} client", got, ANSWER)
            simulator.end()
            checks.same("no link is left", os.path.lexists(path), False)


def device(checks, command):
    """A device: settings are put back at the end, and its going away is an end."""
    hosts_end, panels_end = pty.openpty()
    found = termios.tcgetattr(panels_end)
    name = os.ttyname(panels_end)
    with contextlib.closing(Host(hosts_end)) as host:
        with Simulator(command, "rtu", name, "--baud", "1200") as simulator:
            host.send_bytes(LOOPBACK)
            checks.same("answer on a device", host.hear_bytes(len(LOOPBACK)), LOOPBACK)
            checks.same("end on SIGTERM", simulator.end(), 0)
            checks.same("settings put back", termios.tcgetattr(panels_end), found)
        os.close(panels_end)
        simulator = Simulator(command, "rkc", name)
    checks.same("end when the device goes away", simulator.wait(), 0)


def showing(checks, command):
    for mode, (sent, text) in SHOWN.items():
        _, got = exchange(command, [mode], [sent], len(sent))
        expected = [f"request {text}", "number  0, no fault", f"reply   {text}"]
        checks.same(f"what {mode} -v shows", got, expected)


def run(checks, command):
    for part in (command_line, link, device, showing):
        with checks.of("program"):
            part(checks, command)
