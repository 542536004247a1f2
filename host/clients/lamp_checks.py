"""The lamps, as the simulator shows them: both behind each request that changes an alarm state, and
behind no other. Hosts set the alarms around M1, which is 0, and read the states."""

import contextlib
import tempfile
from collections import namedtuple
from functools import partial

import panel
from checks import Simulator, exchange
from modbus_checks import WRITTEN, words_for
from rkc_checks import ACKNOWLEDGED
from rkc_host import Host, block, open_port

# What a host sets, whether the panel takes it, and AA and AB behind it; both are 0 at the start.
Step = namedtuple("Step", "values taken states")

STEPS = (
    Step({"A1": 1}, True, (0, 0)),
    Step({"A1": 0}, True, (1, 0)),
    Step({"A1": 0}, True, (1, 0)),
    Step({"A1": -1}, True, (1, 0)),
    Step({"A2": 1}, True, (1, 0)),
    Step({"A2": 0}, True, (1, 1)),
    Step({"S1": 9999}, True, (1, 1)),
    Step({"XU": 3}, True, (1, 1)),
    Step({"XU": 4}, False, (1, 1)),
    Step({"XU": 1}, True, (1, 1)),
    Step({"A1": 10000}, False, (1, 1)),
    Step({"M1": -1}, False, (1, 1)),
    Step({"AA": 0}, False, (1, 1)),
    Step({"AB": 0}, False, (1, 1)),
    Step({"A1": 1}, True, (0, 1)),
    Step({"AA": 1}, False, (0, 1)),
    Step({"A2": 9999}, True, (0, 0)),
    Step({"A2": -1999}, True, (0, 1)),
)

# Settings in one message.
TOGETHER = (
    Step({"S1": 0, "A1": 0}, True, (1, 1)),
    Step({"S1": 1, "A1": -1}, True, (1, 1)),
    Step({"S1": 10000, "A1": 1}, False, (1, 1)),
    Step({"S1": 2, "A1": 1}, True, (0, 1)),
)

# What is sent at once, and what is shown of each request in it: the request, the reply and, last,
# the lamps where they changed. A1 is set to -5.0, then to what it is, and A2 to 0.
SHOWN = {
    "rtu": (
        bytes.fromhex("01 06 00 0C FF CE 89 AD"),
        [("01 06 00 0C FF CE 89 AD", "01 06 00 0C FF CE 89 AD", "AA 1, AB 0")],
    ),
    "ascii": (
        b":0106000CFFCE20\r\n:0106000CFFCE20\r\n:0106000E0000EB\r\n",
        [
            (":0106000CFFCE20<CR><LF>", ":0106000CFFCE20<CR><LF>", "AA 1, AB 0"),
            (":0106000CFFCE20<CR><LF>", ":0106000CFFCE20<CR><LF>"),
            (":0106000E0000EB<CR><LF>", ":0106000E0000EB<CR><LF>", "AA 1, AB 1"),
        ],
    ),
    "rkc": (
        b"\x0401" + 2 * block("A1", "-5") + block("A2", "0"),
        [
            (
                "04 30 31 02 41 31 2D 35 03 6B  <EOT>01<STX>A1-5<ETX>k",
                "06  <ACK>",
                "AA 1, AB 0",
            ),
            ("02 41 31 2D 35 03 6B  <STX>A1-5<ETX>k", "06  <ACK>"),
            ("02 41 32 30 03 40  <STX>A20<ETX>@", "06  <ACK>", "AA 1, AB 1"),
        ],
    ),
}


def lines_of(request, reply, lamps=None):
    """What is shown of a request without a fault."""
    shown = [f"request {request}", "number  0, no fault", f"reply   {reply}"]
    return shown if lamps is None else [*shown, f"lamps   {lamps}"]


def all_lines(checks, command):
    for mode, (sent, requests) in SHOWN.items():
        count = len(requests) if mode == "rkc" else len(sent)  # ACK, or what was sent
        _, got = exchange(command, [mode], [sent], count)
        expected = [line for request in requests for line in lines_of(*request)]
        checks.same(f"what {mode} -v shows", got, expected)


class ModbusPanel:
    """The panel through a Modbus client."""

    def __init__(self, client_of, port):
        self.client = client_of(port)

    def take(self, values):
        """Whether the panel takes the values of these items, in one request."""
        start, *_ = (panel.item(name).register for name in values)
        first, *rest = panel.registers_of(values.values())
        if rest:
            return self.client.write_together(start, [first, *rest]) == WRITTEN
        return self.client.write(start, first) == WRITTEN

    def read(self):
        return tuple(self.client.read(0, 3))

    def close(self):
        self.client.close()


class RkcPanel:
    """The panel through a host on the RKC line."""

    def __init__(self, structure, port):
        self.host = Host(open_port(port), structure=structure)

    def take(self, values):
        ((name, value),) = values.items()
        text = panel.text_of(panel.item(name), value)
        return self.host.select(name, text) == ACKNOWLEDGED

    def read(self):
        replies = (self.host.poll("M1"), self.host.next(), self.host.next())
        return tuple(panel.number_of(text) for _, text in replies)

    def close(self):
        self.host.close()


def lamps_shown(lines):
    """For each request that was answered, the lines of lamps behind it."""
    found = []
    for line in lines:
        if line.startswith("reply ") and line != "reply   none":
            found.append([])
        if line.startswith("lamps "):
            found[-1].append(line)
    return found


def lamps_expected(states, before, reads):
    """The same of one step: both lamps where a state is not what it was, and none behind reads."""
    first = [] if states == before else ["lamps   AA {}, AB {}".format(*states)]
    return [first, *[[]] * reads]


def play(command, words, way, steps):
    """What comes of each step, and the lamps that were shown. They are looked at in the end, since
    a reply is sent before anything is shown."""
    with tempfile.TemporaryFile("w+") as shown:
        with Simulator(command, *words, "-v", shown=shown) as simulator:
            with contextlib.closing(way(simulator.port)) as played:
                results = [(played.take(step.values), played.read()) for step in steps]
        shown.seek(0)
        return results, lamps_shown(shown.read().splitlines())


def follow(checks, command, words, way, steps, reads):
    """The steps, along a way to the panel that takes so many requests to read M1, AA and AB."""
    results, lamps = play(command, words, way, steps)
    requests = 1 + reads
    checks.same("requests that were answered", len(lamps), requests * len(steps))
    before = (0, 0)
    for place, (step, (taken, values)) in enumerate(zip(steps, results)):
        name = " and ".join(f"{item} at {value}" for item, value in step.values.items())
        got = (taken, values, lamps[requests * place : requests * (place + 1)])
        expected = (step.taken, (0, *step.states), lamps_expected(step.states, before, reads))
        checks.same(name, got, expected)
        before = step.states


def run(checks, command, clients):
    with checks.of("lamps"):
        all_lines(checks, command)
    for client_of in clients:
        with checks.of(f"lamps, {client_of.NAME}"):
            way = partial(ModbusPanel, client_of)
            follow(checks, command, words_for(client_of), way, STEPS + TOGETHER, 1)
    for structure in (0, 1, 2):
        with checks.of(f"lamps, rkc {structure}"):
            words = ("rkc", "--structure", str(structure))
            follow(checks, command, words, partial(RkcPanel, structure), STEPS, 3)
