"""mbpoll: each question is a run of the program, which opens the line, asks once and closes."""

import re
import subprocess

from modbus_checks import ILLEGAL_FUNCTION, SILENCE, WRITTEN, exception

STEP_SECONDS = 5

# How mbpoll names what goes wrong.
FAILURES = {
    "Illegal function": exception(1),
    "Illegal data address": exception(2),
    "Illegal data value": exception(3),
    "Connection timed out": SILENCE,
}

HOLDING_REGISTER = "4"
INPUT_REGISTER = "3"


class Mbpoll:
    NAME = "mbpoll"
    MODE = "rtu"
    ADDRESS = 99
    BAUD = 9600

    def __init__(self, port):
        self.port = port

    def ask(self, words, values=(), address=ADDRESS):
        """One run. What it prints on standard output, or what the panel did instead."""
        line = ["-m", self.MODE, "-b", str(self.BAUD), "-P", "none", "-o", "1", "-a", str(address)]
        done = subprocess.run(
            ["mbpoll", *line, "-0", "-1", *words, self.port, *values],
            stdin=subprocess.DEVNULL,
            capture_output=True,
            text=True,
            timeout=STEP_SECONDS,
            check=False,
        )
        failure = re.search(r"failed.*: (.*)", done.stderr)
        if failure:
            return FAILURES.get(failure[1], failure[1]), ""
        return "", done.stdout

    def read(self, start, quantity, address=ADDRESS, kind=HOLDING_REGISTER):
        words = ["-t", kind, "-r", str(start), "-c", str(quantity)]
        failure, output = self.ask(words, address=address)
        found = re.findall(r"^\[\d+\]:\s+(\d+)", output, re.MULTILINE)
        return failure or [int(value) for value in found]

    def write(self, register, value):
        return self.write_together(register, [value])

    def write_together(self, start, values):
        """mbpoll takes 06H for one value and 10H for several."""
        words = ["-t", HOLDING_REGISTER, "-r", str(start)]
        failure, output = self.ask(words, values=map(str, values))
        done = f"Written {len(values)} references."
        return failure or (WRITTEN if done in output else output)

    def own_checks(self, checks):
        got = self.read(0, 1, kind=INPUT_REGISTER)
        checks.same("function 04H", got, exception(ILLEGAL_FUNCTION))
        failure, _ = self.ask(["-u"])
        checks.same("function 11H", failure, exception(ILLEGAL_FUNCTION))

    def close(self):
        """Nothing is open between two runs."""
