"""All clients in turn: all.py COMMAND.., the words that start the simulator."""

import signal
import sys

import ascii_checks
import lamp_checks
import modbus_checks
import playback_checks
import point_checks
import program_checks
import record_checks
import rkc_checks
from checks import Checks
from mbpoll_client import Mbpoll
from pymodbus_client import Pymodbus, PymodbusAscii


def give_up(*_):
    """The time is over, or somebody interrupts. As an exception it ends the simulator, too."""
    raise SystemExit


def main():
    command = sys.argv[1:]
    checks = Checks()
    for wish in (signal.SIGTERM, signal.SIGINT):
        signal.signal(wish, give_up)
    try:
        program_checks.run(checks, command)
        modbus_checks.run(checks, command, Mbpoll)
        modbus_checks.run(checks, command, Pymodbus)
        modbus_checks.run(checks, command, PymodbusAscii)
        ascii_checks.run(checks, command)
        record_checks.run(checks, command, (Mbpoll, Pymodbus))
        playback_checks.run(checks, command)
        rkc_checks.run(checks, command)
        lamp_checks.run(checks, command, (Mbpoll, Pymodbus, PymodbusAscii))
        point_checks.run(checks, command, (Mbpoll, Pymodbus, PymodbusAscii))
    except SystemExit:
        checks.fail("the rest", "broken off")
    checks.total()
    return 0 if checks.failed == 0 else 1


if __name__ == "__main__":
    sys.exit(main())
