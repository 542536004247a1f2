"""What every Modbus client must see.

A client has `NAME`, the `MODE`, `ADDRESS` and `BAUD` that it uses, `read` (a list of registers),
`write` and `write_together` (`WRITTEN`) and `close`. Each answers `exception(code)` where the panel
refuses and `SILENCE` where it does not answer. `own_checks` tries what only that client can ask
for."""

import contextlib
import itertools
from functools import partial

import panel
from checks import Simulator

WRITTEN = "written"
SILENCE = "silence"

ILLEGAL_FUNCTION = 1
ILLEGAL_ADDRESS = 2
ILLEGAL_VALUE = 3

# Spans, as start and quantity, of which a register is not to be written.
SPOILT = (
    (0x000C, 3),  # unlisted, between A1 and A2
    (0x000E, 3),  # unlisted, between A2 and PB
    (0x000A, 2),  # unlisted, before S1
    (0x0008, 2),  # unlisted, behind TM
    (0x0003, 2),  # read-only, both
    (0x0004, 5),  # read-only, the first, with TM as the last
    (0x0000, panel.MAP_LENGTH),  # the whole map
    (0x0013, 2),  # past the map, behind XU
    (0x0010, 5),  # past the map, behind four that may be written
    (0xFFFF, 2),  # past FFFFH
    (0x0010, 123),  # as many as a request can have
)

# Reads, as start and quantity, of which a register is past the map.
PAST_THE_MAP = (
    (0, panel.MAP_LENGTH + 1),
    (panel.MAP_LENGTH - 1, 2),
    (panel.MAP_LENGTH, 1),
    (0xFFFF, 125),
)

# Outside every item's range.
TOO_HIGH = 0x7FFF


def exception(code):
    return f"exception {code}"


def refuses(checks, client, name, code, write):
    """A write is refused, and all registers stay as they are."""
    before = client.read(0, panel.MAP_LENGTH)
    got = (write(), client.read(0, panel.MAP_LENGTH))
    checks.same(name, got, (exception(code), before))


def ends(checks, client, item):
    """A writable register at both ends of its range, and refused outside."""
    for value in (item.low, item.high):
        register = panel.register_of(value)
        got = (client.write(item.register, register), client.read(item.register, 1))
        checks.same(f"{item.name} takes {value}", got, (WRITTEN, [register]))
    for value in panel.outside(item):
        got = client.write(item.register, panel.register_of(value))
        checks.same(f"{item.name} refuses {value}", got, exception(ILLEGAL_VALUE))
    got = client.read(item.register, 1)
    checks.same(f"{item.name} still has {item.high}", got, [panel.register_of(item.high)])


def together(checks, client):
    """Neighbours in one request: every choice of ends of their ranges, and refused with one of
    them outside."""
    for rows in panel.NEIGHBOURS:
        start, names = rows[0].register, " ".join(row.name for row in rows)
        for values in itertools.product(*((row.low, row.high) for row in rows)):
            registers = panel.registers_of(values)
            got = (client.write_together(start, registers), client.read(start, len(rows)))
            checks.same(f"{names} take {values}", got, (WRITTEN, registers))
        for values in panel.one_outside(rows):
            write = partial(client.write_together, start, panel.registers_of(values))
            refuses(checks, client, f"{names} refuse {values}", ILLEGAL_VALUE, write)


def spoilt(checks, client):
    """One register that is not to be written spoils a request, whatever its values are."""
    lowest = {row.register: panel.register_of(row.low) for row in panel.WRITABLE}
    for start, quantity in SPOILT:
        allowed = [lowest.get(register, 1) for register in range(start, start + quantity)]
        for values, kind in ((allowed, "allowed"), ([TOO_HIGH] * quantity, "too high")):
            write = partial(client.write_together, start, values)
            name = f"{quantity} from {start:04X}H refuse values that are {kind}"
            refuses(checks, client, name, ILLEGAL_ADDRESS, write)


def alarm_states(checks, client):
    """AA and AB are kept true: 1 exactly when M1, which is 0, is at or above A1 or A2."""
    for alarm_1, alarm_2, expected in ((0, 1, [1, 0]), (1, 0, [0, 1])):
        client.write(panel.item("A1").register, alarm_1)
        client.write(panel.item("A2").register, alarm_2)
        got = client.read(panel.item("AA").register, 2)
        checks.same(f"AA and AB with A1 {alarm_1} and A2 {alarm_2}", got, expected)


def refusals(checks, client):
    """Registers that are not to be written, reads past the map, another address."""
    for register in panel.UNWRITABLE:
        got = client.write(register, 0)
        checks.same(f"register {register:04X}H refuses 0", got, exception(ILLEGAL_ADDRESS))
    for start, quantity in PAST_THE_MAP:
        got = client.read(start, quantity)
        name = f"read of {quantity} from {start:04X}H"
        checks.same(name, got, exception(ILLEGAL_ADDRESS))
    got = client.read(0, 1, address=client.ADDRESS - 1)
    checks.same("read from another address", got, SILENCE)


def words_for(client_of):
    """The words by which a simulator serves this client."""
    return (client_of.MODE, "--address", str(client_of.ADDRESS), "--baud", str(client_of.BAUD))


def run(checks, command, client_of):
    with checks.of(client_of.NAME), Simulator(command, *words_for(client_of)) as simulator:
        with contextlib.closing(client_of(simulator.port)) as client:
            got = client.read(0, panel.MAP_LENGTH)
            checks.same("all registers at the start", got, panel.start_registers())
            for item in panel.WRITABLE:
                ends(checks, client, item)
            together(checks, client)
            spoilt(checks, client)
            alarm_states(checks, client)
            refusals(checks, client)
            client.own_checks(checks)
        checks.same("end of the simulator", simulator.end(), 0)
