"""pymodbus, in both modes: one connection, open from the first question to the last."""

import struct
from functools import partial

from pymodbus.client import ModbusSerialClient
from pymodbus.exceptions import ModbusIOException
from pymodbus.framer.ascii_framer import ModbusAsciiFramer
from pymodbus.framer.rtu_framer import ModbusRtuFramer
from pymodbus.register_write_message import WriteMultipleRegistersRequest

import panel
from modbus_checks import ILLEGAL_FUNCTION, ILLEGAL_VALUE, SILENCE, WRITTEN, exception, refuses

REPLY_SECONDS = 1

# The loopback test's data in the maker's manual.
TEST_DATA = 0x1F34

# Quantity and byte count of requests that have three registers: a quantity that is not allowed, a
# byte count that is not twice the quantity, and both of them for a frame of another length.
BAD_COUNTS = ((0, 0), (0, 6), (124, 248), (2, 6), (4, 6), (3, 4), (3, 5), (3, 8), (2, 4), (4, 8))


def refusal(response):
    """What the panel did instead of answering; nothing where it answered."""
    if isinstance(response, ModbusIOException):
        return SILENCE
    if response.isError():
        return exception(response.exception_code)
    return ""


def outcome(response, **repeated):
    """What came of a write, whose answer repeats these fields of the request."""
    told = {field: getattr(response, field, None) for field in repeated}
    return refusal(response) or (WRITTEN if told == repeated else told)


def of_three(start, quantity=3, byte_count=6):
    """What stands behind function 10H where the lowest values of PB, PR and F1 are written."""
    registers = panel.registers_of(row.low for row in panel.NEIGHBOURS[-1][:3])
    return struct.pack(">HHB3H", start, quantity, byte_count, *registers)


def miscounted(start):
    """The same with wrong counts, too short and too long."""
    yield from (of_three(start, *counts) for counts in BAD_COUNTS)
    right = of_three(start)
    yield from (right[:length] for length in range(len(right)))
    yield right + b"\0"


class Pymodbus:
    NAME = "pymodbus"
    MODE = "rtu"
    FRAMER = ModbusRtuFramer
    ADDRESS = 7
    BAUD = 19200

    def __init__(self, port):
        self.client = ModbusSerialClient(
            port, self.FRAMER, baudrate=self.BAUD, timeout=REPLY_SECONDS
        )

    def read(self, start, quantity, address=ADDRESS):
        response = self.client.read_holding_registers(start, quantity, slave=address)
        return refusal(response) or response.registers

    def write(self, register, value):
        response = self.client.write_register(register, value, slave=self.ADDRESS)
        return outcome(response, address=register, value=value)

    def write_together(self, start, values):
        response = self.client.write_registers(start, values, slave=self.ADDRESS)
        return outcome(response, address=start, count=len(values))

    def write_behind(self, sent):
        """Function 10H with whatever is to stand behind it."""
        request = WriteMultipleRegistersRequest(unit=self.ADDRESS)
        request.encode = lambda: sent
        return outcome(self.client.execute(request))

    def quantities(self, checks):
        """Function 10H for one register, for none, and for one more than a message can hold."""
        start = panel.item("TM").register
        got = (self.write_together(start, [123]), self.read(start, 1))
        checks.same("TM alone takes 123", got, (WRITTEN, [123]))
        write = partial(self.write_together, start, [])
        refuses(checks, self, "write of 0 registers", ILLEGAL_VALUE, write)
        checks.same("write of 124 registers", self.write_together(start, [0] * 124), SILENCE)

    def wrong_counts(self, checks):
        """Wrong counts and lengths go before a register that may not be written, as M1's."""
        for name in ("PB", "M1"):
            for sent in miscounted(panel.item(name).register):
                write = partial(self.write_behind, sent)
                shown = sent.hex(" ").upper() or "nothing"
                refuses(checks, self, f"10H and {shown}", ILLEGAL_VALUE, write)

    def own_checks(self, checks):
        response = self.client.read_input_registers(0, 1, slave=self.ADDRESS)
        checks.same("function 04H", refusal(response), exception(ILLEGAL_FUNCTION))
        response = self.client.read_coils(0, 1, slave=self.ADDRESS)
        checks.same("function 01H", refusal(response), exception(ILLEGAL_FUNCTION))
        for quantity in (0, 126):
            got = self.read(0, quantity)
            checks.same(f"read of {quantity} registers", got, exception(ILLEGAL_VALUE))
        response = self.client.diag_query_data(TEST_DATA, slave=self.ADDRESS)
        got = refusal(response) or list(response.message)
        checks.same("loopback test", got, [TEST_DATA])
        response = self.client.diag_restart_communication(False, slave=self.ADDRESS)
        checks.same("another test code", refusal(response), exception(ILLEGAL_VALUE))
        self.quantities(checks)
        self.wrong_counts(checks)

    def close(self):
        self.client.close()


class PymodbusAscii(Pymodbus):
    NAME = "pymodbus ascii"
    MODE = "ascii"
    FRAMER = ModbusAsciiFramer
