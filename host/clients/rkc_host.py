"""The host's side of the RKC line."""

import os
import select
import termios
import time
import tty

STX = 0x02
ETX = 0x03
EOT = 0x04
ENQ = 0x05
ACK = 0x06
NAK = 0x15

# STX, identifier, six characters, ETX, BCC.
REPLY_LENGTH = 11

REPLY_SECONDS = 2


class LineFault(Exception):
    """A reply that breaks the rules of the line."""


def bcc(characters):
    """The exclusive or of the characters after STX, ETX included."""
    check = 0
    for character in characters:
        check ^= character
    return check


def block(name, text):
    """An item's identifier and text as a block, from STX to the BCC."""
    body = name.encode() + text.encode() + bytes([ETX])
    return bytes([STX]) + body + bytes([bcc(body)])


def in_structure(character, structure):
    """A character as the line carries it: the top bit makes the ones even (1) or odd (2)."""
    odd = bin(character).count("1") % 2 == 1
    top = {0: False, 1: odd, 2: not odd}[structure]
    return character | (0x80 if top else 0)


def open_port(port):
    """Opens a port and sets it raw."""
    file = os.open(port, os.O_RDWR | os.O_NOCTTY)
    tty.setraw(file, termios.TCSANOW)
    return file


class Host:
    """A host that speaks to one address over an open file, which it closes."""

    def __init__(self, file, address=1, structure=0):
        self.file = file
        self.address = f"{address:02d}".encode()
        self.structure = structure

    def close(self):
        os.close(self.file)

    def send(self, characters):
        self.send_bytes(bytes(in_structure(c, self.structure) for c in characters))

    def send_damaged(self, character):
        """A character whose top bit is wrong for the line's structure."""
        self.send_bytes(bytes([in_structure(character, self.structure) ^ 0x80]))

    def send_bytes(self, sent):
        os.write(self.file, sent)

    def hear_bytes(self, count, seconds=REPLY_SECONDS):
        """As many bytes as asked for, or fewer where the time is over before."""
        heard = b""
        end = time.monotonic() + seconds
        while len(heard) < count:
            left = max(0, end - time.monotonic())
            ready, _, _ = select.select([self.file], [], [], left)
            if not ready:
                break
            heard += os.read(self.file, count - len(heard))
        return heard

    def hear(self, count, seconds=REPLY_SECONDS):
        """The same as characters, each held to the line's structure."""
        heard = self.hear_bytes(count, seconds)
        for byte in heard:
            if byte != in_structure(byte & 0x7F, self.structure):
                raise LineFault(f"{byte:02X}H breaks structure {self.structure}")
        return bytes(byte & 0x7F for byte in heard)

    def data(self):
        """A reply with an item's value: identifier and text; or the reply that came instead."""
        first = self.hear(1)
        if first != bytes([STX]):
            return first
        rest = self.hear(REPLY_LENGTH - 1)
        if len(rest) != REPLY_LENGTH - 1 or rest[-2] != ETX or rest[-1] != bcc(rest[:-1]):
            raise LineFault(f"{rest.hex(' ')} is no reply with its BCC")
        return rest[:2].decode(), rest[2:-2].decode()

    def poll(self, name):
        self.send(bytes([EOT]) + self.address + name.encode() + bytes([ENQ]))
        return self.data()

    def poll_on(self, name):
        """A poll behind a reply, which needs neither EOT nor the address."""
        self.send(name.encode() + bytes([ENQ]))
        return self.data()

    def next(self):
        self.send([ACK])
        return self.data()

    def again(self):
        self.send([NAK])
        return self.data()

    def select(self, name, text):
        self.send(bytes([EOT]) + self.address + block(name, text))
        return self.hear(1)
