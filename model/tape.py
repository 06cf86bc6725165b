"""A model of the tape format in docs/TAPE.md.

encode(warnings)  writes a list of warnings as a tape.
read(octets)      reads a tape: its complete entries and the verdict.
listing(octets)   the lines that the program tape_list prints.

Reading does not parse operands. An acceptor takes one octet at a time. For
the operand it stands in, it has the set of allowed values, as ranges of
numbers. An octet is wrong when no allowed value begins with the octets of the
operand up to and including it. Every operand that is complete and allowed can
be continued to a readable tape, so this is the definition of a wrong octet in
docs/TAPE.md.
"""

from dataclasses import dataclass
from typing import Optional, Union

PRIMARY = 0x50
MESSAGE = 0x4D
DATA = 0x44

MOST_OCTETS = 16384      # message and area octets together
SECURITY_OCTETS = 50
DATA_OCTETS = 32         # octets in one data command

WRONG_OCTET = 18
ENDS_EARLY = 19


# Warnings

@dataclass(frozen=True)
class Primary:
    identifier: int
    serial: int
    type: int
    security: Optional[bytes] = None


@dataclass(frozen=True)
class Message:
    block: int
    identifier: int
    serial: int
    coding: int
    message: bytes
    area: Optional[bytes] = None


Warning = Union[Primary, Message]


class NoWarning(Exception):
    """The value given is no warning. `refusal` is its number and values."""

    def __init__(self, *refusal):
        super().__init__(*refusal)
        self.refusal = refusal


def check(warning):
    """The checks of docs/OUTLETS.md, 'What is no warning', in their order."""
    if isinstance(warning, Primary):
        if warning.security is not None and len(warning.security) != SECURITY_OCTETS:
            raise NoWarning(15, len(warning.security))
    else:
        if warning.block not in (8, 11, 12):
            raise NoWarning(3, warning.block)
        if warning.block == 11 and warning.area is not None:
            raise NoWarning(6)
        total = len(warning.message) + len(warning.area or b"")
        if total > MOST_OCTETS:
            raise NoWarning(7, total)


# Writing

def number(value, width):
    return value.to_bytes(width, "big")


def encode_data(part):
    """The data commands of one part."""
    out = b""
    for start in range(0, len(part), DATA_OCTETS):
        piece = part[start:start + DATA_OCTETS]
        out += bytes([DATA, len(piece)]) + piece.ljust(DATA_OCTETS, b"\0")
    return out


def encode_entry(warning):
    check(warning)
    pair = number(warning.identifier, 2) + number(warning.serial, 2)
    if isinstance(warning, Primary):
        present = warning.security is not None
        security = warning.security if present else bytes(SECURITY_OCTETS)
        return bytes([PRIMARY]) + pair + number(warning.type, 2) + bytes([present]) + security
    present = warning.area is not None
    area = warning.area if present else b""
    return (bytes([MESSAGE, warning.block]) + pair + bytes([warning.coding])
            + number(len(warning.message), 2) + bytes([present]) + number(len(area), 2)
            + encode_data(warning.message) + encode_data(area))


def encode(warnings):
    return b"".join(encode_entry(warning) for warning in warnings)


# Reading

def numbers(*values):
    """These values and no others."""
    return [range(value, value + 1) for value in values]


def up_to(most):
    """All values from 0 to `most`."""
    return [range(0, most + 1)]


def every(width):
    """All values of an operand of this width."""
    return up_to(256 ** width - 1)


def has_value_between(values, low, high):
    """Whether the range `values` has a member from `low` to `high`."""
    steps = max(0, -((values.start - low) // values.step))
    first = values.start + steps * values.step      # smallest member >= low
    return first < values.stop and first <= high


class Acceptor:
    """The state between two octets of a tape that has no wrong octet so far."""

    def __init__(self):
        self.offset = 0          # count of octets accepted
        self.entries = []        # (offset, warning) of the complete entries
        self.start_entry()

    def start_entry(self):
        self.entry_offset = self.offset
        self.fields = {}         # complete operands of the entry, by name
        self.message = b""       # message octets read
        self.area = b""          # area octets read
        self.start_operand("command")

    def start_operand(self, name):
        self.operand = name
        self.operand_offset = self.offset
        self.width, self.allowed = self.form(name)
        self.have = 0            # count of octets of this operand accepted
        self.value = 0           # these octets as a number

    def between_entries(self):
        return self.operand == "command" and self.have == 0

    def accepts(self, octet):
        """Whether some allowed value begins with the octets of the operand
        so far and this octet. These values are those from low to high."""
        rest = 256 ** (self.width - self.have - 1)
        low = (self.value * 256 + octet) * rest
        high = low + rest - 1
        return any(has_value_between(values, low, high) for values in self.allowed)

    def advance(self, octet):
        """Takes one octet. False if it is wrong; the state then stays."""
        if not self.accepts(octet):
            return False
        self.value = self.value * 256 + octet
        self.have += 1
        self.offset += 1
        if self.have == self.width:
            self.finish_operand()
        return True

    def due(self):
        """Octets still due of the part that is being read."""
        message_due = self.fields["message length"] - len(self.message)
        area_due = self.fields["area length"] - len(self.area)
        return message_due or area_due

    def form(self, name):
        """Width and allowed values of an operand."""
        fields = self.fields
        if name == "command":
            return 1, numbers(PRIMARY, MESSAGE)
        if name in ("identifier", "serial", "type"):
            return 2, every(2)
        if name == "security flag":
            return 1, up_to(1)
        if name == "security":
            if fields["security flag"] == 1:
                return SECURITY_OCTETS, every(SECURITY_OCTETS)
            return SECURITY_OCTETS, numbers(0)
        if name == "block":
            return 1, numbers(8, 11, 12)
        if name == "coding":
            return 1, every(1)
        if name == "message length":
            return 2, up_to(MOST_OCTETS)
        if name == "area flag":
            return 1, up_to(0 if fields["block"] == 11 else 1)
        if name == "area length":
            if fields["area flag"] == 1:
                return 2, up_to(MOST_OCTETS - fields["message length"])
            return 2, numbers(0)
        if name == "data command":
            return 1, numbers(DATA)
        if name == "count":
            return 1, numbers(min(DATA_OCTETS, self.due()))
        if name == "octets":
            # As a number: the multiples of 256 to the count of padding octets.
            padding = DATA_OCTETS - fields["count"]
            return DATA_OCTETS, [range(0, 256 ** DATA_OCTETS, 256 ** padding)]
        raise AssertionError(name)

    def finish_operand(self):
        """Goes from a complete operand to the next one or the next entry."""
        name = self.operand
        self.fields[name] = self.value
        if name == "octets":
            data = number(self.value, DATA_OCTETS)[:self.fields["count"]]
            if len(self.message) < self.fields["message length"]:
                self.message += data
            else:
                self.area += data
        if name in ("area length", "octets"):
            following = "data command" if self.due() else None
        elif self.fields["command"] == PRIMARY:
            following = AFTER_IN_PRIMARY[name]
        else:
            following = AFTER_IN_MESSAGE[name]
        if following is not None:
            self.start_operand(following)
        else:
            self.entries.append((self.entry_offset, self.warning()))
            self.start_entry()

    def warning(self):
        """The warning of the complete entry."""
        fields = self.fields
        if fields["command"] == PRIMARY:
            security = None
            if fields["security flag"] == 1:
                security = number(fields["security"], SECURITY_OCTETS)
            return Primary(fields["identifier"], fields["serial"], fields["type"], security)
        area = self.area if fields["area flag"] == 1 else None
        return Message(fields["block"], fields["identifier"], fields["serial"],
                       fields["coding"], self.message, area)


# The operand after each operand. None: the entry is complete.
AFTER_IN_PRIMARY = {
    "command": "identifier",
    "identifier": "serial",
    "serial": "type",
    "type": "security flag",
    "security flag": "security",
    "security": None,
}

# After the area length and after data octets, finish_operand decides.
AFTER_IN_MESSAGE = {
    "command": "block",
    "block": "identifier",
    "identifier": "serial",
    "serial": "coding",
    "coding": "message length",
    "message length": "area flag",
    "area flag": "area length",
    "data command": "count",
    "count": "octets",
}


def read(octets):
    """The complete entries before any fault, as (offset, warning), and the
    verdict: None if the tape is readable, else (18, offset) or (19, offset)."""
    acceptor = Acceptor()
    for octet in octets:
        if not acceptor.advance(octet):
            return acceptor.entries, (WRONG_OCTET, acceptor.operand_offset)
    if not acceptor.between_entries():
        return acceptor.entries, (ENDS_EARLY, len(octets))
    return acceptor.entries, None


# The program tape_list

def line(offset, warning):
    pair = f"{warning.identifier} {warning.serial}"
    if isinstance(warning, Primary):
        security = "no" if warning.security is None else "yes"
        return f"{offset} primary {pair} type {warning.type} security {security}"
    area = "-" if warning.area is None else len(warning.area)
    return (f"{offset} message {warning.block} {pair} coding {warning.coding}"
            f" octets {len(warning.message)} area {area}")


def listing(octets):
    """The lines of tape_list, without their line feeds."""
    entries, verdict = read(octets)
    lines = [line(offset, warning) for offset, warning in entries]
    if verdict is None:
        again = encode([warning for _, warning in entries])
        outcome = "same" if again == octets else "different"
        lines.append(f"end {len(entries)} warnings {len(octets)} octets {outcome}")
    else:
        lines.append(f"refused {verdict[0]} {verdict[1]}")
    return lines
