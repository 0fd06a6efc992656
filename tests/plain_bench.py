#!/usr/bin/env python3
"""The bench program, written a second time: lines in, lines out.

    plain_bench.py < script          as 01's "Bench program" says
    plain_bench.py --listing         runs the listings and compares: that of
                                     01, and one of request 2 of 02

The unit itself is in plain_unit.py.  Input is taken as bytes: only the
newline separates lines, any other byte belongs to its line.
"""

import re
import sys

sys.dont_write_bytecode = True       # leave no folder behind

import plain_unit

UNREADABLE = "?"
LONGEST = 1024            # bytes in a line, the newline not counted
MOST_TICKS = 100000       # "a count is at most 100,000"

DIGITS = re.compile(rb"[0-9]+")
HEX = re.compile(rb"(?:[0-9A-Fa-f][0-9A-Fa-f])+")


class CannotRead(Exception):
    """The line prints `?` and nothing of it is done (reading 28)."""


def number(field, highest):
    """Decimal digits only; leading zeros are taken, signs are not."""
    if DIGITS.fullmatch(field) is None:
        raise CannotRead
    value = int(field)
    if value > highest:
        raise CannotRead
    return value


def data_bytes(field):
    """Hex digits in pairs, of either case; `-` is no data."""
    if field == b"-":
        return b""
    if HEX.fullmatch(field) is None:
        raise CannotRead
    return bytes.fromhex(field.decode("ascii"))


def answer(refusal, out, note):
    """Refusal number or 0, bytes out in hex or `-`, note."""
    return "%d %s %d" % (refusal, out.hex().upper() or "-", note)


class Bench:
    def __init__(self, make_unit=plain_unit.Unit):
        self.make_unit = make_unit
        self.unit = None          # none before the first start not refused

    def line(self, text):
        """One input line (bytes, without its newline) to one output line."""
        try:
            return self.read_and_do(text)
        except CannotRead:
            return UNREADABLE

    def read_and_do(self, text):
        if len(text) > LONGEST:
            raise CannotRead
        # Exactly one space between fields: two in a row, or one at an end,
        # give an empty field, which nothing below takes.
        fields = text.split(b" ")
        command, rest = fields[0], fields[1:]

        if command in (b"H", b"E"):
            return self.start(command == b"H", rest)
        if self.unit is None:
            raise CannotRead
        if command == b"O":
            return self.open(rest)
        if command == b"R":
            return self.reply(rest)
        if command == b"L":
            return self.release(rest)
        if command == b"B":
            return self.bytes_in(rest)
        if command == b"T":
            return self.ticks(rest)
        if command == b"D":
            self.expect(rest, 0)
            return answer(*self.unit.drained())
        if command == b"V":
            return self.verdict(rest)
        if command == b"K":
            # 02, request 2: the count of reports that were dropped.
            self.expect(rest, 0)
            return "K %d" % self.unit.dropped
        raise CannotRead

    def expect(self, rest, count):
        if len(rest) != count:
            raise CannotRead

    def start(self, host, rest):
        """T1, T2, T3, T4, RTY, DEVID, duplicate check, last number."""
        self.expect(rest, 8)
        settings = [number(field, 65535) for field in rest]
        if not plain_unit.settings_in_range(*settings):
            return answer(4, b"", 20)      # the old unit stays as it was
        self.unit = self.make_unit(host, *settings)
        return answer(0, b"", 20)

    def open(self, rest):
        """`O` source W stream function data"""
        self.expect(rest, 5)
        source = number(rest[0], 65535)
        w = number(rest[1], 1)
        stream = number(rest[2], 255)
        function = number(rest[3], 255)
        data = data_bytes(rest[4])
        return answer(*self.unit.open(source, w, stream, function, data))

    def reply(self, rest):
        """`R` place function data"""
        self.expect(rest, 3)
        place = number(rest[0], 255)
        function = number(rest[1], 255)
        data = data_bytes(rest[2])
        return answer(*self.unit.reply(place, function, data))

    def release(self, rest):
        """`L` O or I and place"""
        self.expect(rest, 2)
        if rest[0] not in (b"O", b"I"):
            raise CannotRead
        place = number(rest[1], 255)
        return answer(*self.unit.release(rest[0] == b"O", place))

    def bytes_in(self, rest):
        """`B` bytes: outputs joined, the last call's number and note."""
        self.expect(rest, 1)
        data = data_bytes(rest[0])
        refusal, note, joined = 0, 20, []
        for b in data:
            refusal, out, note = self.unit.byte(b)
            if out:
                joined.append(out)
        return answer(refusal, b"".join(joined), note)

    def ticks(self, rest):
        """`T` count: as for bytes; a zero count prints `0 - 20`."""
        self.expect(rest, 1)
        count = number(rest[0], MOST_TICKS)
        refusal, note, joined = 0, 20, []
        tick = self.unit.tick
        for _ in range(count):
            refusal, out, note = tick()
            if out:
                joined.append(out)
        return answer(refusal, b"".join(joined), note)

    def verdict(self, rest):
        """`V` place prints V, place, verdict, or `9 - 20`."""
        self.expect(rest, 1)
        place = number(rest[0], 255)
        verdict = self.unit.verdict(place)
        if verdict is None:
            return answer(9, b"", 20)
        return "V %d %d" % (place, verdict)


def run(script):
    """A whole script (bytes) to the list of its output lines."""
    lines = script.split(b"\n")
    if lines[-1] == b"":
        lines.pop()               # the script ended with a newline, or is empty
    bench = Bench()
    return [bench.line(text) for text in lines]


LISTING_IN = b"""\
H 5 50 45 45 3 1 1 0
O 0 1 1 1 -
B 04
D
B 06
B 05
B 0C8001010280010000000101000107
V 0
"""

LISTING_OUT = """\
0 - 20
0 05 20
0 0A000181018001000000010105 20
0 - 20
0 - 20
0 04 20
0 06 21
V 0 2
"""


# The sum of the report: 80+01+09+01+80+01+01 = 010D, 21+0A = 2B, and those of
# the header that it shows, 02+81+01+80+01+01 = 0106; in all 023E.
REPORT_IN = b"""\
E 1 1 1 1 0 1 1 0
B 05
B 0A000281018001000000010106
B 04
K
"""

REPORT_OUT = """\
0 - 20
0 04 20
0 0605 22
0 1680010901800100000001210A00028101800100000001023E 20
K 0
"""


def listing():
    """The listings must come out word for word."""
    different = 0
    for name, script, wanted in (("01", LISTING_IN, LISTING_OUT),
                                 ("request 2", REPORT_IN, REPORT_OUT)):
        got = "".join(line + "\n" for line in run(script))
        if got == wanted:
            print("listing of %s: as it should be" % name)
        else:
            different = 1
            print("listing of %s: DIFFERENT\n%s" % (name, got), end="")
    return different


def main():
    if sys.argv[1:] == ["--listing"]:
        return listing()
    bench = Bench()
    for text in sys.stdin.buffer:
        if text.endswith(b"\n"):
            text = text[:-1]
        sys.stdout.write(bench.line(text) + "\n")
    return 0


if __name__ == "__main__":
    sys.exit(main())
