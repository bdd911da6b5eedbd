#!/usr/bin/env python3
"""Tries the program on a live line: a pipe on which table and records come in pieces, with pauses.

    python3 tests/live_line.py [program]

After each whole record its lines must come before the next record's first byte is sent; before a record is whole nothing may come. What
must come is worked out by calculator/program.py. The last line is "live line: N answers in M lines, F failed" (M being lines of the
rain line, each a program of its own).
"""
import os
import select
import subprocess
import sys
import time
from pathlib import Path

from calculator.encode import record_bytes, table_bytes
from calculator.program import run
from calculator.tried_figures import EXAMPLE_INPUT
from inputs import (CEILING, DAM_RECORDS, FLOAT_GAP, FLOAT_RECORDS, GAP, PASSES, SMALL_RECORDS, TANK_RECORDS, dam_table, float_bits,
                    float_river, gauged_reaches, largest_tanks, random_for, small_table, some_records, some_table, tank_table)

ROOT = Path(__file__).resolve().parent.parent
PATIENCE = 2  # seconds within which an answer must come
PAUSE = 0.01  # seconds between pieces


class Failed(Exception):
    pass


class Line:
    """A program with pipes at both ends; `sent` is what it was given so far, `answers` counts what came back right."""

    def __init__(self, program):
        self.process = subprocess.Popen([program], stdin=subprocess.PIPE, stdout=subprocess.PIPE, bufsize=0)
        self.sent, self.got, self.answers = b"", b"", 0

    def send(self, data, pieces=1):
        """Sends the bytes in so many pieces; nothing may come back between them."""
        size = max(1, -(-len(data) // pieces))
        for at in range(0, len(data), size):
            if at:
                self.silent()
            self.process.stdin.write(data[at:at + size])
        self.sent += data

    def silent(self):
        if select.select([self.process.stdout], [], [], PAUSE)[0]:
            raise Failed(f"{os.read(self.process.stdout.fileno(), 200)!r} came before the record was whole")

    def receive(self, until):
        """The next bytes that come; none where the program has ended."""
        if not select.select([self.process.stdout], [], [], max(0, until - time.monotonic()))[0]:
            raise Failed(f"nothing came within {PATIENCE} s after {self.got[-60:]!r}")
        more = os.read(self.process.stdout.fileno(), 1 << 16)
        self.got += more
        return more

    def answered(self, begun=0):
        """What the program prints for all that was sent, but the bytes of a record begun, must be there while the line stays open."""
        expected, until = run(self.sent[:len(self.sent) - begun]), time.monotonic() + PATIENCE
        while len(self.got) < len(expected) and self.receive(until):
            pass
        if self.got != expected:
            raise Failed(f"the answers end in {self.got[-60:]!r}, not in {expected[-60:]!r}")
        self.answers += 1

    def ends(self):
        """The program ends by itself; with what it prints last it has printed all that it must."""
        until = time.monotonic() + PATIENCE
        while self.receive(until):
            pass
        if self.process.wait(PATIENCE) or self.got != run(self.sent):
            raise Failed(f"ended by {self.process.returncode} with {self.got[-60:]!r}")
        self.answers += 1

    def close(self):
        """The input stops here."""
        self.process.stdin.close()
        self.ends()

    def stop(self):
        for pipe in (self.process.stdin, self.process.stdout):
            pipe.close()
        self.process.kill()
        self.process.wait()


# ---- The lines -------------------------------------------------------------------------------------------------------------------------

SMALL = table_bytes(small_table())


def whole_records(line):
    """Table and records in one piece each, then in more and more pieces; the input ends between two records."""
    line.send(SMALL)
    line.silent()
    for pieces in (1, 2, 3, 11):
        line.send(record_bytes(*SMALL_RECORDS[pieces % 3]), pieces)
        line.answered()
    line.close()


def bytes_one_by_one(line):
    line.send(EXAMPLE_INPUT[:36], 36)
    line.send(EXAMPLE_INPUT[36:], 5)
    line.answered()
    line.close()


def table_and_record_at_once(line):
    """The end of the table comes with the beginning of a record, and the end of a record with the next one."""
    records = b"".join(record_bytes(*record) for record in SMALL_RECORDS)
    line.send(SMALL + records[:4], 2)
    line.send(records[4:11])
    line.answered()
    line.send(records[11:25])
    line.answered(begun=3)
    line.send(records[25:])
    line.answered()
    line.close()


def refused_records(line):
    """Refusals 11 to 14 are answered like steps; 10 by a wrong length ends the run while the line is open."""
    line.send(SMALL, 5)
    for rains, stages, version in (((0, 0), (GAP, GAP), 3), ((3_001, 0), (GAP, GAP), 1), ((0, 0), (30_001, GAP), 1), ((0, 0), (0, GAP), 1),
                                   ((5, 6), (1_500, 999), 1)):
        line.send(record_bytes(rains, stages, version=version), 3)
        line.answered()
    line.send(record_bytes((0,), (GAP, GAP)), 2)
    line.answered()
    line.ends()


def releases(line):
    """A river with dams: a release above C is answered by 17, and the run goes on."""
    line.send(table_bytes(dam_table()), 3)
    for record in (DAM_RECORDS[0], ((0, 0), (GAP,), (0, CEILING + 1)), DAM_RECORDS[1]):
        line.send(record_bytes(*record), 4)
        line.answered()
    line.close()


def floats(line):
    """Records of both versions: a float above 30 m is answered by 18, and the run goes on."""
    line.send(table_bytes(float_river()[0]))
    too_high = (0, 0), (float_bits(30.001), FLOAT_GAP), (0, 0), 2
    for record in (FLOAT_RECORDS[0], too_high, ((5, 6), (1_500, GAP), (7, 8)), FLOAT_RECORDS[1]):
        line.send(record_bytes(*record), 4)
        line.answered()
    line.send(record_bytes(*FLOAT_RECORDS[2])[:-4], 2)  # as long as one of version 1
    line.silent()
    line.close()


def noises(line):
    """A table of version 2 in pieces: a noise above C is answered by 16, and the run goes on."""
    table = table_bytes(gauged_reaches(PASSES, (200, 100, 20_000, -500)))
    line.send(table[:-2], 5)  # without the last β
    line.silent()
    line.send(table[-2:])
    for stages in ((8_000, 2_000), (14_000, 2_000), (14_000, 499), (GAP, 1_500)):
        line.send(record_bytes((), stages), 3)
        line.answered()
    line.close()


def tanks_of_a_river(line):
    """A river with tanks in pieces: a refused record leaves every tank as it was, and the run goes on."""
    line.send(table_bytes(tank_table()), 5)
    line.silent()
    for record in (*TANK_RECORDS, ((0, 3_001), (GAP, GAP), (0,)), *TANK_RECORDS):
        line.send(record_bytes(*record), 3)
        line.answered()
    line.close()


def largest_of_tanks(line):
    """64 elements of 8 tanks: all lines of a record before the next one."""
    _, table, records = next(largest_tanks())
    line.send(table_bytes(table), 4)
    for record in records:
        line.send(record_bytes(*record), 2)
        line.answered()
    line.close()


def cut_record(left):
    def lines(line):
        line.send(SMALL)
        line.send(record_bytes(*SMALL_RECORDS[0]))
        line.answered()
        line.send(record_bytes(*SMALL_RECORDS[1])[:left], 2)
        line.silent()
        line.close()
    return lines


def cut_table(left):
    def lines(line):
        line.send(SMALL[:left])
        line.silent()
        line.close()
    return lines


def refused_table(line):
    """A whole table that is refused ends the run while the line is open."""
    line.send(SMALL[:4] + b"\3" + SMALL[5:], 4)
    line.answered()
    line.ends()


def long_table(line):
    """A table that says it is longer than the longest is refused on what has come."""
    line.send((2_439).to_bytes(4, "big") + SMALL[4:])
    line.close()


def largest_river(line):
    """64 elements, 12 leads, 16 gauges of version 2: some forty thousand bytes for a record, all of them before the next one."""
    random = random_for(1, 1)
    table = some_table(random, 64, "tree", "typical", leads=12, gauge_count=16, version=2)
    line.send(table_bytes(table), 7)
    for record in some_records(random, table, 3, "typical"):
        line.send(record_bytes(*record), 2)
        line.answered()
    line.close()


LINES = {"whole records": whole_records, "bytes one by one": bytes_one_by_one, "table and record at once": table_and_record_at_once,
         "refused records": refused_records, "releases": releases, "floats": floats, "noises": noises, "tanks": tanks_of_a_river,
         "refused table": refused_table, "long table": long_table, "largest river": largest_river, "512 tanks": largest_of_tanks}
LINES |= {f"record cut at {left}": cut_record(left) for left in (0, 1, 2, 3, 10)}
LINES |= {f"table cut at {left}": cut_table(left) for left in (0, 3, 4, 9, len(SMALL) - 1)}


def main():
    program = str(Path(sys.argv[1] if len(sys.argv) > 1 else ROOT / "target/bin/cabinet").resolve())
    answers = failed = 0
    for name, lines in LINES.items():
        line = Line(program)
        try:
            lines(line)
        except (Failed, BrokenPipeError, subprocess.TimeoutExpired) as problem:
            failed += 1
            print(f"FAILED {name}: {problem!r}")
        answers += line.answers
        line.stop()
    print(f"live line: {answers} answers in {len(LINES)} lines, {failed} failed")
    return 1 if failed else 0


if __name__ == "__main__":
    sys.exit(main())
