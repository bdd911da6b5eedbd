#!/usr/bin/env python3
"""Tries the built program on generated inputs and judges every output by judge.py; where an input has a twin, the same readings in records
of version 1 or the same numbers in a table of version 1, the program must print the same for both, whatever the calculator says. So with
the floats around every half millimetre, too many to be worked out here: the calculator gives their millimetres alone. Where an input has a
wetter one, a second storm with more rain, no discharge may be less there and the variances must be equal. Where it has one in reaches, the
same river with its tanks written out as reaches, the program must print the same for each element's last tank.

    python3 tests/generated.py [--long] [--seed S] [--only K] [program]

The program is target/bin/cabinet unless another path is given; "calculator" stands for calculator/program.py itself, which must pass.
The last line is "generated: N inputs, F failed"; the exit code is 0 only where none failed. The first twenty failing inputs
are written to target/generated/; each can be tried again by its seed and number.
"""
import argparse
import re
import subprocess
import sys
import time
from pathlib import Path

from calculator import program, tried_figures
from inputs import every_half_millimetre, inputs, random_for
from judge import compared_reaches, compared_storms, judge, judged, rain_complaint, reaches_complaint, version_complaint

ROOT = Path(__file__).resolve().parent.parent
TIME_LIMIT = 120  # seconds for one input
MOST_SHOWN = 20  # failing inputs that are written out
# Fewer than these compared is a failure.
LEAST_STORMS = {"accepted whole": 180, "lines": 7_000, "larger discharges": 4_000, "forecasts on one side": 1}
LEAST_REACHES = {"rivers": 100, "lines": 3_500, "refusals": 30}


class Crashed(Exception):
    pass


def built_program(path):
    """The program under test as a callable of input, and size of the pieces in which it is written (0: all at once)."""
    def run(data, pieces=0):
        process = subprocess.Popen([path], stdin=subprocess.PIPE, stdout=subprocess.PIPE, stderr=subprocess.PIPE)
        if pieces:
            # Short reads: the program must not take a read that brings less than it asked for as the end of the input.
            for at in range(0, len(data), pieces):
                try:
                    process.stdin.write(data[at:at + pieces])
                    process.stdin.flush()
                except BrokenPipeError:
                    break
                time.sleep(0.0005)
            data = b""
        try:
            output, errors = process.communicate(data, timeout=TIME_LIMIT)
        except subprocess.TimeoutExpired:
            process.kill()
            process.communicate()
            raise Crashed(f"no end within {TIME_LIMIT} s")
        if process.returncode < 0:
            raise Crashed(f"ended by signal {-process.returncode}: {errors[-200:]!r}")
        return output
    return run


def calculator_program(data, pieces=0):
    return program.run(data)


def pair_complaints(under_test, given, seed, number, data, output):
    """What the outputs for an input and its twin, its wetter one, or the one in reaches, say against each other."""
    found = {}
    if given.twin:
        found |= version_complaint(output, under_test(given.twin(random_for(seed, number))))
    if given.wetter:
        wetter = given.wetter(random_for(seed, number))
        found |= rain_complaint(data, output, wetter, under_test(wetter), given.larger)
    if given.reaches:
        found |= reaches_complaint(data, output, under_test(given.reaches(random_for(seed, number))))
    return found


def tell(options, number, given, data, found):
    """Of a failing input: what is wrong, and its bytes, and those of the second storm or of the river in reaches."""
    failures = Path(ROOT / "target/generated")
    failures.mkdir(parents=True, exist_ok=True)
    place = failures / f"{'long' if options.long else 'quick'}-{options.seed}-{number}.bin"
    place.write_bytes(data)
    for name, build in (("wetter", given.wetter), ("reaches", given.reaches)):
        if build:
            place.with_suffix(f".{name}.bin").write_bytes(build(random_for(options.seed, number)))
    again = f"--seed {options.seed} --only {number}" + (" --long" if options.long else "")
    print(f"FAILED {again} ({given.family}), {len(data)} bytes in {place}")
    for check, complaint in found.items():
        print(f"  {check}: {complaint}")


def few_compared(words, compared, least):
    """Tells how many pairs were compared, and whether these are too few."""
    few = any(compared[name] < count for name, count in least.items())
    print(f"{words}: " + ", ".join(f"{count} {name}" for name, count in compared.items()) + (", TOO FEW" if few else ""))
    return few


def main():
    parser = argparse.ArgumentParser(description=__doc__, formatter_class=argparse.RawDescriptionHelpFormatter)
    parser.add_argument("program", nargs="?", default=str(ROOT / "target/bin/cabinet"))
    parser.add_argument("--long", action="store_true", help="more than 10,000 inputs")
    parser.add_argument("--seed", type=int, default=1)
    parser.add_argument("--only", type=int, help="try the input of this number alone and show both outputs")
    options = parser.parse_args()
    if options.program != "calculator" and not Path(options.program).is_file():
        sys.exit(f"{options.program} is not there; build the program first")
    under_test = calculator_program if options.program == "calculator" else built_program(str(Path(options.program).resolve()))
    tried_figures.check()
    chosen = list(enumerate(inputs(options.long)))
    if options.only is not None:
        chosen = [chosen[options.only]]
    started, failed, refusals = time.process_time(), 0, {}
    for number, given in chosen:
        data = given.build(random_for(options.seed, number))
        expected = program.run(data)
        for refusal in set(re.findall(rb"refused (\d+)", expected)):
            refusals[int(refusal)] = refusals.get(int(refusal), 0) + 1
        try:
            output = under_test(data, given.pieces)
            found = judge(data, output, expected, given.fractions) | pair_complaints(under_test, given, options.seed, number, data, output)
        except Crashed as crash:
            output, found = b"", {"crash": str(crash)}
        failed += bool(found)
        if found and failed <= MOST_SHOWN:
            tell(options, number, given, data, found)
        if options.only is not None:
            print(f"input: {data.hex()}\nexpected:\n{expected.decode()}output:\n{output.decode(errors='replace')}", end="")
    if options.only is None:
        complaint = version_complaint(*map(under_test, every_half_millimetre()))
        print(f"every half millimetre: {complaint.get('versions', 'as in version 1')}")
        failed += bool(complaint) + few_compared("pairs of storms", compared_storms, LEAST_STORMS)
        failed += few_compared("tanks beside reaches", compared_reaches, LEAST_REACHES)
    print("inputs by refusal: " + ", ".join(f"{number}: {count}" for number, count in sorted(refusals.items())))
    print("figures compared: " + ", ".join(f"{count} {way}" for way, count in judged.items()))
    print(f"{time.process_time() - started:.0f} s in this process", file=sys.stderr)
    print(f"generated: {len(chosen)} inputs, {failed} failed")
    return 1 if failed else 0


if __name__ == "__main__":
    sys.exit(main())
