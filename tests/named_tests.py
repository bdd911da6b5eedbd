#!/usr/bin/env python3
"""Holds the columns "tried by" of docs/PROOFS.md to the tests that they name, and the code that it shows to the program's.

    python3 tests/named_tests.py [document]

  names   each stands in the quick list of inputs.py, in call_cases.py, live_line.py or mutants.py, or begins names that stand there
  rules   by the calculator the named inputs print the rule's number, and not all of them; the same for the named calls' refusals
  wrong   each wrong program or library in Python is caught by inputs or calls of its row, by an input with a wetter one only where these
          two storms show it; of those in C only the name is looked up
  code    the program's main is shown, and what is shown stands so in its source

The last line is "named tests: N names, F failed"; the exit code is 0 only where none failed. Nothing is built or started for it.
"""
import re
import sys
from functools import lru_cache
from pathlib import Path

from calculator.program import run
from call_cases import cases
from calls import Library
from inputs import inputs, random_for
from judge import judge, rain_complaint
from live_line import LINES
from mutants import SEED, WRONG_IN_C, libraries, mutants

ROOT = Path(__file__).resolve().parent.parent
DOCUMENT, SOURCE = ROOT / "docs/PROOFS.md", ROOT / "crates/cabinet/src/main.rt"
COLUMN, RULES_SECTION = "tried by", "The rules"
RULES_OF_CALLS = (8, 15)  # the program never prints these
PART = re.compile(r"(inputs|calls|line|wrong) (`[^`]+`(?:, `[^`]+`)*)")
ALL_INPUTS = re.compile(r"all inputs, (bytes|fractions)")
INPUTS, CASES, PROGRAMS, WRONG_LIBRARIES = inputs(), cases(), dict(mutants()), dict(libraries())
KNOWN = {"inputs": [given.family for given in INPUTS], "calls": [case.name for case in CASES], "line": list(LINES),
         "wrong": [*PROGRAMS, *WRONG_LIBRARIES, *(f"in C, {name}" for name in WRONG_IN_C)]}


class Row:
    """A row of a table with the column: its section, its first cell, the names by kind, and the check of all inputs, if it has one."""

    def __init__(self, section, first, cell):
        self.section, self.first, self.check = section, first, None
        self.names, self.unread = {kind: [] for kind in KNOWN}, []
        for part in cell.split("; "):
            if match := PART.fullmatch(part):
                self.names[match[1]] += re.findall("`([^`]+)`", match[2])
            elif match := ALL_INPUTS.fullmatch(part):
                self.check = match[1]
            else:
                self.unread.append(part)

    def found(self, kind):
        """What the row's names of a kind stand for."""
        return {each for name in self.names[kind] for each in meant(kind, name)}


@lru_cache(maxsize=None)
def meant(kind, name):
    """The name itself or, where there is none, all that begin with it and go on with a space or a comma."""
    known = KNOWN[kind]
    return [name] if name in known else [each for each in known if each.startswith((f"{name} ", f"{name},"))]


def rows_of(text):
    section, inside = "", False
    for line in text.splitlines():
        if line.startswith("#"):
            section = line.lstrip("# ")
        cells = [cell.strip() for cell in line.strip("| ").split("|")] if line.startswith("|") else []
        if not cells or cells[-1] == COLUMN:
            inside = bool(cells)
        elif inside and not line.startswith("|-"):
            yield Row(section, cells[0], cells[-1])


# ---- What the calculator says ----------------------------------------------------------------------------------------------------------


@lru_cache(maxsize=None)
def input_and_output(number):
    data = INPUTS[number].build(random_for(SEED, number))
    return data, run(data)


@lru_cache(maxsize=None)
def calls_and_replies(number):
    calls = list(CASES[number].build(random_for(SEED, number)))
    return [(call, Library().reply(call)) for call in calls]


def printed(families):
    """For each input of these families the numbers that it prints, as a set."""
    chosen = (number for number, given in enumerate(INPUTS) if given.family in families)
    return [{int(refusal) for refusal in re.findall(rb"refused (\d+)", input_and_output(number)[1])} for number in chosen]


def refused(names):
    chosen = (number for number, case in enumerate(CASES) if case.name in names)
    return [{reply.refusal} for number in chosen for _, reply in calls_and_replies(number)]


def caught_on(number, wrong, check):
    """Whether an input shows that a program is wrong: by its storms, if it has a wetter one."""
    given = INPUTS[number]
    if given.wetter:
        data, wetter = (build(random_for(SEED, number)) for build in (given.build, given.wetter))
        return bool(rain_complaint(data, wrong(data), wetter, wrong(wetter)))
    data, right = input_and_output(number)
    output = wrong(data)
    return output != right and (check != "fractions" or "fractions" in judge(data, output, right))


def program_caught(row, wrong):
    families = row.found("inputs")
    named = [number for number, given in enumerate(INPUTS) if given.family in families]
    every = [number for number, given in enumerate(INPUTS) if given.fractions] if row.check else []
    return any(caught_on(number, wrong, row.check) for number in named + every)


def library_caught(row, wrong):
    names = row.found("calls")
    chosen = (number for number, case in enumerate(CASES) if case.name in names)
    return any(wrong.reply(call) != right for number in chosen for call, right in calls_and_replies(number))


# ---- The three checks ------------------------------------------------------------------------------------------------------------------


def name_complaints(row):
    yield from (f"'{part}' is neither a kind with names nor all inputs" for part in row.unread)
    for kind, names in row.names.items():
        yield from (f"no {kind} `{name}`" for name in names if not meant(kind, name))


def rule_complaints(row):
    if row.section != RULES_SECTION or not row.first.isdigit():
        return
    rule = int(row.first)
    for kind, numbers, due in (("inputs", printed(row.found("inputs")), rule not in RULES_OF_CALLS),
                               ("calls", refused(row.found("calls")), rule in RULES_OF_CALLS)):
        if not numbers and not due:
            continue
        if not any(rule in each for each in numbers):
            yield f"none of the {kind} gives {rule}"
        elif all(rule in each for each in numbers):
            yield f"all of the {kind} give {rule}, none is off its condition"


def wrong_complaints(row):
    for name in sorted(row.found("wrong")):
        if name in PROGRAMS and not program_caught(row, PROGRAMS[name]):
            yield f"no input of the row catches `{name}`"
        if name in WRONG_LIBRARIES and not library_caught(row, WRONG_LIBRARIES[name]):
            yield f"no call of the row catches `{name}`"


def code_complaints(document):
    blocks = re.findall(r"^```rust\n(.*?)^```$", document, re.S | re.M)
    if not any("fn main(" in block for block in blocks):
        yield "the program's main is not shown"
    for block in blocks:
        if block not in SOURCE.read_text():
            yield f"not so in {SOURCE.relative_to(ROOT)}: {block.splitlines()[0]}"


def main():
    document = (Path(sys.argv[1]) if len(sys.argv) > 1 else DOCUMENT).read_text()
    rows = list(rows_of(document))
    failed = 0
    for complaint in code_complaints(document):
        failed += 1
        print(f"FAILED code: {complaint}")
    for row in rows:
        for complaint in (*name_complaints(row), *rule_complaints(row), *wrong_complaints(row)):
            failed += 1
            print(f"FAILED {row.section}, {row.first}: {complaint}")
    rules = {row.first for row in rows if row.section == RULES_SECTION}
    for rule in range(1, 19):
        if str(rule) not in rules:
            failed += 1
            print(f"FAILED {RULES_SECTION}: no row for {rule}")
    names = sum(len(names) for row in rows for names in row.names.values())
    print(f"named tests: {names} names, {failed} failed")
    return 1 if failed else 0


if __name__ == "__main__":
    sys.exit(main())
