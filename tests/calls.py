#!/usr/bin/env python3
"""Tries the C interface (include/river.h) on generated calls and compares every number of every reply with the calculator's.

    tools/build library
    python3 tests/calls.py [--seed S] [--only K] [library]

The library is target/staticlib/libriver.a unless another path is given; tests/calls.c is linked with it (gcc) and makes the calls. Compared
are the refusal, all 7,002 numbers of the lent state, the count and all lent numbers, what a rate answers, or the bits of what a display
gets, and whether the host's own memory stayed as it was. A call's state has as many places as the case needs; all others, up to 1,000, the
driver fills itself, and no call may read or change them.
Some neighbouring calls are held against each other too, whatever the calculator says: a trial against the step that follows it, two trials
that differ in one gauge's reading, two calls with the same readings in records of either version, two with the same numbers in tables of
either version, two of storms, the second with more rain, and two on a river with tanks and on the same river in reaches. Runs from a start
are judged by the run in fractions too. The last line is "calls: N calls in M cases, F failed"; the exit code is 0 only where none failed. A
failed case can be made again by its seed and number.
"""
import argparse
import subprocess
import sys
import time
from array import array
from dataclasses import dataclass
from pathlib import Path

from call_cases import cases
from calculator import floats
from calculator.fractions_run import ExactNumbers, EnclosedNumbers, FractionsRun
from calculator.whole_numbers import GAUGE_BYTES, RULES, Refused
from inputs import random_for
from judge import cells_of, tank_counts

ROOT = Path(__file__).resolve().parent.parent
ENTRIES = {"start": 1, "step": 2, "forecast": 3, "check": 4, "version": 5, "rate": 6, "trial": 7, "show": 8}
VERSION = 6  # of the interface
NOTHING = {"check": 10, "rate": 3, "show": 2}  # numbers of an answer that are all 0 where the call is refused
MOST_SHOWN = 20  # failed cases that are told of
TIME_LIMIT = 60  # seconds for all calls


@dataclass
class Reply:
    refusal: int
    count: int  # numbers written by a forecast or a trial
    kept: int  # 1: all that the host keeps stayed as it was
    numbers: array  # what was sent of the state, all lent, the plan's, the versions, discharge, noise and pieces, or the bits of two floats


def state_numbers(state):
    numbers = array("Q", (state.count, state.steps))
    for figures, rains in zip(state.figures, state.rains):
        numbers.extend(figures.numbers())
        numbers.extend(rains)
    return numbers


class Library:
    """What river.h promises, worked out by the calculator; tests/mutants.py makes wrong libraries of it."""

    def __init__(self, rules=RULES):
        self.rules = rules

    def reply(self, call):
        try:
            return getattr(self, call.entry)(call)
        except Refused as refused:
            return self.refused(call, refused.number)

    def refused(self, call, number):
        if call.entry in ("forecast", "trial"):
            return Reply(number, 0, 1, array("Q", call.lent))
        if call.entry in NOTHING:
            return Reply(number, 0, 1, array("Q", [0] * NOTHING[call.entry]))
        return Reply(number, 0, 1, state_numbers(call.state))

    def start(self, call):
        return Reply(0, 0, 1, state_numbers(self.rules.start(call.table, call.state)))

    def step(self, call):
        return Reply(0, 0, 1, state_numbers(self.rules.step(call.table, call.record, call.state)))

    def forecast(self, call):
        count, numbers = self.rules.forecast(call.table, call.state, call.lent)
        return Reply(0, count, 1, array("Q", numbers))

    def trial(self, call):
        count, numbers = self.rules.trial(call.table, call.record, call.state, call.lent)
        return Reply(0, count, 1, array("Q", numbers))

    def check(self, call):
        table = self.rules.table(call.table)
        count, leads, gauges, basins, dams = len(table.elements), table.leads, len(table.gauges), table.basins, table.dams
        return Reply(0, 0, 1, array("Q", (count, leads, gauges, basins, dams, table.places - count, table.places,
                                          3 + 2 * basins + 4 * dams + 2 * gauges, 4 * count * (leads + 1), table.step_minutes)))

    def version(self, call):
        return Reply(0, 0, 1, array("Q", (VERSION, VERSION)))

    def rate(self, call):
        rating = self.rules.rate(call.table, *call.asked)
        return Reply(rating.refusal, 0, 1, array("Q", (rating.discharge, rating.noise, rating.pieces)))

    def show(self, call):
        return Reply(0, 0, 1, array("Q", self.rules.show(*call.asked)))


# ---- The built library -------------------------------------------------------------------------------------------------------------------


def built_driver(library):
    driver = ROOT / "target/tests/calls"
    driver.parent.mkdir(parents=True, exist_ok=True)
    command = ["gcc", "-O2", "-Wall", "-Wextra", f"-I{ROOT / 'include'}", "-o", driver, ROOT / "tests/calls.c", library]
    subprocess.run(command, check=True)
    return driver


def call_bytes(call):
    head = array("Q", (ENTRIES[call.entry], call.side, len(call.table), len(call.record), len(call.lent), *call.asked,
                       len(call.state.figures)))
    return head.tobytes() + call.table + call.record + state_numbers(call.state).tobytes() + array("Q", call.lent).tobytes()


def replies_in(data):
    """The driver's replies, as many as it wrote whole."""
    at = 0
    while at + 32 <= len(data):
        refusal, count, kept, size = array("Q", data[at:at + 32])
        at += 32
        if at + 8 * size > len(data):
            return
        yield Reply(refusal, count, kept, array("Q", data[at:at + 8 * size]))
        at += 8 * size


def driver_output(driver, calls):
    try:
        return subprocess.run([driver], input=b"".join(map(call_bytes, calls)), stdout=subprocess.PIPE, timeout=TIME_LIMIT).stdout
    except subprocess.TimeoutExpired as expired:
        return expired.output or b""


def made_calls(driver, calls, starts=MOST_SHOWN):
    """The reply to each call; None for one that ended the driver, which is then started again, and for all after its last start."""
    replies = []
    for _ in range(starts):
        replies += replies_in(driver_output(driver, calls[len(replies):]))
        if len(replies) >= len(calls):
            return replies
        replies.append(None)
    return replies + [None] * (len(calls) - len(replies))


# ---- The comparison ----------------------------------------------------------------------------------------------------------------------


def complaint(expected, reply):
    """What is wrong with a reply; None where nothing is."""
    if reply is None:
        return "ended the driver: a read or write outside the lent memory, or no end"
    for name in ("refusal", "count", "kept"):
        if getattr(reply, name) != getattr(expected, name):
            return f"{name} {getattr(reply, name)}, not {getattr(expected, name)}"
    if reply.numbers == expected.numbers:
        return None
    if len(reply.numbers) != len(expected.numbers):
        return f"{len(reply.numbers)} numbers, not {len(expected.numbers)}"
    at, got, right = next((at, *pair) for at, pair in enumerate(zip(reply.numbers, expected.numbers)) if pair[0] != pair[1])
    return f"number {at} is {got}, not {right}"


def figures_in(call, reply):
    """By element, and of a forecast by lead too, the four figures that an accepted call hands out."""
    if call.entry in ("forecast", "trial"):
        return [reply.numbers[at:at + 4] for at in range(0, reply.count, 4)]
    return [reply.numbers[at:at + 4] for at in range(2, 2 + 7 * call.table[8], 7)]


def handed_out(call, reply, run):
    """(figure, margin, exact) of all that an accepted call of a run hands out."""
    by_lead = run.forecast() if call.entry == "forecast" else [run.trial(call.record) if call.entry == "trial" else run.figures]
    for at, row in enumerate(figures_in(call, reply)):
        place, lead = divmod(at, len(by_lead))
        discharge, variance = by_lead[lead][place]
        yield row[0], row[1], discharge
        yield row[2], row[3], variance


def exact_complaint(calls, replies):
    """The first figure of a run from a start that is not within its margin of the run in fractions, and how many were compared."""
    numbers = ExactNumbers() if sum(tank_counts(calls[0].table)) <= 4 else EnclosedNumbers()
    run, compared = FractionsRun(calls[0].table, numbers), 0
    for place, (call, reply) in enumerate(zip(calls, replies)):
        if reply.refusal:
            continue
        if call.entry == "step":
            run.step(call.record)
        for figure, margin, exact in handed_out(call, reply, run):
            compared += 1
            if not numbers.within(figure, exact, margin):
                return f"call {place}: {figure} is not within {margin} of the run in fractions", compared
    return None, compared


def reached(table, gauge):
    """The places (from 0) that the water of a gauge (from 0) reaches: its element's, and on along the downs up to a dam, not into it."""
    kinds, downs = table[10:10 + 26 * table[8]:26], table[11:10 + 26 * table[8]:26]
    number, places = table[10 + 26 * table[8] + GAUGE_BYTES[table[4]] * gauge], set()
    while number and kinds[number - 1] != 3:
        places.add(number - 1)
        number = downs[number - 1]
    return places


def changed_gauge(table, one, other):
    """The gauge (from 0) in whose reading alone two records differ; None where they differ in more, or in nothing."""
    size = 4 if one[2] == 2 else 2
    readings = len(one) - size * table[9]
    changed = [gauge for gauge in range(table[9]) if one[readings + size * gauge:][:size] != other[readings + size * gauge:][:size]]
    return changed[0] if len(one) == len(other) and one[:readings] == other[:readings] and len(changed) == 1 else None


def step_complaint(trial, step):
    """M-102: what a trial answers, without 15, is what the step on the same state answers."""
    if trial.refusal == 15:
        return None
    if trial.refusal != step.refusal:
        return f"the trial answers {trial.refusal}, the step {step.refusal}"
    places = [] if trial.refusal else range(trial.count // 4)
    return next((f"the trial and the step differ at element {place + 1}" for place in places
                 if trial.numbers[4 * place:4 * place + 4] != step.numbers[2 + 7 * place:6 + 7 * place]), None)


def independence_complaint(table, gauge, one, other):
    """M-102: two accepted trials that differ in this gauge's reading agree where its water does not come."""
    apart = set(range(table[8])) - reached(table, gauge)
    return next((f"the reading of gauge {gauge + 1} changes element {place + 1}, which its water does not reach" for place in sorted(apart)
                 if one.numbers[4 * place:4 * place + 4] != other.numbers[4 * place:4 * place + 4]), None)


def storm_complaint(one, reply, other, next_reply):
    """M-106: of two accepted calls that of the storm with more rain has no less discharge, and equal variances."""
    rows = zip(figures_in(one, reply), figures_in(other, next_reply))
    return next((f"more rain brings {more[0]} and variance {more[2]} for {less[0]} and {less[2]}, row {at}"
                 for at, (less, more) in enumerate(rows) if more[0] < less[0] or more[2] != less[2]), None)


def reaches_complaint(one, reply, other, next_reply):
    """M-107: of two calls, on a river with tanks and on the same river in reaches, what each tank has is what its reach has, and what is
    handed out of an element is what is handed out of its last reach."""
    if reply.refusal != next_reply.refusal:
        return f"refusal {reply.refusal}, in reaches {next_reply.refusal}"
    cells = cells_of(one.table)
    if one.entry in ("start", "step"):
        if reply.numbers[1] != next_reply.numbers[1]:
            return "another step count than in reaches"
        return next((f"place {place} is not as in reaches" for at, place in enumerate(cells)
                     if reply.numbers[2 + 7 * place:9 + 7 * place] != next_reply.numbers[2 + 7 * at:9 + 7 * at]), None)
    size = 0 if reply.refusal else reply.count // one.table[8]  # numbers of an element
    return next((f"element {place + 1} is not as in reaches" for at, place in enumerate(cells) if place < one.table[8]
                 and reply.numbers[size * place:size * (place + 1)] != next_reply.numbers[size * at:size * (at + 1)]), None)


def neighbour_complaints(calls, replies):
    """What neighbouring calls on one table say against each other, by place of the second; None where nothing."""
    for place in range(1, len(calls)):
        (one, other), (reply, next_reply) = calls[place - 1:place + 1], replies[place - 1:place + 1]
        if other.twin:
            yield place, None if reply == next_reply else "the same readings or table in the other version are answered otherwise"
        if other.wetter and not (reply.refusal or next_reply.refusal):
            yield place, storm_complaint(one, reply, other, next_reply)
        if other.reaches:
            yield place, reaches_complaint(one, reply, other, next_reply)
        if one.entry != "trial" or one.table != other.table or one.state is not other.state:
            continue
        if other.entry == "step" and one.record == other.record:
            yield place, step_complaint(reply, next_reply)
        elif other.entry == "trial" and not (reply.refusal or next_reply.refusal):
            gauge = changed_gauge(one.table, one.record, other.record)
            if gauge is not None:
                yield place, independence_complaint(one.table, gauge, reply, next_reply)


def compare(case, calls, expected, replies):
    """All complaints about a case, how many pairs of neighbouring calls were held against each other, and how many figures were compared
    with fractions."""
    found = [f"call {place} ({call.name}): {words}" for place, (call, right, reply) in enumerate(zip(calls, expected, replies))
             if (words := complaint(right, reply))]
    if None in replies:
        return found, 0, 0
    neighbours = list(neighbour_complaints(calls, replies))
    found += [f"call {place} ({calls[place].name}): {words}" for place, words in neighbours if words]
    if not case.exact:
        return found, len(neighbours), 0
    words, compared = exact_complaint(calls, replies)
    return found + ([words] if words else []), len(neighbours), compared


def show(call, expected, reply):
    print(f"{call.name}: {call.entry}, side {call.side}, {len(call.lent)} lent, asked about {call.asked}")
    print(f"  table {call.table.hex()}\n  record {call.record.hex()}")
    print(f"  state {list(state_numbers(call.state))}\n  expected {expected}\n  reply    {reply}")


def try_cases(driver, chosen, seed, shown):
    """Makes the calls of the chosen cases; gives counts of calls, failed cases, pairs and figures compared, and of calls by refusal."""
    calls = [list(case.build(random_for(seed, number))) for number, case in chosen]
    replies, right = iter(made_calls(driver, sum(calls, []))), Library()
    failed, pairs, figures, refusals = 0, 0, 0, {}
    for (number, case), its_calls in zip(chosen, calls):
        expected, its_replies = [right.reply(call) for call in its_calls], [next(replies) for _ in its_calls]
        for call, promised, reply in zip(its_calls, expected, its_replies):
            refusals[promised.refusal] = refusals.get(promised.refusal, 0) + 1
            if shown:
                show(call, promised, reply)
        found, neighbours, compared = compare(case, its_calls, expected, its_replies)
        pairs, figures, failed = pairs + neighbours, figures + compared, failed + bool(found)
        if found and failed <= MOST_SHOWN:
            print(f"FAILED --seed {seed} --only {number} ({case.name})\n  " + "\n  ".join(found[:5]))
    return sum(map(len, calls)), failed, pairs, figures, refusals


def main():
    parser = argparse.ArgumentParser(description=__doc__, formatter_class=argparse.RawDescriptionHelpFormatter)
    parser.add_argument("library", nargs="?", default=str(ROOT / "target/staticlib/libriver.a"))
    parser.add_argument("--seed", type=int, default=1)
    parser.add_argument("--only", type=int, help="the case of this number alone, with all its numbers")
    options = parser.parse_args()
    if not Path(options.library).is_file():
        sys.exit(f"{options.library} is not there; build it by `tools/build library`")
    started = time.perf_counter()
    floats.check()
    chosen = list(enumerate(cases()))
    if options.only is not None:
        chosen = [chosen[options.only]]
    count, failed, pairs, figures, refusals = try_cases(built_driver(options.library), chosen, options.seed, options.only is not None)
    print("calls by refusal: " + ", ".join(f"{number}: {times}" for number, times in sorted(refusals.items())))
    print(f"figures compared with the run in fractions: {figures}; neighbouring calls held against each other: {pairs} pairs")
    print(f"{time.perf_counter() - started:.1f} s", file=sys.stderr)
    print(f"calls: {count} calls in {len(chosen)} cases, {failed} failed")
    return 1 if failed else 0


if __name__ == "__main__":
    sys.exit(main())
