"""What judges one output of the program: four checks, each by itself.

  bytes      the output is, byte for byte, that of calculator/program.py
  form       the output has document 01's lines: figures by element and lead, refusals, in the order of the records
  fractions  each printed discharge and variance is within its margin of the run in fractions ("The run in fractions")
  limit      where no reading has come in at or above an element, its discharge margin is at most 16 x n x c,
             n being step count plus lead and c the count of elements at or above, of which every tank counts (M-107)

form, fractions and limit look at the program's own lines and at the input, never at the whole-number calculator. A fifth check, versions,
looks at two outputs: the same readings in records of either version print the same lines (M-104), and so do the same numbers in a table of
either version, β being 0 (M-105). A sixth, rain, looks at the outputs of two storms, the second with at least the rain of the first
(M-106). A seventh, reaches, looks at the outputs for a river with tanks and for the same river with all tanks written out as reaches: the
lines of each element's last tank are the same (M-107).
"""
import re
from itertools import takewhile

from calculator.fractions_run import EnclosedNumbers, ExactNumbers, FractionsRun
from calculator.program import cut_records, cut_table

FIGURE_LINE = re.compile(rb"(0|[1-9][0-9]*)(?: (?:0|[1-9][0-9]*)){6}")
REFUSAL_LINE = re.compile(rb"(0|[1-9][0-9]*) refused (1[0-8]|[1-9])")
EXACT_WORK = 40  # elements and inner tanks x (steps + leads) up to which the run is in fractions; above, it is enclosed between bounds


judged = {"in fractions": 0, "between bounds": 0}  # discharges and variances compared so far
# Of pairs of storms, so far; on one side is a forecast where the other storm's is refused.
compared_storms = {"accepted whole": 0, "lines": 0, "larger discharges": 0, "forecasts on one side": 0}
compared_reaches = {"rivers": 0, "lines": 0, "refusals": 0}  # of rivers with tanks beside the same in reaches, so far


class Malformed(Exception):
    pass


def output_lines(output):
    if not output:
        return []
    if not output.endswith(b"\n"):
        raise Malformed("the last line does not end")
    return output[:-1].split(b"\n")


def answers(data, output):
    """By record: ("figures", record, rows) or ("refused", record, number, whether the step was kept). Read off the program's own lines."""
    lines = output_lines(output)
    table = cut_table(data)
    if table is None or len(table) < 10:
        if lines != [b"0 refused 1"]:
            raise Malformed("a cut table and another answer than refusal 1")
        return
    if lines and re.fullmatch(rb"0 refused [1-7]", lines[0]):
        if len(lines) > 1:
            raise Malformed("lines after a refused table")
        return
    count, leads = table[8], table[7]
    at = steps = 0
    for record in cut_records(data, len(table)):
        if at == len(lines):
            raise Malformed(f"no answer to the record after {steps} accepted steps")
        refusal = REFUSAL_LINE.fullmatch(lines[at])
        if refusal:
            kept, number = int(refusal[1]) - steps, int(refusal[2])
            if kept not in (0, 1) or (kept == 1 and number not in (15, 16)):
                raise Malformed(f"step count {int(refusal[1])} in a refusal after {steps} accepted steps")
            at, steps = at + 1, steps + kept
            yield "refused", record, number, kept == 1
            if number <= 10:
                break
            continue
        steps += 1
        size = count * (leads + 1)
        rows = lines[at:at + size]
        at += size
        if len(rows) < size or not all(FIGURE_LINE.fullmatch(row) for row in rows):
            raise Malformed(f"figure lines of step {steps}")
        rows = [tuple(map(int, row.split())) for row in rows]
        if [row[:3] for row in rows] != [(steps, number, lead) for number in range(1, count + 1) for lead in range(leads + 1)]:
            raise Malformed(f"step, element or lead in the lines of step {steps}")
        yield "figures", record, rows
    if at != len(lines):
        raise Malformed("more lines than answers")


def close(numbers, figure, exact, margin):
    try:
        return numbers.within(figure, exact, margin)
    except ArithmeticError:
        return None


def check_figures(data, output, numbers, run_of=FractionsRun):
    """The checks fractions and limit over a whole output: a dict of check to its first complaint."""
    table = cut_table(data)
    found, run, above, counts = {}, None, None, None
    for answer in answers(data, output):
        if run is None:
            run = run_of(table, numbers)
            above, counts = run.places_above(), run.counts_above()
        if answer[0] == "refused":
            if answer[3]:
                run.step(answer[1])
            continue
        run.step(answer[1])
        exact = run.forecast()
        read_above = [bool(places & run.read) for places in above]
        judged["in fractions" if isinstance(numbers, ExactNumbers) else "between bounds"] += 2 * len(answer[2])
        for row in answer[2]:
            steps, number, lead, discharge, margin, variance, variance_margin = row
            exact_discharge, exact_variance = exact[lead][number - 1]
            for name, figure, true, its_margin in (("discharge", discharge, exact_discharge, margin),
                                                   ("variance", variance, exact_variance, variance_margin)):
                verdict = close(numbers, figure, true, its_margin)
                if verdict is None:
                    raise ArithmeticError(f"bounds too wide at {row}")
                if not verdict:
                    found.setdefault("fractions", f"{name} outside its margin: {' '.join(map(str, row))}")
            if not read_above[number - 1] and margin > 16 * (steps + lead) * counts[number - 1]:
                found.setdefault("limit", f"margin above 16 x n x c: {' '.join(map(str, row))}")
    return found


def judge(data, output, expected, fractions=True):
    """A dict of check to complaint; empty where the output is right."""
    found = {}
    if output != expected:
        at = next((i for i, (x, y) in enumerate(zip(output, expected)) if x != y), min(len(output), len(expected)))
        line = output.count(b"\n", 0, at) + 1
        found["bytes"] = f"differs at byte {at}, line {line}"
    try:
        if fractions:
            try:
                found |= check_figures(data, output, chosen_numbers(data))
            except ArithmeticError:
                found |= check_figures(data, output, ExactNumbers())
        else:
            for _ in answers(data, output):
                pass
    except Malformed as malformed:
        found["form"] = str(malformed)
    except Exception as error:  # a wrong program may accept a record that the run in fractions cannot read
        found["form"] = f"{type(error).__name__}: {error}"
    return found


def version_complaint(output, other):
    """The check versions: a dict as judge gives it, of the output for records or a table of version 2 beside that for version 1."""
    lines, others = output.split(b"\n"), other.split(b"\n")
    apart = next((line for line, pair in enumerate(zip(lines, others), 1) if pair[0] != pair[1]), min(len(lines), len(others)))
    return {} if lines == others else {"versions": f"differs from version 1 at line {apart}"}


def step_stands(answer):
    return answer[0] == "figures" or answer[3]


def rain_complaint(data, output, wetter, its_output, must_be_larger=False):
    """The check rain (M-106): a dict as judge gives it, of two storms of one table, equal but for the rains, of which the second has at
    least those of the first: no discharge is less, the variances are equal. Held up to the first step that either refuses."""
    try:
        pairs = list(zip(list(answers(data, output)), list(answers(wetter, its_output))))
    except Malformed as malformed:
        return {"rain, form": str(malformed)}
    accepted = list(takewhile(lambda pair: all(map(step_stands, pair)), pairs))
    rows = [both for one, other in accepted if one[0] == other[0] == "figures" for both in zip(one[2], other[2])]
    larger, found = sum(other[3] > one[3] for one, other in rows), {}
    for one, other in rows:
        lines = f"{' '.join(map(str, one))}, with more rain {' '.join(map(str, other))}"
        if other[3] < one[3]:
            found.setdefault("rain, discharge", f"less: {lines}")
        if other[5] != one[5]:
            found.setdefault("rain, variance", f"another: {lines}")
    if must_be_larger and not larger:
        found.setdefault("rain, discharge", "none is larger")
    sides = sum(one[0] != other[0] for one, other in accepted)
    for name, count in zip(compared_storms, (0 < len(pairs) == len(accepted), len(rows), larger, sides)):
        compared_storms[name] += count
    return found


def tank_counts(table):
    """By element of an accepted table: its f where its kind is 4, and 1."""
    elements = [table[at:at + 26] for at in range(10, 10 + 26 * table[8], 26)]
    return [256 * element[8] + element[9] if element[0] == 4 else 1 for element in elements]


def cells_of(table):
    """The places of all tanks of a state, in the order in which the same river in reaches has its elements."""
    cells, inner = [], table[8]
    for place, count in enumerate(tank_counts(table)):
        cells += [*range(inner, inner + count - 1), place]
        inner += count - 1
    return cells


def lines_of_last_tanks(table, output):
    """The lines for a river whose tanks are written out as reaches, as the river with this table has them: those of each element's last
    tank under the element's number, and all refusals."""
    counts, lines = tank_counts(table), []
    numbers = {b"%d" % sum(counts[:place + 1]): b"%d" % (place + 1) for place in range(len(counts))}
    for line in output.split(b"\n"):
        words = line.split(b" ")
        if len(words) < 7:
            lines.append(line)
        elif words[1] in numbers:
            lines.append(b" ".join((words[0], numbers[words[1]], *words[2:])))
    return lines


def reaches_complaint(data, output, its_output):
    """The check reaches (M-107): a dict as judge gives it, of the output for a river with tanks and that for the same river in reaches."""
    lines, others = output.split(b"\n"), lines_of_last_tanks(cut_table(data), its_output)
    refused = sum(b"refused" in line for line in others)
    for name, count in zip(compared_reaches, (1, len(others) - 1 - refused, refused)):
        compared_reaches[name] += count
    if lines == others:
        return {}
    apart = next((line for line, pair in enumerate(zip(lines, others), 1) if pair[0] != pair[1]), min(len(lines), len(others)))
    return {"reaches": f"differs from the same river in reaches at line {apart}"}


def chosen_numbers(data):
    table = cut_table(data)
    if table is None or len(table) < 10:
        return ExactNumbers()
    steps = sum(1 for _ in zip(range(EXACT_WORK), cut_records(data, len(table))))
    places = sum(tank_counts(table)) if len(table) >= 10 + 26 * table[8] else table[8]
    return ExactNumbers() if places * (steps + table[7]) <= EXACT_WORK else EnclosedNumbers()
