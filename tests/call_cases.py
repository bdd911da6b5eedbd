"""The calls that the C interface is tried on, in cases; each case is built from a seed and its number, so that it can be made again by itself.

cases() lists them; nothing is built before it is asked for. What standard input can reach is tried in inputs.py; here is the rest:
states that no run brings about, lent space, places that no call may touch, each of rule 16's numbers on the ceiling, old and new outflows
above a reach, looks along a curve with their noise, trials of a step, floats in steps and trials, tables of either version, what a
display gets, two storms, and the places of tanks.
"""
from dataclasses import dataclass, replace
from itertools import product
from typing import Callable

from calculator.encode import big_endian, record_bytes, table_bytes
from calculator.whole_numbers import (BASIN, CEILING, GAP, RULES, SCALE, Figures, Refused, Rules, State, Table, decode_table, start, step,
                                      table_or_number)
from inputs import (ABOVE_ALL, BYTE_ORDERS, CURVE_EDGES, CURVE_NOISE, DAM_RECORDS, EXACT_HALVES, FIVE_TOPS, FLOAT_GAP, FLOAT_RECORDS,
                    HALVES_OF_THIRTEEN, NEAR_30_METRES, NOISE_PLACES, PASSES, SHAPES, SMALL_RECORDS, SMALL_T, SPECIAL, TANK_RECORDS, WAYS,
                    added_noise,
                    at_each_gauge, basin, ceiling_of_tanks, count_of, curve_rivers, dam, dam_edits, dam_river, dam_table, drawn_tanks,
                    float_bits, float_edits, float_river, float_rivers, float_rows, float_table, gauge, gauged_reaches, in_floats,
                    in_reaches, last_places, mean_inflow_rivers, near_halves, noise_edges, noise_edits, noise_orders, noise_river,
                    noise_rivers, noise_table, piece_of, rule_edits, reach, river_of_curves, small_river, small_table, some_curve,
                    some_records, some_stage, some_table, some_trouble, spoiled, spoiled_values, stage_bits, stages_of, storms,
                    taking_curve, tank_edits, tank_river, tank_rivers, tank_table, tanks, tanks_and_others, with_rains)
from judge import cells_of

LARGEST = 2 ** 64 - 1
ROOM_FOR_ALL = 4 * 64 * 13
FEWEST_PLACES = 64  # of a state that is sent; the driver fills the others


@dataclass(frozen=True)
class Call:
    name: str
    entry: str  # start, step, forecast, trial, check, version, rate or show
    table: bytes
    state: State
    record: bytes = b""
    lent: tuple = ()  # the lent numbers before the call
    side: int = 0  # 0: bytes, state and numbers stand right before a page without access, 1: right after one
    asked: tuple = (0, 0)  # gauge and stage of a rate, discharge and margin of a show
    twin: bool = False  # the call before has the same readings, or table, in the other version: the replies must be equal
    wetter: bool = False  # the call before is that of a storm with at most this one's rain, all else equal
    reaches: bool = False  # the call before is on a table with tanks, which this one has written out as reaches


@dataclass
class Case:
    name: str
    build: Callable  # of a Random, gives a list of calls
    exact: bool = False  # a list of calls from a start, which the run in fractions judges too


# ---- States ----------------------------------------------------------------------------------------------------------------------------


def with_figure(state, place, which, value):
    numbers = list(state.figures[place].numbers())
    numbers[which] = value
    return replace(state, figures=[*state.figures[:place], Figures(*numbers), *state.figures[place + 1:]])


def with_rain(state, place, which, value):
    rains = list(state.rains[place])
    rains[which] = value
    return replace(state, rains=[*state.rains[:place], tuple(rains), *state.rains[place + 1:]])


def with_number(state, place, which, value):
    """One of a place's seven numbers changed."""
    return with_figure(state, place, which, value) if which < 4 else with_rain(state, place, which - 4, value)


def state_of(count, steps, figures=(), rains=(), places=FEWEST_PLACES):
    """A state with these figures and rains at its first places and 0 elsewhere."""
    figures, rains = [Figures(*each) for each in figures], list(map(tuple, rains))
    return State(count, steps, figures + [Figures(0, 0, 0, 0)] * (places - len(figures)), rains + [(0, 0, 0)] * (places - len(rains)))


def places_sent(table):
    """Two places more than an accepted table has in use, 64 at least."""
    decoded = table_or_number(table)
    return max(FEWEST_PLACES, decoded.places + 2) if isinstance(decoded, Table) else FEWEST_PLACES


def noise_state(random, table=b"", places=0):
    """Anything at all in every place."""
    some = [0, 1, 3_001, CEILING, CEILING + 1, LARGEST] * 4 + [random.getrandbits(bits) for bits in (32, 64) * 4]
    places = places or places_sent(table)
    numbers = random.choices(some, k=2 + 7 * places)
    return State(*numbers[:2], [Figures(*numbers[at:at + 4]) for at in range(2, len(numbers), 7)],
                 [tuple(numbers[at:at + 3]) for at in range(6, len(numbers), 7)])


def marked_state(random, table, figure, rain, steps):
    """A state that rule 8 takes, drawn by figure() and rain(); the rains of all but basins and places not in use hold anything."""
    noise, decoded = noise_state(random, table), decode_table(table)
    figures = [Figures(figure(), figure(), figure(), figure()) for _ in range(decoded.places)]
    rains = list(noise.rains)
    for number in decoded.numbers_of(BASIN):
        rains[number - 1] = rain(), rain(), rain()
    return State(len(decoded.elements), steps, figures + noise.figures[decoded.places:], rains)


def some_steps(random):
    return random.choice((0, 1, 2, 3, 4, random.randint(0, 9_999), 9_999, 10_000))


def fitting_state(random, table, way="typical"):
    most = {"typical": 300_000_000, "small": 1_000, "wild": CEILING, "ceiling": CEILING}[way]

    def figure():
        if way == "ceiling":
            return random.choice((0, 1, CEILING - 1, CEILING, random.randint(0, CEILING)))
        return random.randint(0, random.choice((most, most // 50)))

    return marked_state(random, table, figure, lambda: random.choice((0, 1, 2_999, 3_000, random.randint(0, 300))), some_steps(random))


# ---- The small river: two basins, two reaches, two gauges --------------------------------------------------------------------------------

SMALL = table_bytes(small_table())
SMALL_RECORD = record_bytes(*SMALL_RECORDS[0])
SMALL_NEED = 4 * 4 * 3


def lent_numbers(random, size):
    return tuple(random.getrandbits(random.choice((1, 33, 64))) for _ in range(size))


def moved_state(random, table, records, steps=2):
    """After a start on noise and some steps: what lies in places not in use and in the rain places of all but basins is anything."""
    data = table_bytes(table)
    state = start(data, noise_state(random, data))
    for k in range(steps):
        state = step(data, record_bytes(*records[k % 3]), state)
    return state


def small_state(random):
    return moved_state(random, *small_river())


def both(name, random, state, table=SMALL, record=SMALL_RECORD, room=SMALL_NEED + 3):
    """A step and a forecast from the same state."""
    side = random.randrange(2)
    return [Call(f"{name}, step", "step", table, state, record, lent_numbers(random, 4), side=side),
            Call(f"{name}, forecast", "forecast", table, state, b"", lent_numbers(random, room), side=side)]


# ---- Rules 8 and 9 -----------------------------------------------------------------------------------------------------------------------


def counts_and_steps(random):
    state = small_state(random)
    for count in (0, 1, 3, 4, 5, 63, 64, 65, 2 ** 32 + 4, 2 ** 63 + 4, LARGEST):
        yield from both(f"N {count}", random, replace(state, count=count))
    for steps in (0, 1, 2, 3, 9_998, 9_999, 10_000, 10_001, 10_002, 2 ** 16, 2 ** 32, 2 ** 32 + 2, 2 ** 63, LARGEST):
        yield from both(f"step count {steps}", random, replace(state, steps=steps))


def numbers_of_places(random):
    """Each of the seven numbers of each of the four elements at its limit and above it."""
    state = small_state(random)
    for place in range(4):
        for which in range(7):
            limit = CEILING if which < 4 else 3_000
            for value in (limit - 1, limit, limit + 1, 2 ** 32 + 1, 2 ** 63, LARGEST):
                yield from both(f"number {which} of place {place} is {value}", random, with_number(state, place, which, value))


def numbers_beyond(random):
    """Each of the seven numbers of the first places beyond N and the last one: anything is allowed there and stays."""
    state = small_state(random)
    for place in (4, 5, 62, 63):
        for which in range(7):
            value = random.choice((CEILING + 1, 2 ** 32, LARGEST))
            yield from both(f"number {which} of place {place}, beyond N, is {value}", random, with_number(state, place, which, value))


def whole_river_state(random):
    """N 64 and N 1: the last place of the state read, and the first alone."""
    for count in (64, 1):
        table = some_table(random, count, "lone", "typical", leads=1, gauge_count=1)
        data, record = table_bytes(table), record_bytes(*some_records(random, table, 1, "typical")[0])
        state, room = replace(fitting_state(random, data), steps=5), 4 * count * 2 + 2
        yield from both(f"N {count}", random, state, data, record, room)
        yield from both(f"N {count}, a state of {65 - count}", random, replace(state, count=65 - count), data, record, room)
        for place in (0, 1, 62, 63):
            for which in range(7):
                name = f"N {count}, number {which} of place {place}"
                yield from both(name, random, with_number(state, place, which, CEILING + 1), data, record, room)


def other_river(random):
    """The state of a river with another table: another N, or a reach or a dam where the other has a basin."""
    mirrored = small_table(elements=[basin(down=3), reach(down=3), reach(down=4), reach()])
    turned = small_table(elements=[reach(down=3), reach(down=4), reach(down=4), reach()])
    state = small_state(random)
    dammed = small_table(elements=[basin(down=2), dam(down=3), reach(down=4), reach()])
    for k, table in enumerate((mirrored, turned, small_table(elements=[basin()], gauges=[gauge(1)]), dammed)):
        data = table_bytes(table)
        record = record_bytes((10,) * count_of(table, 1), (GAP,) * len(table["gauges"]), (5,) * count_of(table, 3))
        for value in (3_000, 3_001):
            yield from both(f"other river {k}, second place's rain {value}", random, with_rain(state, 1, 2, value), data, record)
            yield from both(f"other river {k}, third place's rain {value}", random, with_rain(state, 2, 0, value), data, record)
        yield Call(f"other river {k}, start", "start", data, state)


# ---- Starting ----------------------------------------------------------------------------------------------------------------------------


def starts(random):
    for way in WAYS:
        table = some_table(random, random.choice((1, 2, 5, 63, 64)), random.choice(SHAPES), way)
        data = table_bytes(table)
        yield Call(f"start from noise, {way}", "start", data, noise_state(random, data), side=random.randrange(2))
    yield Call("start, refused, from noise", "start", SMALL[:-1], noise_state(random))


# ---- Lent space --------------------------------------------------------------------------------------------------------------------------


def rooms(count, leads):
    def build(random):
        data = table_bytes(some_table(random, count, "lone", "zero", leads=leads, gauge_count=0))
        state, need = replace(fitting_state(random, data, "small"), steps=3), 4 * count * (leads + 1)
        for room in (0, 1, 4, need - 4, need - 1, need, need + 1, need + 4, need + 100, ROOM_FOR_ALL, ROOM_FOR_ALL + 1):
            for side in (0, 1):
                yield Call(f"N {count}, L {leads}, room {room} of {need}", "forecast", data, state, b"", lent_numbers(random, room), side)
    return build


def refused_rooms(random):
    """Rule 15 with 4 and 8, which are lower, and with 16, which is higher."""
    slow = table_bytes(dict(T=1, L=12, elements=[reach(lag=60_000, W=100_000_000)], gauges=[]))
    over = state_of(1, 3, [(5, 6, CEILING, 7)])
    for room in (0, 51, 52, 53):
        yield Call(f"16 with room {room} of 52", "forecast", slow, over, b"", lent_numbers(random, room))
        yield Call(f"8 with room {room} of 52", "forecast", slow, replace(over, steps=10_001), b"", lent_numbers(random, room))
        yield Call(f"4 with room {room} of 52", "forecast", slow[:9] + b"\1" + slow[10:], over, b"", lent_numbers(random, room))


# ---- The rain mean of a forecast -----------------------------------------------------------------------------------------------------------


def rain_means(random):
    """c 0 to 3: the rains that count are the last c, also where the state holds others."""
    for steps in (0, 1, 2, 3, 4, 9_999, 10_000):
        for rains in ((100, 0, 0), (0, 100, 0), (0, 0, 100), (1, 10, 100), (3_000, 3_000, 3_000), (0, 0, 1), (1, 1, 2)):
            table = table_bytes(dict(T=60, L=3, elements=[basin(down=2, area=700, f=333, G=1_000), reach()], gauges=[]))
            state = state_of(2, steps, [(1_000_000, 5, 300, 2)], [rains, (LARGEST, 3_001, 7)])
            yield Call(f"step count {steps}, rains {rains}", "forecast", table, state, b"", lent_numbers(random, 34), random.randrange(2))


# ---- Rule 16, number by number -----------------------------------------------------------------------------------------------------------


class Watched(Rules):
    """The rules with each of rule 16's numbers shown to watch(name, number), which refuses or not."""

    def watch(self, name, number):
        raise NotImplementedError

    def watch_all(self, kind, figures):
        for name, number in zip(("", " margin", " variance", " variance margin"), figures.numbers()):
            self.watch(kind + name, number)

    def blend(self, x, x_margin, y, y_margin, weight, weight_margin):
        value = (weight * x + (SCALE - weight) * y) // SCALE
        spread = weight_margin * (abs(x - y) + x_margin + y_margin) // SCALE
        return value, (weight * x_margin + (SCALE - weight) * y_margin) // SCALE + spread + 3

    def moved_tanks(self, element, weight, old, inflow):
        self.tanks_left = len(old)
        return super().moved_tanks(element, weight, old, inflow)

    def move(self, element, weight, old, inflow):
        self.tanks_left -= 1
        inner = INNER if self.tanks_left else ""
        self.watch_all("basin inflow" if element.kind == BASIN else f"{inner}reach inflow", inflow)
        discharge, margin = self.blend(old.discharge, old.margin, inflow.discharge, inflow.margin, weight, 3)
        a, a_margin = self.blend(old.variance, old.variance_margin, 0, 0, weight, 3)
        b, b_margin = self.blend(inflow.variance, inflow.variance_margin, 0, 0, SCALE - weight, 3)
        self.watch("margin of a", a_margin)
        self.watch("margin of b", b_margin)
        variance, variance_margin = self.blend(a, a_margin, b, b_margin, weight, 3)
        moved = Figures(discharge, margin, variance + element.system_noise, variance_margin)
        self.watch_all(f"{inner}moved", moved)
        return moved

    def correct(self, figures, z, noise):
        self.watch("noise", noise)
        gain, gain_margin = self.gain(figures, noise)
        discharge, margin = self.blend(figures.discharge, figures.margin, z, 1, SCALE - gain, gain_margin)
        corrected = Figures(discharge, margin, *self.corrected_variance(figures, noise))
        self.watch_all("corrected", corrected)
        return corrected


class Reading(Watched):
    """Notes the highest of the numbers of one name and refuses nothing by rule 16."""

    def __init__(self, name):
        self.name, self.highest = name, 0

    def watch(self, name, number):
        if name == self.name:
            self.highest = max(self.highest, number)


def watched_number(name, call):
    reading = Reading(name)
    if call.entry == "step":
        reading.step(call.table, call.record, call.state)
    else:
        reading.forecast(call.table, call.state, call.lent)
    return reading.highest


def edge_calls(watched, make):
    """make(p) for the p at which the watched number, which rises with p from 0 to C, is C, just below and just above."""
    for target in (CEILING, CEILING + 1):
        low, high = 0, CEILING
        while low < high:
            middle = (low + high) // 2
            low, high = (low, middle) if watched_number(watched, make(middle)) >= target else (middle + 1, high)
        assert watched_number(watched, make(low)) == target, f"{watched}: {target} is not met"
        for p in (low - 1, low, low + 1):
            call = make(p)
            yield replace(call, name=f"{watched}, {call.entry}: C {watched_number(watched, call) - CEILING:+}")


SLOW = dict(T=1, L=1, gauges=[])  # with a lag of 60,000 minutes an element keeps nearly all it has


def slow_reaches(count, **rest):
    """All but the last drain into the last."""
    return table_bytes(SLOW | dict(elements=[reach(down=count * (k < count), lag=60_000) for k in range(1, count + 1)]) | rest)


def single(which, value):
    numbers = [0, 0, 0, 0]
    numbers[which] = value
    return tuple(numbers)


def inflow_edges(which, entry):
    """Two reaches drain into a third: one of the four figures of its inflow."""
    table, name = slow_reaches(3), "reach inflow" + ("", " margin", " variance", " variance margin")[which]

    def build(random):
        lent = lent_numbers(random, 24 + 2)
        return edge_calls(name, lambda p: Call(name, entry, table, state_of(3, 3, [single(which, CEILING), single(which, p)]),
                                               record_bytes((), ()), lent if entry == "forecast" else ()))
    return build


def margin_edges(entry):
    """The margin of a discharge: an old margin and an inflow margin near C, or a wide gap between old discharge and inflow."""
    table = slow_reaches(3)

    def build(random):
        lent = lent_numbers(random, 24) if entry == "forecast" else ()

        def call(discharge, margin):
            state = state_of(3, 3, [(0, CEILING, 0, 0), (0, 33_000, 0, 0), (discharge, margin, 0, 0)])
            return Call(f"moved margin, {margin} and discharge {discharge}", entry, table, state, record_bytes((), ()), lent)

        yield from edge_calls("moved margin", lambda p: call(0, p))
        for margin in range(CEILING - 40, CEILING - 23):
            for discharge in (0, 10 ** 9, 2 * 10 ** 9, 3 * 10 ** 9, CEILING):
                yield call(discharge, margin)
    return build


def variance_edges(entry, kind, leads=1):
    """A variance with its noise W; at a forecast of several leads the last one alone passes C."""
    element = dict(reach(lag=60_000, W=100_000_000)) if kind == "reach" else basin(lag=60_000, area=1, W=100_000_000, G=100_000_000)
    table = table_bytes(SLOW | dict(elements=[element], L=leads))

    def build(random):
        lent = lent_numbers(random, 4 * (leads + 1) + 1) if entry == "forecast" else ()
        record = record_bytes((1,) * (kind == "basin"), ())
        return edge_calls("moved variance", lambda p: Call("", entry, table, state_of(1, 3, [(1, 2, p, 4)]), record, lent))
    return build


def late_inflow_edges(leads):
    """The inflow variance of a reach, above C at the last lead alone; all that stands before that reach in the answer is accepted."""
    elements = [reach(lag=60_000, W=1_000), reach(down=4, lag=60_000, W=90_000_000), reach(down=4, lag=60_000, W=70_000_000), reach(lag=60_000)]
    table = table_bytes(SLOW | dict(elements=elements, L=leads))

    def build(random):
        lent = lent_numbers(random, 16 * (leads + 1))
        return edge_calls("reach inflow variance", lambda p: Call("", "forecast", table, state_of(4, 3, [
            (0, 0, 0, 0), (0, 0, 300_000_000, 0), (0, 0, p, 0)]), b"", lent))
    return build


def correction_edges(random):
    """The margin of a corrected discharge, by the gap and by the margin before it; its gain margin is S."""
    table = table_bytes(SLOW | dict(elements=[reach(lag=60_000)], gauges=[gauge(1, R=1, pieces=[(30_001, 1, 0)])]))
    for stage, margin in ((0, 1_000_000), (30_000, 900_123), (0, CEILING // 2)):
        record = record_bytes((), (stage,))
        yield from edge_calls("corrected margin", lambda p: Call("", "step", table, state_of(1, 3, [(p, margin, 0, 10)]), record))


# (rains, area, f, inflow less C) by c: [5 s area f / (18 c)] is C exactly, C and the highest rest, C + 1, C + 1 and the highest rest.
RAIN_EDGES = {1: (((3_000,), 4_800, 1_000, 0), ((1_821,), 9_679, 817, 0), ((1_009,), 274_453, 52, 1), ((193,), 75_289, 991, 1)),
              2: (((3_000, 3_000), 4_800, 1_000, 0), ((1_000, 9), 274_453, 104, 1), ((380, 6), 75_289, 991, 1)),
              3: (((3_000, 3_000, 3_000), 4_800, 1_000, 0), ((785, 3_000, 3_000), 9_902, 643, 0), ((1, 8, 1_000), 274_453, 156, 1),
                  ((579, 0, 0), 75_289, 991, 1))}


def rain_edges(random):
    """The inflow of a basin by the rain of a step and by the mean of a forecast."""
    for c, edges in RAIN_EDGES.items():
        for rains, area, f, over in edges:
            table = table_bytes(dict(T=60, L=2, elements=[basin(area=area, f=f)], gauges=[]))
            more = tuple(random.choice((0, 3_000)) for _ in range(3 - c))  # rains that do not count
            for steps in ((c,) if c < 3 else (3, 4, 10_000)):
                call = Call(f"rain inflow of a lead, c {c}: C {over:+}", "forecast", table, state_of(1, steps, rains=[rains + more]), b"",
                            lent_numbers(random, 13))
                assert watched_number("basin inflow", call) == CEILING + over
                yield call
            if c == 1:
                yield Call(f"rain inflow of a step: C {over:+}", "step", table, state_of(1, 9), record_bytes(rains, ()))
    huge = table_bytes(dict(T=60, L=1, elements=[basin(area=400_000)], gauges=[]))
    for steps, rains in ((0, (3_000, 3_000, 3_000)), (1, (3_000, 0, 0)), (1, (0, 3_000, 3_000)), (2, (0, 0, 3_000)), (3, (0, 0, 3_000))):
        yield Call(f"largest basin, step count {steps}, rains {rains}", "forecast", huge, state_of(1, steps, rains=[rains]), b"", (1,) * 9)


def noise_ceiling(random):
    """The noise of a reading, which is judged even where the element's variance is 0."""
    for name, table, stage in noise_edges():
        for figures in ((5_000_000, 6, 7_000, 8), (0, 0, 0, 0)):
            yield Call(name, "step", table_bytes(table), state_of(1, 3, [figures]), record_bytes((), (stage,)), side=random.randrange(2))


def all_at_ceiling(random):
    """The numbers that stay below C whatever the state (margins of a and b, variance margin, a corrected variance's): as high as they go."""
    for lag in (1, 2, 60_000):
        for R in (1, CEILING):
            for full in ((0, 0, 0, CEILING), (0, 0, CEILING, CEILING), (CEILING, 0, CEILING, CEILING), (0, 0, CEILING, 0)):
                elements = [reach(down=2, lag=lag), reach(lag=lag)]
                table = table_bytes(SLOW | dict(elements=elements, gauges=[gauge(2, R=R, pieces=[(30_001, 1_000_000, 0)])]))
                for stage in (0, 2_000, GAP):
                    yield from both(f"lag {lag}, R {R}, {full}", random, state_of(2, 3, [full, full]), table, record_bytes((), (stage,)), 16)


# ---- Tables and records, cut and spoiled ---------------------------------------------------------------------------------------------------


def edited_calls(edit, river=small_river):
    def build(random):
        (table, records), (right, right_records) = river(), river()
        edit(table, records)
        data, state, count = table_bytes(table), moved_state(random, right, right_records, 1), len(table["elements"])
        record = record_bytes(*next((new for new, old in zip(records, right_records) if new != old), right_records[1]))
        yield Call("start", "start", data, noise_state(random, data), side=random.randrange(2))
        yield from both("edited", random, replace(state, count=count), data, record, room=4 * count * 13)
    return build


def cut_calls(random):
    state = small_state(random)
    for size in range(len(SMALL)):
        entry = ("start", "step", "forecast")[size % 3] if size > 12 else "start"
        yield Call(f"table cut at {size}", entry, SMALL[:size], state, SMALL_RECORD, lent_numbers(random, 48), random.randrange(2))
    for extra in (1, 2, 26, 46, 3_000):
        for told in (len(SMALL) - 4, len(SMALL) - 4 + extra):
            yield Call(f"table longer by {extra}", "start", big_endian(told, 4) + SMALL[4:] + bytes(extra), state)
    for size in range(len(SMALL_RECORD)):
        yield Call(f"record cut at {size}", "step", SMALL, state, SMALL_RECORD[:size], side=random.randrange(2))
        told = big_endian(max(0, size - 2), 2) + SMALL_RECORD[2:size]
        yield Call(f"record cut at {size}, as its length says", "step", SMALL, state, told, side=random.randrange(2))
    for extra in (1, 2, 4, 65_535 - 9):
        for told in (9, 9 + extra):
            yield Call(f"record longer by {extra}", "step", SMALL, state, big_endian(told, 2) + SMALL_RECORD[2:] + bytes(extra))
    yield Call("record of 65,538 bytes, length 0", "step", SMALL, state, big_endian(0, 2) + bytes(65_536))
    for size in range(4, 10):
        yield Call(f"table cut at {size}, as its length says", "start", big_endian(size - 4, 4) + SMALL[4:size], state)
    yield Call("table cut and of version 3", "start", spoiled(SMALL, 4, 3)[:-1], state)


def spoiled_calls(random):
    state = small_state(random)
    for at in range(len(SMALL)):
        value = random.choice(spoiled_values(SMALL[at]))
        entry = random.choice(("start", "step", "forecast"))
        yield Call(f"table spoiled at {at} by {value}", entry, spoiled(SMALL, at, value), state, SMALL_RECORD, lent_numbers(random, 208))
    for at in range(len(SMALL_RECORD)):
        for value in spoiled_values(SMALL_RECORD[at]):
            yield Call(f"record spoiled at {at} by {value}", "step", SMALL, state, spoiled(SMALL_RECORD, at, value))


def last_place_calls(random):
    """Rules 5 to 7, 12 to 14, 17 and 18 at the last place that they can be broken at."""
    for name, *rivers in last_places():
        for table, record in rivers:
            data = table_bytes(table)
            yield Call(f"{name}, start", "start", data, noise_state(random, data), side=random.randrange(2))
            yield Call(f"{name}, step", "step", data, state_of(64, 0, places=72), record_bytes(*record), side=random.randrange(2))


def empty_calls(random):
    state = small_state(random)
    for side in (0, 1):
        for entry in ("start", "step", "forecast"):
            yield Call(f"no table, {entry}", entry, b"", state, SMALL_RECORD, lent_numbers(random, 48), side)
            yield Call(f"nothing, {entry}", entry, b"", state, side=side)
        yield Call("no record", "step", SMALL, state, side=side)
        yield Call("no room", "forecast", SMALL, state, side=side)


# ---- Dams --------------------------------------------------------------------------------------------------------------------------------

DAMS = table_bytes(dam_table())
DAM_RECORD = record_bytes(*DAM_RECORDS[0])
ALL_DAMS = table_bytes(dict(T=60, L=12, elements=[dam(first_discharge=k, first_variance=CEILING - k, W=k) for k in range(64)], gauges=[]))


def dam_starts(random):
    for table in (DAMS, ALL_DAMS):
        yield Call("start from noise", "start", table, noise_state(random, table), side=random.randrange(2))


def dam_numbers(random):
    """Each of the seven numbers of a dam in the middle and of one as outlet: rule 8 on the figures, none on the rains."""
    state = moved_state(random, *dam_river())
    for place in (1, 4):
        for which in range(7):
            for value in (CEILING, CEILING + 1) if which < 4 else (3_001, LARGEST):
                given = with_number(state, place, which, value)
                yield from both(f"number {which} of place {place} is {value}", random, given, DAMS, DAM_RECORD, 4 * 5 * 3 + 3)


def dam_leads(random):
    """A dam whose state has any discharge, margins and variance: at the leads it has the discharge, margin 0, variance W, margin 0."""
    for leads in (1, 3, 12):
        elements = [dam(down=2, first_discharge=9, first_variance=8, W=77), reach(W=1), dam(W=100_000_000)]
        table = table_bytes(dict(T=60, L=leads, elements=elements, gauges=[]))
        for figures in ((0, 0, 0, 0), (CEILING, 0, 5, 0), (123_456_789, 1_000, 2_000, 3_000), (1, CEILING, CEILING, CEILING)):
            for steps in (0, 3):
                state = state_of(3, steps, [figures, (5, 6, 7, 8), figures], [(LARGEST, 3_001, 1)] * 3)
                lent = lent_numbers(random, 12 * (leads + 1) + 2)
                yield Call(f"step count {steps}, {leads} leads, {figures}", "forecast", table, state, b"", lent, random.randrange(2))


def into_a_dam(random):
    """Sums of each of the four figures that pass C: a dam takes what drains in, a reach does not."""
    for name, below, releases in (("dam", dam(), (CEILING,)), ("reach", reach(lag=60_000), ())):
        table = table_bytes(SLOW | dict(elements=[reach(down=3, lag=60_000), reach(down=3, lag=60_000), below]))
        for which in range(4):
            full = single(which, CEILING)
            yield from both(f"number {which} into a {name}", random, state_of(3, 3, [full, full]), table, record_bytes((), (), releases), 24)


def release_edges(entry):
    """A release after one of C, or a discharge that is held, and a reach drain into a reach: half the sum of old and new."""
    elements = [dam(down=3), reach(down=3, lag=60_000), reach(lag=60_000)]
    table = table_bytes(SLOW | dict(elements=elements))

    def build(random):
        lent = lent_numbers(random, 24) if entry == "forecast" else ()

        def call(p):
            state = state_of(3, 3, [(p if entry == "forecast" else CEILING, 0, 0, 0), (10 ** 9, 0, 0, 0)])
            return Call("", entry, table, state, record_bytes((), (), (p,)), lent)
        return edge_calls("reach inflow", call)
    return build


def release_orders(random):
    """A release above C beside what is judged before it and after it."""
    state, flooded = moved_state(random, *dam_river()), dam_table()
    flooded["elements"][0] |= dict(area=400_000)  # a rain of 3,000 brings 16
    for first, table, given in (("17", DAMS, state), ("8 and 17", DAMS, replace(state, steps=10_001)),
                                ("9 and 17", DAMS, replace(state, steps=10_000)), ("16 and 17", table_bytes(flooded), state)):
        for second, rain, stage, version in (("nothing", 3_000, GAP, 1), ("11", 3_000, GAP, 3), ("12", 3_001, GAP, 1), ("13", 3_000, 30_001, 1),
                                             ("14", 3_000, 499, 1)):
            record = record_bytes((rain, 0), (stage,), (0, CEILING + 1), version)
            yield Call(f"{first}, {second} beside it", "step", table, given, record, side=random.randrange(2))


def dam_records_cut(random):
    """A record cut at each byte, as its length says, and longer by a release."""
    state = moved_state(random, *dam_river())
    for record in (*(DAM_RECORD[:size] for size in range(2, len(DAM_RECORD))), DAM_RECORD + bytes(4)):
        told = big_endian(len(record) - 2, 2) + record[2:]
        yield Call(f"record of {len(record)} bytes", "step", DAMS, state, told, side=random.randrange(2))


# ---- The mean inflow of a reach ----------------------------------------------------------------------------------------------------------


def inflow_call(name, random, entry, elements, figures, releases=None, leads=1):
    """A step without rain or a forecast, from these figures; if nothing is said, all dams are shut."""
    table = dict(T=60, L=leads, elements=elements, gauges=[])
    record = record_bytes((0,) * count_of(table, 1), (), (0,) * count_of(table, 3) if releases is None else releases)
    lent = lent_numbers(random, 4 * len(elements) * (leads + 1) + 1) if entry == "forecast" else ()
    return Call(f"{name}, {entry}", entry, table_bytes(table), state_of(len(elements), 3, figures), record, lent, random.randrange(2))


def into_reach(count):
    return [dam(down=count + 1) for _ in range(count)] + [reach()]


def half_sums(random):
    """Old and new discharges, and old margins, of dams that add up to 2 C and some more or less: the half is C, or just passes it."""
    for more in range(-3, 5):
        old, new = [single(0, CEILING - 3), single(0, more + 3)], (CEILING // 2, CEILING // 2, 0)
        call = inflow_call(f"discharges of 2 C {more:+}", random, "step", into_reach(3), old, new)
        assert watched_number("reach inflow", call) == CEILING + more // 2
        yield call
        for entry in ("step", "forecast"):
            margins = [single(1, CEILING), single(1, CEILING - 9), single(1, more + 9)]
            call = inflow_call(f"margins of 2 C {more:+}", random, entry, into_reach(3), margins)
            assert watched_number("reach inflow margin", call) == CEILING + 1 + more // 2
            yield call
    for entry in ("step", "forecast"):  # sums above C with halves that are not
        yield inflow_call("discharges C and C", random, entry, into_reach(2), [single(0, CEILING)], (CEILING, 0))
        yield inflow_call("margins C and C - 2", random, entry, into_reach(2), [single(1, CEILING), single(1, CEILING - 2)])


def largest_sums(random):
    """63 elements of which each of the four figures is C before, and as high as it stays after: a dam takes it, a reach does not."""
    full = (CEILING,) * 4
    for above, new in ((dam(down=64), (CEILING,) * 63), (reach(down=64, lag=60_000), ())):
        for below, last in ((dam(), (7,)), (reach(lag=60_000), ())):
            for figures in (*(single(which, CEILING) for which in range(4)), full):
                for entry in ("step", "forecast"):
                    yield inflow_call(f"63 of {figures}", random, entry, [above] * 63 + [below], [figures] * 63, new + last)


def old_and_new_above(random):
    """Each figure of each element above a reach: discharge and margin of the old count, variance and its margin of the new alone."""
    for above in (dam, reach, basin):
        for which in range(4):
            for value in (1, 2, 3, 5, 1_000_001, 10 ** 9, CEILING):
                for place in (0, 1):
                    name, figures = f"{above.__name__} {place + 1}, number {which} is {value}", [(0, 0, 0, 0)] * place + [single(which, value)]
                    elements = [above(down=3), above(down=3), reach(down=4), reach()]
                    for entry in ("step", "forecast"):
                        yield inflow_call(name, random, entry, elements, figures, leads=3)


def own_figures(random):
    """The figures of the reach itself, with nothing draining in, and with all 0 above it: they are no outflow above."""
    for elements, places in (([reach()], 0), ([reach(down=2), reach()], 1), ([dam(down=2), reach()], 1)):
        for which in range(4):
            for value in (0, 1, 3, 7, 10 ** 9 + 1, CEILING):
                figures = [(0, 0, 0, 0)] * places + [single(which, value)]
                for entry in ("step", "forecast"):
                    yield inflow_call(f"own number {which} is {value}", random, entry, elements, figures, leads=3)


def odd_sums(random):
    """Small discharges and margins of two dams and two reaches above a reach: odd one by one, old and new apart, and in all."""
    for *old, own in product((0, 1, 2), repeat=3):  # with one of these own discharges every change of the inflow shows
        for new in product((0, 1, 3), repeat=2):
            figures = [single(0, value) for value in (*old, own)]
            yield inflow_call(f"discharges {old} and {new}, own {own}", random, "step", into_reach(2), figures, new)
    for margins in product((0, 1, 2, 5), repeat=2):
        for above in (dam(down=3), reach(down=3, lag=600)):
            for entry in ("step", "forecast"):
                figures = [single(1, value) for value in margins]
                yield inflow_call(f"margins {margins}", random, entry, [above, above, reach()], figures, leads=2)


def mean_inflow_cases():
    for build in (half_sums, largest_sums, old_and_new_above, own_figures, odd_sums):
        yield build.__name__.replace("_", " "), build


# ---- Looks along a curve -----------------------------------------------------------------------------------------------------------------


def rate_calls(name, random, table, asked):
    """A rate of each of these pairs of gauge and stage."""
    state = noise_state(random)
    for number, stage in asked:
        yield Call(f"{name}, gauge {number}, stage {stage}", "rate", table, state, side=random.randrange(2), asked=(number, stage))


def looks(name, random, asked):
    """A rate of each (pieces of a curve, stage, answer), the answer being worked out beside the calculator; 16 curves to a table."""
    asked = list(asked)
    for at in range(0, len(asked), 16):
        group = asked[at:at + 16]
        table = table_bytes(river_of_curves([pieces for pieces, _, _ in group]))
        for number, (_, stage, (refusal, z, pieces)) in enumerate(group, 1):
            noise = 0 if refusal else CURVE_NOISE
            assert RULES.rate(table, number, stage) == (refusal, z, noise, pieces), f"{name}: {group[number - 1]}"
        yield from rate_calls(name, random, table, [(number, stage) for number, (_, stage, _) in enumerate(group, 1)])


# By pieces in use: tops one apart from the lowest on, spread, and one apart up to the highest.
TOPS = {used: [(*range(1, used), 30_001), (*(1_000 * k * k for k in range(1, used)), 30_001), (*range(30_002 - used, 30_001), 30_001)]
        for used in range(1, 6)}


def looks_at_tops(used):
    """Stage 0, and each top less 1, the top and the top plus 1; the last top and what is above it give 13."""
    def asked():
        for k, tops in enumerate(TOPS[used] * 2):
            pieces = taking_curve(k, tops)
            for stage in sorted({0, *(top + more for top in tops for more in (-1, 0, 1))} - {30_001, 30_002}):
                place = sum(top <= stage for top in tops)  # the pieces that lie below the stage
                _, a, b = pieces[place]
                yield pieces, stage, (0, a * (stage + b) ** 2 // 1_000, place + 1)

    def build(random):
        yield from looks("top", random, asked())
        table = table_bytes(river_of_curves([taking_curve(k, tops) for k, tops in enumerate(TOPS[used])]))
        yield from rate_calls("last top", random, table, [(number, stage) for number in (1, 2, 3) for stage in (30_001, 30_002)])
    return build


def others_around(tops, place, a, b):
    """The piece at a place between others that take its stages, and between others that give 14 at every stage."""
    for other in ((100, 30_000), ABOVE_ALL):
        yield [(top, *((a, b) if which == place else other)) for which, top in enumerate(tops)]


def each_piece(used):
    """(tops, place of a piece, its lowest stage, its highest) of each piece of curves of so many."""
    return [(tops, place, below, top - 1) for tops in TOPS[used] for place, (below, top) in enumerate(stages_of(tops))]


def looks_at_feet(used):
    """h + b of -1, 0 and 1 at the lowest and the highest stage of each piece."""
    def asked():
        for tops, place, lowest, highest in each_piece(used):
            for stage in sorted({lowest, highest}):
                for depth, number, z in ((-1, 14, 0), (0, 0, 0), (1, 0, 40)):
                    if depth - stage >= -30_000:
                        for pieces in others_around(tops, place, 40_000, depth - stage):
                            yield pieces, stage, (number, z, place + 1)

    return lambda random: looks("foot", random, asked())


def looks_at_ceiling(used):
    """z of C, C with a rest, C + 1 and others about it, and the greatest h + b, on each piece."""
    edges = [(a, depth) for _, a, depth in CURVE_EDGES]
    edges += [(1_600, 50_000), (1_111, 60_000), (1_112, 60_000), (1_000_000, 60_000), (2_560, 40_960)]  # of the last z is 2^32

    def asked():
        for tops, place, lowest, highest in each_piece(used):
            for a, depth in edges:
                stage, z = lowest if depth <= 30_000 else highest, a * depth ** 2 // 1_000
                if depth - stage <= 30_000:
                    for pieces in others_around(tops, place, a, depth - stage):
                        yield pieces, stage, (0, z, place + 1) if z <= CEILING else (14, 0, place + 1)

    return lambda random: looks("ceiling", random, asked())


def rates_of_largest(random):
    """64 elements and 16 gauges of five pieces: each gauge on each of its pieces, and the gauge after the last."""
    elements = [basin(down=64, area=1) for _ in range(63)] + [reach()]
    gauges = [gauge(49 + k, pieces=taking_curve(k, FIVE_TOPS[k % 4])) for k in range(16)]
    asked = [(k + 1, stage) for k in range(16) for top in FIVE_TOPS[k % 4] for stage in (top - 1, min(30_000, top))]
    return rate_calls("largest", random, table_bytes(dict(T=60, L=12, elements=elements, gauges=gauges)), [*asked, (17, 100)])


GAUGES = (0, 1, 2, 3, 4, 16, 17, 2 ** 8 + 1, 2 ** 16 + 1, 2 ** 32 + 1, 2 ** 63, 2 ** 63 + 1, 2 ** 63 + 2, LARGEST)


def rates_by_gauge(random):
    """Gauges of tables with none, one and three: those that are there and others, with a stage, a gap and a stage of 13."""
    for count in (0, 1, 3):
        table = river_of_curves([taking_curve(k, FIVE_TOPS[k]) for k in range(3)])
        data = table_bytes(table | dict(gauges=table["gauges"][:count]))
        for stage in (1_500, GAP, 30_001):
            yield from rate_calls(f"M {count}", random, data, [(number, stage) for number in GAUGES])


STAGES = (0, 1, 29_999, 30_000, 30_001, 30_002, 65_534, 65_535, 65_536, 2 ** 16 + 100, 2 ** 17 - 1, 2 ** 32 + 100, 2 ** 32 + 65_535, 2 ** 63,
          2 ** 63 + 100, LARGEST)


def rates_by_stage(random):
    """All that a stage can be, for gauges that are there and for others."""
    table = table_bytes(river_of_curves([taking_curve(1, FIVE_TOPS[1]), [(30_001, 1, 0)]]))
    return rate_calls("stages", random, table, [(number, stage) for number in (1, 2, 0, 3, LARGEST) for stage in STAGES])


def rates_of_refused(random):
    """Tables on every condition of rules 1 to 7 and just off it, also with a stage of 13, a gap, and a gauge that is not there."""
    for river, edits in ((small_river, rule_edits()), (dam_river, dam_edits()), (noise_river, noise_edits())):
        for rule, edit in ((rule, edit) for rule, edit in edits if rule <= 7):
            table, records = river()
            edit(table, records)
            asked = (1, 1_500), (1, 30_001), (2, GAP), (random.choice((0, 3, LARGEST)), random.choice((1_500, LARGEST)))
            yield from rate_calls(f"rule {rule}", random, table_bytes(table), asked)


def rates_of_spoiled(random):
    """Tables cut and spoiled at each byte, and none."""
    asked = ((1, 1_500), (2, 999), (2, 30_000), (2, 30_001), (3, 1_500))
    for size in range(len(SMALL)):
        yield from rate_calls(f"table cut at {size}", random, SMALL[:size], [random.choice(asked)])
        value = random.choice(spoiled_values(SMALL[size]))
        yield from rate_calls(f"table spoiled at {size} by {value}", random, spoiled(SMALL, size, value), [random.choice(asked)])
    for side in (0, 1):
        yield Call("no table", "rate", b"", noise_state(random), side=side, asked=(1, side * 30_001))


def mixed_curve(random):
    """Pieces that take their stages, give 14 or do both, one after the other in any order."""
    used = random.choice((1, 2, 3, 4, 5, 5))
    tops = random.choice([*TOPS[used], (*sorted(random.sample(range(1, 30_001), used - 1)), 30_001),
                          (*sorted(random.sample(range(1, 12), used - 1)), 30_001)])
    pieces = []
    for below, top in stages_of(tops):
        foot = random.randint(below, top - 1)
        pieces.append((top, *random.choice(((random.randint(1, 1_000), random.randint(0, 30_000)), ABOVE_ALL, (random.randint(1, 9), -30_000),
                                            (random.randint(1, 1_000), -foot), (1_000_000, 2_000 - foot)))))
    return pieces


def random_looks(random):
    curves = [random.choice((mixed_curve, mixed_curve, mixed_curve, some_curve))(random) for _ in range(random.choice((1, 3, 16)))]
    asked = []
    for _ in range(12):
        number = random.randint(1, len(curves))
        top = random.choice(curves[number - 1])[0]
        stage = random.choice((0, top - 1, top - 1, top, top + 1, random.randint(0, 30_000), random.randint(0, 12)))
        asked.append((number, min(30_000, stage)))
    return rate_calls("random", random, table_bytes(river_of_curves(curves)), asked)


def steps_of(table, records):
    """A start and a step for each record, also after a refused one."""
    def build(random):
        data = table_bytes(table)
        noise = noise_state(random, data)
        yield Call("start", "start", data, noise)
        state = start(data, noise)
        for number, given in enumerate(records, 1):
            yield Call(f"record {number}", "step", data, state, record_bytes(*given), side=random.randrange(2))
            try:
                state = step(data, record_bytes(*given), state)
            except Refused:
                pass
    return build


def look_cases():
    for used in range(1, 6):
        yield f"rate: tops of {used}", looks_at_tops(used)
        yield f"rate: foot of {used}", looks_at_feet(used)
        yield f"rate: ceiling of {used}", looks_at_ceiling(used)
    for name, build in (("largest table", rates_of_largest), ("gauge numbers", rates_by_gauge), ("stages", rates_by_stage),
                        ("refused tables", rates_of_refused), ("spoiled tables", rates_of_spoiled)):
        yield f"rate: {name}", build
    yield from (("rate: random", random_looks) for _ in range(40))


# ---- Several refusals at once --------------------------------------------------------------------------------------------------------------


def several_refusals(random):
    edits = [(rule, edit) for rule, edit in rule_edits() if rule < 10 or random.random() < 0.5]
    for _ in range(12):
        table, records = small_table(), list(SMALL_RECORDS)
        picked = random.sample(edits, random.choice((0, 0, 1, 2)))
        for _, edit in picked:
            edit(table, records)
        state = small_state(random)
        if random.random() < 0.6:
            state = random.choice((replace(state, steps=10_000), replace(state, steps=10_001), replace(state, count=5),
                                   with_rain(state, 1, 1, 3_001), with_figure(state, 2, 3, CEILING + 1),
                                   replace(with_figure(state, 3, 0, CEILING + 1), steps=10_000)))
        else:
            state = with_figure(with_figure(with_figure(state, 0, 1, CEILING), 1, 1, CEILING), 2, 1, CEILING)  # 16
        version, rain, stage = random.choice((1, 1, 3)), random.choice((3_000, 3_001)), random.choice((GAP, 499, 30_001))
        fields = random.choice((((rain, 0), (stage, GAP)), ((0, rain), (stage, 30_001)), ((rain,), (stage, GAP)), None))
        record = record_bytes(*fields, version=version) if fields else b"\0"
        yield from both("several", random, state, table_bytes(table), record, random.choice((0, 47, 48, 60)))


# ---- Random rivers, states and calls ---------------------------------------------------------------------------------------------------------


def random_calls(count=None):
    def build(random):
        table = some_table(random, count or random.choice((1, 2, 3, 4, 5, 8)), random.choice(SHAPES), random.choice(WAYS),
                           leads=None if not count else random.choice((1, 2, 12)))
        data, record = table_bytes(table), record_bytes(*some_records(random, table, 1, random.choice(("typical", "wild")))[0])
        state = fitting_state(random, data, random.choice(("typical", "typical", "small", "small", "wild", "ceiling")))
        for _ in range(random.choice((0, 0, 0, 1, 2))):  # one number beyond its range, or not in use
            place, which = random.randrange(min(len(state.figures), tanks_and_others(table) + 2)), random.randrange(7)
            state = with_number(state, place, which, random.getrandbits(random.choice((33, 64))))
        room = 4 * len(table["elements"]) * (table["L"] + 1) + random.choice((-1, 0, 0, 1, 5))
        yield from both("random", random, state, data, record, room)
    return build


def noise_calls(random):
    """Any state and any bytes."""
    for entry in ("start", "step", "forecast"):
        one = big_endian(32, 4) + bytes([1, 0, 60, 1, 1, 0]) + random.randbytes(26)
        table, record = random.choice((SMALL, random.randbytes(random.randrange(60)), one)), random.randbytes(random.randrange(12))
        yield Call("noise", entry, table, noise_state(random), record, lent_numbers(random, random.randrange(60)))


def run_of(random, table, records):
    """A start and some steps, with a forecast after each: the state of a call is what the calculator gave to the one before."""
    data, room = table_bytes(table), 4 * len(table["elements"]) * (table["L"] + 1)
    state = noise_state(random, data)
    yield Call("start", "start", data, state)
    try:
        state = start(data, state)
        for given in records:
            yield Call("forecast", "forecast", data, state, b"", lent_numbers(random, room + 1))
            yield Call("step", "step", data, state, record_bytes(*given))
            state = step(data, record_bytes(*given), state)
        yield Call("forecast", "forecast", data, state, b"", lent_numbers(random, room + 1))
    except Refused:
        return


def run_calls(count=None):
    def build(random):
        size = count or random.choice((1, 2, 3, 4))
        way = random.choice(("typical", "typical", "zero", "ceiling"))
        table = some_table(random, size, random.choice(SHAPES), way, leads=random.choice((1, 2, 3)))
        return run_of(random, table, some_records(random, table, 4, "typical"))
    return build


# ---- The calls that crates/entry_tests made --------------------------------------------------------------------------------------------------

TWO = table_bytes(dict(T=60, L=1, elements=[basin(down=2), reach(lag=120, first_discharge=2_000_000, first_variance=400, W=50)],
                       gauges=[gauge(2)]))
ONE = table_bytes(dict(T=60, L=1, elements=[basin(area=400_000)], gauges=[]))


def entry_calls():
    """By number of the call in crates/entry_tests."""
    marked = State(7, 77, [Figures(1001, 1002, 1003, 1004)] * 64, [(11, 12, 13)] * 64)
    good, first = bytes([0, 5, 1, 0, 100, 5, 120]), start(TWO, marked)
    s = step(TWO, good, first)
    states = {3: replace(s, count=3), 4: replace(s, steps=10_001), 5: replace(s, steps=10_000), 10: with_figure(s, 1, 0, CEILING),
              14: with_rain(s, 1, 0, 3_001), 15: with_figure(s, 2, 2, CEILING + 1)}
    states |= {6 + which: with_figure(s, 1, which, CEILING + 1) for which in range(4)}
    states |= {11 + which: with_rain(s, 0, which, 3_001) for which in range(3)}
    records = {19: [0, 5], 20: [0, 5, 3, 0, 100, 5, 120], 21: [0, 5, 1, 11, 185, 117, 49], 22: [0, 5, 1, 0, 100, 117, 49],
               23: [0, 5, 1, 0, 100, 1, 243], 24: [0, 5, 1, 0, 100, 255, 255]}
    yield Call("entry call 1", "start", TWO, marked)
    yield Call("entry call 2", "step", TWO, first, good)
    yield Call("entry call 16", "step", ONE, s, bytes([0, 3, 1, 0, 100]))
    yield Call("entry call 17", "start", ONE, s)
    yield Call("entry call 18", "step", ONE, start(ONE, s), bytes([0, 3, 1, 11, 184]))
    for number in sorted({*states, *records}):
        yield Call(f"entry call {number}", "step", TWO, states.get(number, s), bytes(records.get(number, good)))


# ---- Trials of a step --------------------------------------------------------------------------------------------------------------------


def trial_call(name, random, table, record, state, room=None, more=(0, 0, 1, 5)):
    """A trial in so much space; if nothing is said, in what it needs and one of these more."""
    need = 4 * table[8] if len(table) > 8 else 4
    lent = lent_numbers(random, need + random.choice(more) if room is None else room)
    return Call(name, "trial", table, state, record, lent, random.randrange(2))


def trials_of(*builds, more=(0, 0, 1, 5)):
    """The steps of these cases, each tried and then made; their starts as they are."""
    def build_trials(random):
        for call in (call for build in builds for call in build(random)):
            if call.entry == "step":
                yield trial_call(f"{call.name}, tried", random, call.table, call.record, call.state, more=more)
            if call.entry in ("start", "step"):
                yield call
    return build_trials


def trial_rooms(count, leads):
    """Every space around 4 N, which is enough whatever L is, and around what a forecast needs."""
    def build(random):
        table = some_table(random, count, "lone", "zero", leads=leads, gauge_count=0)
        data, record = table_bytes(table), record_bytes(*some_records(random, table, 1, "zero")[0])
        state, need, forecast = replace(fitting_state(random, data, "small"), steps=3), 4 * count, 4 * count * (leads + 1)
        for room in (0, 1, 3, need - 4, need - 1, need, need + 1, need + 4, forecast - 1, forecast, forecast + 1, ROOM_FOR_ALL + 1):
            for side in (0, 1):
                yield replace(trial_call(f"N {count}, L {leads}, room {room} of {need}", random, data, record, state, room), side=side)
    return build


def refused_by_each():
    """(number, table, record, state) of a step on the river with dams, on each of a step's numbers alone; 0 where it is accepted."""
    state = start(DAMS, state_of(0, 0))

    def edited(**changes):
        table = dam_table()
        table["elements"][0] |= changes.pop("element", {})
        table["gauges"][0] |= changes.pop("gauge", {})
        return table_bytes(table | changes)

    def recorded(rains=(3_000, 0), stages=(1_500,), releases=(5, 6), **rest):
        return record_bytes(rains, stages, releases, **rest)

    right = recorded()
    yield 0, DAMS, right, state
    for number, table in ((1, DAMS[:-1]), (2, edited(version=3)), (3, edited(T=0)), (4, edited(N=6)), (5, edited(element=dict(lag=0))),
                          (6, edited(element=dict(down=1))), (7, edited(gauge=dict(R=0))), (16, edited(element=dict(area=400_000)))):
        yield number, table, right, state
    yield 16, edited(version=2, gauge=dict(R=PASSES[0], beta=PASSES[1])), recorded(stages=(14_000,)), state
    for number, steps in ((8, 10_001), (9, 10_000), (0, 9_999)):
        yield number, DAMS, right, replace(state, steps=steps)
    for number, record in ((10, right[:-1]), (11, recorded(version=3)), (12, recorded(rains=(0, 3_001))),
                           (17, recorded(releases=(0, CEILING + 1))), (13, recorded(stages=(30_001,))), (14, recorded(stages=(499,))),
                           (0, recorded(stages=(stage_bits(1_500),), version=2)), (18, recorded(stages=(float_bits(30.001),), version=2)),
                           (14, recorded(stages=(stage_bits(499),), version=2))):
        yield number, DAMS, record, state


def trial_orders(random):
    """15 beside each number of a step: it stands after 14 and before 16."""
    for number, table, record, state in refused_by_each():
        for room in (0, 19, 20, 21, 60):
            call = trial_call(f"{number} with room {room} of 20", random, table, record, state, room)
            try:
                found = RULES.trial(table, record, state, call.lent) and 0
            except Refused as refused:
                found = refused.number
            assert found == (15 if room < 20 and number in (0, 16) else number), call.name
            yield call
            yield Call(f"{number}, the step", "step", table, state, record)


def cut_trials(random):
    """Table and record cut and spoiled at each byte, and none of them."""
    state = small_state(random)
    for at in range(len(SMALL)):
        yield trial_call(f"table cut at {at}", random, SMALL[:at], SMALL_RECORD, state, SMALL_NEED)
        value = random.choice(spoiled_values(SMALL[at]))
        yield trial_call(f"table spoiled at {at} by {value}", random, spoiled(SMALL, at, value), SMALL_RECORD, state)
    for at in range(len(SMALL_RECORD)):
        yield trial_call(f"record cut at {at}", random, SMALL, SMALL_RECORD[:at], state)
        told = big_endian(max(0, at - 2), 2) + SMALL_RECORD[2:at]
        yield trial_call(f"record cut at {at}, as its length says", random, SMALL, told, state)
        for value in spoiled_values(SMALL_RECORD[at]):
            yield trial_call(f"record spoiled at {at} by {value}", random, SMALL, spoiled(SMALL_RECORD, at, value), state)
    for side in (0, 1):
        for name, table, record, room in (("nothing", b"", b"", 0), ("no record", SMALL, b"", 16), ("no room", SMALL, SMALL_RECORD, 0)):
            yield replace(trial_call(name, random, table, record, state, room), side=side)


def trial_run(random, table, records):
    """A start and steps. Before each step its record is tried with other stages, with gaps, with a stage of 13, and as it is."""
    data = table_bytes(table)
    state = noise_state(random, data)
    yield Call("start", "start", data, state)
    state = start(data, state)
    for rains, stages, *releases in records:
        for doubtful in (some_records(random, table, 1, "typical")[0][1], (GAP,) * len(stages), (30_001,) * len(stages)):
            yield trial_call("doubtful stages", random, data, record_bytes(rains, doubtful, *releases), state)
        record = record_bytes(rains, stages, *releases)
        yield trial_call("trial", random, data, record, state)
        yield Call("step", "step", data, state, record)
        try:
            state = step(data, record, state)
        except Refused:
            return


def trial_runs(count=None):
    def build(random):
        way = random.choice(("typical", "typical", "ceiling"))
        table = some_table(random, count or random.choice((1, 2, 3, 4)), random.choice(SHAPES), way)
        return trial_run(random, table, some_records(random, table, 3, "typical"))
    return build


# ---- Trials that differ in one gauge's reading -------------------------------------------------------------------------------------------


def reading_trials(random, table, state, fields, number, stages):
    """Trials that differ in the stage of one gauge (from 0); None where one is refused or two have the same answer."""
    rains, others, releases = fields
    calls, answers = [], set()
    for stage in stages:
        record = record_bytes(rains, (*others[:number], stage, *others[number + 1:]), releases)
        calls.append(trial_call(f"gauge {number + 1}, stage {stage}", random, table, record, state))
        try:
            answers.add(tuple(RULES.trial(table, record, state, [0] * 256)[1]))
        except Refused:
            return None
    return calls if len(answers) == len(stages) else None


def independence(elements, gauged, releases=()):
    """By gauge trials with one stage, another and a gap: each differs from the next, and only where the gauge's water comes."""
    table = dict(T=60, L=2, elements=elements, gauges=[gauge(number, R=50_000) for number in gauged])
    data, basins = table_bytes(table), count_of(table, 1)

    def build(random):
        first = start(data, noise_state(random, data))
        moved = step(data, record_bytes((120,) * basins, [900 + 10 * k for k, _ in enumerate(gauged)], releases), first)
        for state in (first, moved, replace(moved, steps=9_999)):
            for number, _ in enumerate(gauged):
                stages = [random.choice((GAP, random.randint(600, 1_500))) for _ in gauged]
                fields = [random.randint(0, 300) for _ in range(basins)], stages, releases
                calls = reading_trials(random, data, state, fields, number, (random.randint(600, 999), random.randint(1_000, 2_000), GAP))
                assert calls, f"gauge {number + 1} changes nothing"
                yield from calls
    return build


def water(**rest):
    return dict(first_discharge=7_000_000, first_variance=900, W=400) | rest


def independence_rivers():
    """(name, elements, gauged elements, releases): where a gauge can stand, and where its water ends."""
    joined = [basin(down=3, **water()), basin(down=3, lag=90, **water()), reach(down=5, **water()), basin(down=5, area=50, **water()),
              reach(down=7, lag=120, **water()), reach(**water()), reach(lag=300, **water()), basin(**water())]
    yield "gauges on all but one", joined, (1, 2, 3, 5, 6, 7, 8), ()
    dammed = [basin(down=2, **water()), reach(down=4, **water()), basin(down=4, **water()), dam(down=6, **water()),
              basin(down=6, **water()), reach(down=7, **water()), dam(down=8, **water()), dam(down=9, **water()), reach(**water()),
              basin(down=11, **water()), dam(**water())]
    yield "dams", dammed, (1, 2, 3, 5, 6, 9, 10), (10 ** 6, 2 * 10 ** 6, 3 * 10 ** 6, 4 * 10 ** 6)
    yield "one element", [basin(**water())], (1,), ()
    chain = [basin(down=2, area=50, **water())] + [reach(down=(k + 1) * (k < 64), **water()) for k in range(2, 65)]
    yield "chain of 64", chain, tuple(range(1, 65, 4)), ()
    cut = [dam(down=each["down"], **water()) if k % 8 == 5 else each for k, each in enumerate(chain)]
    yield "chain of 64 with dams", cut, tuple(range(1, 65, 4)), tuple(10 ** 6 * k for k in range(8))
    tanked = [basin(down=2, **water()), tanks(3, down=5, **water()), basin(down=4, **water()), tanks(8, down=5, lag=90, **water()),
              tanks(2, down=7, **water()), tanks(4, **water()), dam(down=8, **water()), tanks(2, **water())]
    yield "tanks", tanked, (1, 2, 3, 4, 5, 6, 8), (10 ** 6,)
    yield "63 basins into a reach", [basin(down=64, area=50, **water()) for _ in range(63)] + [reach(**water())], (*range(1, 61, 4), 64), ()


def small_networks():
    """Every list of kinds and downs of three elements that rules 5 and 6 take, as elements."""
    makers = {1: basin, 2: reach, 3: dam}
    for kinds in product((1, 2, 3), repeat=3):
        later = [[0] + [below for below in range(place + 1, 4) if kinds[below - 1] != 1] for place in (1, 2, 3)]
        for downs in product(*later):
            yield [makers[kind](down=down, **water()) for kind, down in zip(kinds, downs)]


def independence_of_small(random):
    """Every network of three elements with a gauge on all that are no dams."""
    for elements in small_networks():
        gauged = [number for number, element in enumerate(elements, 1) if element["kind"] != 3]
        table = table_bytes(dict(T=60, L=1, elements=elements, gauges=[gauge(number, R=50_000) for number in gauged]))
        basins = sum(element["kind"] == 1 for element in elements)
        fields = (90,) * basins, tuple(random.randint(600, 1_500) for _ in gauged), (10 ** 6,) * (3 - len(gauged))
        state = start(table, noise_state(random, table))
        for place, _ in enumerate(gauged):
            yield from reading_trials(random, table, state, fields, place, (random.randint(600, 999), random.randint(1_000, 2_000), GAP))


def random_independence(random):
    """A random river and state, drawn again until a gauge changes something."""
    while True:
        count, way = random.choice((2, 3, 5, 8, 12, 64)), random.choice(("typical", "typical", "zero"))
        table = some_table(random, count, random.choice(SHAPES), way, gauge_count=random.choice((1, 2, 5, 16)))
        data, fields = table_bytes(table), some_records(random, table, 1, "typical")[0]
        state = replace(fitting_state(random, data, random.choice(("typical", "small"))), steps=random.choice((0, 3, 9_999)))
        found = []
        for number, each in enumerate(table["gauges"]):
            stages = [some_stage(random, each) for _ in range(2)] + [GAP]
            found += reading_trials(random, data, state, fields, number, stages) or []
        if found:
            return found


def trial_cases():
    edits = [(rule, edited_calls(edit)) for rule, edit in rule_edits()]
    edits += [(rule, edited_calls(edit, dam_river)) for rule, edit in dam_edits()]
    edits += [(rule, edited_calls(edit, float_river)) for rule, edit in float_edits()]
    edits += [(rule, edited_calls(edit, noise_river)) for rule, edit in noise_edits()]
    edits += [(rule, edited_calls(edit, tank_river)) for rule, edit in tank_edits()]
    for rule in sorted({rule for rule, _ in edits}):
        yield f"rule {rule}", trials_of(*(build for about, build in edits if about == rule))
    yield "order of 15", trial_orders
    yield from ((f"rooms of {count} elements and {leads} leads", trial_rooms(count, leads)) for count in (1, 4, 64) for leads in (1, 12))
    for build in (counts_and_steps, numbers_of_places, numbers_beyond, whole_river_state, other_river):
        yield build.__name__.replace("_", " "), trials_of(build)
    for name, build in (("numbers of places", dam_numbers), ("inflow above C", into_a_dam), ("cut records", dam_records_cut),
                        ("order of 17", release_orders)):
        yield f"dam, {name}", trials_of(build)
    yield from ((f"mean inflow, {name}", trials_of(build)) for name, build in mean_inflow_cases())
    for name, build in ceiling_cases():
        if "forecast" not in name and " alone" not in name:
            yield f"ceiling, {name.removesuffix(', step')}", trials_of(build)
    yield from ((f"float, {name}", trials_of(build)) for name, build in float_cases() if name != "random")
    yield from (("float, random", trials_of(random_floats, more=(-1, 0, 0, 3))) for _ in range(10))
    yield "noise, in little space", trials_of(*(steps_of(table, records) for _, table, records in noise_orders()), more=(-1,))
    yield "last places", trials_of(last_place_calls)
    yield "cut and spoiled", cut_trials
    for name, build, count in (("several refusals", several_refusals, 6), ("random", random_calls(), 150),
                               ("random, 64 elements", random_calls(64), 8), ("noise", noise_calls, 15)):
        yield from ((name, trials_of(build, more=(-1, 0, 0, 3))) for _ in range(count))
    yield from ((f"independence, {name}", independence(*river)) for name, *river in independence_rivers())
    yield "independence, every network of 3", independence_of_small
    yield "independence, floats", float_independence
    yield from (("independence, random", random_independence) for _ in range(30))


def trial_run_cases():
    yield "run", lambda random: trial_run(random, *small_river())
    yield "run with dams", lambda random: trial_run(random, *dam_river())
    yield "run with tanks", lambda random: trial_run(random, *tank_river())
    yield from (("run", trial_runs()) for _ in range(20))
    yield "run of 12", trial_runs(12)
    yield from ((f"curve, {name}", trials_of(steps_of(table, records))) for name, table, records in curve_rivers())
    yield from ((f"noise, {name}", trials_of(steps_of(table, records))) for name, table, records in (*noise_rivers(), *noise_orders()))


# ---- Floats ------------------------------------------------------------------------------------------------------------------------------

FLOATS = table_bytes(float_river()[0])
FLOAT_RECORD = record_bytes(*FLOAT_RECORDS[2])


def float_steps(table, records):
    """A step on each record, all from one state, so that a refused one must leave it."""
    data = table_bytes(table)

    def build(random):
        state = replace(start(data, noise_state(random, data)), steps=3)
        for number, record in enumerate(records, 1):
            yield Call(f"record {number}", "step", data, state, record_bytes(*record), side=random.randrange(2))
    return build


def float_orders(random):
    """18 beside each number of a step: it stands after 13 and before 14."""
    state, flooded = moved_state(random, *float_river()), float_river()[0]
    flooded["elements"][0] |= dict(area=400_000)  # a rain of 3,000 brings 16
    for first, table, given in (("18", FLOATS, state), ("8 and 18", FLOATS, replace(state, steps=10_001)),
                                ("9 and 18", FLOATS, replace(state, steps=10_000)), ("16 and 18", table_bytes(flooded), state)):
        for bad in (float_bits(30.001), float_bits(-1e-4), 0xFFC0_0000, 0x7F80_0000):
            for second, rain, release, other in (("nothing", 3_000, 0, FLOAT_GAP), ("12", 3_001, 0, FLOAT_GAP),
                                                 ("17", 0, CEILING + 1, FLOAT_GAP), ("14", 0, 0, stage_bits(400))):
                for stages in ((bad, other), (other, bad)):
                    record = record_bytes((rain, 0), stages, (release, 0), 2)
                    yield Call(f"{first}, {second} beside it", "step", table, given, record, side=random.randrange(2))


def float_records_cut(random):
    """A record of version 2 cut at each byte, as its length says and not, longer, and by versions of either length."""
    state = moved_state(random, *float_river())
    for size in range(len(FLOAT_RECORD)):
        yield Call(f"record cut at {size}", "step", FLOATS, state, FLOAT_RECORD[:size], side=random.randrange(2))
    for record in (*(FLOAT_RECORD[:size] for size in range(2, len(FLOAT_RECORD))), FLOAT_RECORD + bytes(2), FLOAT_RECORD + bytes(4)):
        told = big_endian(len(record) - 2, 2) + record[2:]
        yield Call(f"record of {len(record)} bytes", "step", FLOATS, state, told, side=random.randrange(2))
    for version in (0, 1, 2, 3, 4, 127, 128, 130, 254, 255):
        for size in (2, 4):
            for length in (None, 17, 21):
                record = record_bytes((5, 6), (500, 600), (7, 8), version, length, size)
                yield Call(f"version {version}, {size} bytes a gauge, length {length}", "step", FLOATS, state, record)


def in_both_versions(river, entry):
    """Each record of a river in version 1, and in version 2 by any float of the same millimetres; the state of the run."""
    def build(random):
        table, records = river() if callable(river) else river
        data, need = table_bytes(table), 4 * len(table["elements"])
        state = start(data, noise_state(random, data))
        for record in records:
            lent = lent_numbers(random, need + 1) if entry == "trial" else ()
            call = Call(f"version 1, {entry}", entry, data, state, record_bytes(*record), lent, random.randrange(2))
            yield call
            yield replace(call, name=f"version 2, {entry}", record=record_bytes(*in_floats(record, random)), twin=True)
            try:
                state = step(data, record_bytes(*record), state)
            except Refused:
                pass
    return build


def float_independence(random):
    """By gauge trials with one float, another, a gap and minus zero: each differs from the next, and only where the gauge's water comes."""
    elements, gauged = [reach(down=3, **water()), reach(down=3, **water()), reach(down=4, **water()), dam(**water())], (1, 2, 3)
    table = table_bytes(dict(T=60, L=1, elements=elements, gauges=[gauge(number, R=50_000, pieces=[(30_001, 900, 0)]) for number in gauged]))
    state, others = start(table, noise_state(random, table)), [float_bits(0.9), float_bits(1.1), float_bits(1.3)]
    for number, _ in enumerate(gauged):
        for bits in (float_bits(0.7), float_bits(1.2345), FLOAT_GAP, 0x8000_0000, float_bits(2.0)):
            record = record_bytes((), (*others[:number], bits, *others[number + 1:]), (10 ** 6,), 2)
            yield trial_call(f"gauge {number + 1}, {bits:08X}", random, table, record, state)


def random_floats(random):
    """A random river and state with a record of version 2 of which one float or another is mostly refused."""
    table = some_table(random, random.choice((1, 3, 5)), random.choice(SHAPES), "typical", leads=1, gauge_count=random.choice((1, 2, 5)))
    data, (rains, stages, releases, version) = table_bytes(table), in_floats(some_records(random, table, 1, "typical")[0], random)
    state = replace(fitting_state(random, data, "small"), steps=3)
    for _ in range(4):
        spoiled_stages = [some_trouble(random) if random.random() < 0.4 else bits for bits in stages]
        yield Call("random", "step", data, state, record_bytes(rains, spoiled_stages, releases, version), side=random.randrange(2))


def float_cases():
    for name, table, records in (("exact halves", float_table(16), float_rows(EXACT_HALVES)),
                                 ("near half a millimetre", float_table(16), float_rows(near_halves(997))),
                                 ("near 30 m", float_table(), float_rows(NEAR_30_METRES, 1)),
                                 ("special patterns", float_table(), float_rows(list(SPECIAL.values()), 1)),
                                 ("special patterns at each gauge", float_table(16), at_each_gauge([*SPECIAL.values()] * 2)),
                                 ("byte order", float_table(), float_rows(BYTE_ORDERS, 1)),
                                 ("halves of 13", float_table(16), float_rows(HALVES_OF_THIRTEEN * 8))):
        yield name, float_steps(table, records)
    yield "order of 18", float_orders
    yield "cut records and versions", float_records_cut
    yield from (("random", random_floats) for _ in range(40))


def both_version_cases():
    for name, river in (("small river", small_river), ("dams", dam_river),
                        *((name, (table, records)) for name, table, records in curve_rivers())):
        for entry in ("step", "trial"):
            yield f"{name} as in version 1, {entry}", in_both_versions(river, entry)


# ---- Tables of version 2: noise that follows the discharge -------------------------------------------------------------------------------

NOISE = table_bytes(noise_table())


def noise_looks(name, random, asked):
    """A rate of each (R, β, pieces, stage, answer), the answer being worked out beside the calculator; 16 gauges to a table."""
    asked = list(asked)
    for at in range(0, len(asked), 16):
        group = asked[at:at + 16]
        table = table_bytes(gauged_reaches(*(given for *given, _, _ in group)))
        for number, (*_, stage, answer) in enumerate(group, 1):
            assert RULES.rate(table, number, stage) == answer, f"{name}: {group[number - 1]}"
        yield from rate_calls(name, random, table, [(number, stage) for number, (*_, stage, _) in enumerate(group, 1)])


def looks_at_small_t(random):
    """β z on either side of whole t, and t on either side of the next whole noise."""
    curves = [(beta, z, *piece_of(z)) for beta, z in SMALL_T]
    return noise_looks("small t", random, ((R, beta, [(30_001, a, 0)], depth, (0, z, R + added_noise(beta, z), 1))
                                           for R in (1, 3_000_000) for beta, z, a, depth in curves))


def looks_at_noise_ceiling(random):
    """A noise of C - 1, C and C + 1 on each of five pieces, and the largest that there is; with 16 the pieces are told."""
    def asked():
        for place, top in enumerate(FIVE_TOPS[1]):
            for beta, a, depth in NOISE_PLACES:
                z, stage = a * depth ** 2 // 1_000, top - 1
                pieces = [(each, *((a, depth - stage) if which == place else (100, 0))) for which, each in enumerate(FIVE_TOPS[1])]
                for noise in (CEILING - 1, CEILING, CEILING + 1):
                    R = noise - added_noise(beta, z)
                    if R <= CEILING and depth - stage <= 30_000:
                        yield R, beta, pieces, stage, (0, z, noise, place + 1) if noise <= CEILING else (16, 0, 0, place + 1)
        for R in (1, CEILING):
            yield R, 500, [(30_001, 1_000_000, 0)], 2_000, (16, 0, 0, 1)

    return noise_looks("ceiling", random, asked())


def looks_at_fourteen(random):
    """14 before 16: z above C, or a stage below the curve, at a gauge whose noise would pass C as well."""
    return noise_looks("14", random, ((R, 500, [(100, *ABOVE_ALL), (30_001, a, b)], stage, answer) for R in (1, CEILING)
                                      for a, b, stage, answer in ((1_000_000, 0, 2_001, (14, 0, 0, 2)), (268_742, 0, 3_858, (14, 0, 0, 2)),
                                                                  (1_000_000, -2_000, 1_999, (14, 0, 0, 2)), (9, 0, 50, (14, 0, 0, 1)))))


def rates_without_noise(random):
    """A gap, a stage of 13 and gauges that are not there, where a noise would pass C."""
    table = table_bytes(gauged_reaches(PASSES, (200, 100, 20_000, -500)))
    asked = product((0, 1, 2, 3, LARGEST), (14_000, GAP, 30_001, 65_534))
    return rate_calls("no noise", random, table, asked)


def rates_of_largest_noise(random):
    """64 elements and 16 gauges of five pieces in version 2, each with its own β: each gauge on each of its pieces."""
    elements = [basin(down=64, area=1) for _ in range(63)] + [reach()]
    gauges = [gauge(49 + k, beta=33 * k, pieces=taking_curve(k, FIVE_TOPS[k % 4])) for k in range(16)]
    asked = [(k + 1, stage) for k in range(16) for top in FIVE_TOPS[k % 4] for stage in (top - 1, min(30_000, top))]
    return rate_calls("largest", random, table_bytes(dict(version=2, T=60, L=12, elements=elements, gauges=gauges)), [*asked, (17, 100)])


def random_noise_looks(random):
    """Any gauges of version 2 with stages that they take, and others."""
    table = some_table(random, 16, "chain", "typical", gauge_count=16, version=2)
    for number, each in enumerate(table["gauges"], 1):
        asked = [(number, some_stage(random, each)), (number, random.randint(0, 30_000))]
        yield from rate_calls("random", random, table_bytes(table), asked)


def noise_tables_spoiled(random):
    """A table of version 2 cut at each byte, as its length says and not, and spoiled."""
    state, record, entries = moved_state(random, *noise_river()), SMALL_RECORD, ("start", "step", "forecast", "check", "rate")
    for at in range(10, len(NOISE), 3):
        value = random.choice(spoiled_values(NOISE[at]))
        for name, table in (("cut", NOISE[:at]), ("cut, as its length says", big_endian(at - 4, 4) + NOISE[4:at]),
                            (f"spoiled by {value}", spoiled(NOISE, at, value))):
            yield Call(f"table {name} at {at}", random.choice(entries), table, state, record, lent_numbers(random, 208),
                       random.randrange(2), asked=(random.choice((1, 2)), 1_500))
    for extra in (1, 2, 4, 48):
        yield Call(f"table longer by {extra}", "check", big_endian(len(NOISE) - 4 + extra, 4) + NOISE[4:] + bytes(extra), state)


def table_versions(random):
    """Every version byte about 1 and 2, with gauges of either length, by every entry."""
    state, record = moved_state(random, *noise_river()), SMALL_RECORD
    for version in (0, 1, 2, 3, 4, 127, 129, 130, 255):
        for with_beta in (False, True):
            table = table_bytes(noise_table(version=version, with_beta=with_beta))
            for entry in ("start", "step", "forecast", "trial", "check", "rate"):
                yield Call(f"version {version}, {'48' if with_beta else '46'} bytes a gauge, {entry}", entry, table, state, record,
                           lent_numbers(random, 50), random.randrange(2), asked=(2, 1_500))


def in_either_table(random, table, records):
    """Each call on the table in version 1, and in version 2 with β 0: check, start, rates, and by record trial, step and forecast."""
    one, two = (table_bytes(table | dict(version=version, gauges=[each | dict(beta=0) for each in table["gauges"]])) for version in (1, 2))

    def both_tables(entry, state, record=b"", room=0, asked=(0, 0)):
        call = Call(f"version 1, {entry}", entry, one, state, record, lent_numbers(random, room), random.randrange(2), asked)
        return [call, replace(call, name=f"version 2, {entry}", table=two, twin=True)]

    state, need = noise_state(random, one), 4 * len(table["elements"])
    yield from both_tables("check", state) + both_tables("start", state)
    for number, each in enumerate(table["gauges"], 1):
        yield from both_tables("rate", state, asked=(number, random.choice((some_stage(random, each), random.randint(0, 30_000)))))
    state = start(one, state)
    for record in (record_bytes(*record) for record in records):
        yield from both_tables("trial", state, record, need + random.choice((-1, 0, 0, 3))) + both_tables("step", state, record)
        try:
            state = step(one, record, state)
        except Refused:
            continue
        yield from both_tables("forecast", state, room=need * (table["L"] + 1))


def random_in_either_table(random):
    table = some_table(random, random.choice((1, 3, 5)), random.choice(SHAPES), random.choice(WAYS), version=1)
    return in_either_table(random, table, some_records(random, table, 2, "typical"))


def noise_cases():
    for name, build in (("rate, small t", looks_at_small_t), ("rate, C and C + 1", looks_at_noise_ceiling), ("rate, 14", looks_at_fourteen),
                        ("rate, no reading", rates_without_noise), ("rate, largest table", rates_of_largest_noise),
                        ("spoiled tables", noise_tables_spoiled), ("table versions", table_versions)):
        yield name, build
    yield from (("rate, random", random_noise_looks) for _ in range(6))
    for name, river in (("small river", small_river()), ("dams", dam_river()), ("floats", float_river()),
                        ("tanks", tank_river()), *((name, (table, records[:8])) for name, table, records in curve_rivers())):
        yield f"{name} as in version 1", lambda random, river=river: in_either_table(random, *river)
    yield from (("random as in version 1", random_in_either_table) for _ in range(12))


# ---- What a display gets -----------------------------------------------------------------------------------------------------------------


def show_calls(random, pairs):
    state = noise_state(random)
    for discharge, margin in pairs:
        yield Call(f"show {discharge} and {margin}", "show", b"", state, asked=(discharge, margin))


COUNTS = (0, 1, 2, 3, 5, 7, 10, 999, 1_000, 999_999, 10 ** 6, 10 ** 6 + 1, 63_212_055, 123_456_789, 2 ** 31, 2 ** 31 + 1, CEILING - 1, CEILING)
ABOVE = (CEILING + 1, CEILING + 2, 2 ** 32 - 1, 2 ** 32, 2 ** 32 + 5, 2 ** 53, 2 ** 53 + 1, 2 ** 63 - 1, 2 ** 63, 2 ** 63 + 5, LARGEST)


def shown_counts(random):
    """Small counts, round ones, C, and each of these on either side."""
    yield from show_calls(random, [(count, other) for count in COUNTS for other in (0, 1, CEILING, count)])
    yield from show_calls(random, [(other, count) for count in COUNTS for other in (0, 1, CEILING)])


def shown_above(random):
    """Counts above C on one side, on the other, and on both: 16, both floats 0."""
    yield from show_calls(random, [pair for above in ABOVE for count in (0, 5 * 10 ** 6, CEILING) for pair in ((above, count), (count, above))])
    yield from show_calls(random, [(above, other) for above in ABOVE for other in (CEILING + 1, LARGEST)])


def shown_at_random(random):
    def some():
        return random.randint(0, random.choice((CEILING, 10 ** 7, 10 ** 4)))
    yield from show_calls(random, [(some(), some()) for _ in range(150)])


def show_cases():
    yield "counts", shown_counts
    yield "above C", shown_above
    yield "random", shown_at_random


# ---- Two storms ----------------------------------------------------------------------------------------------------------------------------


def calls_of_storms(table, records, rains):
    """Of two storms, the second with more rain: a forecast from the start, and by record a trial, a step and a forecast, each of both."""
    data, need = table_bytes(table), 4 * len(table["elements"])

    def build(random):
        def both(entry, states, sent=(b"", b""), room=0):
            one, other = (Call(f"{storm} storm, {entry}", entry, data, state, record, lent_numbers(random, room), random.randrange(2))
                          for storm, state, record in zip(("first", "second"), states, sent))
            return [one, replace(other, wetter=True)]

        states = [start(data, noise_state(random, data))] * 2
        yield from both("forecast", states, room=need * (table["L"] + 1))
        for pair in zip(records, with_rains(records, rains)):
            sent = [record_bytes(*record) for record in pair]
            yield from both("trial", states, sent, need) + both("step", states, sent)
            states = [step(data, record, state) for record, state in zip(sent, states)]
            yield from both("forecast", states, room=need * (table["L"] + 1))
    return build


# ---- Reaches made of several tanks -------------------------------------------------------------------------------------------------------

TANKS = table_bytes(tank_table())  # in use are places 0 to 7: five elements, two inner tanks of element 2, one of element 5
TANK_RECORD = record_bytes(*TANK_RECORDS[0])
TANK_NEED = 4 * 5 * 3
MOST_TANKS = table_bytes(dict(T=60, L=12, elements=[tanks(8, first_discharge=k, first_variance=CEILING - k, W=k) for k in range(64)],
                              gauges=[]))


def all_entries(name, random, state, table=TANKS, record=TANK_RECORD, room=TANK_NEED):
    """A step, a forecast and a trial from the same state."""
    return [*both(name, random, state, table, record, room), trial_call(f"{name}, trial", random, table, record, state)]


def tank_starts(random):
    for table in (TANKS, MOST_TANKS):
        yield Call("start from noise", "start", table, noise_state(random, table), side=random.randrange(2))
        yield Call("start from noise, 1,000 places", "start", table, noise_state(random, places=1_000), side=random.randrange(2))


def tank_numbers(random):
    """Each of the seven numbers of each inner tank: rule 8 on the figures, none on the rains; then those of the first places not in use."""
    state = moved_state(random, *tank_river())
    for place in (5, 6, 7, 1, 4):
        for which in range(7):
            for value in (CEILING, CEILING + 1, 2 ** 32 + 1, LARGEST) if which < 4 else (3_000, 3_001, LARGEST):
                yield from all_entries(f"number {which} of place {place} is {value}", random, with_number(state, place, which, value))
    for place in (8, 9, 63):
        for which in range(7):
            value = random.choice((CEILING + 1, 2 ** 32, LARGEST))
            name = f"number {which} of place {place}, not in use, is {value}"
            yield from all_entries(name, random, with_number(state, place, which, value))


def numbers_of_512_tanks(random):
    """64 elements of 8 tanks and all 1,000 places sent: the first inner tank, the last one, and places that are not in use."""
    state = start(MOST_TANKS, noise_state(random, places=1_000))
    record = record_bytes((), ())
    for place in (0, 63, 64, 70, 71, 511, 512, 999):
        for which in (0, 3, 6):
            given = with_number(state, place, which, CEILING + 1)
            yield from all_entries(f"number {which} of place {place}", random, given, MOST_TANKS, record, ROOM_FOR_ALL)


def states_of_other_tanks(random):
    """States that a table with the same N but other tanks has moved: rule 8 takes what it takes, and the places are read by this table."""
    elements = tank_table()["elements"]
    rivers = {"three and two": tank_table(), "eight and two": tank_table(elements=[elements[0], elements[1] | dict(f=8), *elements[2:]]),
              "two and three": tank_table(elements=[elements[0], elements[1] | dict(f=2), *elements[2:4], elements[4] | dict(f=3)]),
              "none": tank_table(elements=[elements[0], reach(down=5, lag=90), *elements[2:4], reach(lag=61)])}
    for (name, table), (other, moved_by) in product(rivers.items(), repeat=2):
        if name != other:
            data, zeros = table_bytes(table), start(table_bytes(moved_by), state_of(0, 0))
            for state in (step(table_bytes(moved_by), TANK_RECORD, zeros), moved_state(random, moved_by, TANK_RECORDS)):
                yield from all_entries(f"tanks {name}, a state of {other}", random, state, data)
                yield Call(f"tanks {name}, started over {other}", "start", data, state)


def tank_call(name, random, entry, count, figures, **rest):
    """A step or a forecast of an element of so many tanks from these figures, the uppermost tank's first, below a dam that is shut."""
    table = table_bytes(dict(T=60, L=3, elements=[dam(down=2), tanks(count, **rest)], gauges=[]))
    *inner, last = figures
    lent = lent_numbers(random, 4 * 2 * 4 + 1) if entry == "forecast" else ()
    state = state_of(2, 3, [(0, 0, 0, 0), last, *inner])
    return Call(f"{name}, {entry}", entry, table, state, record_bytes((), (), (0,)), lent, random.randrange(2))


def old_and_new_between(random):
    """Each figure of each tank alone: discharge and margin of the old count for the next tank, variance and its margin of the new alone."""
    for count, which in product((2, 3, 8), range(4)):
        for place in sorted({0, 1, count - 1}):
            for value in (1, 2, 3, 5, 1_000_001, 10 ** 9, CEILING):
                figures = [single(which, value if tank == place else 0) for tank in range(count)]
                for entry in ("step", "forecast"):
                    yield tank_call(f"{count} tanks, number {which} of tank {place + 1} is {value}", random, entry, count, figures)


def odd_sums_between(random):
    """Small discharges and margins of three tanks: odd sums of old and new, which are rounded down."""
    for values in product((0, 1, 2, 3), repeat=3):
        for which, lag in ((0, 60), (0, 200), (1, 60), (1, 200)):
            figures = [single(which, value) for value in values]
            yield tank_call(f"number {which} of tanks is {values}", random, random.choice(("step", "forecast")), 3, figures, lag=lag)


def noise_between(random):
    """W in every tank, from no variance and from some."""
    for count, W in product((2, 5, 8), (1, 1_000, 100_000_000)):
        for variance in (0, 7, 10 ** 9):
            for entry in ("step", "forecast"):
                yield tank_call(f"{count} tanks, W {W}", random, entry, count, [(5, 6, variance, 8)] * count, W=W)


def slow_tanks(count, above=0, **rest):
    """So many reaches drain into an element of tanks; all keep nearly all they have."""
    slow = [reach(down=above + 1, lag=60_000) for _ in range(above)]
    return table_bytes(SLOW | dict(elements=[*slow, tanks(count, lag=60_000, **rest)]))


def tank_edges(watched, entry, table, figures, leads=1):
    """Calls around the p at which the watched number of an inner tank is C and C + 1; figures(p) are the state's."""
    lent_room = 4 * table[8] * (leads + 1)

    def build(random):
        lent = lent_numbers(random, lent_room) if entry == "forecast" else ()
        return edge_calls(watched, lambda p: Call("", entry, table, state_of(table[8], 3, figures(p)), record_bytes((), ()), lent))
    return build


INNER = "inner tank's "  # before the name of a number that rule 16 judges, where it is an inner tank's


def tank_ceiling_cases():
    """Rule 16's numbers of inner tanks. Of the figures of an element of k tanks after r reaches that of its last is at place r and those of
    the inner ones follow."""
    none, full = (0, 0, 0, 0), (0, CEILING, 0, 0)
    for entry in ("step", "forecast"):
        for which, name in enumerate(("", " margin", " variance", " variance margin")):
            yield f"inflow {which} of the first, {entry}", tank_edges(
                f"{INNER}reach inflow{name}", entry, slow_tanks(2, 2), lambda p, which=which: [single(which, CEILING), single(which, p)])
        # The tank above has a margin of C before and, by what drains in, after: half of both, and one more, passes C.
        for count, name in ((3, INNER), (2, "")):
            yield f"inflow margin of the second of {count}, {entry}", tank_edges(
                f"{name}reach inflow margin", entry, slow_tanks(count, 1), lambda p: [(0, p, 0, 0), none, full])
        for name, higher in (("first", [full, none]), ("second", [none, none, (0, CEILING - 10 ** 6, 0, 0)])):
            yield f"margin of the {name}, {entry}", tank_edges(
                f"{INNER}moved margin", entry, slow_tanks(3, 1), lambda p, higher=higher: [*higher, (0, p, 0, 0)])
        for name, higher in (("first", [none]), ("second", [none, none])):
            yield f"variance of the {name}, {entry}", tank_edges(
                f"{INNER}moved variance", entry, slow_tanks(3, W=100_000_000), lambda p, higher=higher: [*higher, single(2, p)])
    for leads in (2, 3, 12):
        table = table_bytes(SLOW | dict(elements=[tanks(3, lag=60_000, W=100_000_000)], L=leads))
        yield f"variance at lead {leads} alone", tank_edges(f"{INNER}moved variance", "forecast", table, lambda p: [none, single(2, p)],
                                                            leads)


def in_reaches_too(call, table):
    """A call on a table with tanks, and the same on the table with them written out as reaches, with as much more space."""
    written, cells = table_bytes(in_reaches(table)), cells_of(call.table)
    state = State(len(cells), call.state.steps, [call.state.figures[place] for place in cells], [call.state.rains[place] for place in cells])
    lent = (call.lent * 8)[:len(call.lent) // call.table[8] * len(cells)]
    return [call, replace(call, name=f"{call.name}, in reaches", table=written, state=state, lent=lent, reaches=True)]


def calls_in_reaches(random, table, records, state=None):
    """Start, and by record trial, step and forecast, each on both rivers; all from one state if there is one."""
    data, need, given = table_bytes(table), 4 * len(table["elements"]), state
    if state is None:
        state = noise_state(random, data)
        yield from in_reaches_too(Call("start", "start", data, state), table)
        state = start(data, state)
    for record in (record_bytes(*record) for record in records):
        yield from in_reaches_too(trial_call("trial", random, data, record, state, need), table)
        yield from in_reaches_too(Call("step", "step", data, state, record, side=random.randrange(2)), table)
        yield from in_reaches_too(Call("forecast", "forecast", data, state, b"", lent_numbers(random, need * (table["L"] + 1))), table)
        try:
            state = step(data, record, state) if given is None else state
        except Refused:
            pass


def random_in_reaches(random):
    """A drawn river, from its start and from states of any numbers."""
    table, records = drawn_tanks(random)
    yield from calls_in_reaches(random, table, records[:2])
    for way in ("typical", "small", random.choice(("wild", "ceiling"))):
        state = fitting_state(random, table_bytes(table), way)
        if random.random() < 0.3:
            state = with_number(state, random.randrange(tanks_and_others(table)), random.randrange(7), CEILING + random.choice((0, 1)))
        yield from calls_in_reaches(random, table, records[:1], state)


def tank_cases():
    for name, build in (("starts", tank_starts), ("numbers of places", tank_numbers), ("numbers of 512 tanks", numbers_of_512_tanks),
                        ("states of other tanks", states_of_other_tanks), ("old and new", old_and_new_between),
                        ("odd sums", odd_sums_between), ("W", noise_between)):
        yield name, build
    for name, *river in (*tank_rivers(), *ceiling_of_tanks()):
        if tanks_and_others(river[0]) <= 64:
            yield f"{name} as in reaches", lambda random, river=river: calls_in_reaches(random, *river)
    yield from (("random as in reaches", random_in_reaches) for _ in range(40))


# ---- The list ----------------------------------------------------------------------------------------------------------------------------


def check_calls(random):
    """The plan of tables of every kind, for as many elements, leads and gauges as there can be."""
    nothing = noise_state(random)
    for count, leads, gauge_count in ((1, 1, 0), (2, 12, 2), (64, 1, 16), (64, 12, 0), (5, 3, 5)):
        table = some_table(random, count, random.choice(SHAPES), "typical", leads=leads, gauge_count=gauge_count)
        yield Call(f"N {count}, L {leads}, M {gauge_count}", "check", table_bytes(table), nothing, side=random.randrange(2))
    for size in range(len(SMALL) + 1):
        yield Call(f"table cut at {size}", "check", SMALL[:size], nothing, side=random.randrange(2))
    yield Call("floats", "check", FLOATS, nothing)
    for river, edits in ((small_river, rule_edits()), (dam_river, dam_edits()), (noise_river, noise_edits()), (tank_river, tank_edits())):
        for _, edit in edits:
            table, records = river()
            edit(table, records)
            yield Call("edited", "check", table_bytes(table), nothing)
    yield Call("64 dams", "check", ALL_DAMS, nothing)
    yield Call("512 tanks", "check", MOST_TANKS, nothing)
    for name, table, _ in tank_rivers():
        yield Call(f"tanks: {name}", "check", table_bytes(table), nothing, side=random.randrange(2))
    for T in (1, 2, 255, 256, 257, 1_439, 1_440):
        yield Call(f"T {T}", "check", table_bytes(dict(T=T, L=1, elements=[basin(lag=1_440)], gauges=[])), nothing)


def version_calls(random):
    yield Call("version", "version", b"", noise_state(random))


def ceiling_cases():
    for entry in ("step", "forecast"):
        for which in range(4):
            yield f"inflow {which}, {entry}", inflow_edges(which, entry)
        yield f"discharge margin, {entry}", margin_edges(entry)
        yield f"release, {entry}", release_edges(entry)
        for kind in ("reach", "basin"):
            yield f"variance of a {kind}, {entry}", variance_edges(entry, kind)
    for leads in (2, 3, 12):
        yield f"variance at lead {leads} alone", variance_edges("forecast", "reach", leads)
        yield f"variance of a basin at lead {leads} alone", variance_edges("forecast", "basin", leads)
        yield f"inflow variance at lead {leads} alone", late_inflow_edges(leads)
    yield from ((f"tanks, {name}", build) for name, build in tank_ceiling_cases())
    yield "margin of a correction", correction_edges
    yield "noise", noise_ceiling
    yield "rain", rain_edges
    yield "highest numbers that stay below", all_at_ceiling


def cases():
    found = [Case(call.name, lambda random, call=call: [call]) for call in entry_calls()]
    found += [Case(f"ceiling: {name}", build) for name, build in ceiling_cases()]
    for build in (counts_and_steps, numbers_of_places, numbers_beyond, whole_river_state, other_river, starts, refused_rooms, rain_means,
                  cut_calls, spoiled_calls, empty_calls):
        found.append(Case(build.__name__.replace("_", " "), build))
    found += [Case(f"rooms of {count} elements and {leads} leads", rooms(count, leads)) for count in (1, 4, 64) for leads in (1, 12)]
    found += [Case(f"rule {rule}", edited_calls(edit)) for rule, edit in rule_edits()]
    found += [Case(f"rule {rule}", edited_calls(edit, dam_river)) for rule, edit in dam_edits()]
    for name, build in (("starts", dam_starts), ("numbers of places", dam_numbers), ("leads", dam_leads), ("inflow above C", into_a_dam),
                        ("cut records", dam_records_cut)):
        found.append(Case(f"dam: {name}", build))
    found += [Case("order: 17", release_orders), Case("dam: run", lambda random: run_of(random, *dam_river()), exact=True)]
    found += [Case(f"mean inflow: {name}", build) for name, build in mean_inflow_cases()]
    for name, *river in mean_inflow_rivers():
        found.append(Case(f"mean inflow: {name}", lambda random, river=river: run_of(random, *river), exact=True))
    for name, build, count in (("several refusals", several_refusals, 25), ("random", random_calls(), 700),
                               ("random, 64 elements", random_calls(64), 24), ("noise", noise_calls, 60)):
        found += [Case(name, build) for _ in range(count)]
    found += [Case("run", run_calls(), exact=True) for _ in range(40)] + [Case("run of 12", run_calls(12), exact=True) for _ in range(2)]
    found += [Case("check", check_calls), Case("version", version_calls), Case("last places", last_place_calls)]
    found += [Case(name, build) for name, build in look_cases()]
    found += [Case(f"curve: {name}", steps_of(table, records), exact=True) for name, table, records in curve_rivers()]
    found += [Case(f"trial: {name}", build) for name, build in trial_cases()]
    found += [Case(f"trial: {name}", build, exact=True) for name, build in trial_run_cases()]
    found += [Case(f"rule {rule}", edited_calls(edit, float_river)) for rule, edit in float_edits()]
    found += [Case(f"float: {name}", build) for name, build in (*float_cases(), *both_version_cases())]
    for name, table, records in float_rivers():
        found.append(Case(f"float: {name}, run", steps_of(table, records), exact=True))
    found += [Case(f"rule {rule}", edited_calls(edit, noise_river)) for rule, edit in noise_edits()]
    found += [Case(f"noise: {name}", build) for name, build in noise_cases()]
    for name, table, records in (*noise_rivers(), *noise_orders()):
        found.append(Case(f"noise: {name}, run", steps_of(table, records), exact=True))
    found += [Case(f"show: {name}", build) for name, build in show_cases()]
    found += [Case(f"storm: {name}", calls_of_storms(*pair)) for name, *pair in storms()]
    found += [Case(f"rule {rule}", edited_calls(edit, tank_river)) for rule, edit in tank_edits()]
    found += [Case(f"tanks: {name}", build) for name, build in tank_cases()]
    for name, *river in tank_rivers():
        found.append(Case(f"tanks: {name}, run", lambda random, river=river: run_of(random, *river), exact=True))
    return found
