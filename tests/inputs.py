"""The inputs that the program is tried on, each built from a seed and its number, so that any one can be made again by itself. Some have a
second one beside them: the same numbers in another version, more rain (M-106), or a river's tanks written out as reaches (M-107).

inputs(seed, long) lists them; nothing is built before it is asked for.
"""
from dataclasses import dataclass
from pathlib import Path
from random import Random
from typing import Callable

from calculator.encode import big_endian, float_bits, record_bytes, table_bytes
from calculator.floats import float_value, millimetres
from calculator.tried_figures import EXAMPLE_INPUT as EXAMPLE
from calculator.whole_numbers import GAUGE_BYTES

YUBETSU = Path(__file__).resolve().parent.parent / "examples/yubetsu-2001/cabinet.bin"
CEILING, GAP, FLOAT_GAP = 4_000_000_000, 65_535, 0x7FC0_0000
SHAPES = ("chain", "star", "forest", "tree", "lone")


@dataclass
class Input:
    family: str
    build: Callable  # of a Random, gives the bytes
    fractions: bool = True  # whether the run in fractions judges it
    pieces: int = 0  # above 0: written to the program in pieces of so many bytes
    twin: Callable = None  # as build, with the same numbers in records or in a table of version 1; the outputs must be equal
    wetter: Callable = None  # as build, with at least these rains and all else equal: at least as much water, equal variances (M-106)
    larger: bool = False  # whether some discharge of wetter must be larger
    reaches: Callable = None  # as build, with each element of tanks written out as reaches: equal lines of its last tank (M-107)


# ---- Rivers --------------------------------------------------------------------------------------------------------------------------


def basin(down=0, lag=60, area=3_600, f=1_000, **rest):
    return dict(kind=1, down=down, lag=lag, area=area, f=f, **rest)


def reach(down=0, lag=60, **rest):
    return dict(kind=2, down=down, lag=lag, **rest)


def dam(down=0, **rest):
    return dict(kind=3, down=down, **rest)


def tanks(count, down=0, lag=60, **rest):
    return dict(kind=4, down=down, lag=lag, f=count, **rest)


def gauge(element, R=200, pieces=((30_001, 20_000, -500),), **rest):
    return dict(element=element, R=R, pieces=list(pieces), **rest)


def small_table(**changes):
    """Two basins, two reaches, two gauges: all that rules 5 to 14 look at, in 206 bytes."""
    return dict(T=60, L=2, elements=[
        basin(down=3, first_discharge=1_000_000, first_variance=300, W=10, G=1_000), basin(down=4, lag=90, area=900, f=500, W=7, G=50),
        reach(down=4, lag=120, first_discharge=2_000_000, first_variance=400, W=50), reach(lag=61, W=3)],
        gauges=[gauge(3), gauge(4, R=5_000, pieces=[(1_000, 30_000, 0), (2_000, 20_000, 300), (30_001, 100, 30_000)])]) | changes


SMALL_RECORDS = [((100, 0), (1_500, GAP)), ((35, 3_000), (GAP, 999)), ((0, 10), (1_499, 1_000))]


def dam_table(**changes):
    """A dam in the middle and one as outlet, two basins, and a gauged reach between the dams: all that M-100 brings to rules 5 to 17."""
    return dict(T=60, L=2, elements=[
        basin(down=2, first_discharge=1_000_000, first_variance=300, W=10, G=1_000),
        dam(down=4, first_discharge=5_000_000, first_variance=700, W=30), basin(down=4, lag=90, area=900, f=500, W=7, G=50),
        reach(down=5, lag=120, first_discharge=2_000_000, first_variance=400, W=50),
        dam(first_discharge=9_000_000, first_variance=20, W=4)],
        gauges=[gauge(4)]) | changes


DAM_RECORDS = [((100, 0), (1_500,), (3_000_000, 0)), ((35, 3_000), (GAP,), (0, CEILING)), ((0, 10), (1_499,), (70_000_000, 12))]


def tank_table(**changes):
    """Tanks that drain into tanks, both gauged, two basins and a dam above them: all that M-107 brings to rules 5 to 16."""
    return dict(T=60, L=2, elements=[
        basin(down=2, first_discharge=1_000_000, first_variance=300, W=10, G=1_000),
        tanks(3, down=5, lag=90, first_discharge=2_000_000, first_variance=400, W=50),
        basin(down=5, lag=90, area=900, f=500, W=7, G=50), dam(down=5, first_discharge=5_000_000, first_variance=700, W=30),
        tanks(2, lag=61, first_discharge=7_000_000, first_variance=60, W=3)],
        gauges=[gauge(2), gauge(5, R=5_000, pieces=[(1_000, 30_000, 0), (2_000, 20_000, 300), (30_001, 100, 30_000)])]) | changes


TANK_RECORDS = [((100, 0), (1_500, GAP), (3_000_000,)), ((35, 3_000), (GAP, 999), (0,)), ((0, 10), (1_499, 1_000), (70_000_000,))]


def bits_near(metres, less=1, more=1):
    """The bits of the float nearest to so many metres, with as many floats below it and above it."""
    nearest = float_bits(metres)
    return list(range(nearest - less, nearest + more + 1))


def stage_bits(stage):
    """A stage of version 1 as version 2 has it."""
    return FLOAT_GAP if stage == GAP else float_bits(stage / 1_000)


# Of the river with dams and a second gauge, in version 2.
FLOAT_RECORDS = [((100, 0), (stage_bits(1_500), FLOAT_GAP), (3_000_000, 0), 2), ((35, 3_000), (FLOAT_GAP, float_bits(0.6999)), (0, CEILING), 2),
                 ((0, 10), (float_bits(1.49949), stage_bits(2_000)), (70_000_000, 12), 2)]


def small_river():
    return small_table(), list(SMALL_RECORDS)


def dam_river():
    return dam_table(), list(DAM_RECORDS)


def tank_river():
    return tank_table(), list(TANK_RECORDS)


def float_river():
    return dam_table(gauges=[gauge(3, R=300), gauge(4)]), list(FLOAT_RECORDS)


def noise_table(**changes):
    """The small table in version 2, with another β at each gauge."""
    table = small_table(version=2)
    for each, beta in zip(table["gauges"], (100, 350)):
        each |= dict(beta=beta)
    return table | changes


def noise_river():
    return noise_table(), list(SMALL_RECORDS)


def whole_input(table, records):
    return table_bytes(table) + b"".join(record_bytes(*record) for record in records)


def some_lag(random, step_minutes, way):
    if way == "equal":
        return step_minutes
    if way == "multiple":
        return step_minutes * random.randint(1, min(20, 60_000 // step_minutes))
    return random.choice((60_000, random.randint(step_minutes, 60_000), random.randint(step_minutes, min(60_000, 8 * step_minutes))))


def river_kinds(random, shape, count):
    """In one river of three some elements are dams, in one of three some reaches are made of tanks."""
    dams, of_tanks = random.choice((0, 0, 0.3)), random.choice((0, 0, 0.5))
    kinds = [3 if random.random() < dams else kind for kind in basins_and_reaches(random, shape, count)]
    return [4 if kind == 2 and random.random() < of_tanks else kind for kind in kinds]


def basins_and_reaches(random, shape, count):
    if shape == "chain":
        return [random.choice((1, 2))] + [2] * (count - 1)
    if shape == "star":
        return [random.choice((1, 1, 1, 2)) for _ in range(count - 1)] + [2 if count > 1 else random.choice((1, 2))]
    if shape == "lone":
        return [random.choice((1, 2)) for _ in range(count)]
    return [random.choice((1, 1, 2, 2, 2)) for _ in range(count - 1)] + [random.choice((1, 2, 2))]


def river_down(random, shape, kinds, number):
    later = [other for other in range(number + 1, len(kinds) + 1) if kinds[other - 1] != 1]
    if shape == "lone" or not later:
        return 0
    if shape == "chain":
        return later[0]
    if shape == "star":
        return later[-1]
    if shape == "forest" and random.random() < 0.3:
        return 0
    return random.choice(later[:random.choice((1, 3, 64))])


def some_curve(random):
    used = random.randint(1, 5)
    tops = sorted(random.sample(range(1, 30_001), used - 1)) if random.random() < 0.5 else sorted(random.sample(range(1, 4_000), used - 1))
    pieces = []
    for top in [*tops, 30_001]:
        a = random.choice((random.randint(1, 100_000), random.randint(1, 1_000_000), 1, 1_000_000))
        pieces.append((top, a, random.choice((random.randint(-600, 600), random.randint(-30_000, 30_000), 0, -30_000, 30_000))))
    return pieces


def added_noise(beta, z):
    """What β adds to R, once more, only to draw numbers near the ceiling."""
    return (beta * z // 1_000_000) ** 2 // 1_000


def takes(given, stage):
    """Whether a gauge's curve takes a stage, and its noise keeps under C. Only used to draw stages that pass."""
    _, a, b = next(piece for piece in given["pieces"] if stage < piece[0])
    z = a * (stage + b) ** 2 // 1_000
    return stage + b >= 0 and z <= CEILING and given["R"] + added_noise(given.get("beta", 0), z) <= CEILING


def some_stage(random, given):
    """A stage that a gauge takes, often at a break (top - 1, top) or just where the depth is 0; a gap where none was found."""
    for _ in range(6):
        top, _, b = random.choice(given["pieces"])
        stage = random.choice((top - 1, min(top, 30_000), max(0, min(30_000, -b)), random.randint(0, 30_000), random.randint(0, 3_000)))
        stage = max(0, min(30_000, stage))
        if takes(given, stage):
            return stage
    return GAP


def some_noise(random, version):
    """R and, in version 2, β."""
    noise = dict(R=random.choice((1, random.randint(1, 1_000), random.randint(1, 1_000_000), CEILING)))
    return noise if version == 1 else noise | dict(beta=random.choice((0, 1, 499, 500, random.randint(0, 500), random.randint(0, 500))))


def some_table(random, count, shape, way, leads=None, gauge_count=None, version=None):
    """A valid table. way: typical, zero, ceiling or wild values."""
    step_minutes = random.choice((1, 10, 60, 60, 60, 1_440, random.randint(1, 1_440)))
    lags = random.choice(("equal", "multiple", "multiple", "any"))
    kinds = river_kinds(random, shape, count)
    elements = []
    for number, kind in enumerate(kinds, 1):
        element = dict(kind=kind, down=river_down(random, shape, kinds, number))
        if kind != 3:
            element |= dict(lag=some_lag(random, step_minutes, lags))
        if kind == 4:
            element |= dict(f=random.randint(2, 8))
        if way == "typical":
            element |= dict(first_discharge=random.randint(0, CEILING // (2 * count)),
                            first_variance=random.randint(0, 10_000_000 // count), W=random.randint(0, 500_000))
        elif way == "ceiling":
            element |= dict(first_discharge=random.choice((0, CEILING, CEILING - 1)),
                            first_variance=random.choice((0, CEILING, CEILING - 1)), W=random.choice((0, 1, 100_000_000)))
        elif way == "wild":
            element |= dict(first_discharge=random.randint(0, CEILING), first_variance=random.randint(0, CEILING),
                            W=random.randint(0, 100_000_000))
        if kind == 1:
            element |= dict(area=1, f=0)
            if way == "typical":
                element |= dict(area=random.randint(1, max(1, 28_000 // count)), f=random.randint(0, 1_000), G=random.randint(0, 1_000_000))
            elif way == "ceiling":
                element |= dict(area=random.choice((1, 400_000)), f=random.choice((0, 1, 1_000)), G=random.choice((0, 100_000_000)))
            elif way == "wild":
                element |= dict(area=random.randint(1, 400_000), f=random.randint(0, 1_000), G=random.randint(0, 100_000_000))
        elements.append(element)
    if gauge_count is None:
        gauge_count = random.choice((0, 1, 2, random.randint(0, 16)))
    version = version or random.choice((1, 2))
    no_dams = [number for number, kind in enumerate(kinds, 1) if kind != 3]
    gauges = [gauge(number, **some_noise(random, version), pieces=some_curve(random))
              for number in sorted(random.sample(no_dams, min(len(no_dams), gauge_count, 16)))]
    return dict(version=version, T=step_minutes, L=leads or random.choice((1, 2, 3, 12)), elements=elements, gauges=gauges)


def count_of(table, kind):
    return sum(element["kind"] == kind for element in table["elements"])


def some_records(random, table, steps, way):
    basins, dams, most = count_of(table, 1), count_of(table, 3), CEILING // (2 * len(table["elements"]))
    records = []
    for _ in range(steps):
        if way == "zero":
            rains, releases = [0] * basins, [0] * dams
        elif way == "typical":
            rains = [random.choice((0, 0, 1, random.randint(0, 500))) for _ in range(basins)]
            releases = [random.choice((0, 1, random.randint(0, most), random.randint(0, most))) for _ in range(dams)]
        else:
            rains = [random.choice((0, 1, 36, random.randint(0, 3_000), 3_000)) for _ in range(basins)]
            releases = [random.choice((0, 1, random.randint(0, CEILING), CEILING)) for _ in range(dams)]
        stages = [GAP if random.random() < 0.4 else some_stage(random, each) for each in table["gauges"]]
        records.append((rains, stages, releases))
    return records


WAYS = ("typical", "typical", "typical", "zero", "ceiling", "wild")


def some_river(random, counts=(1, 2, 3, 4, 5, 8), steps=(1, 2, 3, 6), ways=WAYS, **rest):
    way, shape = random.choice(ways), random.choice(SHAPES)
    table = some_table(random, random.choice(counts), shape, way, **rest)
    return table, some_records(random, table, random.choice(steps), way)


# ---- Document 01's tried figures -------------------------------------------------------------------------------------------------------


def tried_figures():
    one_gauge = dict(T=60, L=1, elements=[reach(first_discharge=1_000_000, W=300)], gauges=[gauge(1, R=100)])
    two_pieces = dict(T=60, L=1, elements=[reach(W=300)], gauges=[gauge(1, pieces=[(1_000, 20_000, 0), (30_001, 30_000, 0)])])
    deep = dict(T=60, L=1, elements=[reach(W=300)], gauges=[gauge(1, pieces=[(30_001, 1, 0)])])
    small_rain = dict(T=60, L=1, elements=[basin(area=10)], gauges=[])
    yield "example", EXAMPLE
    yield "T 60, lag 60", whole_input(dict(T=60, L=12, elements=[reach(first_discharge=1_000_000_000)], gauges=[]), [((), ())])
    yield "T 1, lag 60000", whole_input(dict(T=1, L=12, elements=[reach(lag=60_000, first_discharge=1_000_000_000)], gauges=[]), [((), ())])
    for stage in (1_500, 500, 499):
        yield f"stage {stage}", whole_input(one_gauge, [((), (stage,)), ((), (GAP,))])
    for stage in (999, 1_000):
        yield f"tops, stage {stage}", whole_input(two_pieces, [((), (stage,))])
    for rain in (3_000, 3_001):
        yield f"rain {rain}", whole_input(small_rain, [((rain,), ()), ((0,), ())])
    for stage in (30_000, 30_001):
        yield f"stage {stage}", whole_input(deep, [((), (stage,)), ((), (GAP,))])
    yield "element 1 with down 1", whole_input(dict(T=60, L=1, elements=[reach(down=1)], gauges=[]), [((), ())])
    yield "K 750,000,000", whole_input(one_gauge, [((), (1_500,)), ((), (1_500,))])
    yield "P 0", whole_input(dict(one_gauge, elements=[reach(first_discharge=7)], gauges=[gauge(1, R=1)]), [((), (500,)), ((), (501,))])


# ---- Each refusal exactly on its condition and just off it -----------------------------------------------------------------------------


def with_element(place, **changes):
    def edit(table, records):
        table["elements"][place] |= changes
    return edit


def with_gauge(place, **changes):
    def edit(table, records):
        table["gauges"][place] |= changes
    return edit


def with_head(**changes):
    def edit(table, records):
        table |= changes
    return edit


def with_record(which, **changes):
    """What record_bytes makes a record of changed."""
    def edit(table, records):
        old = (*records[which], *((), 1, None, None)[len(records[which]) - 2:])
        names = ("rains", "stages", "releases", "version", "length", "size")
        records[which] = tuple(changes.get(name, value) for name, value in zip(names, old))
    return edit


def three_pieces(place, **changes):
    """The second gauge's curve with one number changed."""
    def edit(table, records):
        pieces = [list(piece) for piece in table["gauges"][1]["pieces"]]
        pieces += [[0, 0, 0]] * (5 - len(pieces))
        for which, name in enumerate(("top", "a", "b")):
            if name in changes:
                pieces[place] = [*pieces[place][:which], changes[name], *pieces[place][which + 1:]]
        table["gauges"][1] |= dict(pieces=[tuple(piece) for piece in pieces], used=changes.get("used", 3))
    return edit


def rule_edits():
    """(rule it is about, edit of the small table and its records). Values on both sides of every limit."""
    edits = []

    def add(rule, *more):
        edits.extend((rule, edit) for edit in more)

    right = len(table_bytes(small_table())) - 4
    lengths = (0, 5, 6, right - 1, right + 1, right - 26, right + 26, 2_406, 2_407, 2_438, 2_439, 65_536 + right, 2 ** 32 - 1)
    add(1, *(with_head(length=length) for length in lengths))
    add(2, *(with_head(version=version) for version in (0, 1, 2, 3, 255)))
    add(3, *(with_head(T=T) for T in (0, 1, 59, 60, 61, 1_440, 1_441, 65_535)))
    add(3, *(with_head(L=L) for L in (0, 1, 12, 13, 255)))
    add(3, *(with_head(N=N) for N in (0, 1, 3, 4, 5, 64, 65, 255)))
    add(3, *(with_head(M=M) for M in (0, 1, 2, 3, 16, 17, 255)))
    add(4, with_head(N=4, M=1), with_head(N=5, M=2), with_head(N=3, M=2), with_head(N=4, M=3))
    for place in (0, 1, 2, 3):
        add(5, *(with_element(place, kind=kind) for kind in (0, 1, 2, 3, 4, 5, 255)))
        add(5, *(with_element(place, lag=lag) for lag in (0, 59, 60, 60_000, 60_001, 65_535)))
        for name in ("first_discharge", "first_variance"):
            add(5, *(with_element(place, **{name: value}) for value in (0, CEILING, CEILING + 1, 2 ** 32 - 1)))
        add(5, *(with_element(place, W=W) for W in (0, 100_000_000, 100_000_001, 2 ** 31)))
        add(5, *(with_element(place, G=G) for G in (0, 1, 100_000_000, 100_000_001)))
        add(5, *(with_element(place, area=area) for area in (0, 1, 400_000, 400_001, 2 ** 31)))
        add(5, *(with_element(place, f=f) for f in (0, 1, 1_000, 1_001, 65_535)))
        add(6, *(with_element(place, down=down) for down in (0, 1, 2, 3, 4, 5, 64, 255)))
    for place in (0, 1):
        add(7, *(with_gauge(place, element=element) for element in (0, 1, 2, 3, 4, 5, 255)))
        add(7, *(with_gauge(place, R=R) for R in (0, 1, CEILING, CEILING + 1)))
        add(7, *(with_gauge(place, used=used) for used in (0, 1, 2, 3, 4, 5, 6, 255)))
    add(7, *(three_pieces(0, top=top) for top in (0, 1, 999, 1_999, 2_000, 2_001, 30_001)))
    add(7, *(three_pieces(1, top=top) for top in (0, 1_000, 1_001, 30_000, 30_001, 30_002)))
    add(7, *(three_pieces(2, top=top) for top in (0, 30_000, 30_001, 30_002, 65_535)))
    add(7, *(three_pieces(4, used=4, **{name: 1}) for name in ("top", "a", "b")))
    for place in (0, 1, 2):
        add(7, *(three_pieces(place, a=a) for a in (0, 1, 1_000_000, 1_000_001, 2 ** 32 - 1)))
        add(7, *(three_pieces(place, b=b) for b in (-32_768, -30_001, -30_000, 0, 30_000, 30_001, 32_767)))
    add(7, *(three_pieces(place, **{name: 1}) for place in (3, 4) for name in ("top", "a", "b")))
    for which in (0, 2):
        add(10, *(with_record(which, length=length) for length in (0, 1, 2, 7, 8, 9, 10, 11, 13, 65_535)))
        add(10, with_record(which, rains=(1,)), with_record(which, rains=(1, 2, 3)), with_record(which, stages=()))
        add(11, *(with_record(which, version=version) for version in (0, 1, 3, 255)))
        for rain in (2_999, 3_000, 3_001, GAP):
            add(12, with_record(which, rains=(rain, 0)), with_record(which, rains=(0, rain)))
        for stage in (29_999, 30_000, 30_001, 65_534, GAP):
            add(13, with_record(which, stages=(stage, GAP)), with_record(which, stages=(GAP, stage)))
        for stage in (0, 499, 500, 501, 14_641, 14_642, 14_643):  # z of the first gauge passes C between 14,642 and 14,643
            add(14, with_record(which, stages=(stage, GAP)), with_record(which, stages=(stage, stage)))
    return edits


def dam_edits():
    """The same of the river with dams: what M-100 brings."""
    edits = []

    def add(rule, *more):
        edits.extend((rule, edit) for edit in more)

    for place in (1, 4):
        add(5, *(with_element(place, kind=kind) for kind in (1, 2, 4)), *(with_element(place, lag=lag) for lag in (1, 60)))
        add(5, *(with_element(place, **{name: 1}) for name in ("area", "f", "G")))
        for name in ("first_discharge", "first_variance"):
            add(5, *(with_element(place, **{name: value}) for value in (CEILING, CEILING + 1)))
        add(5, *(with_element(place, W=W) for W in (0, 100_000_000, 100_000_001)))
    add(5, with_element(3, lag=0), with_element(0, lag=0))
    for place, downs in ((0, (0, 3, 4, 5)), (1, (0, 1, 2, 3, 5, 6)), (3, (2, 4)), (4, (2, 4, 5))):
        add(6, *(with_element(place, down=down) for down in downs))
    add(7, *(with_gauge(0, element=element) for element in (1, 2, 3, 5, 6)))
    add(10, *(with_record(0, length=length) for length in (11, 13, 14, 16, 17, 19)), with_record(0, releases=(1,)),
        with_record(0, releases=(1, 2, 3)), with_record(0, rains=(1,)), with_record(0, rains=(1, 2, 3, 4), releases=(1,)))
    add(11, with_record(0, version=3))
    add(12, *(with_record(0, rains=rains) for rains in ((3_001, 0), (0, 3_001))))
    for which in (0, 2):
        for release in (CEILING, CEILING + 1, 2 ** 32 - 1):
            add(17, with_record(which, releases=(release, 0)), with_record(which, releases=(0, release)))
    add(13, *(with_record(0, stages=(stage,)) for stage in (30_001, 65_534)))
    add(14, *(with_record(0, stages=(stage,)) for stage in (499, 14_643)))
    return edits


def tank_edits():
    """The same of the river with tanks: what M-107 brings."""
    edits = []

    def add(rule, *more):
        edits.extend((rule, edit) for edit in more)

    for place in (1, 4):
        add(5, *(with_element(place, f=count) for count in (0, 1, 2, 7, 8, 9, 10, 255, 256, 258, 1_000, 65_535)))
        add(5, *(with_element(place, **{name: value}) for name in ("area", "G") for value in (1, 400_000)))
        add(5, *(with_element(place, lag=lag) for lag in (0, 30, 59, 60, 60_000, 60_001)))
        add(5, *(with_element(place, kind=kind) for kind in (0, 1, 2, 3, 5, 8)))
        add(5, *(with_element(place, kind=2, f=0), with_element(place, kind=2, f=2)))
        for name in ("first_discharge", "first_variance"):
            add(5, *(with_element(place, **{name: value}) for value in (CEILING, CEILING + 1)))
        add(5, *(with_element(place, W=W) for W in (0, 100_000_000, 100_000_001)))
    add(5, with_element(0, kind=4, f=3), with_element(0, kind=4, f=3, area=0), with_element(0, kind=4, f=3, area=0, G=0))
    for place, downs in ((0, (0, 3, 4, 5)), (1, (0, 1, 2, 3, 4, 6)), (3, (0, 2, 3)), (4, (2, 4, 5))):
        add(6, *(with_element(place, down=down) for down in downs))
    add(7, *(with_gauge(0, element=element) for element in (1, 3, 4, 5, 6)), *(with_gauge(1, element=element) for element in (2, 3, 4, 6)))
    add(10, *(with_record(0, length=length) for length in (11, 12, 14, 15)), with_record(0, rains=(1, 2, 3)), with_record(0, rains=(1,)),
        with_record(0, stages=(GAP,) * 3), with_record(0, stages=(GAP,)), with_record(0, releases=()))
    add(12, *(with_record(0, rains=rains) for rains in ((3_001, 0), (0, 3_001))))
    add(17, with_record(0, releases=(CEILING + 1,)))
    add(13, *(with_record(0, stages=stages) for stages in ((30_001, GAP), (GAP, 65_534))))
    add(14, *(with_record(0, stages=(stage, GAP)) for stage in (499, 14_643)))
    return edits


def float_edits():
    """The same of the river in floats: what M-104 brings."""
    edits = []

    def add(rule, *more):
        edits.extend((rule, edit) for edit in more)

    for which in (0, 2):
        add(10, *(with_record(which, length=length) for length in (0, 1, 2, 16, 17, 19, 20, 22, 65_535)))
        add(10, *(with_record(which, version=version, size=4) for version in (0, 1, 3, 255)))
        add(10, with_record(which, size=2), with_record(which, size=3), with_record(which, stages=(0,)), with_record(which, stages=(0, 0, 0)))
        add(11, *(with_record(which, version=version, stages=(1_500, GAP)) for version in (0, 1, 3, 4, 255)))
    add(10, with_record(0, releases=(5,)), with_record(0, rains=(5, 6, 7, 8)), with_record(0, version=1, size=4, length=17))
    # What stands after the rains shifted by a release or two rains: the length is right.
    add(10, with_record(0, releases=(5,), stages=(stage_bits(900), stage_bits(1_000), stage_bits(1_100))),
        with_record(0, releases=(5, 6, 7), stages=(stage_bits(900),)), with_record(0, rains=(5, 6, 7, 8), stages=(stage_bits(900),)))
    add(12, *(with_record(0, rains=rains) for rains in ((3_000, 3_000), (3_001, 0), (0, 3_001))))
    add(17, *(with_record(0, releases=(0, release)) for release in (CEILING, CEILING + 1)))
    add(13, *(with_record(0, stages=(GAP, stage), version=1) for stage in (30_000, 30_001, 65_534)))
    metres = [-1e-4, -1e-9, 2.0, 29.9994, 30.0, 30.0004, 30.0006, 30.001, 31.9, 32.0, 65.535, 1e9]
    for bits in (*map(float_bits, metres), *bits_near(30.0005), *SPECIAL.values()):
        add(18, with_record(0, stages=(bits, FLOAT_GAP)), with_record(2, stages=(stage_bits(1_500), bits)))
    for metres in (0.499, 0.4995, 0.5, 14.642, 14.6425, 14.643):
        add(14, *(with_record(0, stages=(bits, FLOAT_GAP)) for bits in bits_near(metres)),
            with_record(2, stages=(FLOAT_GAP, float_bits(metres))))
    return edits


def noise_edits():
    """The same of the small river in version 2: what M-105 brings."""
    edits = []

    def add(rule, *more):
        edits.extend((rule, edit) for edit in more)

    right = len(table_bytes(noise_table())) - 4
    add(1, *(with_head(length=length) for length in (right - 4, right - 2, right - 1, right + 1, right + 2, right + 48)))
    add(2, *(with_head(version=version, with_beta=True) for version in (0, 3, 255)))
    # Gauges of 48 bytes in version 1 and of 46 in version 2; a gauge more or less; the length of the other version by N and M.
    add(4, with_head(version=1, with_beta=True), with_head(with_beta=False), with_head(M=1), with_head(M=3), with_head(N=5), with_head(N=3))
    for place in (0, 1):
        add(7, *(with_gauge(place, beta=beta) for beta in (0, 1, 256, 499, 500, 501, 512, 1_000, 32_768, 65_535)))
        add(7, with_gauge(place, R=0), with_gauge(place, R=CEILING + 1), with_gauge(place, used=0), with_gauge(place, used=6))
    add(7, with_gauge(0, element=4), with_gauge(1, element=3), with_gauge(1, element=5))
    add(7, *(with_element(place, kind=3, lag=0) for place in (2, 3)))  # a dam where a gauge stands
    add(7, *(three_pieces(place, **{name: 1}) for place in (3, 4) for name in ("top", "a", "b")))
    for which in (0, 2):
        add(14, *(with_record(which, stages=(stage, GAP)) for stage in (499, 500, 14_642, 14_643)))
        add(16, *(with_record(which, stages=(stage, GAP)) for stage in (9_000, 14_642)), with_gauge(which // 2, R=CEILING),
            with_gauge(which // 2, beta=500, R=3_000_000_000))
    return edits


def edited(edits, river=small_river):
    table, records = river()
    for edit in edits:
        edit(table, records)
    return whole_input(table, records)


def several_edits(random):
    """Two to four edits at once, of the table and the records or of the records alone: the first number in checking order that applies."""
    lowest = random.choice((1, 5, 10, 10))
    river = random.choice((small_river, small_river, dam_river, float_river, noise_river, tank_river))
    edits = {small_river: rule_edits, dam_river: dam_edits, float_river: float_edits, noise_river: noise_edits,
             tank_river: tank_edits}[river]()
    edits = [(rule, edit) for rule, edit in edits if rule >= lowest]
    rules = sorted({rule for rule, _ in edits})
    rules = random.sample(rules, min(len(rules), random.choice((2, 2, 3, 4))))
    return edited([random.choice([edit for about, edit in edits if about == rule]) for rule in rules], river)


def lowest_wins():
    """Pairs in which the higher number is met first on the way through the bytes."""
    deep, high = (499, 30_001), (30_001, 499)
    yield "6 in element 1, 5 in element 4", edited([with_element(0, down=1), with_element(3, lag=1)])
    yield "7 in gauge 1, 6 in element 4", edited([with_gauge(0, R=0), with_element(3, down=4)])
    yield "5 in element 1, 4", edited([with_element(0, kind=0), with_head(N=5)])
    yield "7 by order, 5 in element 4", edited([with_gauge(1, element=3), with_element(3, area=1)])
    yield "3 and 2", edited([with_head(T=0, version=3)])
    yield "4 and 2", edited([with_head(version=3, with_beta=True)])
    yield "5 in element 4 and 4 by the gauges of the other version", edited([with_element(3, lag=1), with_head(with_beta=True)])
    yield "7 by a beta, 6 in element 4", edited([with_gauge(0, beta=501), with_element(3, down=4)], noise_river)
    yield "4 and 3", edited([with_head(L=0, N=5)])
    yield "14 in gauge 1, 13 in gauge 2", edited([with_record(0, stages=deep)])
    yield "13 in gauge 1, 14 in gauge 2", edited([with_record(0, stages=high)])
    yield "13 in gauge 1, 12 in basin 2", edited([with_record(0, rains=(0, 3_001), stages=high)])
    yield "12 and 11", edited([with_record(1, rains=(3_001, 0), version=0)])
    yield "11 and 10", edited([with_record(1, rains=(3_001,), version=0)])
    yield "16 in element 1, 14 in gauge 2", edited([with_element(0, area=400_000), with_record(0, rains=(3_000, 0), stages=(GAP, 29_999)),
                                                    three_pieces(2, b=-30_000), with_record(1, rains=(3_000, 0), stages=(GAP, 30_000))])
    # 24 elements told as 1 element and 13 gauges: the length is right either way (23 x 26 = 13 x 46). In version 2 it is so of 25 elements
    # (24 x 26 = 13 x 48).
    told = dict(T=60, L=1, N=1, M=13, elements=[reach() for _ in range(24)], gauges=[])
    yield "24 elements told as 1 and 13 gauges", whole_input(told, [((), ())])
    yield "25 elements told as 1 and 13 gauges", whole_input(told | dict(version=2, elements=[reach() for _ in range(25)]), [((), ())])
    yield "a record of 65,535 bytes and a good one", edited([])[:-11] + big_endian(65_535, 2) + bytes([1]) * 65_535 + edited([])[-11:]


def release_orders():
    """17 beside each of the others on a step: a name and the river, edited. 17 stands between 12 and 13."""
    above = dict(releases=(0, CEILING + 1))
    over = [with_element(0, area=400_000), with_element(2, area=400_000)]  # rains of 3,000 bring 16
    yield "10 and 17", edited([with_record(1, stages=(), **above)], dam_river)
    yield "11 and 17", edited([with_record(1, version=0, **above)], dam_river)
    yield "12 and 17", edited([with_record(1, rains=(3_001, 0), **above)], dam_river)
    yield "12 in basin 2 and 17 in dam 1", edited([with_record(1, rains=(0, 3_001), releases=(CEILING + 1, 0))], dam_river)
    yield "17 and 13", edited([with_record(1, stages=(30_001,), **above)], dam_river)
    yield "17 and 14", edited([with_record(1, stages=(499,), **above)], dam_river)
    yield "17 and 16", edited([*over, with_record(1, rains=(3_000, 3_000), **above)], dam_river)
    yield "12, 17, 13 and 16", edited([*over, with_record(1, rains=(3_000, 3_001), stages=(30_001,), **above)], dam_river)


def float_orders():
    """18 beside each of the others on a step: a name and the river, edited. 18 stands between 13 and 14."""
    bad, deep, gap = float_bits(30.001), float_bits(0.4), FLOAT_GAP
    over = [with_element(0, area=400_000), with_element(2, area=400_000)]  # rains of 3,000 bring 16
    yield "10 and 18", edited([with_record(1, stages=(bad,))], float_river)
    yield "10 by version 3 and 18", edited([with_record(1, stages=(bad, bad), version=3, size=4)], float_river)
    yield "10 by the length of the other version and 18", edited([with_record(1, stages=(bad, bad), version=1, size=4)], float_river)
    yield "12 and 18", edited([with_record(1, rains=(0, 3_001), stages=(bad, bad))], float_river)
    yield "17 and 18", edited([with_record(1, releases=(0, CEILING + 1), stages=(bad, gap))], float_river)
    yield "12, 17, 18, 14 and 16", edited([*over, with_record(1, rains=(3_000, 3_001), stages=(bad, deep), releases=(0, CEILING + 1))],
                                          float_river)
    yield "18 in gauge 1, 14 in gauge 2", edited([with_record(1, stages=(bad, deep))], float_river)
    yield "14 in gauge 1, 18 in gauge 2", edited([with_record(1, stages=(deep, bad))], float_river)
    yield "14 in gauge 1, a negative float in gauge 2", edited([with_record(1, stages=(deep, float_bits(-1e-4)))], float_river)
    yield "14 in gauge 1, a NaN in gauge 2", edited([with_record(1, stages=(deep, 0xFFC0_0000))], float_river)
    yield "14 in gauge 1, a gap in gauge 2", edited([with_record(1, stages=(deep, gap))], float_river)
    yield "18 and 16", edited([*over, with_record(1, rains=(3_000, 3_000), stages=(gap, bad))], float_river)
    yield "18 and then 13 of version 1", edited([with_record(0, stages=(bad, gap)), with_record(1, stages=(30_001, 400), version=1)],
                                                float_river)


def last_places():
    """Rules 5 to 7, 12 to 14, 17, 18 and a noise for 16 at the last of 64 elements, 16 gauges, 63 rains, 64 releases and 16 stages: a
    name, and twice a table with a record, of which the first passes and the second does not."""
    def river(element=(), above=(), last_gauge=(), rain=0, stage=GAP, bits=None, version=1):
        elements = [basin(down=64, area=1) for _ in range(62)] + [basin(down=64, area=1) | dict(above)] + [reach() | dict(element)]
        gauges = [gauge(number, pieces=[(30_001, 1, -500)]) for number in range(49, 65)]
        gauges[-1] |= dict(last_gauge)
        readings = ((GAP,) * 15 + (stage,),) if bits is None else ((FLOAT_GAP,) * 15 + (bits,), (), 2)
        return dict(version=version, T=60, L=1, elements=elements, gauges=gauges), ((0,) * 62 + (rain,), *readings)

    def dams(release=0, **last):
        elements = [dam(down=64) for _ in range(63)] + [dam(**last)]
        return dict(T=60, L=1, elements=elements, gauges=[]), ((), (), (CEILING,) * 63 + (release,))

    five = [(top, 1, -500) for top in (1, 2, 3, 4, 30_001)]
    yield "5, lag 60 and 59 of element 64", river(), river(element=dict(lag=59))
    yield "5, 8 and 9 tanks of element 64", *(river(element=dict(kind=4, f=count)) for count in (8, 9))
    yield "5, 2 tanks and 1 of element 64", *(river(element=dict(kind=4, f=count)) for count in (2, 1))
    yield "6, down 64 and 63 of element 63", river(), river(above=dict(down=63))
    yield "7, R 1 and 0 of gauge 16", river(last_gauge=dict(R=1)), river(last_gauge=dict(R=0))
    yield "7, gauge 16 after gauge 15 and at its element", river(), river(last_gauge=dict(element=63))
    yield "7, 5 and 6 pieces of five", river(last_gauge=dict(pieces=five)), river(last_gauge=dict(pieces=five, used=6))
    yield "7, beta 500 and 501 of gauge 16", *(river(last_gauge=dict(beta=beta), version=2) for beta in (500, 501))
    yield "16, noise C and C + 1 of gauge 16", *(river(last_gauge=dict(beta=beta, R=CEILING), stage=30_000, version=2) for beta in (36, 37))
    yield "12, last rain 3,000 and 3,001", river(rain=3_000), river(rain=3_001)
    yield "13, last stage 30,000 and 30,001", river(stage=30_000), river(stage=30_001)
    yield "14, last stage 500 and 499", river(stage=500), river(stage=499)
    yield "18, last float 41F00106 and 41F00107", river(bits=0x41F0_0106), river(bits=0x41F0_0107)
    yield "14, last float 3EFFBE77 and 3EFFBE76", river(bits=0x3EFF_BE77), river(bits=0x3EFF_BE76)
    yield "5, lag 0 and 1 of dam 64", dams(), dams(lag=1)
    yield "17, last release C and C + 1", dams(CEILING), dams(CEILING + 1)


# (name, a, h + b). In their ranges no other a and h + b give C with a rest, and none C + 1.
CURVE_EDGES = (("z is C", 1_000_000, 2_000), ("z rounds down to C", 759_442, 2_295), ("z is C + 1", 268_742, 3_858),
               ("z is C - 4", 768_793, 2_281), ("z is far above C", 1_000_000, 2_001))


def ceiling_of_curve():
    """Rule 14: z exactly C, C and a rest that is rounded away, and C + 1."""
    def at(a, depth):
        table = dict(T=60, L=1, elements=[reach(first_discharge=CEILING, W=100)], gauges=[gauge(1, R=100, pieces=[(30_001, a, 0)])])
        return whole_input(table, [((), (depth,)), ((), (GAP,))])
    for name, a, depth in CURVE_EDGES:
        yield name, at(a, depth)


def weight_of(step_minutes, lag):
    """H once more, only to draw numbers near the ceiling."""
    h = 10 ** 9
    for m in range(12, 0, -1):
        h = 10 ** 9 - step_minutes * h // (lag * m)
    return h


def least_before(number, weight):
    """The least number that a blend with 0 by this weight brings to `number`."""
    return -(-number * 10 ** 9 // weight)


def moved_margin(discharge, margin, weight):
    """A margin after a move with no inflow but its margin of 1."""
    return (weight * margin + 10 ** 9 - weight) // 10 ** 9 + 3 * (discharge + margin + 1) // 10 ** 9 + 3


def lead_inflow_margin(figures, weight):
    """The margin of a reach's inflow at lead 1 from (discharge, margin) of each reach above it, which has no inflow."""
    return sum(margin + moved_margin(discharge, margin, weight) for discharge, margin in figures) // 2 + 1


def ceiling_of_numbers():
    """Rule 16 exactly on its condition and just off it, by each kind of number that a run of the program can bring there."""
    for name, product in (("inflow is C", 14_400_000_000), ("inflow rounds down to C", 14_400_000_003), ("inflow is C + 1", 14_400_000_004),
                          ("inflow far above C", 3_000 * 400_000 * 1_000)):
        rain, area, f = next((rain, product // rain // f, f) for f in range(1_000, 0, -1) for rain in range(1, 3_001)
                             if product % (rain * f) == 0 and product // rain // f <= 400_000)
        table = dict(T=60, L=2, elements=[basin(area=area, f=f)], gauges=[])
        yield name, whole_input(table, [((rain,), ()), ((0,), ()), ((rain,), ())])
    H = weight_of(1, 60_000)
    sums = {odd + first + H * first // 10 ** 9: (first, odd) for first in range(33_300, 33_400) for odd in (0, 1)}
    for more in (-2, -1, 0, 1, 2, 3):  # the sum of old and new outflows less 2 C; a first discharge of 1 is 0 after a step
        first, odd = sums[CEILING - H * CEILING // 10 ** 9 + more]
        table = dict(T=1, L=1, elements=[reach(down=4, lag=60_000, first_discharge=discharge) for discharge in (CEILING, first, odd)]
                     + [reach(lag=60_000)], gauges=[])
        yield f"reach inflow near C, {more}", whole_input(table, [((), ())] * 3)
    once = H * (H * CEILING // 10 ** 9) // 10 ** 9  # the ceiling's variance after one step
    needed = least_before(least_before(CEILING - once, H), H)
    for more in (-1, 0, 1, 2):
        table = dict(T=1, L=1, elements=[reach(down=3, lag=60_000, first_variance=CEILING),
                                         reach(down=3, lag=60_000, first_variance=needed + more), reach(lag=60_000)], gauges=[])
        yield f"reach inflow variance near C, {more}", whole_input(table, [((), ())] * 3)
    for more in (-1, 0, 1):
        table = dict(T=1, L=1, elements=[reach(lag=60_000, first_variance=CEILING, W=CEILING - once + more)], gauges=[])
        yield f"variance with W near C, {more}", whole_input(table, [((), ())] * 2)
        # The first step passes and a lead does not: the step is kept and counted.
        for leads in (1, 2, 12):
            variance, W = CEILING, 100_000_000
            for _ in range(leads + 1):
                variance = least_before(least_before(variance - W, H), H)
            table = dict(T=1, L=leads, elements=[reach(lag=60_000, first_variance=variance + more, W=W)], gauges=[])
            yield f"variance of lead {leads} near C, {more}", whole_input(table, [((), ())] * 3)
    # A reading of z = C with gain 0 and gain margin S: the correction's blend has margin C - discharge + 10.
    for first in (0, 22, 24, 25, 27, 28, 30, 33):
        table = dict(T=60, L=2, elements=[reach(first_discharge=first)], gauges=[gauge(1, R=1, pieces=[(30_001, 1_000_000, 0)])])
        yield f"correction margin near C, first discharge {first}", whole_input(table, [((), (2_000,)), ((), (GAP,)), ((), (2_000,))])
    # Two such margins meet in a reach: at the step half of them, at lead 1 half the sum of old and new ones, which passes C.
    H = weight_of(60, 60)

    def at_lead(less):
        kept = H * less // 10 ** 9
        return lead_inflow_margin([(0, 1_710 ** 2 * 1_000 + 10), (kept, 1_711 ** 2 * 1_000 - kept + 10)], H)

    exactly = [max(less for less in range(8_569_100, 8_569_200) if at_lead(less) == CEILING + more) for more in (-1, 0, 1, 2)]
    for first, second, less in ((1_400, 1_400, 0), (1_710, 1_710, 0), (1_711, 1_711, 0), (1_710, 1_711, 0), (1_999, 1_360, 0),
                                (1_999, 10, 0), *((1_710, 1_711, less) for less in exactly)):
        table = dict(T=60, L=2, elements=[reach(down=3), reach(down=3, first_discharge=less), reach(down=4), reach()],
                     gauges=[gauge(1, R=1, pieces=[(30_001, 1_000_000, 0)]), gauge(2, R=1, pieces=[(30_001, 1_000_000, 0)])])
        records = [((), (first, second)), ((), (GAP, GAP))]
        yield f"inflow margin by stages {first} and {second}, first discharge {less}", whole_input(table, records)
    # Many basins with the highest rain noise: a reach's inflow variance passes C at a late lead only.
    for count in (4, 8, 20, 40, 63):
        table = dict(T=60, L=12, elements=[basin(down=count + 1, area=1, G=100_000_000) for _ in range(count)] + [reach()], gauges=[])
        yield f"lead variance of {count} basins", whole_input(table, [((1,) * count, ())] * 2)


# ---- Dams ------------------------------------------------------------------------------------------------------------------------------


def dam_rivers():
    """(name, table, records): where a dam can stand, what it lets out and what drains into it."""
    def river(elements, *records, gauges=(), **rest):
        return dict(T=60, L=3, elements=elements, gauges=list(gauges)) | rest, records

    def water(**rest):
        return dict(first_discharge=7_000_000, first_variance=900, W=40) | rest

    yield "in the middle", *dam_river()
    yield "alone", *river([dam(**water())], *(((), (), (release,)) for release in (0, CEILING, CEILING + 1, 5)))
    yield "first", *river([dam(down=2, **water()), reach(W=2)], ((), (), (CEILING,)), ((), (), (0,)), ((), (), (1,)), L=12)
    yield "outlet", *river([basin(down=2, W=3, G=100), dam(**water())], ((90,), (), (1,)), ((0,), (), (2,)))
    yield "into a dam", *river([dam(down=2, **water()), dam(**water(W=1))], ((), (), (8, 9)), ((), (), (0, CEILING)))
    yield "chain of dams", *river([basin(down=2, W=3, G=100), dam(down=3, **water()), dam(down=4, **water(W=0)), dam(down=5, **water()),
                                   reach(down=6, lag=90, W=1), dam(**water())],
                                  ((90,), (), (10 ** 6, 2 * 10 ** 6, 3 * 10 ** 6, 4)), ((0,), (), (0, 0, 10 ** 9, 0)))
    yield "all of 5", *river([dam(down=5 * (k < 4), **water(W=k)) for k in range(5)], ((), (), (CEILING,) * 5), ((), (), (1, 2, 3, 4, 5)))
    yield "all of 64", *river([dam(down=(k + 1) * (k < 64), **water(W=k)) for k in range(1, 65)], ((), (), tuple(range(64))),
                              ((), (), tuple(CEILING - k for k in range(64))), L=12)
    fours = []  # basin, dam, reach, dam, and so on down the river
    for number in range(1, 65, 4):
        fours += [basin(down=number + 1, **water()), dam(down=number + 2, **water(W=number)), reach(down=number + 3, **water()),
                  dam(down=(number + 6) * (number < 61), **water())]
    yield "every second of 64", *river(fours, ((5,) * 16, (700,) * 16, tuple(10 ** 6 * k for k in range(32))), L=1,
                                       gauges=[gauge(number) for number in range(3, 65, 4)])
    yield "between gauges", *river([dam(down=2, **water()), reach(down=3, lag=90, W=5), dam(down=4, **water()), reach(W=6)],
                                   ((), (1_200, 1_300), (20_000_000, 1)), ((), (GAP, 1_400), (0, 10 ** 9)), ((), (900, GAP), (5, 5)),
                                   gauges=[gauge(2), gauge(4, R=9)])
    # What drains in: above C it is refused by a reach and not by a dam.
    for name, below, releases in (("a dam", dam(W=5), (1,)), ("a reach", reach(lag=60_000, W=5), ())):
        for figure in ("first_discharge", "first_variance"):
            slow = [reach(down=3, lag=60_000, **{figure: CEILING}) for _ in range(2)]
            yield f"{figure.replace('first_', '')} above C into {name}", *river([*slow, below], ((), (), releases), ((), (), releases), T=1)
        stages = [gauge(number, R=1, pieces=[(30_001, 1_000_000, 0)]) for number in (1, 2)]
        yield f"margin above C into {name}", *river([reach(down=3), reach(down=3), below], ((), (1_711, 1_711), releases),
                                                    ((), (GAP, GAP), releases), gauges=stages)
        rainy = [basin(down=46, area=1, G=100_000_000) for _ in range(45)]
        yield f"lead variance above C into {name}", *river([*rainy, below], ((1,) * 45, (), releases), L=12)
    # What is let out: into a reach, in all C and C + 1.
    half = CEILING // 2
    for name, releases in (("C", (CEILING, 0)), ("C by two dams", (half, half)), ("C + 1 by two dams", (half, half + 1))):
        yield f"lets {name} out", *river([dam(down=3), dam(down=3), reach()], ((), (), releases), ((), (), (0, 0)), ((), (), releases))
    for more in (0, 1, 2, 3):  # after C; the sum of old and new releases is 2 C and so much more
        yield f"lets C out and then C + {more}", *river([dam(down=3), dam(down=3), reach()], ((), (), (CEILING, 0)),
                                                        ((), (), (CEILING, more)), ((), (), (0, 0)), L=1)
    for name, below, releases in (("a dam", dam(), (7,)), ("a reach", reach(), ())):
        full = [dam(down=64, first_discharge=CEILING) for _ in range(63)]
        yield f"63 let C out into {name}", *river([*full, below], ((), (), (CEILING,) * 63 + releases), ((), (), (0,) * 63 + releases), L=1)
    for count, name in ((40, "C"), (41, "above C")):
        dams = [dam(down=count + 1, W=100_000_000) for _ in range(count)]
        yield f"lets variance {name} out", *river([*dams, reach()], ((), (), (1,) * count), L=1)


# ---- The mean inflow of a reach ----------------------------------------------------------------------------------------------------------


def mean_inflow_rivers():
    """(name, table, records): what old and new outflows above bring to a reach."""
    def river(elements, *records, gauges=(), **rest):
        return dict(T=60, L=3, elements=elements, gauges=list(gauges)) | rest, list(records)

    def released(*rows):
        return [((), (), row) for row in rows]

    yield "none drains in", *river([reach(), reach(lag=600, first_discharge=10 ** 9)], *[((), ())] * 6)
    yield "odd sums of one", *river([dam(down=2), reach()], *released((1,), (0,), (5,), (6,), (5,), (5,), (0,), (3,), (2,)))
    # By two dams: sums of old and new that are odd one by one, old and new apart, and in all.
    rows = (1, 1), (0, 0), (1, 0), (0, 1), (2, 1), (2, 2), (3, 3), (0, 0)
    yield "odd sums of two", *river([dam(down=3), dam(down=3), reach()], *released(*rows))
    ones = [(number % 2,) * 63 for number in range(1, 5)]
    yield "odd sums of 63", *river([dam(down=64) for _ in range(63)] + [reach()], *released(*ones, ones[0]), L=1)
    yield "release up and down", *river([dam(down=2, first_discharge=10 ** 9, W=9), reach(down=3, lag=90), reach(W=4)],
                                        *released((0,), (CEILING,), (CEILING,), (3,), (2 * 10 ** 9,)))
    yield "first discharge as the old release", *river([dam(down=3, first_discharge=CEILING), dam(down=3, first_discharge=10 ** 9 + 1),
                                                        reach(first_discharge=5)], *released((0, 0), (CEILING, 0), (7, 7)))
    yield "old alone passes C", *river([dam(down=3, first_discharge=CEILING), dam(down=3, first_discharge=CEILING), reach()],
                                       *released((0, 0), (CEILING, 0), (0, CEILING)), L=1)
    yield "new alone passes C", *river([dam(down=3), dam(down=3), reach()], *released((CEILING, CEILING), (0, 0)), L=1)
    gauged = [basin(down=3, first_discharge=9_000_000, first_variance=900, W=50, G=70),
              reach(down=3, lag=90, first_discharge=70_000_000, first_variance=800, W=60),
              reach(down=4, lag=100, first_discharge=1_000_000, W=70), reach(lag=150, W=8)]
    stages = (1_500, 2_000), (GAP, 900), (700, GAP), (GAP, GAP), (3_000, 501)
    records = [((rain,), row) for rain, row in zip((90, 0, 300, 5, 0), stages)]
    yield "corrected above", *river(gauged, *records, gauges=[gauge(1), gauge(2, R=9)])
    chain = [basin(down=2, first_discharge=10 ** 9)] + [reach(down=(k + 1) * (k < 6), lag=60 * k, first_discharge=10 ** 8 * k, W=k)
                                                        for k in range(2, 7)]
    yield "chain of six", *river(chain, *(((rain,), ()) for rain in (3_000, 0, 0, 1_001, 0)), L=12)


# ---- Reaches made of several tanks -------------------------------------------------------------------------------------------------------


def in_reaches(table):
    """The same river without tanks: each element of them is written out as reaches, one for each tank, all that drains into it into the
    first of them and its gauge on the last."""
    first, last, written = {0: 0}, {}, []
    for number, element in enumerate(table["elements"], 1):
        count = element["f"] if element["kind"] == 4 else 1
        first[number], last[number] = len(written) + 1, len(written) + count
        element = element | (dict(kind=2, f=0) if element["kind"] == 4 else {})
        written += [element | dict(inner=True) for _ in range(count - 1)] + [element]
    for number, element in enumerate(written, 1):
        element["down"] = number + 1 if element.pop("inner", False) else first[element["down"]]
    return table | dict(elements=written, gauges=[each | dict(element=last[each["element"]]) for each in table["gauges"]])


def tanks_and_others(table):
    """How many places a river has in use: its elements and all their inner tanks."""
    return sum(element["f"] if element["kind"] == 4 else 1 for element in table["elements"])


def tank_rivers():
    """(name, table, records): how many tanks, what drains into them and where they drain, and gauges on them and about them."""
    def river(elements, *records, gauges=(), **rest):
        return dict(T=60, L=3, elements=elements, gauges=list(gauges)) | rest, list(records)

    def water(**rest):
        return dict(first_discharge=70_000_000, first_variance=900, W=40) | rest

    def wave(*stages):
        return [((rain,), stages) for rain in (3_000, 500, 0, 0)]

    yield "tanks into tanks", *tank_river()
    for count in range(2, 9):
        yield f"{count} tanks", *river([basin(down=2, area=3_000, G=500), tanks(count, lag=55 + 5 * count, **water())], *wave(),
                                       L=count + 1)
        yield f"{count} tanks, gauged", *river([basin(down=2, area=3_000, G=500), tanks(count, **water(W=5_000 * count))], *wave(2_000),
                                               gauges=[gauge(2)], L=2, version=count % 2 + 1)
    yield "alone", *river([tanks(4, lag=90, **water())], *[((), ())] * 5, L=12)
    yield "alone, C before", *river([tanks(8, first_discharge=CEILING, first_variance=CEILING)], *[((), ())] * 4, L=12)
    yield "alone, no water", *river([tanks(8)], *[((), ())] * 3, L=1)
    yield "alone, gauged", *river([tanks(5, lag=75, **water(W=900))], *(((), (stage,)) for stage in (1_500, GAP, 501, 2_000)),
                                  gauges=[gauge(1)])
    yield "slowest", *river([basin(down=2), tanks(8, lag=60_000, **water())], *wave(), T=1)
    yield "of small water", *river([dam(down=2), tanks(3, first_discharge=2)], *(((), (), (release,)) for release in (1, 0, 5, 6, 5, 0, 3, 2)))
    counts = range(2, 9)
    chain = [basin(down=2, **water(G=700))] + [tanks(count, down=count + 1, lag=60 + 11 * count, **water(W=count)) for count in counts]
    yield "chain of tanks", *river([*chain, reach(lag=90)], *wave(), L=12)
    yield "chain of gauged tanks", *river([*chain, tanks(3)], *wave(*[900 + 100 * k for k in range(7)]), *wave(*[GAP, 800] * 3, GAP),
                                          gauges=[gauge(number, R=50 * number) for number in counts], version=2)
    joined = [basin(down=6, **water()), reach(down=6, **water()), dam(down=6, **water()), tanks(2, down=6, **water()),
              basin(down=6, lag=120, **water(G=9_000)), tanks(5, down=8, **water()), basin(down=8, **water()), tanks(3, **water())]
    yield "five into tanks", *river(joined, *(((rain, 90, 3), (), (10 ** 7 * rain,)) for rain in (1, 40, 0, 7)))
    yield "five into gauged tanks", *river(joined, *(((rain, 90, 3), (stage, GAP), (10 ** 7,)) for rain, stage in (
        (1, 900), (40, GAP), (0, 3_000))), gauges=[gauge(6, R=9), gauge(8)])
    dams = [dam(down=2, **water()), tanks(4, down=3, **water()), dam(down=4, **water()), tanks(2, **water(W=7))]
    yield "between dams", *river(dams, *(((), (), row) for row in ((0, CEILING), (CEILING, 0), (3, 10 ** 9), (10 ** 9, 5))))
    between = [basin(down=2, **water()), reach(down=3, **water()), tanks(6, down=4, **water()), reach(**water())]
    yield "gauge above and below", *river(between, *wave(1_400, 1_700), gauges=[gauge(2), gauge(4, R=9)])
    yield "beta on tanks", *river([basin(down=2), tanks(3, **water(W=90_000))], *wave(2_000), gauges=[gauge(2, R=100, beta=300)], version=2)
    yield "floats on tanks", tank_table(), list(map(in_floats, TANK_RECORDS))


def largest_tanks():
    """(name, table, records): 64 elements of 8 tanks, which no table of reaches has room for."""
    def element(number, down):
        return tanks(8, down=down, lag=60 + number, first_discharge=10 ** 6 * number, first_variance=number, W=number)

    gauges = [gauge(number) for number in range(4, 65, 4)]
    stages = [900 + 10 * number for number in range(16)]
    down_the_river = [element(number, (number + 1) * (number < 64)) for number in range(1, 65)]
    yield "64 of 8, one after the other", dict(T=60, L=2, elements=down_the_river, gauges=gauges), [((), stages), ((), (GAP,) * 16)]
    apart = [element(number, 64 * (number < 64)) for number in range(1, 65)]
    yield "64 of 8, all into the last, 12 leads", dict(version=2, T=60, L=12, elements=apart, gauges=gauges[:1]), [((), (GAP,))]


def ceiling_of_tanks():
    """(name, table, records): what passes C at the first tank alone, at a step and at a lead; each exactly and just off."""
    def river(elements, *records, gauges=(), **rest):
        return dict(T=60, L=1, elements=elements, gauges=list(gauges)) | rest, list(records)

    half = CEILING // 2
    for more in (0, 1):
        # Half the sum of 0 and the releases at the step; at the leads the releases are held.
        yield f"inflow of a lead is C + {more}", *river([dam(down=3), dam(down=3), tanks(2)], ((), (), (half, half + more)),
                                                        ((), (), (0, 0)))
        yield f"inflow of a step is C + {more}", *river([dam(down=3), dam(down=3), tanks(3)], ((), (), (CEILING, 0)),
                                                        ((), (), (CEILING, 2 * more)), ((), (), (0, 0)))
        count = 40 + more
        dams = [dam(down=count + 1, W=100_000_000) for _ in range(count)]
        yield f"inflow variance of {count} dams", *river([*dams, tanks(8)], ((), (), (1,) * count))
    for count in (4, 20, 40, 63):
        rainy = [basin(down=count + 1, area=1, G=100_000_000) for _ in range(count)]
        yield f"lead variance of {count} basins", *river([*rainy, tanks(4)], *[((1,) * count, ())] * 2, L=12)
    stages = [gauge(number, R=1, pieces=[(30_001, 1_000_000, 0)]) for number in (1, 2)]
    for stage in (1_400, 1_710, 1_711, 1_999):
        yield f"inflow margin by stages of {stage}", *river([reach(down=3), reach(down=3), tanks(2, down=4), reach()], ((), (stage, stage)),
                                                            ((), (GAP, GAP)), gauges=stages, L=2)
    # Each tank adds a little of the variance above it: the first is C less so much after a step, and the others pass C or not.
    H, first = weight_of(60, 6_000), CEILING - 10 ** 7
    for less in (-1, 0, 300_000, 500_000, 5_000_000):
        W = CEILING - H * (H * first // 10 ** 9) // 10 ** 9 - less
        yield f"variance of C {-less:+} in the first", *river([tanks(6, lag=6_000, first_variance=first, W=W)], *[((), ())] * 3, L=3)


def drawn_tanks(random, most=64):
    """A river with at least one element of tanks that fits into so many reaches."""
    while True:
        way, shape = random.choice(WAYS), random.choice(SHAPES)
        table = some_table(random, random.choice((1, 2, 3, 4, 5, 8)), shape, way, leads=random.choice((1, 1, 2, 3, random.randint(1, 12))))
        if count_of(table, 4) and tanks_and_others(table) <= most:
            return table, some_records(random, table, random.choice((1, 2, 3, 5)), way)


def tanks_drawn(random):
    return whole_input(*drawn_tanks(random))


def drawn_in_reaches(random):
    table, records = drawn_tanks(random)
    return whole_input(in_reaches(table), records)


# ---- Curves of five pieces -------------------------------------------------------------------------------------------------------------


def stages_of(tops):
    """By piece: its lowest stage, and its top, the first stage above it."""
    return list(zip((0, *tops), tops))


CURVE_NOISE = 1_000_000  # R of these gauges


def river_of_curves(curves):
    """A reach for each curve, one after the other down the river, with a gauge on each."""
    elements = [reach(down=number + 1 if number < len(curves) else 0, lag=60 + number, first_discharge=1_000_000 * number,
                      first_variance=1_000_000, W=50_000) for number in range(1, len(curves) + 1)]
    return dict(T=60, L=1, elements=elements,
                gauges=[gauge(number, R=CURVE_NOISE, pieces=pieces) for number, pieces in enumerate(curves, 1)])


FIVE_TOPS = ((1, 2, 3, 4, 30_001), (500, 1_000, 2_000, 20_000, 30_001), (29_997, 29_998, 29_999, 30_000, 30_001),
             (1, 1_000, 29_000, 29_999, 30_001))
WIDE_TOPS = ((2, 4, 6, 8, 30_001), (500, 1_000, 2_000, 20_000, 30_001), (29_993, 29_995, 29_997, 29_999, 30_001))  # two stages or more
ABOVE_ALL = 1_000_000, 30_000  # a and b that give 14 at every stage


def taking_curve(k, tops):
    """Pieces that take every stage of theirs, by b of either sign."""
    return [(top, 100 + 60 * place + 7 * k, 10 * k + place if (k + place) % 2 else -below)
            for place, (below, top) in enumerate(stages_of(tops))]


def curve_rivers():
    """(name, table, records); all but the first with 16 gauges of five pieces. After refused records come accepted ones."""
    pieces, sixteen = [(1_000, 20_000, -500), (30_001, 20_000, 0)], range(16)
    yield "14 on the first of two pieces", river_of_curves([pieces]), [((), (stage,)) for stage in (499, 500, 0, 1_000, 499, 999)]

    # Gauge after gauge another piece; every record another one of it, at the top less 1, the top and the top plus 1.
    tops = [FIVE_TOPS[k % 4] for k in sixteen]
    records = [((), [min(30_000, tops[k][(k + turn) % 5] + more) for k in sixteen]) for more in (-1, 0, 1) for turn in range(5)]
    yield "16 gauges on every piece", river_of_curves([taking_curve(k, tops[k]) for k in sixteen]), records

    # One piece of each curve gives 14 at its lowest stage (h + b is -1) or at its highest (z is C + 1); the others take every stage.
    curves, bad, good = [], [], []
    for k in sixteen:
        tops, place = WIDE_TOPS[k % 3], k % 5
        below, top = stages_of(tops)[place]
        pieces = [(each, 100 + 60 * which + k, 20 * k + which) for which, each in enumerate(tops)]
        pieces[place] = (top, 300, -below - 1) if k % 2 else (top, 268_742, 3_858 - (top - 1))
        curves.append(pieces)
        bad.append(below if k % 2 else top - 1)
        good.append(below + 1 if k % 2 else top - 2)
    records = [((), row) for k in sixteen for row in (good[:k] + [bad[k]] + good[k + 1:], good)]
    yield "14 on each piece in turn", river_of_curves(curves), records

    # One piece of each curve takes its stages, from the lowest to the highest; before and after it come pieces that give 14.
    curves, ends = [], []
    for k in sixteen:
        tops, place = WIDE_TOPS[k % 3], k % 5
        pieces = [(top, *ABOVE_ALL) for top in tops]
        pieces[place] = (tops[place], 500 + k, -stages_of(tops)[place][0])
        curves.append(pieces)
        ends.append(stages_of(tops)[place])
    records = []
    for k, (below, top) in enumerate(ends):
        good = [low if (k + place) % 2 else high - 1 for place, (low, high) in enumerate(ends)]
        records += [((), good[:k] + [stage] + good[k + 1:]) for stage in (below - 1, top) if 0 <= stage <= 30_000] + [((), good)]
    yield "14 on all pieces but one", river_of_curves(curves), records


# ---- Records of version 2: floats ------------------------------------------------------------------------------------------------------

# Signs, the ends of subnormal, normal and finite floats, and what is not a number.
SPECIAL = {"0": 0x0000_0000, "-0": 0x8000_0000, "smallest subnormal": 0x0000_0001, "smallest subnormal below 0": 0x8000_0001,
           "65535": 0x0000_FFFF, "largest subnormal": 0x007F_FFFF, "smallest normal": 0x0080_0000, "largest": 0x7F7F_FFFF,
           "largest below 0": 0xFF7F_FFFF, "infinity": 0x7F80_0000, "-infinity": 0xFF80_0000, "gap": FLOAT_GAP,
           "gap with a sign": 0xFFC0_0000, "gap + 1": 0x7FC0_0001, "gap - 1": 0x7FBF_FFFF, "least signalling NaN": 0x7F80_0001,
           "signalling NaN": 0x7FA0_0000, "signalling NaN with a sign": 0xFF80_0001, "last NaN": 0x7FFF_FFFF, "all ones": 0xFFFF_FFFF,
           "-0.0001": float_bits(-1e-4), "-0.0005": float_bits(-5e-4), "-0.0006": float_bits(-6e-4), "-1": float_bits(-1.0),
           "-30": float_bits(-30.0)}
# Halves of a millimetre that a float has exactly: the odd multiples of 62.5 mm, with the floats around them.
EXACT_HALVES = [bits for sixteenths in range(1, 480, 2) for bits in bits_near(sixteenths / 16)]
NEAR_30_METRES = [*bits_near(29.9995, 3, 3), float_bits(29.9999), *bits_near(30.0, 2, 2), float_bits(30.0004), *bits_near(30.0005, 12, 12),
                  float_bits(30.0006), *bits_near(30.001), float_bits(30.4), *bits_near(31.9), *bits_near(32.0), float_bits(65.535)]
# Read from the last byte on, or with the halves changed over, these are other floats of less than 30 m, a gap, or refused.
BYTE_ORDERS = [0x3F80_0041, 0x4100_803F, 0x4040_4140, 0x4140_4040, 0x0000_C07F, 0x0000_803F, 0x0000_7FC0, 0x3F80_4000, 0x4000_3F80,
               0x3E99_999A, 0x4120_0001]
# The lower half is a stage that rule 13 refuses, or its gap; the floats are of 1 m to 29 m.
HALVES_OF_THIRTEEN = [0x3F80_7531, 0x3F80_FFFE, 0x3F80_FFFF, 0x41E7_C000, 0x41E7_FFFF, 0x4000_8000]


def near_halves(every=1):
    """The floats nearest to k and a half millimetres, for k from 0 to 29,999 in these steps, and the floats around them."""
    return [bits for k in range(0, 30_000, every) for bits in bits_near((2 * k + 1) / 2_000)]


def float_table(count=1):
    """Reaches apart with a gauge on each that is all but believed, z being 4 h²: every millimetre shows."""
    return dict(T=60, L=1, elements=[reach(first_discharge=k, W=100_000_000) for k in range(count)],
                gauges=[gauge(number, R=1, pieces=[(30_001, 4_000, 0)]) for number in range(1, count + 1)])


def float_rows(bits, count=16):
    """Records with these floats, so many in each; gaps after the last."""
    padded = [*bits, *[FLOAT_GAP] * (-len(bits) % count)]
    return [((), padded[at:at + count], (), 2) for at in range(0, len(padded), count)]


def at_each_gauge(patterns, count=16):
    """Each pattern at some gauge, from the first to the last, among others that are taken."""
    good = [stage_bits(500 + 777 * k) for k in range(count)]
    return [((), [*good[:k % count], bits, *good[k % count + 1:]], (), 2) for k, bits in enumerate(patterns)]


def float_rivers():
    """(name, table, records): what floats stand for, where they stand in a record, and records of both versions."""
    yield "exact halves", float_table(16), float_rows(EXACT_HALVES)
    yield "near half a millimetre", float_table(16), float_rows(near_halves(311))
    yield "near 30 m", float_table(), float_rows(NEAR_30_METRES, 1)
    yield "special patterns", float_table(), float_rows([bits for pattern in SPECIAL.values() for bits in (pattern, stage_bits(1_000))], 1)
    yield "special patterns at each gauge", float_table(16), at_each_gauge([*SPECIAL.values(), *[0xFFC0_0000] * 16])
    yield "byte order", float_table(), float_rows(BYTE_ORDERS, 1)
    yield "byte order at 16 gauges", float_table(16), at_each_gauge(BYTE_ORDERS * 2)
    yield "halves of 13", float_table(16), float_rows(HALVES_OF_THIRTEEN * 8)
    # Pairs of stages of version 1 that 18 would refuse as floats: too high or not a number.
    pairs = (30_000, 0), (0x42C8, 0), (30_000, 30_000), (20_000, GAP), (GAP, 0), (GAP, GAP)
    yield "version 1 that 18 would refuse", float_table(2), [((), pair) for pair in pairs]
    yield "figures", float_table(), float_rows([float_bits(metres) for metres in (0.0005, 0.0015, 1.2345, 29.9995, 30.0)], 1)
    yield "gaps alone", dam_table(), [((90, 20), (FLOAT_GAP,), (k, CEILING - k), 2) for k in range(4)]
    yield "with dams", *float_river()
    elements = [dam(down=2), reach(down=3, W=9), reach(down=4, lag=90, W=5), dam(), basin(area=90, W=3, G=7)]
    rows = (900, 1_000, 1_100), (GAP, 501, 2_000), (800, 700, GAP)
    yield "after releases like floats", dict(T=60, L=2, elements=elements, gauges=[gauge(2), gauge(3, R=9), gauge(5)]), [
        ((7,), list(map(stage_bits, row)), (float_bits(1.5), FLOAT_GAP), 2) for row in rows]
    yield "versions in turn", small_table(), [record if k % 2 else in_floats(record) for k, record in enumerate(SMALL_RECORDS * 4)]
    yield "no gauge", dict(T=60, L=1, elements=[basin()], gauges=[]), [((5,), (), (), version) for version in (1, 2, 3, 2, 1)]


def every_half_millimetre():
    """The floats around every half millimetre up to 30 m in version 2, and in version 1 the stages that the calculator gives them."""
    records = float_rows(near_halves())
    stages = [((), [GAP if bits == FLOAT_GAP else millimetres(float_value(bits)) for bits in row]) for _, row, *_ in records]
    return whole_input(float_table(16), records), whole_input(float_table(16), stages)


def in_floats(record, random=None):
    """A record of version 1 in version 2; if there is a Random, by any float of the same millimetre."""
    rains, stages, releases = (*record, ())[:3]
    if random is None:
        return rains, list(map(stage_bits, stages)), releases, 2
    return rains, [some_bits(random, stage) for stage in stages], releases, 2


def some_bits(random, stage):
    """A float of this millimetre, a gap for a gap."""
    if stage == GAP:
        return FLOAT_GAP
    if stage == 0:
        return random.choice((0, 0x8000_0000, 1, 0x007F_FFFF, float_bits(random.uniform(0, 0.00049))))
    return float_bits(random.uniform(stage - 0.49, stage + 0.49) / 1_000)


def in_version(version, river):
    """The build of a river that is given or drawn, all records in this version."""
    def build(random):
        table, records = river(random) if callable(river) else river
        return whole_input(table, [in_floats(record, random) for record in records] if version == 2 else records)
    return build


def rivers_in_both():
    """(name, river): each is sent in version 2, and in version 1 beside it."""
    yield "small table", small_river()
    yield "dams", dam_river()
    yield from ((name, (table, records)) for name, table, records in curve_rivers())
    yield from (("river", lambda random: some_river(random, gauge_count=random.choice((1, 2, 5)))) for _ in range(12))
    yield "river of 64", lambda random: some_river(random, counts=(64,), steps=(2,), ways=("typical",), gauge_count=16)


def river_in_floats(random):
    """Records of either version, one after the other."""
    table, records = some_river(random, steps=(3, 6))
    return whole_input(table, [in_floats(record, random) if random.random() < 0.7 else record for record in records])


def some_trouble(random):
    """A float that is mostly refused."""
    return random.choice((random.getrandbits(32), random.choice(list(SPECIAL.values())), random.choice(NEAR_30_METRES),
                          random.choice(EXACT_HALVES), float_bits(random.uniform(0, 33))))


def mixed_floats(random):
    """Accepted and refused records of both versions in one run."""
    table, records = some_river(random, steps=(8, 20), ways=("typical", "typical", "ceiling"), gauge_count=random.choice((1, 2, 5)))
    data = table_bytes(table)
    for record in records:
        rains, stages, releases, version = in_floats(record, random)
        rains, releases, size = list(rains), list(releases), 4
        trouble = random.choice(("none", "none", "float", "float", "floats", "rain", "release", "other version", "unknown version"))
        if trouble in ("float", "floats") and stages:
            for _ in range(1 if trouble == "float" else 3):
                stages[random.randrange(len(stages))] = some_trouble(random)
        elif trouble == "rain" and rains:
            rains[random.randrange(len(rains))] = 3_001
        elif trouble == "release" and releases:
            releases[random.randrange(len(releases))] = CEILING + 1
        elif trouble == "other version":
            stages, version, size = [random.choice((30_001, stage)) for stage in record[1]], 1, 2
        elif trouble == "unknown version":
            version, size = random.choice((0, 3, 255)), random.choice((2, 2, 2, 4))
        data += record_bytes(rains, stages, releases, version, size=size)
    return data


# ---- Tables of version 2: noise that follows the discharge -----------------------------------------------------------------------------


def piece_of(z):
    """a and h + b that give exactly this z."""
    depth = next(depth for depth in range(1, 30_001) if depth ** 2 * 1_000 >= z)
    return next((a, depth) for depth in range(depth, 30_001) if (a := -(-1_000 * z // depth ** 2)) * depth ** 2 // 1_000 == z)


def gauged_reaches(*gauges, W=100_000_000, **rest):
    """Reaches apart, each with one of these gauges (R, β, a, b or pieces), in version 2. With this W they all but take a low noise's z."""
    elements = [reach(first_discharge=10 ** 6 * (k + 1), first_variance=900, W=W) for k, _ in enumerate(gauges)]
    listed = []
    for number, (R, beta, *curve) in enumerate(gauges, 1):
        pieces = curve[0] if len(curve) == 1 else [(30_001, *curve)]
        listed.append(gauge(number, R=R, beta=beta, pieces=pieces))
    return dict(version=2, T=60, L=1, elements=elements, gauges=listed) | rest


# (β, z) on either side of a whole t, and of a t at which [t x t / 1,000] goes up.
SMALL_T = ((500, 1_999), (500, 2_000), (500, 63_999), (500, 64_000), (500, 89_999), (500, 90_000), (1, 999_999), (1, 10 ** 6),
           (1, 31_999_999), (1, 32_000_000), (250, 127_999), (250, 128_000), (499, 64_128), (499, 64_129), (0, CEILING))
# (β, a, h + b): β times the unrounded z passes a million that β times z does not.
UNROUNDED_Z = ((499, 294_116, 1_668), (499, 801_589, 1_521), (497, 122_632, 1_514), (333, 995_007, 1_696))
# (β, a, h + b) at whose z [t x t / 1,000] has no rest, a small one or one that is nearly 1, with t rounded down or not.
NOISE_PLACES = ((0, 1_000_000, 2_000), (1, 1_000_000, 2_000), (1, 800_000, 200), (500, 1_000_000, 1_999), (500, 1_000_000, 63),
                (499, 1_000_000, 1_900), (100, 999_999, 707), (37, 1, 29_500))
BETAS = (0, 1, 2, 99, 100, 101, 250, 499, 500)


def noise_edges():
    """(name, table, stage): a noise of C - 1, C and C + 1, by R, at each of these places."""
    for beta, a, depth in NOISE_PLACES:
        for more in (-1, 0, 1):
            R = CEILING - added_noise(beta, a * depth ** 2 // 1_000) + more
            if R <= CEILING:
                yield f"C {more:+}, beta {beta}, z {a * depth ** 2 // 1_000}", gauged_reaches((R, beta, a, 0)), depth


def noise_rivers():
    """(name, table, records): what β makes of a reading, gauge by gauge."""
    yield "each beta", gauged_reaches(*((200, beta, 20_000, -500) for beta in BETAS)), [
        ((), (stage,) * len(BETAS)) for stage in (500, 501, 1_500, 2_000, 5_000, 9_000, 14_642)]
    yield "each beta, little variance", gauged_reaches(*((20, beta, 20_000, -500) for beta in BETAS), W=1_000), [
        ((), (stage,) * len(BETAS)) for stage in (1_000, 1_500, 3_000)]
    shown = [(beta, *piece_of(z)) for beta, z in SMALL_T]
    yield "small t", gauged_reaches(*((1, beta, a, 0) for beta, a, _ in shown), W=10), [((), [depth for *_, depth in shown])] * 2
    yield "unrounded z", gauged_reaches(*((5, beta, a, 0) for beta, a, _ in UNROUNDED_Z)), [((), [depth for *_, depth in UNROUNDED_Z])] * 2
    sixteen = [(10 + k, (500, 0, 31 * k, 7)[k % 4], 5_000 + 100 * k, -100 * k) for k in range(16)]
    rows = [[GAP if (k + turn) % 5 == 0 else 2_000 + 50 * (k + turn) for k in range(16)] for turn in range(4)]
    yield "16 gauges", gauged_reaches(*sixteen), [((), row) for row in rows]
    yield "16 gauges in floats", gauged_reaches(*sixteen), [in_floats(((), row)) for row in rows]
    five = [(500, 40_000, 0), (1_000, 30_000, 100), (2_000, 20_000, 300), (20_000, 900, 30), (30_001, 300, 0)]
    yield "five pieces", gauged_reaches((50, 300, five)), [((), (stage,)) for stage in (499, 500, 999, 1_000, 1_999, 2_000, 20_000, 30_000)]
    yield "in the network", noise_table(), SMALL_RECORDS * 2
    yield "between dams", dam_table(version=2, gauges=[gauge(3, R=300, beta=499), gauge(4, beta=60)]), [
        (rains, (stage, *stages), releases) for stage, (rains, stages, releases) in zip((900, 1_600, GAP), DAM_RECORDS)]
    yield "no gauge", dict(version=2, T=60, L=2, elements=[basin(W=3)], gauges=[]), [((5,), ()), ((0,), ())]


PASSES = 3_000_000_000, 500, 20_000, -500  # a gauge whose noise is above C at 14,000 mm, and not at 8,000 mm


def noise_orders():
    """(name, table, records): 16 for a noise beside what is judged before it, and gaps, which have none. Accepted records follow."""
    two, good = gauged_reaches(PASSES, (200, 100, 20_000, -500)), ((), (8_000, 2_000))
    for name, stages in (("16 in gauge 1", (14_000, 2_000)), ("16 in gauge 1, a gap in gauge 2", (14_000, GAP)),
                         ("16 in gauge 1, 14 in gauge 2", (14_000, 499)), ("16 in gauge 1, 13 in gauge 2", (14_000, 30_001)),
                         ("16 and 14 in gauge 1", (14_643, 2_000)), ("a gap where 16 would be", (GAP, 2_000)), ("gaps alone", (GAP, GAP))):
        yield name, two, [((), stages), good]
    deep, high = stage_bits(400), stage_bits(14_000)
    for name, floats in (("14", (high, deep)), ("18", (high, float_bits(30.001)))):
        yield f"16 in gauge 1, {name} in gauge 2, floats", two, [((), floats, (), 2), good]
    last = gauged_reaches((200, 100, 20_000, -500), PASSES)
    yield "14 in gauge 1, 16 in gauge 2", last, [((), (499, 14_000)), ((), (2_000, 14_000)), ((), (2_000, GAP))]
    wet = dict(version=2, T=60, L=1, elements=[basin(area=400_000, down=2), reach(down=3), dam()],
               gauges=[gauge(2, PASSES[0], beta=PASSES[1])])
    yield "12, 17 and 16", wet, [((rain,), (14_000,), (release,)) for rain, release in (
        (3_001, CEILING + 1), (0, CEILING + 1), (0, 5), (3_000, 5))] + [((0,), (8_000,), (5,))]


def in_table_version(version, river):
    """The build of a river that is given or drawn, β being 0, in a table of this version."""
    def build(random):
        table, records = river(random) if callable(river) else river
        return whole_input(table | dict(version=version, gauges=[each | dict(beta=0) for each in table["gauges"]]), records)
    return build


def tables_in_both():
    """(name, river): each is sent in a table of version 2, and of version 1 beside it."""
    yield "small table", small_river()
    yield "dams", dam_river()
    yield "floats", float_river()
    yield from ((name, (table, records)) for name, table, records in curve_rivers())
    yield from (("river", lambda random: some_river(random, gauge_count=random.choice((1, 2, 5)))) for _ in range(10))
    yield "river of 64", lambda random: some_river(random, counts=(64,), steps=(2,), ways=("typical",), gauge_count=16)


# ---- Two storms, the second with more rain ---------------------------------------------------------------------------------------------

HIGHEST_RAIN = 3_000
IN_FLOATS = (False, False), (False, True), (True, False), (True, True)  # whether the records of the first and second storm are
# The highest rains of 8 to 11 bits, and the last below the highest of all.
BORDERS = (255, 511, 1_023, 2_047, HIGHEST_RAIN - 1)


def with_rains(records, rains):
    return [(row, *record[1:]) for row, record in zip(rains, records)]


def rained(*rains, stages=()):
    """A record of one basin for each rain, all with these stages."""
    return [((rain,), stages) for rain in rains]


def one_basin(leads=3, **rest):
    gauges = rest.pop("gauges", [])
    return dict(version=2, T=60, L=leads, elements=[basin(**dict(first_variance=300, W=5_000, G=1_000) | rest)], gauges=gauges)


def basin_and_reach(above=1, leads=1, **rest):
    """So many equal basins that drain into one reach."""
    return dict(T=60, L=leads, elements=[*(basin(down=above + 1, **rest) for _ in range(above)), reach(W=9)], gauges=[])


def storms_at_gauges():
    """(name, table, records, the second storm's rains): what a reading does to two discharges."""
    given, all_but_taken, of_little_weight = gauge(1), gauge(1, R=1), gauge(1, R=CEILING)
    for name, each, stage, rains, more in (
            ("reading below both", given, 500, (100, 200), (200, 3_000)), ("reading between both", given, 1_500, (10, 0), (100, 90)),
            ("reading above both", given, 3_000, (1, 2), (90, 30)), ("reading all but taken", all_but_taken, 1_500, (0, 50), (90, 50)),
            ("reading of little weight", of_little_weight, 1_500, (0, 50), (90, 50)),
            ("noise by beta", gauge(1, R=100, beta=500), 1_500, (0, 24), (24, 3_000))):
        yield name, one_basin(gauges=[each]), rained(*rains, stages=(stage,)), [(rain,) for rain in more]
    yield "no variance", one_basin(first_variance=0, W=0, gauges=[given]), rained(5, 5, stages=(2_000,)), [(6,), (3_000,)]


def storms_at_tanks():
    """(name, table, records, the second storm's rains): what tanks make of two storms, with gauges on them and without."""
    for count in (2, 8):
        table = dict(T=60, L=12, elements=[basin(down=2, G=700), tanks(count, W=900)], gauges=[])
        yield f"{count} tanks", table, rained(90, 0, 0, 0), [(91,), (0,), (0,), (HIGHEST_RAIN,)]
        gauged = dict(table, gauges=[gauge(2, R=9)])
        yield f"{count} tanks, gauged", gauged, rained(90, 0, 0, stages=(1_500,)), [(HIGHEST_RAIN,), (0,), (1,)]
    large = dict(T=60, L=2, elements=[basin(down=2, area=400_000), tanks(2)], gauges=[])
    yield "sum between tanks past 2 ** 32", large, rained(20, 20, 20, 20), [(36,)] * 4
    chain = [basin(down=2)] + [tanks(4, down=(number + 1) * (number < 9), lag=60 + number) for number in range(2, 10)]
    yield "chain of tanks", dict(T=60, L=4, elements=chain, gauges=[gauge(5, R=9)]), rained(90, 30, 0, stages=(900,)), [
        (HIGHEST_RAIN,), (HIGHEST_RAIN,), (1,)]


def storms():
    """(name, table, records, the second storm's rains), all accepted whole and with some larger discharge."""
    yield "one basin, one step", one_basin(leads=1), rained(100), [(101,)]
    yield "each border", one_basin(), rained(*BORDERS), [(rain + 1,) for rain in BORDERS]
    yield "from each border to the highest", one_basin(), rained(*BORDERS), [(HIGHEST_RAIN,) for _ in BORDERS]
    yield "sums of three past 4,096 and 8,192", one_basin(), rained(*[1_365] * 3, 2_730, 2_730, 2_731), [
        (rain,) for rain in (1_366, 1_365, 1_365, 2_730, 2_731, 2_731)]
    yield "more wet steps", one_basin(leads=12), rained(100, 0, 0, 0), [(100,), (1,), (1,), (0,)]
    yield "from no rain", one_basin(), rained(0, 0, 0), [(0,), (1,), (HIGHEST_RAIN,)]
    yield "product past 2 ** 32", one_basin(), rained(238, 0), [(239,), (0,)]
    yield "rain at the first step alone", one_basin(leads=1), rained(200, 0, 0), [(400,), (0,), (0,)]
    yield "sum of outflows past 2 ** 32", basin_and_reach(area=400_000), rained(20, 20, 20), [(36,), (36,), (36,)]
    yield "forecast of the second refused by 16", basin_and_reach(2, area=400_000), [((20, 20), ()), ((0, 0), ()), ((0, 1), ())], [
        (36, 36), (0, 0), (0, 2)]
    yield from storms_at_gauges()
    for name, (table, records) in (("small table", small_river()), ("dams", dam_river()), ("beta in the network", noise_river()),
                                   ("tanks", tank_river())):
        basins = count_of(table, 1)
        yield f"{name}, a little more", table, records, [[min(HIGHEST_RAIN, rain + 1) for rain in record[0]] for record in records]
        yield f"{name}, the highest", table, records, [(HIGHEST_RAIN,) * basins for _ in records]
    yield "confluence of five", basin_and_reach(5, area=700), [((k, 0, 9, 300, 7), ()) for k in range(4)], [
        (k, 1, 9, 300, HIGHEST_RAIN) for k in range(4)]
    yield from storms_at_tanks()
    long_river = [basin(down=2)] + [reach(down=(number + 1) * (number < 64), lag=60 + number) for number in range(2, 65)]
    yield "river of 64", dict(T=60, L=2, elements=long_river, gauges=[gauge(20, R=9), gauge(40)]), [
        ((90,), stages) for stages in ((GAP, 900), (700, GAP), (GAP, GAP))], [(HIGHEST_RAIN,), (90,), (91,)]


def storm_table(random):
    """A table whose steps take any rains: what all its water comes to is under C. In one of four all variances are 0 but for G."""
    count, shape, step_minutes = random.choice((1, 2, 3, 5, 8)), random.choice(SHAPES), random.choice((1, 10, 60, 60, 1_440))
    kinds = [1] + river_kinds(random, shape, count)[1:]
    some_variance, lags = random.choice((0, 1, 1, 1)), random.choice(("equal", "multiple", "any"))
    elements = []
    for number, kind in enumerate(kinds, 1):
        element = dict(kind=kind, down=river_down(random, shape, kinds, number), first_discharge=random.randint(0, 500_000_000 // count),
                       first_variance=some_variance * random.randint(0, 10_000),
                       W=some_variance * random.choice((0, 9, random.randint(0, 500_000))))
        if kind != 3:
            element |= dict(lag=some_lag(random, step_minutes, lags))
        if kind == 4:
            element |= dict(f=random.randint(2, 8))
        if kind == 1:
            element |= dict(area=random.randint(1, 3_000 // count), f=random.choice((1_000, random.randint(1, 1_000))),
                            G=random.choice((0, random.randint(0, 1_000_000))))
        elements.append(element)
    gauged = [number for number, kind in enumerate(kinds, 1) if kind != 3]
    gauges = [gauge(number, R=random.choice((1, 200, 10 ** 6, 10 ** 9)), beta=random.choice((0, 0, 100, 500)),
                    pieces=[(1_000, random.choice((1, 30_000)), 0), (30_001, 20_000, -500)])
              for number in sorted(random.sample(gauged, min(len(gauged), random.choice((0, 1, 1, 3)))))]
    return dict(version=random.choice((1, 2, 2)), T=step_minutes, L=random.choice((1, 2, 3, random.randint(1, 12))), elements=elements,
                gauges=gauges)


def more_rain(random, rain):
    """At least this rain: as much, a little more, past the next border, or much more."""
    border = next((each + 1 for each in BORDERS if each >= rain), HIGHEST_RAIN)
    return random.choice((rain, min(HIGHEST_RAIN, rain + 1), min(HIGHEST_RAIN, rain + random.randint(1, 40)), border,
                          random.randint(rain, HIGHEST_RAIN)))


def one_rain_more(random, rains):
    """One basin at one step alone."""
    increased = [list(row) for row in rains]
    row = random.choice(increased)
    place = random.randrange(len(row))
    row[place] = random.randint(row[place], HIGHEST_RAIN)
    return increased


# By name: the rains of a second storm from those of the first.
INCREASES = {
    "one rain": one_rain_more,
    "some rains": lambda random, rains: [[more_rain(random, rain) for rain in row] for row in rains],
    "every rain by one": lambda random, rains: [[min(HIGHEST_RAIN, rain + 1) for rain in row] for row in rains],
    "every rain the highest": lambda random, rains: [[HIGHEST_RAIN for _ in row] for row in rains],
}


def drawn_storms(random, increase):
    """The inputs of both storms; their records are of any version each."""
    table, steps, gaps = storm_table(random), random.randint(1, 6), random.choice((0, 0.3, 0.8))
    basins, dams = count_of(table, 1), count_of(table, 3)
    some = random.choice(((0,), (0, 0, 1, 40), (0, 30, 200, *BORDERS)))
    rains = [[random.choice(some) for _ in range(basins)] for _ in range(steps)]
    most = 300_000_000 // len(table["elements"])
    records = [(row, [GAP if random.random() < gaps else random.choice((500, 1_000, random.randint(0, 3_000))) for _ in table["gauges"]],
                [random.randint(0, most) for _ in range(dams)]) for row in rains]
    both = records, with_rains(records, increase(random, rains))
    return [whole_input(table, [in_floats(record, random) if random.random() < 0.5 else record for record in each]) for each in both]


# ---- Cut, spoiled and random inputs ----------------------------------------------------------------------------------------------------


def two_element_input():
    table = dict(T=60, L=1, elements=[basin(down=2), reach(lag=120, first_discharge=2_000_000, first_variance=400, W=50)],
                 gauges=[gauge(2)])
    return whole_input(table, [((100,), (1_400,)), ((50,), (GAP,))])


def spoiled_values(byte):
    return [value for value in dict.fromkeys((byte ^ 1, byte ^ 128, 0, 255, (byte + 1) % 256)) if value != byte]


def spoiled(data, at, value):
    return data[:at] + bytes([value]) + data[at + 1:]


def spoiled_river(random):
    data = bytearray(whole_input(*some_river(random)))
    for _ in range(random.choice((1, 1, 2, 5))):
        data[random.randrange(len(data))] = random.choice((0, 1, 255, random.randrange(256)))
    return bytes(data)


def cut_river(random):
    data = whole_input(*some_river(random))
    return data[:random.randrange(len(data) + 1)]


def lengthened_river(random):
    """Bytes put in or taken out inside, so that every later record is cut in another place."""
    data = whole_input(*some_river(random))
    at = random.randrange(len(data) + 1)
    if random.random() < 0.5:
        return data[:at] + random.randbytes(random.choice((1, 2, 7))) + data[at:]
    return data[:at] + data[at + random.choice((1, 2)):]


def random_bytes(random):
    return random.randbytes(random.choice((0, 1, 3, 4, 9, 10, 36, random.randrange(5_000))))


def random_table(random):
    """A header that passes rules 1 to 4 and noise after it."""
    count, gauge_count, version = random.randint(1, 4), random.randint(0, 2), random.choice((1, 2))
    size = 26 * count + GAUGE_BYTES[version] * gauge_count
    head = big_endian(6 + size, 4) + bytes([version]) + big_endian(random.randint(1, 1_440), 2)
    return head + bytes([random.randint(1, 12), count, gauge_count]) + random.randbytes(size + random.randrange(40))


def random_records(random):
    table, _ = some_river(random)
    data = table_bytes(table)
    for _ in range(random.choice((1, 3, 10))):
        body = random.randbytes(random.choice((0, 1, 3, 5, 1 + 2 * (len(table["elements"]) + len(table["gauges"])))))
        data += big_endian(len(body), 2) + body
    return data


def mixed_records(random):
    """Accepted and refused records of every kind in one run."""
    table, records = some_river(random, steps=(8, 20), ways=("typical", "typical", "ceiling", "wild"))
    data = table_bytes(table)
    for rains, stages, releases in records:
        rains, stages, releases, version = list(rains), list(stages), list(releases), 1
        for _ in range(random.choice((0, 0, 1, 2))):
            trouble = random.choice(("version", "rain", "release", "stage", "depth"))
            if trouble == "version":
                version = random.choice((0, 3, 255))
            elif trouble == "rain" and rains:
                rains[random.randrange(len(rains))] = random.choice((3_000, 3_001, GAP))
            elif trouble == "release" and releases:
                releases[random.randrange(len(releases))] = random.choice((CEILING, CEILING + 1, 2 ** 32 - 1))
            elif trouble == "stage" and stages:
                stages[random.randrange(len(stages))] = random.choice((30_000, 30_001, 65_534))
            elif trouble == "depth" and stages:
                stages[random.randrange(len(stages))] = random.randint(0, 30_000)
        data += record_bytes(rains, stages, releases, version)
    if random.random() < 0.3:
        data += random.choice((b"\0", b"\0\0", b"\0\1\2", b"\xff\xff\1"))
    return data


# ---- The longest table, the most steps, the most records ---------------------------------------------------------------------------------


def longest_river(random, version=2, size=None, told=None, steps=1, leads=1):
    """64 elements and 16 gauges, in version 1 2,410 bytes and in version 2 2,442; cut or with zeros added to another size, which the length
    tells unless another is told."""
    table = some_table(random, 64, random.choice(SHAPES), "typical", leads=leads, gauge_count=16, version=version)
    records = some_records(random, table, steps, "typical")
    data = table_bytes(table)
    size = size or len(data)
    return big_endian((told or size) - 4, 4) + (data[4:] + bytes(40))[:size - 4] + b"".join(record_bytes(*record) for record in records)


# (version, elements, gauges) of tables with too many elements. With 2,442 bytes or fewer they are refused 3, with more 1.
TOO_MANY = ((1, 65, 0), (1, 65, 16), (1, 67, 15), (1, 66, 16), (2, 65, 0), (2, 65, 15), (2, 65, 16), (2, 72, 11))


def too_many_elements(version, count, gauge_count):
    gauges = [gauge(number) for number in range(1, gauge_count + 1)]
    return whole_input(dict(version=version, T=60, L=1, elements=[reach() for _ in range(count)], gauges=gauges), [((), ())])


def table_sizes():
    """(name, build): 64 elements and 16 gauges in tables of all sizes about the longest: the one that fits is taken, others have 4 up to
    2,442 bytes in all and 1 above."""
    for version, sizes in ((1, (2_409, 2_410, 2_411, 2_412, 2_441, 2_442, 2_443)), (2, (2_410, 2_411, 2_441, 2_442, 2_443, 2_444))):
        for size in sizes:
            yield f"version {version}, {size:,} bytes", lambda random, version=version, size=size: longest_river(random, version, size)


def ten_thousand_steps(last, steps=10_000):
    table = dict(T=60, L=1, elements=[basin(area=1_000, f=700, first_discharge=5_000_000, W=20, G=30)], gauges=[gauge(1, R=300)])
    def build(random):
        records = [((random.choice((0, 0, 5, 80)),), (random.choice((GAP, GAP, random.randint(500, 4_000))),)) for _ in range(steps)]
        return whole_input(table, records) + last
    return build


def many_records(record, count, last):
    table = dict(T=60, L=1, elements=[reach(first_discharge=1_000_000)], gauges=[])
    return lambda random: table_bytes(table) + record * count + last


def many_rain_refusals(random):
    table = dict(T=60, L=1, elements=[basin()], gauges=[])
    good = record_bytes((10,), ())
    return table_bytes(table) + record_bytes((3_001,), ()) * 99_998 + good * 4


# ---- The list ------------------------------------------------------------------------------------------------------------------------


def fixed(data):
    return lambda random: data


def inputs(long=False):
    found = []

    def add(family, build, **rest):
        found.append(Input(family, build, **rest))

    for name, data in tried_figures():
        add(f"tried figure: {name}", fixed(data))
    for name, data in (*ceiling_of_curve(), *ceiling_of_numbers()):
        add(f"ceiling: {name}", fixed(data))
    for name, data in lowest_wins():
        add(f"lowest wins: {name}", fixed(data))
    for name, table, records in dam_rivers():
        add(f"dam: {name}", fixed(whole_input(table, records)))
    for name, data in release_orders():
        add(f"order: {name}", fixed(data))
    for name, table, records in mean_inflow_rivers():
        add(f"mean inflow: {name}", fixed(whole_input(table, records)))
    add("Yubetsu 2001", lambda random: YUBETSU.read_bytes())
    add("empty input", fixed(b""))
    add("no record", fixed(EXAMPLE[:-5]))
    small = edited([])
    add("small table", fixed(small))
    for rule, edit in rule_edits():
        add(f"rule {rule}", lambda random, edit=edit: edited([edit]))
    for rule, edit in dam_edits():
        add(f"rule {rule}", lambda random, edit=edit: edited([edit], dam_river))
    for rule, edit in tank_edits():
        add(f"rule {rule}", lambda random, edit=edit: edited([edit], tank_river))
    for _ in range(2_000 if long else 120):
        add("several rules", several_edits)
    two = two_element_input()
    for at in range(len(EXAMPLE)):
        add(f"example cut at {at}", fixed(EXAMPLE[:at]))
    for at in range(0, len(two), 1 if long else 3):
        add(f"two elements cut at {at}", fixed(two[:at]))
    for at in range(0, len(small)):
        if long:
            add(f"small table cut at {at}", fixed(small[:at]))
    for at in range(len(EXAMPLE)):
        for value in spoiled_values(EXAMPLE[at])[:None if long else 3]:
            add(f"example spoiled at {at} by {value}", fixed(spoiled(EXAMPLE, at, value)))
    for data, name in ((two, "two elements"), (small, "small table")):
        for at in range(0, len(data), 1 if long else 4):
            for value in spoiled_values(data[at])[:None if long else 1]:
                add(f"{name} spoiled at {at} by {value}", fixed(spoiled(data, at, value)))
    for build, quick, many in ((spoiled_river, 50, 1_500), (cut_river, 30, 800), (lengthened_river, 20, 500), (random_bytes, 15, 300),
                               (random_table, 15, 300), (random_records, 20, 500), (mixed_records, 40, 1_000)):
        for _ in range(many if long else quick):
            add(build.__name__, build)
    for shape in SHAPES:
        for way in ("typical", "zero", "ceiling", "wild"):
            for count in (1, 2, 5):

                def build(random, shape=shape, way=way, count=count):
                    table = some_table(random, count, shape, way)
                    return whole_input(table, some_records(random, table, 3, way))

                for _ in range(20 if long else 1):
                    add(f"{shape} of {count}, {way}", build)
    for _ in range(2_500 if long else 110):
        add("river", lambda random: whole_input(*some_river(random)))
    for _ in range(200 if long else 8):
        add("long river", lambda random: whole_input(*some_river(random, steps=(25, 60), leads=2)))
    for _ in range(100 if long else 4):
        add("river of 64", lambda random: whole_input(*some_river(random, counts=(64,), steps=(1, 3), ways=("typical", "typical", "wild"))))
    add("longest table", longest_river)
    add("longest table, 12 leads", lambda random: longest_river(random, leads=12, steps=2))
    add("longest table in pieces", lambda random: longest_river(random, steps=3), pieces=997)
    add("longest table cut", lambda random: longest_river(random, steps=0)[:-1])
    add("longest table of version 1 cut", lambda random: longest_river(random, version=1, steps=0)[:-1])
    add("one byte more", lambda random: longest_river(random, size=2_443))
    add("one byte more, not there", lambda random: longest_river(random, told=2_443, steps=0))
    add("one byte more, not counted", lambda random: longest_river(random, size=2_443, told=2_442))
    for name, build in table_sizes():
        add(f"size of table: {name}", build)
    for version, count, gauge_count in TOO_MANY:
        add(f"{count} elements and {gauge_count} gauges in version {version}", fixed(too_many_elements(version, count, gauge_count)))
    for pieces in (1, 2, 3, 7):
        add("in pieces", fixed(two), pieces=pieces)
    good = record_bytes((10,), (1_000,))
    add("10,000 steps", ten_thousand_steps(b""), fractions=False)
    add("10,000 steps and one more", ten_thousand_steps(good + good), fractions=False)
    if long:
        add("9,999 steps and three more", ten_thousand_steps(good * 3, 9_999), fractions=False)
        for last in (b"\0", b"\0\1", b"\0\1\1", b"\0\1\2", record_bytes((3_001,), (1_000,))):
            add("10,000 steps and a wrong one", ten_thousand_steps(last), fractions=False)
    refused, accepted = record_bytes((), (), version=3), record_bytes((), ())
    add("100,000 records", many_records(refused, 99_999, accepted), fractions=False)
    add("more than 100,000 records", many_records(refused, 100_000, accepted + b"\0"), fractions=False)
    if long:
        add("more than 100,000 records, a cut one", many_records(refused, 100_000, b"\0"), fractions=False)
        add("99,999 records and a cut one", many_records(refused, 99_999, b"\0\1"), fractions=False)
        add("rain refusals beyond 100,000", many_rain_refusals, fractions=False)
    for name, *rivers in last_places():
        for table, record in rivers:
            add(f"last place: {name}", fixed(whole_input(table, [record, record])))
    for name, table, records in curve_rivers():
        add(f"curve: {name}", fixed(whole_input(table, records)))
    add_floats(add, long)
    add_noises(add, long)
    add_storms(add, long)
    add_tanks(add, long)
    return found


def add_floats(add, long):
    for name, table, records in float_rivers():
        add(f"float: {name}", fixed(whole_input(table, records)))
    for name, river in rivers_in_both():
        add(f"float: {name} as in version 1", in_version(2, river), twin=in_version(1, river))
    for name, data in float_orders():
        add(f"order: {name}", fixed(data))
    for rule, edit in float_edits():
        add(f"rule {rule}", lambda random, edit=edit: edited([edit], float_river))
    floats, first = edited([], float_river), len(table_bytes(float_river()[0]))
    for at in range(first, len(floats), 1 if long else 2):
        add(f"float river cut at {at}", fixed(floats[:at]))
        for value in spoiled_values(floats[at])[:None if long else 1]:
            add(f"float river spoiled at {at} by {value}", fixed(spoiled(floats, at, value)))
    for build, quick, many in ((river_in_floats, 40, 1_500), (mixed_floats, 40, 1_500)):
        for _ in range(many if long else quick):
            add(build.__name__, build)
    if long:
        bits = near_halves()
        for at in range(0, len(bits), 8_000):
            add("float: all halves", fixed(whole_input(float_table(16), float_rows(bits[at:at + 8_000]))))
        for _ in range(40):
            add("float: any bits", lambda random: whole_input(float_table(), float_rows([some_trouble(random) for _ in range(1_000)], 1)))


def add_noises(add, long):
    for name, table, records in (*noise_rivers(), *noise_orders()):
        add(f"noise: {name}", fixed(whole_input(table, records)))
    for name, table, stage in noise_edges():
        add(f"noise: {name}", fixed(whole_input(table, [((), (stage,)), ((), (GAP,))])))
    for name, river in tables_in_both():
        add(f"noise: {name} as in version 1", in_table_version(2, river), twin=in_table_version(1, river))
    for rule, edit in noise_edits():
        add(f"rule {rule}", lambda random, edit=edit: edited([edit], noise_river))
    data, end = edited([], noise_river), len(table_bytes(noise_table()))
    betas = [end - 50, end - 49, end - 2, end - 1]
    for at in range(end) if long else sorted({*range(end - 96, end, 7), *betas}):
        add(f"noise river cut at {at}", fixed(data[:at]))
        for value in spoiled_values(data[at])[:None if long or at in betas else 1]:
            add(f"noise river spoiled at {at} by {value}", fixed(spoiled(data, at, value)))


def add_storms(add, long):
    for k, (name, table, records, rains) in enumerate(storms()):
        build, wetter = (fixed(whole_input(table, list(map(in_floats, each)) if floats else each))
                         for floats, each in zip(IN_FLOATS[k % 4], (records, with_rains(records, rains))))
        add(f"storm: {name}", build, fractions=False, wetter=wetter, larger=True)
    for name, increase in INCREASES.items():
        for _ in range(400 if long else 40):
            build, wetter = (lambda random, increase=increase, which=which: drawn_storms(random, increase)[which] for which in (0, 1))
            add(f"storm: drawn, {name}", build, fractions=False, wetter=wetter)


def add_tanks(add, long):
    for name, table, records in (*tank_rivers(), *ceiling_of_tanks()):
        written = whole_input(in_reaches(table), records) if tanks_and_others(table) <= 64 else None
        add(f"tanks: {name}", fixed(whole_input(table, records)), reaches=written and fixed(written))
    for name, table, records in largest_tanks():
        add(f"tanks: {name}", fixed(whole_input(table, records)))
    for _ in range(2_000 if long else 60):
        add("tanks: drawn", tanks_drawn, reaches=drawn_in_reaches)
    data, end = edited([], tank_river), len(table_bytes(tank_table()))
    for at in range(10, end) if long else [*range(36, 62, 3), *range(114, 140, 3), 44, 45, 122, 123]:
        for value in spoiled_values(data[at])[:None if long or at in (44, 45, 122, 123) else 1]:
            add(f"tank river spoiled at {at} by {value}", fixed(spoiled(data, at, value)))


def random_for(seed, number):
    return Random(f"{seed}/{number}")
