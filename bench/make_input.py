#!/usr/bin/env python3
"""Writes a bench input to standard output: a table and its records, nothing of which is refused.

    python3 bench/make_input.py [--elements 64] [--gauges 16] [--leads 12] [--steps 1000] [--seed 1] [--pieces 3] [--gaps 0.1] [--version 1]
                                [--beta 100] [--tanks]

The river: every second element a basin, which drains into a reach; the reaches form a tree that joins two by two and ends in one outlet.
A single element is a basin. Gauges stand on reaches spread over the tree; their curves have three pieces or five, each of which is read on
the way. Rain comes in storms, stages follow smoothly, one stage in ten (or another share) is a gap. In version 2 the records have the same
stages as floats. Where a beta is given, the table is of version 2 and every gauge has this beta. With --tanks every second
reach is an element of 2 to 8 tanks; those with gauges are among them.
"""
import argparse
import sys
from itertools import cycle
from pathlib import Path
from random import Random

sys.path.insert(0, str(Path(__file__).resolve().parent.parent / "tests"))
from calculator.encode import float_bits, record_bytes, table_bytes  # noqa: E402

TANK_COUNTS = (4, 2, 8, 3, 6, 5, 7)  # of one element of tanks after another
GAP, FLOAT_GAP = 65_535, 0x7FC0_0000
# By pieces in use: the top, the least a and the greatest, and b of each.
CURVES = {3: ((1_500, 20_000, 40_000, -300), (3_000, 15_000, 30_000, -100), (30_001, 10_000, 20_000, 200)),
          5: ((600, 20_000, 40_000, -300), (1_400, 20_000, 35_000, -300), (2_200, 15_000, 30_000, -200), (3_000, 15_000, 30_000, -100),
              (30_001, 10_000, 20_000, 200))}


def curve(random, pieces, place):
    """The pieces of a gauge; the tops of five are higher at one gauge than at another, so that each piece has readings at most times."""
    raised = 600 * (place % 5) if pieces == 5 else 0
    return [(min(30_001, top + raised), random.randint(least, most), b) for top, least, most, b in CURVES[pieces]]


def river(random, count, gauge_count, leads, pieces, tanks):
    reaches = [number for number in range(2, count + 1) if number % 2 == 0 or number == count]
    below = {}  # reach k drains into the reach about halfway to the outlet: pairs join, then pairs of pairs
    for place, number in enumerate(reaches):
        later = reaches[place + 1:]
        below[number] = later[len(later) // 2] if later else 0
    elements = []
    for number in range(1, count + 1):
        if number in below:
            elements.append(dict(kind=2, down=below[number], lag=random.randint(60, 240), first_discharge=random.randint(1, 8_000_000),
                                 first_variance=random.randint(0, 1_000), W=random.randint(1_000, 200_000)))
        else:
            elements.append(dict(kind=1, down=next((reach for reach in reaches if reach > number), 0), lag=random.randint(120, 600),
                                 area=random.randint(500, 6_000), f=random.randint(300, 900), first_discharge=random.randint(1, 2_000_000),
                                 first_variance=random.randint(0, 100), W=random.randint(100, 20_000), G=random.randint(1_000, 500_000)))
    for number, count in zip(reaches[1::2], cycle(TANK_COUNTS)) if tanks else ():
        elements[number - 1] |= dict(kind=4, f=count)
    gauge_count = min(gauge_count, len(reaches))
    gauged = [reaches[len(reaches) * (k + 1) // gauge_count - 1] for k in range(gauge_count)]
    gauges = [dict(element=number, R=random.randint(20_000, 200_000), pieces=curve(random, pieces, place))
              for place, number in enumerate(gauged)]
    return dict(T=60, L=leads, elements=elements, gauges=gauges)


def records(random, table, steps, gaps):
    basins = sum(element["kind"] == 1 for element in table["elements"])
    stages = [random.randint(600, 1_200) for _ in table["gauges"]]
    storm = 0
    for _ in range(steps):
        storm = max(0, storm - 1) if storm else random.choice((0,) * 30 + (12, 24))
        rains = [random.randint(0, 120) if storm else random.choice((0, 0, 0, 2)) for _ in range(basins)]
        for k, stage in enumerate(stages):
            stages[k] = min(4_500, max(400, stage + (random.randint(-40, 160) if storm else random.randint(-60, 25))))
        yield rains, [GAP if random.random() < gaps else stage for stage in stages]


def main():
    parser = argparse.ArgumentParser(description=__doc__, formatter_class=argparse.RawDescriptionHelpFormatter)
    for name, default in (("elements", 64), ("gauges", 16), ("leads", 12), ("steps", 1_000), ("seed", 1)):
        parser.add_argument(f"--{name}", type=int, default=default)
    parser.add_argument("--pieces", type=int, default=3, choices=sorted(CURVES))
    parser.add_argument("--gaps", type=float, default=0.1)
    parser.add_argument("--version", type=int, default=1, choices=(1, 2))
    parser.add_argument("--beta", type=int)
    parser.add_argument("--tanks", action="store_true")
    options = parser.parse_args()
    random = Random(options.seed)
    table = river(random, options.elements, options.gauges, options.leads, options.pieces, options.tanks)
    if options.beta is not None:
        table |= dict(version=2, gauges=[each | dict(beta=options.beta) for each in table["gauges"]])
    sys.stdout.buffer.write(table_bytes(table))
    for rains, stages in records(random, table, options.steps, options.gaps):
        if options.version == 2:
            stages = [FLOAT_GAP if stage == GAP else float_bits(stage / 1_000) for stage in stages]
        sys.stdout.buffer.write(record_bytes(rains, stages, version=options.version))


if __name__ == "__main__":
    main()
