"""Document 01, "Tried figures", and figures of document 02 worked out by hand: all of them asked of whole_numbers.py. Those that a run can
show are inputs of the program too.
"""
from . import floats
from .encode import record_bytes, table_bytes
from .program import run
from .whole_numbers import Figures, Gauge, Piece, Refused, RULES, SCALE, State, decode_table, series_weight

EXAMPLE_INPUT = bytes.fromhex("00000020 01 003C 01 01 00 01 00 003C 00000E10 03E8 00000000 00000000 00000000 000003E8 0003 01 0064")
EXAMPLE_OUTPUT = b"1 1 0 63212055 3 0 6\n1 1 1 86466471 4 399 6\n"


def refusal(call, *arguments):
    try:
        call(*arguments)
    except Refused as refused:
        return refused.number
    return 0


def one_reach(pieces, down=0):
    return table_bytes(dict(T=60, L=1, elements=[dict(kind=2, down=down, lag=60)], gauges=[dict(element=1, R=1, pieces=pieces)]))


def check_noise():
    """M-105: (β, R, z, noise), by hand. β 100 is ten per cent of the discharge: of 50 m³/s 5 m³/s, whose square is 25,000 in the unit
    of variances."""
    for beta, R, z, noise in ((0, 7, 4_000_000_000, 7), (100, 200, 50_000_000, 25_200), (100, 200, 50_009_999, 25_200),
                              (100, 200, 50_010_000, 25_210), (1, 5, 31_999_999, 5), (1, 5, 32_000_000, 6), (500, 1, 63_999, 1),
                              (500, 1, 64_000, 2), (499, 3, 2_000_000_000, 996_004_003), (500, 1, 4_000_000_000, 4_000_000_001)):
        assert RULES.noise(Gauge(1, 1, R, (), beta), z) == noise, (beta, R, z)


def check_tanks():
    """M-107, by hand: a step of two tanks of lag 60 with nothing draining in, from 1,000,000 and a variance of 300, W being 10. The second
    takes half of 1,000,000 and 367,879, margin [(0 + 3) / 2] + 1, and the variance 50."""
    two = table_bytes(dict(T=60, L=1, elements=[dict(kind=4, lag=60, f=2, first_discharge=1_000_000, first_variance=300, W=10)], gauges=[]))
    moved = RULES.step(two, record_bytes((), ()), RULES.start(two, State()))
    assert moved.figures[1] == Figures(367_879, 3, 50, 6)
    assert RULES.tank_inflow(Figures(1_000_000, 0, 300, 0), moved.figures[1]) == Figures(683_939, 2, 50, 6)
    assert moved.figures[0] == Figures(800_211, 4, 70, 7)


def check():
    """Raises AssertionError where a figure does not come out."""
    floats.check()
    assert series_weight(60, 60) == 367_879_441 and series_weight(1, 60_000) == 999_983_334
    assert RULES.blend(3, 0, 4, 0, 500_000_000, 0) == (3, 3)
    assert SCALE * 300 // (300 + 100) == 750_000_000
    assert RULES.correct(Figures(1_000_000, 0, 300, 0), 2_000_000, 100) == Figures(1_750_000, 3, 75, 2)
    assert RULES.correct(Figures(7, 0, 0, 0), 9, 1) == Figures(7, 3, 0, 2)
    piece = Piece(30_001, 20_000, -500)
    assert RULES.curve(piece, 1_500) == 20_000_000 and RULES.curve(piece, 500) == 0 and refusal(RULES.curve, piece, 499) == 14
    curve = decode_table(one_reach([(1_000, 1, 0), (30_001, 2, 0)])).gauges[0]
    assert RULES.look(curve, 999) == (0, 998, 1, 1) and RULES.look(curve, 1_000) == (0, 2_000, 1, 2)
    check_noise()
    check_tanks()
    assert refusal(RULES.start, one_reach([(30_001, 1, 0)], down=1), State()) == 6
    deep = one_reach([(30_001, 1, 0)])
    started = RULES.start(deep, State())
    assert refusal(RULES.step, deep, record_bytes((), (30_000,)), started) == 0
    assert refusal(RULES.step, deep, record_bytes((), (30_001,)), started) == 13
    wet = EXAMPLE_INPUT[:-5]
    started = RULES.start(wet, State())
    assert refusal(RULES.step, wet, record_bytes((3_000,), ()), started) == 0
    assert refusal(RULES.step, wet, record_bytes((3_001,), ()), started) == 12
    assert run(EXAMPLE_INPUT) == EXAMPLE_OUTPUT
