"""The figures of the papers' worked examples, worked out by the calculator.

worked() gives for each example of docs/METHOD.md, and sample_worked() for those of examples/yubetsu-2001/README.md (headings "### Worked
example: NAME"), its numbers as text in the page's order; words without a digit may be left out. What the calculator did on the way (each
blend, each inflow) is noted while it works, so that a changed rule shows here. Figures "before M-103" are those of BEFORE_M103.
"""
import csv
import subprocess
import sys
from dataclasses import dataclass
from fractions import Fraction
from math import ulp
from pathlib import Path
from statistics import median
from struct import pack, unpack

from calculator import tried_figures
from calculator.encode import float_bits, record_bytes, table_bytes
from calculator.floats import GAP_BITS
from calculator.fractions_run import ExactNumbers, FractionsRun, exact_weight
from calculator.program import Program, cut_records, cut_table, run
from calculator.whole_numbers import (BASIN, CEILING, DAM, GAP, HIGHEST_STAGE, LAST_TOP, REACH, RULES, SCALE, TANKS, Element, Figures,
                                      Gauge, Piece, Refused, Rules, State, decode_table, record_fields)

ROOT = Path(__file__).resolve().parent.parent
SAMPLE_FOLDER = ROOT / "examples/yubetsu-2001"
SAMPLE = SAMPLE_FOLDER / "cabinet.bin"


def n(number):
    """A whole number with commas, as the page writes it."""
    return f"{number:,}".replace("-", "\u2212")


def d(fraction, places=2):
    """A fraction of 0 or more cut off after so many places."""
    whole, rest = divmod(int(fraction * 10 ** places), 10 ** places)
    return f"{whole:,}.{rest:0{places}}" if places else f"{whole:,}"


def thousandths(grains):
    """Grains as m³/s to the nearest 0.001."""
    return d(Fraction((grains + 500) // 1_000, 1_000), 3)


def signed(number, places=1):
    """A number with its sign, rounded; a − as the page writes it."""
    return f"{number:+.{places}f}".replace("-", "\u2212")


# ---- What the calculator does on the way -----------------------------------------------------------------------------------------------


@dataclass
class Blend:
    """One blend as it was asked for and answered."""
    x: int
    x_margin: int
    y: int
    y_margin: int
    weight: int
    weight_margin: int
    value: int
    margin: int

    @property
    def products(self):
        return self.weight * self.x + (SCALE - self.weight) * self.y

    @property
    def quotient(self):
        return d(Fraction(self.products, SCALE))

    @property
    def of_margins(self):
        return self.weight * self.x_margin + (SCALE - self.weight) * self.y_margin

    @property
    def gap(self):
        return abs(self.x - self.y)

    @property
    def of_weight(self):
        return self.weight_margin * (self.gap + self.x_margin + self.y_margin)

    def written(self):
        return f"[({n(self.weight)} × {n(self.x)} + {n(SCALE - self.weight)} × {n(self.y)}) / S] = {n(self.value)}"

    def margin_written(self):
        parts = d(Fraction(self.of_margins, SCALE)), d(Fraction(self.of_weight, SCALE))
        assert sum(int(part.replace(",", "").split(".")[0]) for part in parts) + 3 == self.margin
        return f"[{parts[0]}] + [{parts[1]}] + 3 = {n(self.margin)}"


@dataclass
class Move:
    """One element's move: the old and new figures of what drains in, its inflow, four blends (discharge, a, b, variance) and figures; a
    dam has no blends."""
    above: tuple
    inflow: Figures
    blends: list
    system_noise: int
    figures: Figures


def noting(rules):
    """Rules of this class, with each move and each blend noted."""

    class Noted(rules):
        def __init__(self):
            self.blends, self.moves, self.above = [], [], ([], [])

        def blend(self, x, x_margin, y, y_margin, weight, weight_margin):
            value, margin = super().blend(x, x_margin, y, y_margin, weight, weight_margin)
            self.blends.append(Blend(x, x_margin, y, y_margin, weight, weight_margin, value, margin))
            return value, margin

        def reach_inflow(self, old, new):
            self.above = old, new
            return super().reach_inflow(old, new)

        def move(self, element, weight, old, inflow):
            before = len(self.blends)
            figures = super().move(element, weight, old, inflow)
            self.moves.append(Move(self.above, inflow, self.blends[before:], element.system_noise, figures))
            return figures

        def dam(self, element, release, old, drained):
            figures = super().dam(element, release, old, drained)
            self.moves.append(Move(self.above, drained, [], element.system_noise, figures))
            return figures

    return Noted


Noted = noting(Rules)  # tests/mutants.py puts wrong rules here and in RULES


class RulesBeforeM103(Rules):
    """As it was: a reach took the new outflows above as if they had stood all step."""

    def reach_inflow(self, old, new):
        return Figures(*map(sum, zip((0, 0, 0, 0), *(figures.numbers() for figures in new))))


BEFORE_M103 = RulesBeforeM103()


# ---- The example rivers ----------------------------------------------------------------------------------------------------------------


def bytes_of_hex(text):
    """The bytes of hex digits with comments."""
    return bytes.fromhex(" ".join(line.split("#")[0] for line in text.splitlines()))


def added(figures, name):
    """One number of several figures, written as a sum; of one alone, the number."""
    each = [getattr(one, name) for one in figures]
    return " + ".join(map(n, each)) + f" = {n(sum(each))}" * (len(each) > 1)


class ExampleRiver:
    """A river of examples/; where it has a third record, that one is refused."""

    def __init__(self, folder, name="river.hex"):
        self.data = bytes_of_hex((ROOT / "examples" / folder / name).read_text())
        self.table = cut_table(self.data)
        self.records = list(cut_records(self.data, len(self.table)))
        self.elements = decode_table(self.table).elements

    def after_steps(self, rules, count):
        """The state after so many accepted steps, and the run in fractions after the same."""
        state, exact = RULES.start(self.table, State()), FractionsRun(self.table)
        for record in (self.records[:2] + self.records[3:])[:count]:
            state = rules.step(self.table, record, state)
            exact.step(record)
        return state, exact

    def heads_of_columns(self):
        return " ".join(f"element {number}" for number, _ in enumerate(self.elements, 1))

    def rows(self, *kinds):
        """A table's rows: each kind is a function from an element's place to its cell."""
        return "\n".join(" | ".join(kind(place) for place, _ in enumerate(self.elements)) for kind in kinds)

    def outflows(self, moves, which):
        """The row of the old (0) or of the new (1) discharges above a reach, added up, and of their margins."""
        def cell(place):
            above = moves[place].above[which]
            return f"{added(above, 'discharge')}, margin {added(above, 'margin')}" if self.elements[place].kind == REACH else ""
        return cell

    def inflows(self, moves, basin):
        """The row of the inflow: `basin` writes a basin's own, a reach has half of the old and new sums, a dam has none."""
        def half(place, name):
            old, new = (sum(getattr(figures, name) for figures in above) for above in moves[place].above)
            return f"[({n(old)} + {n(new)}) / 2]"

        def reach(place):
            inflow = moves[place].inflow
            return f"{half(place, 'discharge')} = {n(inflow.discharge)}, margin {half(place, 'margin')} + 1 = {n(inflow.margin)}"

        return self.by_kind(lambda place: f"{basin(place)}, margin {moves[place].inflow.margin}", reach)

    def inflow_variances(self, moves, basin):
        """The row of the inflow's variance: of a reach the sum of the new ones above."""
        def reach(place):
            new = moves[place].above[1]
            return f"{added(new, 'variance')}, margin {added(new, 'variance_margin')}"
        return self.by_kind(lambda place: f"{basin(place)}, margin {moves[place].inflow.variance_margin}", reach)

    def by_kind(self, basin, reach):
        return lambda place: {BASIN: basin, REACH: reach, DAM: lambda place: "none"}[self.elements[place].kind](place)

    def rain_inflow(self, moves, rains, divisor):
        """A basin's inflow as the page writes it: by the latest of its rains."""
        def written(place):
            element = self.elements[place]
            return f"[5 × {rains[place][0]} × {n(element.area)} × {n(element.runoff)} / {divisor}] = {n(moves[place].inflow.discharge)}"
        return written

    def rain_noise(self, moves, lead):
        """A basin's inflow variance at a lead as the page writes it."""
        return lambda place: f"{lead} × {n(self.elements[place].rain_noise)} = {n(moves[place].inflow.variance)}"

    def moves_written(self, moves, basin_inflow, basin_variance):
        """The table of a step or a lead; the two functions write a basin's inflow. A dam has figures and nothing on the way to them."""
        def of_dam(dam, other):
            return lambda place: dam(moves[place].figures) if self.elements[place].kind == DAM else other(moves[place])

        def part(which):
            def cell(move):
                blend = move.blends[which]
                return f"[{blend.quotient}] = {n(blend.value)}, margin {blend.margin_written()}"
            return of_dam(lambda figures: "none", cell)

        return self.rows(
            self.outflows(moves, 0), self.outflows(moves, 1), self.inflows(moves, basin_inflow),
            self.inflow_variances(moves, basin_variance),
            of_dam(lambda figures: n(figures.discharge), lambda move: move.blends[0].written()),
            of_dam(lambda figures: n(figures.margin), lambda move: move.blends[0].margin_written()), part(1), part(2),
            of_dam(lambda figures: n(figures.variance),
                   lambda move: f"[{move.blends[3].quotient}] + {n(move.system_noise)} = {n(move.figures.variance)}"),
            of_dam(lambda figures: n(figures.variance_margin), lambda move: move.blends[3].margin_written()))


class TankRiver(ExampleRiver):
    """The river of examples/tanks/: a basin and an element of tanks; in `elements` each tank is a reach by itself."""

    def __init__(self, folder):
        super().__init__(folder)
        basin, self.tanks = self.elements
        self.elements = basin, *[Element(**vars(self.tanks) | dict(kind=REACH))] * self.tanks.tanks
        _, self.places = decode_table(self.table).tanks

    def heads_of_columns(self):
        return " ".join(f"{number}" for number in (1, *range(1, self.tanks.tanks + 1)))


THREE_ELEMENTS, ONE_DAM, FLOATS = ExampleRiver("three-elements"), ExampleRiver("one-dam"), ExampleRiver("three-elements", "floats.hex")
TANK_RIVER = TankRiver("tanks")
PROPORTIONAL = ExampleRiver("three-elements", "proportional-noise.hex")
LESS_RAIN, MORE_RAIN = ExampleRiver("two-storms", "less-rain.hex"), ExampleRiver("two-storms", "more-rain.hex")
RIVER, TABLE, RECORDS, ELEMENTS = THREE_ELEMENTS.data, THREE_ELEMENTS.table, THREE_ELEMENTS.records, THREE_ELEMENTS.elements
LENT = [0] * 48
LOOK_PIECES = (1_000, 20_000, -500), (2_500, 15_000, -300), (LAST_TOP, 12_000, 200)


# ---- The examples, in the page's order ---------------------------------------------------------------------------------------------------


def the_weight():
    h, found = SCALE, []
    for m in range(12, 0, -1):
        h = SCALE - 60 * h // (120 * m)
        found.append((m, h))
    assert h == RULES.weight(60, 120)
    pairs = "\n".join(f"{left[0]} | {n(left[1])} | {right[0]} | {n(right[1])}" for left, right in zip(found[:6], found[6:]))
    first = 60 * SCALE // (120 * 12)
    return (f"T = 60, lag = 120\n{pairs}\n{n(SCALE)} − [60 × {n(SCALE)} / (120 × 12)] = {n(SCALE)} − {n(first)}\n"
            f"{n(h)} {d(SCALE * exact_weight(60, 120))}")


def below_a_dam(rules, T, lag, releases):
    """The discharge of a reach below a dam, in grains, after these releases; both begin at 0."""
    table = table_bytes(dict(T=T, L=1, elements=[dict(kind=DAM, down=2), dict(kind=REACH, lag=lag)], gauges=[]))
    state = rules.start(table, State())
    for release in releases:
        state = rules.step(table, record_bytes((), (), (release,)), state)
    return state.figures[1].discharge


def straight_line():
    """A release that rises evenly: the reach below after one lag, in steps of several lengths, and how far it runs behind at last."""
    lag, top, rows, behind = 240, 24 * 10 ** 6, [], []
    for T in (240, 120, 60, 1):
        releases = [top * step // (lag // T) for step in range(1, lag // T + 1)]
        after, before = (thousandths(below_a_dam(rules, T, lag, releases)) for rules in (RULES, BEFORE_M103))
        rows.append(f"{T} {lag // T} {before} {after}")
    for T, each in ((60, 60), (60, 120), (60, 480), (240, 240)):
        releases = [step * 10 ** 6 for step in range(1, 401)]  # 1 m³/s a step
        late = [(releases[-1] - below_a_dam(rules, T, each, releases)) / 10 ** 6 * T for rules in (BEFORE_M103, RULES)]  # minutes
        weight = exact_weight(T, each)
        assert abs(late[0] - T * weight / (1 - weight)) < 0.01 and abs(late[1] - late[0] - T / 2) < 0.01
        behind.append(f"{T} {each} {late[0]:.1f} {late[1]:.1f}")
    mean = RULES.reach_inflow([Figures(0, 0, 0, 0)], [Figures(top, 0, 0, 0)]).discharge // 10 ** 6
    return f"""{lag} 0 24 {lag} {" ".join(rows)} 24 {thousandths(int(top * exact_weight(1, 1)))} {lag} (0 + 24) / 2 = {mean} 24
    {" ".join(behind)}"""


ONE = Element(kind=2, down=0, lag=120, area=0, runoff=0, first_discharge=0, first_variance=0, system_noise=50, rain_noise=0)
OLD, INFLOW = Figures(2_000_000, 5, 400, 4), Figures(3_500_000, 1, 100, 2)
NUMBERS, F = ExactNumbers(), exact_weight(60, 120)
EXACT = NUMBERS.mix(F, OLD.discharge, INFLOW.discharge), NUMBERS.square_mix(F, OLD.variance, INFLOW.variance) + ONE.system_noise


def value_products(blend):
    """A blend's value with its products written out."""
    return f"{n(blend.weight)} × {n(blend.x)} + {n(SCALE - blend.weight)} × {n(blend.y)} = {n(blend.products)} gives {n(blend.value)}"


def margin_parts(blend):
    """The two quotients of a blend's margin, which with 3 make it."""
    of_margins, of_weight = blend.of_margins // SCALE, blend.of_weight // SCALE
    assert of_margins + of_weight + 3 == blend.margin
    return of_margins, of_weight


def margin_products(blend):
    of_margins, of_weight = margin_parts(blend)
    return (f"{n(blend.weight)} × {n(blend.x_margin)} + {n(SCALE - blend.weight)} × {n(blend.y_margin)} = {n(blend.of_margins)} gives "
            f"{n(of_margins)}; {n(blend.weight_margin)} × ({n(blend.gap)} + {n(blend.x_margin)} + {n(blend.y_margin)}) = "
            f"{n(blend.of_weight)} gives {n(of_weight)}; plus 3: {n(blend.margin)}")


def margin_quotients(blend):
    """A blend's margin as the sum of its two quotients and 3."""
    of_margins, of_weight = margin_parts(blend)
    return (f"[({n(blend.weight)} × {n(blend.x_margin)} + {n(SCALE - blend.weight)} × {n(blend.y_margin)}) / S] + "
            f"[{n(blend.weight_margin)} × ({n(blend.gap)} + {n(blend.x_margin)} + {n(blend.y_margin)}) / S] + 3 = "
            f"{n(of_margins)} + {n(of_weight)} + 3 = {n(blend.margin)}")


def one_move():
    rules = Noted()
    weight = rules.weight(60, 120)
    new = rules.move(ONE, weight, OLD, INFLOW)
    discharge, a, b, variance = rules.blends
    return f"""{n(weight)} {n(SCALE - weight)} {n(OLD.discharge)} {OLD.margin} {OLD.variance} {OLD.variance_margin}
    {n(INFLOW.discharge)} {INFLOW.margin} {INFLOW.variance} {INFLOW.variance_margin} {ONE.system_noise}
    {value_products(discharge)} {margin_products(discharge)} {d(EXACT[0], 4)}
    {value_products(a)} {margin_products(a)}
    {value_products(b)} {margin_products(b)}
    {value_products(variance)} {new.variance} {margin_products(variance)} {d(EXACT[1], 4)}
    {n(new.discharge)} {new.margin} {new.variance} {new.variance_margin}"""


def reading_written(rules, before, z, noise, after, exact=None):
    """A correction as the page writes it: K, S − K, k, the blend, the variance and its margin; `exact` are the figures in fractions."""
    total, blend = before.variance + noise, rules.blends[-1]
    gain = SCALE * before.variance // total
    assert blend.weight == SCALE - gain and blend.y == z
    x, v = (d(exact[0], 3) + " " + d(abs(exact[0] - after.discharge), 1), d(exact[1], 4)) if exact else ("", "")
    return f"""K = [{n(SCALE)} × {before.variance} / {n(total)}] = {n(gain)}; S − K = {n(SCALE - gain)}
    k = [{n(SCALE)} × {before.variance_margin} / {n(total)}] + 2 = {n(blend.weight_margin)}
    {value_products(blend)} {margin_products(blend)} {x}
    [{before.variance} × {n(noise)} / {n(total)}] = {after.variance};
    [{before.variance_margin} × {n(noise)} / {n(total)}] + 2 = {after.variance_margin} {v}"""


def one_reading():
    rules, piece = Noted(), Piece(30_001, 20_000, -500)
    before = rules.move(ONE, rules.weight(60, 120), OLD, INFLOW)
    z = rules.curve(piece, 1_400)
    after = rules.correct(before, z, 200)
    return f"""P = {before.variance}, D = {before.variance_margin} {n(piece.a)} {n(piece.b)} 200 {n(1_400)}
    {n(1_400)} − {n(-piece.b)} = {n(1_400 + piece.b)}; {n(piece.a)} × {n(1_400 + piece.b)}² / {n(1_000)} = {n(z)}, margin 1
    {reading_written(rules, before, z, 200, after, NUMBERS.corrected(*EXACT, Fraction(z), 200))}
    {n(after.discharge)} {n(after.margin)} {after.variance} {after.variance_margin}"""


def look_gauge():
    """The gauge with a curve of three pieces, R 1,000 and β 50."""
    gauges = [dict(element=1, R=1_000, pieces=LOOK_PIECES, beta=50)]
    return decode_table(table_bytes(dict(version=2, T=60, L=1, elements=[dict(kind=REACH, lag=60)], gauges=gauges))).gauges[0]


def noise_parts(gauge, z):
    """β × z / 1,000,000, t, t × t / 1,000 and the noise, by document 02's own words; the calculator must have the same noise."""
    share = Fraction(gauge.beta * z, 10 ** 6)
    t = int(share)
    square = Fraction(t * t, 1_000)
    noise = RULES.noise(gauge, z)
    assert noise == gauge.noise + int(square), (gauge, z, noise)
    return share, t, square, noise


def noise_written(gauge, z):
    """The noise as the page adds it up."""
    _, _, square, noise = noise_parts(gauge, z)
    return f"{n(gauge.noise)} + {n(int(square))} = {n(noise)}"


def noise_without(gauge, z):
    """The noise where t is not rounded, which must be another."""
    noise = gauge.noise + int(Fraction(gauge.beta * z, 10 ** 6) ** 2 / 1_000)
    assert noise != RULES.noise(gauge, z)
    return noise


def noises_of_readings():
    gauge, rows, rated = look_gauge(), [], {}
    for stage in (500, 999, 1_000, 2_499, 2_500):
        found = RULES.look(gauge, stage)
        rated[stage] = z = found.discharge
        share, t, square, noise = noise_parts(gauge, z)
        assert found.noise == noise and not found.refusal
        rows.append(f"{n(stage)} {n(z)} {d(share)} {n(t)} {d(square)} {noise_written(gauge, z)} {root(noise, 2)}")
    piece, depth = Piece(LAST_TOP, 32_860, 0), 2_565
    steep, exact = Gauge(1, 1, gauge.noise, (piece,), 150), Fraction(piece.a * depth ** 2, 1_000)
    z = RULES.curve(piece, depth)
    share, t, _, noise = noise_parts(steep, z)
    other = int(steep.beta * exact / 10 ** 6)
    assert RULES.look(steep, depth).noise == noise and other != t
    return f"""{n(gauge.noise)} {gauge.beta} {n(10 ** 6)} {n(1_000)} {" ".join(rows)}
    {n(1_000)} {n(noise_without(gauge, rated[1_000]))} {n(2_499)} {n(noise_without(gauge, rated[2_499]))}
    {n(piece.a)} {n(depth)} {d(exact, 1)} {n(z)} {steep.beta} {d(share, 5)} {n(t)} {noise_written(steep, z)} {n(other)}
    {n(steep.noise + other ** 2 // 1_000)}"""


def high_water():
    """One reading with β 100 and with β 0, and the same in fractions where river and variance are as far off as their margins."""
    before, stage, columns = Figures(14_000_000, 4, 5_000, 10), 1_500, []
    piece = Piece(LAST_TOP, 20_000, -500)
    for beta in (100, 0):
        rules, gauge = Noted(), Gauge(1, 1, 1_000, (piece,), beta)
        refusal, z, noise, _ = rules.look(gauge, stage)
        after, blend, total = rules.correct(before, z, noise), rules.blends[-1], before.variance + noise
        gain = SCALE * before.variance // total
        assert not refusal and blend.weight == SCALE - gain
        columns.append((n(noise), f"[{n(SCALE)} × {n(before.variance)} / {n(total)}] = {n(gain)}",
                        f"[{n(SCALE)} × {before.variance_margin} / {n(total)}] + 2 = {n(blend.weight_margin)}", blend.written(),
                        margin_quotients(blend), f"[{n(before.variance)} × {n(noise)} / {n(total)}] = {n(after.variance)}",
                        f"[{before.variance_margin} × {n(noise)} / {n(total)}] + 2 = {after.variance_margin}", after))
    gauge, with_beta = Gauge(1, 1, 1_000, (piece,), 100), columns[0][-1]
    _, t, square, noise = noise_parts(gauge, z)
    x, v = before.discharge + before.margin, before.variance + before.variance_margin
    exact = NUMBERS.corrected(Fraction(x), Fraction(v), Fraction(z), noise)
    away = abs(exact[0] - with_beta.discharge), abs(exact[1] - with_beta.variance)
    assert away[0] <= with_beta.margin and away[1] <= with_beta.variance_margin
    rows = " ".join(" | ".join(pair) for pair in list(zip(*(column[:-1] for column in columns))))
    return f"""{n(before.discharge)} {before.margin} {n(before.variance)} {before.variance_margin} {n(piece.a)} {n(piece.b)}
    {n(gauge.noise)} {gauge.beta} {n(stage)} 0
    {n(stage)} − {n(-piece.b)} = {n(stage + piece.b)}; {n(piece.a)} × {n(stage + piece.b)}² / {n(1_000)} = {n(z)}, margin 1
    [{gauge.beta} × {n(z)} / {n(10 ** 6)}] = {n(t)} {n(z // 10 ** 6)} {n(t // 1_000)}
    {n(gauge.noise)} + [{n(t)} × {n(t)} / {n(1_000)}] = {n(gauge.noise)} + {n(int(square))} = {n(noise)}
    100 0 {rows} {root(with_beta.variance, 2)} {root(columns[1][-1].variance, 2)}
    {n(x)} {n(v)} {n(noise)} {d(exact[0], 3)} {d(exact[1], 4)} {d(away[0], 1)} {d(away[1], 1)}"""


def taken(bits):
    """What the calculator takes a float for: its stage, GAP, or the words of a refusal."""
    try:
        return RULES.stages(2, [bits])[0]
    except Refused as refused:
        return f"refused {refused.number}"


def by_hand(bits):
    """The page's e, f, m and q of a float, and the number that they make; None for what is not finite."""
    minus, rest = divmod(bits, 2 ** 31)
    e, f = divmod(rest, 2 ** 23)
    m, q = f + 2 ** 23 * (e > 0), Fraction(2) ** (150 - max(e, 1))
    metres = None if e == 255 else (-1) ** minus * m / q
    assert metres == RULES.metres(bits)
    return e, f, m, q, metres


def float_row(sent, bits):
    """One row: what was sent, its bits, e, m, q, the unrounded millimetres (rounded too where they are too many), what it is taken for."""
    e, _, m, q, metres = by_hand(bits)
    assert not sent or float_bits(float(sent.replace("\u2212", "-"))) == bits
    last = taken(bits)
    row = f"{sent} {bits:08X} {e}"
    if metres is not None:
        sign, rounded = "\u2212" * (metres < 0), RULES.millimetres(metres)
        row += f" {n(m)} {n(int(q)) if e else 'e = 1'} {sign}{d(abs(1_000 * metres), 8)}" + f" {n(rounded)}" * (rounded > HIGHEST_STAGE)
    return f"{row} {'' if last == GAP else n(last) if isinstance(last, int) else last}"


def whole_stages():
    """Every stage from 0 to 30,000 mm with the bits of the float nearest to it in metres."""
    for stage in range(HIGHEST_STAGE + 1):
        bits = float_bits(stage / 1_000)
        _, _, m, q, _ = by_hand(bits)
        assert abs(2_000 * m - 2 * stage * q) <= 1_000  # no other float is nearer
        yield stage, bits


def from_bits():
    bits = 0x3F9E0419
    e, f, m, q, metres = by_hand(bits)
    upper, unit = 1_000 * m + int(q) // 2, n(2 ** 23)
    assert upper // int(q) == taken(bits) and e == 127
    sent = (("1.2345", bits), ("", bits - 1), ("0.0625", 0x3D800000), ("", 1), ("0.0005", 0x3A03126F), ("", 0x3A03126E),
            ("0.0015", 0x3AC49BA6), ("1.4", 0x3FB33333), ("29.9995", 0x41EFFEFA), ("30", 0x41F00000), ("30.0004", 0x41F000D2),
            ("30.0005", 0x41F00106), ("", 0x41F00107), ("\u22120.0001", 0xB8D1B717), ("", 0x80000000), ("", 0x7FC00001), ("", GAP_BITS))
    lower, upper_one = by_hand(0x41F00106)[4], by_hand(0x41F00107)[4]
    assert lower < Fraction("30.0005") < upper_one
    product, = unpack(">f", pack(">f", 1_000 * lower))
    same = sum(taken(each) == stage for stage, each in whole_stages())
    every = n(HIGHEST_STAGE), n(same), n(HIGHEST_STAGE + 1)
    return f"""1.2345 {bits:08X} B = {n(bits)} {n(2 ** 31)} [{n(bits)} / {unit}] = {e} {n(bits)} − {unit} × {e} = {n(f)}
    {unit} + {n(f)} = {n(m)} {e} {n(int(q))} {n(m)} / {n(int(q))} = {d(metres, 8)} 1.2345
    [({n(1_000)} × {n(m)} + {n(int(q) // 2)}) / {n(int(q))}] = [{n(upper)} / {n(int(q))}] = {n(taken(bits))}
    {" ".join(float_row(*each) for each in sent)}
    30.0005 {n(1_000)} 32 {n(product)} {n(RULES.millimetres(Fraction(product) / 1_000))} 0 {" ".join(every)}"""


# The first and the last pattern of each row, in the words of the row what is a number, and what they are taken for.
PATTERNS = ((0, 0, "", 0), (1, 0x3A03126E, "0.0005", 0), (0x3A03126F, 0x41F00106, "0.0005 30.0005", "1 30,000"),
            (0x41F00107, 0x7F7FFFFF, "30.0005", 18), (0x7F800000, 0x7F800000, "", 18), (0x7F800001, 0x7FBFFFFF, "", 18),
            (GAP_BITS, GAP_BITS, "", ""), (0x7FC00001, 0x7FFFFFFF, "", 18), (0x80000000, 0x80000000, "", 0),
            (0x80000001, 0xFF7FFFFF, "", 18), (0xFF800000, 0xFF800000, "", 18), (0xFF800001, 0xFFFFFFFF, "", 18))


def every_pattern():
    """Each row of patterns, tried at both ends and at some thousand places between; together they are all."""
    rows, following = [], 0
    for first, last, words, number in PATTERNS:
        tried = {taken(bits) for bits in (*range(first, last, max(1, (last - first) // 1_000)), last)}
        ends = taken(first), taken(last)
        right = {"": {GAP}, 0: {0}, 18: {"refused 18"}}.get(number)
        assert first == following and (tried == right if right else ends == (1, HIGHEST_STAGE) and all(map(ends[0].__le__, tried)))
        following = last + 1
        rows.append(f"{first:08X} {f'{last:08X}' if last > first else ''} {words} {number}")
    assert following == 2 ** 32
    (_, _, below, _), (_, _, from_, _) = PATTERNS[1:3]
    assert by_hand(0x3A03126E)[4] < Fraction(below) < by_hand(0x3A03126F)[4] and by_hand(0x41F00106)[4] < Fraction(from_.split()[1])
    no_number = 0xFFC00000
    return f"""{" ".join(rows)} 1 {n(HIGHEST_STAGE)} {0x3A03126F >> 24:X} {0x41F00106 >> 24:X} {no_number:08X} 0 / 0 {taken(no_number)}
    {GAP_BITS:08X}"""


def look_written(gauge, stage):
    """One row: the tops that the stage was held against, the count, h + b, and z or 14."""
    found = RULES.look(gauge, stage)
    tops, piece = [n(each.top) for each in gauge.pieces[:found.pieces]], gauge.pieces[found.pieces - 1]
    depth = stage + piece.b
    row = f"{n(stage)} {' '.join(tops)} {found.pieces} {n(depth)}"
    z = "" if depth < 0 else f" {n(piece.a)} × {n(depth)}² / {n(1_000)} = {n(piece.a * depth ** 2 // 1_000)}" if depth else " 0"
    assert found.refusal or z.endswith(n(found.discharge))
    return row + z + (f" {found.refusal}" if found.refusal else "")


def one_look():
    gauge = decode_table(tried_figures.one_reach(LOOK_PIECES)).gauges[0]
    rows = [look_written(gauge, stage) for stage in (499, 500, 999, 1_000, 2_499, 2_500, 30_000)]
    return " ".join([*(n(number) for piece in LOOK_PIECES for number in piece), *rows])


def table_told():
    """The example river's table and first record in words."""
    table = decode_table(TABLE)
    one, two, three = table.elements
    gauge, (rains, stages) = table.gauges[0], (RECORDS[0][3:7], RECORDS[0][7:9])
    piece = gauge.pieces[0]
    return f"""T = {table.step_minutes}
    element 1 {one.down} {one.lag} {one.area // 100} {n(one.area)} {one.runoff} {n(one.first_discharge)} {one.first_variance}
    {one.system_noise} {n(one.rain_noise)}
    element 2 {two.down} {two.lag} {two.area // 100} {n(two.area)} {n(two.runoff)} {two.rain_noise} 0
    element 3 {three.down} {three.lag} {n(three.first_discharge)} {three.first_variance} {three.system_noise}
    {n(piece.a)} {n(piece.b)} {gauge.noise}
    {rains[1]} {rains[3]} {rains[1] // 10} {rains[3] // 10} {n(int.from_bytes(stages, "big"))}"""


def figures_written(figures):
    return f"{n(figures.discharge)} {n(figures.margin)} {n(figures.variance)} {n(figures.variance_margin)}"


def step_written(river, moves, state):
    """The table of a step, `state` being the one after it."""
    inflow = river.rain_inflow(moves, state.rains, "18")
    table = river.moves_written(moves, inflow, lambda place: n(moves[place].inflow.variance))
    return f"{river.heads_of_columns()} {table}"


def lead_written(river, moves, state):
    """The table of lead 1 after the first step, `state` being the one after that."""
    inflow = river.rain_inflow(moves, state.rains, "(18 × 1)")
    table = river.moves_written(moves, inflow, river.rain_noise(moves, 1))
    return f"{river.heads_of_columns()} {table}"


def one_step():
    rules = Noted()
    state, exact = THREE_ELEMENTS.after_steps(rules, 1)
    after, moves = state.figures, rules.moves
    z = RULES.look(decode_table(TABLE).gauges[0], 1_400).discharge
    final = []
    for place, (x, v) in enumerate(exact.figures):
        rains = ", ".join(map(str, state.rains[place])) if ELEMENTS[place].kind == BASIN else ""
        final.append(f"element {place + 1} {figures_written(after[place])} {rains} {d(x, 3)} {d(v, 3)}")
    return f"""{table_told()}
    60 {n(rules.weight(60, 60))} 120 {n(rules.weight(60, 120))}
    {step_written(THREE_ELEMENTS, moves, state)}
    element 3 {n(z)} {reading_written(rules, moves[2].figures, z, 200, after[2])}
    {" ".join(final)} {state.steps}"""


def one_lead():
    state, _ = THREE_ELEMENTS.after_steps(RULES, 1)
    rules = Noted()
    _, answer = rules.forecast(TABLE, state, LENT)
    moves, second = rules.moves[:3], THREE_ELEMENTS.rain_noise(rules.moves[3:], 2)
    at_lead_2 = [Figures(*answer[12 * place + 8:12 * place + 12]) for place in range(3)]
    return f"""lead 1 c = 1 {state.rains[0][0]} {state.rains[1][0]}
    {lead_written(THREE_ELEMENTS, moves, state)}
    lead 2 {second(0)} {second(1)}
    {" ".join(f"element {place + 1} {figures_written(figures)}" for place, figures in enumerate(at_lead_2))}
    element 3 {n(state.figures[2].margin)} {n(moves[2].figures.margin)} {n(at_lead_2[2].margin)}"""


def later_rains():
    """The mean of the last rains after the second and the third accepted step."""
    found = []
    for count in (2, 3):
        state, _ = THREE_ELEMENTS.after_steps(RULES, count)
        assert state.steps == count
        for place in (0, 1):
            element, rains = ELEMENTS[place], state.rains[place][:count]
            inflow = RULES.lead_rain_inflow(element, state.rains[place], count, 1)
            found.append(f"element {place + 1} {' + '.join(map(str, rains))} = {sum(rains)} [5 × {sum(rains)} × {n(element.area)} × "
                         f"{n(element.runoff)} / (18 × {count})] = {n(inflow.discharge)}")
    return f"c = 2 {found[0]} {found[1]} c = 3 {found[2]} {found[3]}"


def a_trial():
    """The second record with its gap, with a plausible stage and with a doubtful one, tried after the first step."""
    state, _ = THREE_ELEMENTS.after_steps(RULES, 1)
    table = decode_table(TABLE)
    (rain_1, rain_2), _, (stage,) = record_fields(table, RECORDS[1])
    assert stage == GAP
    stages = 1_670, 2_600
    records = [record_bytes((rain_1, rain_2), (each,)) for each in (GAP, *stages)]
    gap, plausible, doubtful = (RULES.trial(TABLE, record, state, LENT)[1] for record in records)
    ratings = [RULES.look(table.gauges[0], each) for each in stages]
    rated, (noise, same) = [each.discharge for each in ratings], [each.noise for each in ratings]
    assert noise == same
    assert gap[:8] == plausible[:8] == doubtful[:8]
    rows = [f"element {place // 4 + 1}" * (place % 4 == 0) + f" {n(gap[place])} | {n(plausible[place])} | {n(doubtful[place])}"
            for place in range(12)]
    moved = [n(abs(answer[8] - gap[8])) for answer in (plausible, doubtful)]
    apart = [abs(z - gap[8]) for z in rated]
    usual = ((gap[10] + noise) / 1_000) ** 0.5  # m3/s
    times = [each / 1_000_000 / usual for each in apart]
    return f"""2 {rain_1} {rain_2} {n(stages[0])} {n(rated[0])} {n(stages[1])} {n(rated[1])}
    {n(stages[0])} {n(stages[1])} {" ".join(rows)}
    1 2 element 3 {n(stages[0])} {moved[0]} {n(stages[1])} {moved[1]} {n(doubtful[9])}
    {gap[10]} {noise} {gap[10] + noise} 0.001 {usual:.2f} {n(stages[0])} {n(apart[0])} {times[0]:.1f} {n(stages[1])} {n(apart[1])} {times[1]:.0f}
    {state.steps}"""


def dam_river_told():
    """The table and first record of the river with a dam in words."""
    table = decode_table(ONE_DAM.table)
    upper, dam, lower, reach = table.elements
    (rains, releases, (stage,)), gauge = record_fields(table, ONE_DAM.records[0]), table.gauges[0]
    assert dam.lag == 0 and gauge.element == 4

    def first_and_noise(element):
        return f"{n(element.first_discharge)} {n(element.first_variance)} {element.system_noise}"

    def basin(element):
        size = f"{element.lag} {element.area // 100} {n(element.area)} {element.runoff}"
        return f"{element.down} {size} {first_and_noise(element)} {n(element.rain_noise)}"

    return f"""T = {table.step_minutes} element 1 {basin(upper)} element 2 {dam.down} {first_and_noise(dam)} element 3 {basin(lower)}
    element 4 {reach.down} {reach.lag} {first_and_noise(reach)} {n(gauge.pieces[0].a)} {n(gauge.pieces[0].b)} {n(gauge.noise)}
    {rains[0]} {rains[1]} {n(releases[0])} {n(stage)}"""


def river_with_a_dam():
    rules, leads = Noted(), Noted()
    state, exact = ONE_DAM.after_steps(rules, 1)
    _, answer = leads.forecast(ONE_DAM.table, state, LENT)
    (dam_1, dam_2), (reach_1, reach_2) = ([Figures(*answer[12 * place + 4 * lead:][:4]) for lead in (1, 2)] for place in (1, 3))
    after_2 = ONE_DAM.after_steps(RULES, 2)[0].figures
    return f"""{dam_river_told()}
    {step_written(ONE_DAM, rules.moves, state)}
    element 1 {n(rules.moves[1].above[1][0].discharge)} element 4 {n(rules.blends[-1].y)} {figures_written(state.figures[3])}
    {d(exact.figures[1][0], 0)} {d(exact.figures[1][1], 0)} {d(exact.figures[3][0], 3)} {d(exact.figures[3][1], 3)} element 4
    lead 1 {lead_written(ONE_DAM, leads.moves[:4], state)}
    lead 2 {figures_written(dam_2)} element 4 {figures_written(reach_2)}
    {n(after_2[1].discharge)} element 4 {n(after_2[3].discharge)} lead 1 {n(reach_1.discharge)} {root(reach_1.variance, 2)}
    {n(dam_1.discharge)}"""


def tank_river_told():
    """The table and first record of the river with tanks in words."""
    table, gauge = decode_table(TANK_RIVER.table), decode_table(TANK_RIVER.table).gauges[0]
    basin, tanks = table.elements
    ((rain,), _, (stage,)), weight = record_fields(table, TANK_RIVER.records[0]), RULES.weight(table.step_minutes, tanks.lag)
    assert tanks.kind == TANKS and gauge.element == 2 and basin.lag == tanks.lag
    return f"""T = {table.step_minutes} element 1 {basin.down} {basin.lag} {basin.area // 100} {n(basin.area)} {basin.runoff}
    {n(basin.first_discharge)} {basin.first_variance} {basin.system_noise} {n(basin.rain_noise)}
    element 2 {tanks.runoff} {tanks.down} {tanks.lag} {n(tanks.first_discharge)} {tanks.first_variance} {tanks.system_noise}
    {n(gauge.pieces[0].a)} {n(gauge.pieces[0].b)} {n(gauge.noise)} {rain} {n(stage)} {n(weight)} {n(SCALE - weight)}"""


def chain_of_tanks():
    """A step of the river with tanks, tank by tank, the correction of the last one, and two leads."""
    rules, leads, river = Noted(), Noted(), TANK_RIVER
    state, exact = river.after_steps(rules, 1)
    before, z, noise = rules.moves[-1].figures, *RULES.look(decode_table(river.table).gauges[0], 900)[1:3]
    _, answer = leads.forecast(river.table, state, LENT)
    lead_1, lead_2 = leads.moves[:4], leads.moves[4:]
    after = [f"{name} {place} {figures_written(state.figures[place])} {d(x, 3)} {d(v, 3)}" for name, place, (x, v) in
             zip((1, 1, 2, 3), (0, *river.places), (*exact.stores[0], *exact.stores[1]))]
    assert [Figures(*answer[at:at + 4]) for at in (16, 20)] == [lead_1[3].figures, lead_2[3].figures]
    printed = run(river.data).decode().splitlines()[3]
    return f"""{tank_river_told()}
    {step_written(river, rules.moves, state)}
    3 {n(z)} {reading_written(rules, before, z, noise, state.figures[1])}
    {" ".join(after)} {printed}
    lead 1 {lead_written(river, lead_1, state)}
    lead 2 {" ".join(f"{name} {figures_written(move.figures)}" for name, move in zip((1, 1, 2, 3), lead_2))}"""


def tank_places():
    """Where the tanks of a river with two elements of tanks stand in its state."""
    elements = [dict(kind=BASIN, down=2, lag=60, area=1), dict(kind=TANKS, down=4, lag=60, f=3), dict(kind=BASIN, down=4, lag=60, area=1),
                dict(kind=TANKS, lag=60, f=2)]
    table = decode_table(table_bytes(dict(T=60, L=1, elements=elements, gauges=[])))
    rows = sorted((place, number, tank) for number, tanks in enumerate(table.tanks, 1) for tank, place in enumerate(tanks, 1))
    kinds = [element.kind for element in table.elements]
    written = [f"{place} {number}" + f" {tank}" * (kinds[number - 1] == TANKS) for place, number, tank in rows]
    count, places = len(table.elements), table.places
    extra = places - count
    return f"2 3 4 2 {' '.join(written)} {extra} {count} + {extra} = {places} 2 + 7 × {places} = {2 + 7 * places}"


# Of the storms: T, what drains in, and the three elements into which it drains.
STORM_STEP, STORM_BASIN, STORM_DAM = 20, dict(kind=BASIN, down=2, lag=60, area=3_600, f=500), dict(kind=DAM, down=2)
STORES = dict(kind=REACH, lag=60), dict(kind=REACH, lag=180), dict(kind=TANKS, lag=60, f=3)


def after_wave(above, store, records):
    """What drains into an element and what it has, in grains after each record; both begin at 0."""
    table = table_bytes(dict(T=STORM_STEP, L=1, elements=[above, store], gauges=[]))
    state, found = RULES.start(table, State()), []
    for record in records:
        state = RULES.step(table, record, state)
        found.append([figures.discharge for figures in state.figures[:2]])
    return [list(each) for each in zip(*found)]


def after_rain(store, hours, until=24):
    """The same for rain of 20 mm/h for so many hours on the basin, and then none."""
    steps = 60 // STORM_STEP
    return after_wave(STORM_BASIN, store, [record_bytes((200 if step < hours * steps else 0,), ()) for step in range(until * steps)])


def after_release(store):
    """The same for a release of 100 m³/s in one step."""
    return after_wave(STORM_DAM, store, [record_bytes((), (), (10 ** 8 if step == 0 else 0,)) for step in range(24 * 60 // STORM_STEP)])


def moments(series, minutes):
    """Of discharges at equal times: their mean time in minutes, and the variance about it."""
    whole = sum(series)
    mean = sum(Fraction(minutes * step * each, whole) for step, each in enumerate(series, 1))
    return mean, sum(Fraction((minutes * step) ** 2 * each, whole) for step, each in enumerate(series, 1)) - mean ** 2


def highest(series):
    """The highest of a wave's discharges, and after how many minutes it comes."""
    return f"{thousandths(max(series))} {STORM_STEP * (1 + series.index(max(series)))}"


def flattened_wave():
    """A storm through a reach of lag 60, one of lag 180 and three tanks of lag 60, hour by hour; the peaks of other waves; the mean delay
    and the spread of each."""
    storm = [after_rain(store, 1) for store in STORES]
    rows = [f"{60 * hour} " + " ".join(thousandths(each[60 * hour // STORM_STEP - 1]) for each in (storm[0][0], *(own for _, own in storm)))
            for hour in range(1, 11)]
    waves = [[after_release(store) for store in STORES], *([after_rain(store, hours) for store in STORES] for hours in (1, 3, 6, 12))]
    for number, wave in enumerate(waves):
        short, long, tanks = (max(own) for _, own in wave)
        assert tanks < short and (tanks < long if number == 0 else long < tanks)  # as the page says
    peaks = [f"{words} {highest(wave[0][0])} {' '.join(highest(own) for _, own in wave)}"
             for words, wave in zip((STORM_STEP, 1, 3, 6, 12), waves)]
    late = []
    for store in STORES:
        (mean, variance), (later, wider) = (moments(series, STORM_STEP) for series in after_rain(store, 1, 72))
        late.append(f"{float(later - mean):.0f} {float(wider - variance) ** 0.5:.0f}")
    return f"""T = {STORM_STEP} 36 500 60 20 60 180 60 60 180 60 {" ".join(rows)} 100 60 180 60 {" ".join(peaks)}
    60 {late[0]} 180 {late[1]} 60 {late[2]}"""


# A wave at two gauges, in m³/s above what flowed before it, hour by hour.
WAVE_ABOVE, WAVE_BELOW = (20, 60, 20, *[0] * 11), (0, 2, 10, 17, 20, 15, 13, 9, 6, 3, 2, 1, 1, 1)


def tanks_chosen():
    """The number of tanks and their lag from a wave at two gauges, and what stores of several counts make of it."""
    def added_up(series, power):
        products = " + ".join(f"{hour ** power} × {each}" for hour, each in enumerate(series, 1) if each)
        return f"({products}) / {sum(series)}"

    (above, wide), (below, wider) = (moments(series, 1) for series in (WAVE_ABOVE, WAVE_BELOW))  # in hours
    delay, spread = 60 * (below - above), 3_600 * (wider - wide)
    count = round(delay ** 2 / spread)
    assert sum(WAVE_ABOVE) == sum(WAVE_BELOW) and above == int(above) and below == int(below)
    columns, errors = [], []
    for tanks in (1, 2, 3, 4):
        store = dict(kind=TANKS, lag=int(delay / tanks), f=tanks) if tanks > 1 else dict(kind=REACH, lag=int(delay))
        table = table_bytes(dict(T=60, L=1, elements=[STORM_DAM, store], gauges=[]))
        state, found = RULES.start(table, State()), []
        for each in WAVE_ABOVE:
            state = RULES.step(table, record_bytes((), (), (10 ** 6 * each,)), state)
            found.append(state.figures[1].discharge / 10 ** 6)
        columns.append(found)
        errors.append((sum((here - there) ** 2 for here, there in zip(found, WAVE_BELOW)) / len(found)) ** 0.5)
    assert min(errors) == errors[count - 1]
    rows = [f"{hour} {WAVE_ABOVE[hour - 1]} {WAVE_BELOW[hour - 1]} {' '.join(f'{found[hour - 1]:.1f}' for found in columns)}"
            for hour in range(1, len(WAVE_ABOVE) + 1)]
    heads = " ".join(f"{tanks} {int(delay / tanks)}" for tanks in (2, 3, 4))
    return f"""{sum(WAVE_ABOVE)} {added_up(WAVE_ABOVE, 1)} = {above} {added_up(WAVE_BELOW, 1)} = {below}
    {below} − {above} = {int(below - above)} {int(delay)}
    {added_up(WAVE_ABOVE, 2)} − {above}² = {d(wide, 1)} {added_up(WAVE_BELOW, 2)} − {below}² = {d(wider, 1)}
    {d(wider, 1)} − {d(wide, 1)} = {d(wider - wide, 1)} {n(int(spread))} {int(float(spread) ** 0.5 + 0.5)}
    {int(delay)}² / {n(int(spread))} = {d(delay ** 2 / spread)} {count} {int(delay)} / {count} = {int(delay / count)}
    60 {int(delay)} {heads} {" ".join(rows)} {" ".join(f"{each:.1f}" for each in errors)}"""


def hex_fields(record, *ends):
    """A record's bytes as the page writes them, cut at these places."""
    return [record[start:end].hex().upper() for start, end in zip((0, *ends), (*ends, len(record)))]


def compared(less, more):
    """The printed numbers of two storms, line by line, which are as M-106 promises."""
    outputs = (Program(RULES).run(data).splitlines() for data in (less, more))
    pairs = [[list(map(int, line.split())) for line in pair] for pair in zip(*outputs, strict=True)]
    for (*place, discharge, _, variance, _), (*same, larger, _, equal, _) in pairs:
        assert place == same and discharge <= larger and variance == equal, (place, same)
    return pairs


def storm_records():
    """The records of both storms, and what they say: the rains of each basin in both, the release and the stage."""
    table = decode_table(ONE_DAM.table)
    rows = [" ".join(map(str, table.numbers_of(BASIN)))]
    assert LESS_RAIN.table == MORE_RAIN.table == ONE_DAM.table
    for number, pair in enumerate(zip(LESS_RAIN.records, MORE_RAIN.records, strict=True), 1):
        (less, releases, sent), (more, same, sent_as) = (record_fields(table, record) for record in pair)
        (stage,), (as_float,) = RULES.stages(pair[0][2], sent), RULES.stages(pair[1][2], sent_as)
        assert releases == same and stage == as_float and all(map(int.__le__, less, more))
        rains = [f"{first} {second}" for first, second in zip(less, more)]
        whole = [" ".join(hex_fields(record, 2, 3, 5, 7, 11)) for record in pair]
        rows.append(f"{number} {' '.join(whole)} {' '.join(rains)} {n(releases[0])} {n(stage)}")
    return " ".join(rows)


def last_of_storm(storm):
    """Element 4 in a storm's second step, cell by cell, and its discharge after it."""
    rules = Noted()
    state, _ = storm.after_steps(rules, 2)
    move, blend, noise = rules.moves[-1], rules.blends[-1], decode_table(storm.table).gauges[0].noise
    (old, new), before, total = move.above, move.figures, move.figures.variance + noise
    gain = SCALE * before.variance // total
    assert blend.weight == SCALE - gain and blend.x == before.discharge
    sums = [n(sum(each.discharge for each in outflows)) for outflows in (old, new)]
    return [added(old, "discharge"), added(new, "discharge"), f"[({sums[0]} + {sums[1]}) / 2] = {n(move.inflow.discharge)}",
            move.blends[0].written(), f"{before.variance} {before.variance_margin}",
            f"[{n(SCALE)} × {before.variance} / {n(total)}] = {n(gain)}",
            f"[{n(SCALE)} × {before.variance_margin} / {n(total)}] + 2 = {n(blend.weight_margin)}",
            blend.written(), margin_quotients(blend), state.figures[3].discharge]


def two_storms():
    """Two storms on the river with a dam, line by line and at one element by hand; and the first with a higher reading."""
    pairs = compared(LESS_RAIN.data, MORE_RAIN.data)
    rows = [f"{' '.join(map(str, less[:3]))} {n(less[3])} {n(less[4])} {n(more[3])} {n(more[4])} {n(more[3] - less[3])} {n(less[5])}"
            for less, more in pairs if less[3] < more[3]]
    same = [less[:2] for less, more in pairs if less == more]
    assert len(rows) + len(same) == len(pairs) and all(number == 2 or step == 1 and number > 2 for step, number in same)
    (*less_rain, _), (*more_rain, more) = last_of_storm(LESS_RAIN), last_of_storm(MORE_RAIN)
    table, higher = decode_table(ONE_DAM.table), 2_000
    (_, z, noise, _), (_, higher_z, _, _) = (RULES.look(table.gauges[0], stage) for stage in (1_500, higher))
    rains, releases, _ = record_fields(table, LESS_RAIN.records[1])
    state = RULES.step(ONE_DAM.table, record_bytes(rains, (higher,), releases), LESS_RAIN.after_steps(RULES, 1)[0])
    assert state.figures[3].discharge > more
    return f"""{storm_records()} {" ".join(rows)} {len(same)} {len(pairs)} 3 4 1
    4 2 {n(z)} {n(noise)} {" ".join(" ".join(pair) for pair in zip(less_rain, more_rain))}
    2 {n(higher)} {n(higher_z)} 4 {n(state.figures[3].discharge)} {n(more)}"""


def a_tenth_more_rain():
    """The sample river with every rain a tenth more, with its readings and with gaps in their place: the peak of its outlet."""
    data, rows, larger = SAMPLE.read_bytes(), [], set()
    table, number = cut_table(data), len(decode_table(cut_table(data)).elements)
    fields = [record_fields(decode_table(table), record) for record in cut_records(data, len(table))]
    for with_readings in (True, False):
        storms = []
        for tenths in (10, 11):
            records = [record_bytes([-(-tenths * rain // 10) for rain in rains], stages if with_readings else [GAP] * len(stages))
                       for rains, _, stages in fields]
            storms.append(table + b"".join(records))
        pairs = compared(*storms)
        larger.add(sum(less[3] < more[3] for less, more in pairs))
        less, more = (max(pair[which][3] for pair in pairs if pair[which][1:3] == [number, 0]) for which in (0, 1))
        rows.append(f"{thousandths(less)} {thousandths(more)} {100 * (more - less) / less:.1f}")
    return f"2001 0 {' '.join(rows)} {' '.join(map(n, larger))} {n(len(pairs))}"


def weight_errors():
    """What bounds the error of h after each round: below 1, and the error before it divided by m."""
    error, found = Fraction(0), []
    for m in range(12, 0, -1):
        error = 1 + error / m
        found.append((m, d(error, 4)))
    assert error < 3
    return "1\n" + "\n".join(f"{left[0]} {left[1]} {right[0]} {right[1]}" for left, right in zip(found[:6], found[6:]))


def sample_margins():
    """The discharge margins of the sample river, with its readings and with gaps in their place."""
    data = SAMPLE.read_bytes()
    table = decode_table(cut_table(data))
    records = list(cut_records(data, len(cut_table(data))))
    silent = b"".join(record[:-2 * len(table.gauges)] + GAP.to_bytes(2, "big") * len(table.gauges) for record in records)
    found = []
    for given in (data, cut_table(data) + silent):
        margins = [int(line.split()[4]) for line in run(given).splitlines()]
        found.append(f"{n(int(median(margins)))} {n(max(margins))}")
    return f"2001 {len(records)} {len(table.elements)} 0 {table.leads} {n(len(margins))} {' '.join(found)}"


def root(number, places=1):
    """The square root of a whole number of 0.001 (m³/s)², in m³/s, rounded to the nearest."""
    return f"{(number / 1_000) ** 0.5:.{places}f}"


def noises():
    element = ELEMENTS[0]
    rain = RULES.step_rain_inflow(element, 20).discharge
    G = (rain // 10 ** 6) ** 2 * 1_000
    ahead = RULES.lead_rain_inflow(Element(**vars(element) | dict(rain_noise=G)), (0, 0, 0), 3, 3).variance
    squares = " ".join(f"{doubt} {doubt} × {doubt} × {n(1_000)} = {n(int(Fraction(doubt) ** 2 * 1_000))}" for doubt in ("0.5", "1", "5"))
    piece, depth, stages = Piece(30_001, 20_000, -500), 900, []
    for doubt in ("0.5", "5"):
        grains = 2 * Fraction(doubt) * piece.a * depth / 1_000
        low, high = (RULES.curve(piece, depth - piece.b + side * 5) for side in (-1, 1))
        assert high - low == 2 * grains * 5 / Fraction(doubt)
        flow = f"{float(grains / 10 ** 6):g}"
        stages.append(f"2 × {doubt} × {n(piece.a)} × {depth} / {n(1_000)} = {n(int(grains))} {flow} {flow} × {flow} × {n(1_000)} = "
                      f"{float(Fraction(flow) ** 2 * 1_000):g}")
    return f"""{squares}
    {n(piece.a)} {depth} {stages[0]} 5 {stages[1]}
    {element.area // 100} {element.runoff} 2 2 [5 × 20 × {n(element.area)} × {element.runoff} / 18] = {n(rain)} {rain // 10 ** 6}
    {rain // 10 ** 6} × {rain // 10 ** 6} × {n(1_000)} = {n(G)} lead 3 3 × {n(G)} = {n(ahead)} {root(ahead)}
    {n(703_935)} {d(Fraction(703_935, 1_000), 3)} {root(703_935)}"""


# Gaugings of one gauge: stage and measured discharge in tenths of m³/s, low water and high.
LOW_GAUGINGS = (800, 55), (900, 68), (1_000, 145), (1_100, 162)
HIGH_GAUGINGS = (3_500, 4_950), (4_000, 5_635), (4_500, 8_480), (5_000, 8_910)


def plain(number, places):
    """A number that has no more than so many places, with a − where it is negative."""
    assert Fraction(number) * 10 ** places % 1 == 0
    return "\u2212" * (number < 0) + d(abs(number), places)


def from_gaugings():
    piece, rows = Piece(LAST_TOP, 50_000, -500), []

    def deviations(gaugings):
        """z, measured less z, and that as a share of z."""
        for stage, tenths in gaugings:
            z, measured = Fraction(RULES.curve(piece, stage), 10 ** 6), Fraction(tenths, 10)
            yield stage, z, measured, measured - z, (measured - z) / z

    low, high = (list(deviations(gaugings)) for gaugings in (LOW_GAUGINGS, HIGH_GAUGINGS))
    for given, with_share in ((low, False), (high, True)):
        for stage, z, measured, deviation, share in given:
            rows.append(f"{n(stage)} {plain(z, 1)} {plain(measured, 1)} {plain(deviation, 1)} {plain(share, 2) if with_share else ''}")
    shares, squares, rated = [share ** 2 for *_, share in high], [each[3] ** 2 for each in low], [each[1] ** 2 for each in low]
    mean_share, mean_square, mean_rated = (sum(each) / len(each) for each in (shares, squares, rated))
    beta = round(1_000 * float(mean_share) ** 0.5)
    part = Fraction(beta, 1_000) ** 2 * mean_rated
    R = round((mean_square - part) * 1_000)
    gauge, readings = Gauge(1, 1, R, (piece,), beta), []
    for z in (8, 800):
        _, t, _, noise = noise_parts(gauge, z * 10 ** 6)
        readings.append(f"{z} t = {n(t)} {noise_written(gauge, z * 10 ** 6)} {root(noise)}")

    def mean(squares, places, mean_places):
        written = " + ".join(plain(each, places) for each in squares)
        return f"({written}) / {len(squares)} = {plain(sum(squares) / len(squares), mean_places)}"

    return f"""{n(piece.a)} {n(piece.b)} {" ".join(rows)} {mean(shares, 4, 4)} {d(Fraction(float(mean_share) ** 0.5), 4)} {beta}
    {mean(squares, 2, 2)} {mean(rated, 2, 3)} {plain(Fraction(beta, 1_000), 3)}² = {float(part):.4f}
    {plain(mean_square, 2)} − {float(part):.4f} = {float(mean_square - part):.4f} {n(R)}
    {" ".join(readings)} {root(R)}"""


def gains():
    """Noise and gain of one river with several β at low and at high water."""
    R, doubt, rows, betas = 1_000, 10, [], (0, 50, 100, 200)
    P = doubt ** 2 * 1_000
    for z in (4, 40, 400):
        cells = []
        for beta in betas:
            noted = Noted()
            *_, noise = noise_parts(Gauge(1, 1, R, (), beta), z * 10 ** 6)
            noted.correct(Figures(0, 0, P, 0), z * 10 ** 6, noise)
            cells.append(f"{n(noise)} {d(Fraction(SCALE - noted.blends[-1].weight, SCALE // 100), 1)}")
        rows.append(f"{z} {' '.join(cells)}")
    river, beta, corrected = 400, 100, []
    for z in (4, 796):
        after = RULES.correct(Figures(river * 10 ** 6, 0, P, 0), z * 10 ** 6, noise_parts(Gauge(1, 1, R, (), beta), z * 10 ** 6)[3])
        corrected.append(f"{z} {abs(z - river)} {d(Fraction(after.discharge, 10 ** 6), 1)}")
    return f"{n(R)} {doubt} {n(P)} {' '.join(map(str, betas))} {' '.join(rows)} {beta} {river} {' '.join(corrected)}"


def with_noises(data, R, beta):
    """A river with its table in version 2, and this R and β at every gauge."""
    table = cut_table(data)
    gauges = 10 + 26 * len(decode_table(table).elements)
    given = [table[at:at + 46] for at in range(gauges, len(table), 46)]
    body = b"\2" + table[5:gauges] + b"".join(gauge[:2] + R.to_bytes(4, "big") + gauge[6:] + beta.to_bytes(2, "big") for gauge in given)
    return len(body).to_bytes(4, "big") + body + data[len(table):]


def several_betas():
    R, rows, peaks = 1_000, [], {}
    for beta in (0, 30, 100, 200):
        both = [skill(Gauged(with_noises(SAMPLE.read_bytes(), R, beta), gauge, RULES), 1) for gauge in (0, 1)]
        peaks[beta] = both[1][1]
        rows.append(f"{beta} {' '.join(f'{error:.1f} {signed(peak)}' for error, peak, _ in both)}")
    return f"2001 {n(R)} 1 {' '.join(rows)} 100 {-peaks[100]:.1f}"


def highest_noise():
    """Where a noise passes C: the largest R by β, and the highest z with β 500; each and the next one are asked of the calculator."""
    def refused(beta, R, z):
        """Whether a river at 0 that is corrected by z is refused."""
        return tried_figures.refusal(RULES.correct, Figures(0, 0, 0, 0), z, RULES.noise(Gauge(1, 1, R, (), beta), z)) == 16

    rows = []
    for beta in (0, 100, 200, 300, 400, 499, 500):
        _, t, square, _ = noise_parts(Gauge(1, 1, 1, (), beta), CEILING)
        largest = CEILING - int(square)
        assert largest == 0 or not refused(beta, largest, CEILING) and refused(beta, largest + 1, CEILING)
        rows.append(f"{beta} {n(t)} {n(int(square))} {n(largest) if largest else ''}")
    tops = []
    for R in (1_000, 2_000_000_000):
        low, high = 0, CEILING  # accepted, refused
        while high - low > 1:
            middle = (low + high) // 2
            low, high = (low, middle) if refused(500, R, middle) else (middle, high)
        _, t, _, noise = noise_parts(Gauge(1, 1, R, (), 500), low)
        tops.append(f"{n(R)} {n(low)} {n(t)} {n(noise)}")
    return f"""{n(CEILING)} {n(1_000)} {" ".join(rows)} 500 {n(CEILING)} {n(RULES.noise(Gauge(1, 1, 0, (), 500), CEILING))}
    {" ".join(tops)}"""


def same_tables():
    """The example river's table in both versions, its first reading in both, and what the two files print."""
    rivers, rules = (THREE_ELEMENTS, PROPORTIONAL), (Noted(), Noted())
    tables = [decode_table(river.table) for river in rivers]
    gauge, (first, second) = tables[1].gauges[0], (river.table for river in rivers)
    count, ends = len(tables[0].elements), [4 + int.from_bytes(river.table[:4], "big") for river in rivers]
    assert first[5:] == second[5:-2] and THREE_ELEMENTS.records == PROPORTIONAL.records and ends == [len(first), len(second)]
    lengths = [f"6 + 26 × {count} + {size} × 1 = {6 + 26 * count + size}" for size in (46, 48)]
    assert ends == [4 + 6 + 26 * count + size for size in (46, 48)]
    steps = [river.after_steps(each, 1) for river, each in zip(rivers, rules)]
    after, exact = [state.figures[2] for state, _ in steps], [fractions.figures[2] for _, fractions in steps]
    assert all(abs(left - right) <= margin for figures, pair in zip(after, exact)
               for left, right, margin in zip(figures.numbers()[::2], pair, figures.numbers()[1::2]))
    before, z = rules[0].moves[2].figures, rules[0].blends[-1].y
    assert before == rules[1].moves[2].figures and z == rules[1].blends[-1].y
    _, t, _, noise = noise_parts(gauge, z)
    gains_and_margins = [(SCALE - each.blends[-1].weight, each.blends[-1].weight_margin) for each in rules]
    rows = [" ".join(map(n, pair)) for pair in ((gauge.noise, noise), *zip(*gains_and_margins), *zip(*(each.numbers() for each in after)))]
    rows += [" ".join(d(each, 3) for each in pair) for pair in zip(*exact)]
    printed = [Program(RULES).run(river.data).splitlines() for river in rivers]
    same = sum(left == right for left, right in zip(*printed, strict=True))
    without_beta = second[:-2] + bytes(2)
    assert Program(RULES).run(without_beta + b"".join(PROPORTIONAL.records)).splitlines() == printed[0]
    return f"""1 2 {gauge.beta} 1 2 {first[:4].hex().upper()} {second[:4].hex().upper()} {lengths[0]} 2 {lengths[1]}
    {first[4:5].hex()} {second[4:5].hex()} 1 {second[-2:].hex()} {int.from_bytes(second[-2:], "big")}
    {n(z)} {n(t)} {noise_written(gauge, z)} 3 {figures_written(before)} 1 2 {" ".join(rows)}
    {same} {len(printed[0])} {without_beta[-2:].hex()} {len(printed[0])}"""


def same_records():
    """The first records of the two files field by field, the others whole, and that both print the same but for one refusal."""
    table, rivers = decode_table(TABLE), (THREE_ELEMENTS, FLOATS)
    printed = [run(river.data).decode().splitlines() for river in rivers]
    assert FLOATS.table == TABLE and [record[2] for record in FLOATS.records] == [2, 2, 2, 1]
    (version_1, version_2), = [pair for pair in zip(*printed, strict=True) if pair[0] != pair[1]]
    after, same = (river.after_steps(RULES, 1)[0].figures[2] for river in rivers)
    assert after == same
    one, two, three, four = [[hex_fields(record, 2, 3, 5, 7) for record in pair] for pair in zip(*(river.records for river in rivers))]
    first, bits = [int(field, 16) for field in one[0]], int(one[1][4], 16)
    lengths = [f"1 + 2 × {table.basins} + {size} × {len(table.gauges)} = {int(each[0], 16)}" for size, each in zip((2, 4), one)]
    assert all(1 + 2 * table.basins + size * len(table.gauges) == int(each[0], 16) for size, each in zip((2, 4), one))
    beside = [" ".join(pair) for pair in zip(*one)]
    whole = [" ".join([*left, *right]) for left, right in (two, three, four)]
    stuck = n(int(three[0][4], 16)), by_hand(int(three[1][4], 16))[4]
    return f"""1 2 1 1 2 {beside[0]} {lengths[0]} 2 {lengths[1]} {beside[1]}
    1 {beside[2]} {first[2]} 2 {beside[3]} {first[3]} 1 {beside[4]} {n(first[4])} {float(by_hand(bits)[4]):.7g} {n(taken(bits))}
    3 {figures_written(after)} 1 2
    2 {whole[0]} 3 {whole[1]} {stuck[0]} {stuck[1]} {version_1.split()[2]} {version_2.split()[2]} 4 {whole[2]} 1
    {len(printed[0])} {version_1} {version_2}"""


def rain_and_curve():
    """How a rain depth, a stage and a curve become numbers of the table and the record; the curve is the sample river's first."""
    first, second = decode_table(cut_table(SAMPLE.read_bytes())).gauges[0].pieces[:2]
    z = RULES.curve(first, 1_000)
    depths = []
    for T, depth in ((60, "12.3"), (15, "3.1")):
        rate = Fraction(depth) * 60 / T
        depths.append(f"T = {T} {depth} {depth} × 60 / {T} = {d(rate, 1)} {int(rate * 10)}")
    written = first.b % 65_536
    a, foot = d(Fraction(first.a, 1_000)), Fraction(173_000 - first.b, 1_000)
    return f"""{" ".join(depths)}
    173.000 174.00 1.000 {n(1_000)}
    {a} {d(foot)} {n(first.a)} {n(173_000)} − {n(173_000 - first.b)} = {n(first.b)} {n(65_536)} − {-first.b} = {n(written)}
    hex {written:X} {n(1_000)} [{n(first.a)} × {1_000 + first.b}² / {n(1_000)}] = {n(z)} {a} × {d(Fraction(1_000 + first.b, 1_000))}² =
    {d(Fraction(z, 10 ** 6), 6)}
    175.3252 {d(Fraction(second.a, 1_000))} {d(Fraction(173_000 - second.b, 1_000))} {n(2_325)}.2 {n(first.top)} {n(second.a)}
    {n(second.b)} 175.3250 {n(2_325)}"""


def highest_rain(area, f):
    """The highest rain in tenths of mm/h that a step on one basin takes, and its inflow."""
    basin = Element(1, 0, 60, area, f, 0, 0, 0, 0)
    found = max(rain for rain in range(3_001) if RULES.step_rain_inflow(basin, rain).discharge <= CEILING)
    table = table_bytes(dict(T=60, L=1, elements=[dict(kind=1, lag=60, area=area, f=f)], gauges=[]))
    for rain in {found, min(found + 1, 3_000)}:  # the step itself says so
        assert (run(table + record_bytes((rain,), ())) == b"0 refused 16\n") == (rain > found)
    return found, RULES.step_rain_inflow(basin, found).discharge


def basin_sizes():
    lines = []
    for area, f in ((4_800, 1_000), (14_400, 1_000), (28_031, 780), (50_000, 600), (100_000, 800), (400_000, 1_000)):
        rain, inflow = highest_rain(area, f)
        size = n(area // 100) if area % 100 == 0 else d(Fraction(area, 100))
        lines.append(f"{size} | {n(f)} | {d(Fraction(rain, 10), 1)} | {n(inflow)}")
    whole, quarter = (RULES.step_rain_inflow(Element(1, 0, 60, area, 800, 0, 0, 0, 0), 200).discharge for area in (100_000, 25_000))
    assert whole > CEILING
    first, second = (RULES.step_rain_inflow(element, 1_000).discharge for element in ELEMENTS[:2])
    table = "\n".join(lines)
    return f"""300 {table}
    {n(1_000)} 800 20 {n(whole)} 16 250 {d(Fraction(highest_rain(25_000, 800)[0], 10), 1)} 20 {n(quarter)} {n(whole)}
    100 {n(first)} {n(second)} 3 {n(first + second)}"""


def variance_sum():
    """The sum of the rule on variances for the example river; its printed variances must stay below it."""
    table = decode_table(TABLE)
    T, L = table.step_minutes, table.leads
    grown = [Fraction(element.system_noise * (element.lag + T), T) for element in ELEMENTS]
    rain = [L * element.rain_noise for element in ELEMENTS if element.kind == BASIN]
    total = int(sum(grown) + sum(element.first_variance for element in ELEMENTS) + sum(rain))
    assert all(int(line.split()[5]) <= total for line in run(RIVER).splitlines() if b"refused" not in line)
    written = ", ".join(f"{element.system_noise} × ({element.lag} / {T} + 1) = {n(int(each))}" for element, each in zip(ELEMENTS, grown))
    ahead = ", ".join(f"{L} × {n(element.rain_noise)} = {n(L * element.rain_noise)}" for element in ELEMENTS if element.kind == BASIN)
    return f"L = {L} 1 {written} {', '.join(str(element.first_variance) for element in ELEMENTS)} {ahead} {n(total)}"


def growing_margin():
    """A gauge that reads what the river has, and a margin that grows all the same; with some W it does not."""
    def margins(W, lag, R, a, stages):
        gauges = [dict(element=1, R=R, pieces=[(30_001, a, 0)])]
        table = table_bytes(dict(T=60, L=1, elements=[dict(kind=2, lag=lag, W=W)], gauges=gauges))
        lines = [line.split() for line in run(table + b"".join(record_bytes((), (stage,)) for stage in stages)).decode().splitlines()]
        return [int(line[4]) for line in lines if line[1] != "refused" and line[2] == "0"], [line for line in lines if line[1] == "refused"]

    grown, refused = margins(0, 120, 1, 1, [0] * 100)
    held, none = margins(20, 120, 1, 1, [0] * 1_000)
    assert len(grown) == 94 and refused == [["94", "refused", "16"]] * 6 and not none and held[93] == held[999]
    assert RULES.curve(Piece(30_001, 1_000_000, 0), 1_000) == 1_000 * 10 ** 6  # grains
    far = [f"{d(Fraction(margins(W, 1_200, 1_000, 1_000_000, [0, 1_000] * 200)[0][-1], 10 ** 6), 6)} {n(W)}" for W in (20, 100, 1_000)]
    return f"""T = 60 120 0 W = 0 a = 1 b = 0 R = 1 0 0 1 2 3 4 {" ".join(map(str, grown[:4]))} 51 {n(grown[50])} 94 {n(grown[93])} 16
    W = 20 {held[93]} 94 {n(1_000)}
    T = 60 {n(1_200)} 0 {n(1_000_000)} 0 {n(1_000)} 0 {n(1_000)} 400 {" ".join(far)}"""


def step_that_stands():
    """One reach whose step is accepted while its first lead, and the next step, pass C."""
    reach = Element(2, 0, 60_000, 0, 0, 0, 3_850_000_000, 100_000_000, 0)
    noted, old = Noted(), Figures(0, 0, reach.first_variance, 0)
    weight = noted.weight(1, reach.lag)
    first = noted.move(reach, weight, old, Figures(0, 0, 0, 0))
    a = weight * first.variance // SCALE
    second = weight * a // SCALE + reach.system_noise
    assert first.variance <= CEILING < second
    return f"""T = 1 {n(reach.lag)} {n(reach.first_variance)} {n(reach.system_noise)}
    {n(first.variance)} 0 1 {n(second)} {n(second)} 1"""


def displayed():
    """The floats of the display written out, how far they lie from their counts, and what a sum of floats does."""
    def shown(count):
        discharge, margin = RULES.show(count, count)
        assert discharge == margin
        return Fraction(*unpack(">d", pack(">Q", discharge)))

    def row(count):
        off = 10 ** 6 * abs(shown(count) - Fraction(count, 10 ** 6))
        return f"{n(count)} {d(shown(count), 18)} {d(off, 12) if off else 0}"

    state, _ = THREE_ELEMENTS.after_steps(RULES, 1)
    first, lead_1 = state.figures[2], Figures(*RULES.forecast(TABLE, state, LENT)[1][28:32])
    some = range(0, CEILING + 1, 39_999_989)
    assert all(f"{float(shown(count)):,.6f}" == d(Fraction(count, 10 ** 6), 6) for count in some)  # the count's own digits
    rows = [row(count) for count in (first.discharge, first.margin, lead_1.margin, 814_758_304, CEILING - 1, CEILING)]
    highest, at_first = (Fraction(ulp(float(shown(count)))) / 2 for count in (CEILING, first.discharge))  # half a unit of the last place
    parts = 700_000, 100_000
    total = sum(float(shown(count)) for count in parts)
    assert total < float(shown(sum(parts)))
    tenths = [f"{float(shown(count)):g}" for count in (*parts, sum(parts))]
    return f"""18 3 1 {" ".join(rows)} {n(CEILING + 1)} {tried_figures.refusal(RULES.show, CEILING + 1, 0)}
    1 / {n(highest.denominator)} {n(CEILING // 10 ** 6)} {d(10 ** 6 * highest, 12)}
    {d(Fraction(first.discharge, 10 ** 6))} 1 / {n(at_first.denominator)}
    {n(parts[0])} {n(parts[1])} {n(sum(parts))} {tenths[2]} {tenths[0]} {tenths[1]} {d(Fraction(total), 18)} {tenths[2]}"""


def wrong_order():
    """Floats with their bytes in the wrong order."""
    def turned(bits):
        return int.from_bytes(bits.to_bytes(4, "little"), "big")

    def came(sent, with_metres=True):
        bits = float_bits(float(sent))
        metres = f"{d(by_hand(turned(bits))[4], 9)} " if with_metres else ""
        return f"{sent} {bits:08X} {turned(bits):08X} {metres}{taken(turned(bits))}"

    assert by_hand(turned(float_bits(1.41)))[4] < 0
    found = [taken(turned(bits)) for _, bits in whole_stages()]
    refused, zero = found.count("refused 18"), found.count(0)
    assert GAP not in found
    return f"""{came("1.41", False)} {came("1.4")} {came("1.43")} {turned(GAP_BITS):08X} {taken(turned(GAP_BITS))}
    {n(len(found))} 0 {n(HIGHEST_STAGE)} {n(refused)} 18 {n(zero)} 0 {n(len(found) - refused - zero)} 0 14"""


def lost_byte():
    """The example river without the last byte of its first record."""
    at = len(TABLE) + len(RECORDS[0]) - 1
    data = RIVER[:at] + RIVER[at + 1:]
    first, second = cut_records(data, len(TABLE))
    right, wrong = THREE_ELEMENTS.after_steps(RULES, 1)[0].figures[2], RULES.step(TABLE, first, RULES.start(TABLE, State())).figures[2]
    last = run(data).splitlines()[-1].decode()
    assert len(second) < 2 + int.from_bytes(second[:2], "big")  # it waits for more
    return f"""{first[-2:].hex(" ").upper()} {n(int.from_bytes(first[-2:], "big"))} {n(1_400)} {n(wrong.discharge)} {n(wrong.margin)} 3
    {n(right.discharge)} {n(right.margin)} {second[:2].hex(" ").upper()} {n(int.from_bytes(second[:2], "big"))} {last}"""


def failing_rain_line():
    element, found = ELEMENTS[0], []
    steady = RULES.lead_rain_inflow(element, (120, 120, 120), 9, 1).discharge // 10 ** 6
    for zeros in (1, 2, 3):
        rains = (0,) * zeros + (120,) * (3 - zeros)
        tenths, inflow = sum(rains) // 3, RULES.lead_rain_inflow(element, rains, 9, 1).discharge // 10 ** 6
        found.append((f"({' + '.join(map(str, rains))}) / 3 = {tenths}" if zeros < 3 else str(tenths)) + f" {inflow}")
    return f"{element.area // 100} {element.runoff} 12 {steady} 0 {' '.join(found)} 12 {steady}"


def figures_to_try():
    """Document 01's tried figures, which tried_figures.check() asks of the calculator once more, the highest release, and noises."""
    tried_figures.check()
    rules, piece = RULES, Piece(30_001, 20_000, -500)
    high = rules.correct(Figures(1_000_000, 0, 300, 0), 2_000_000, 100)
    low = rules.correct(Figures(7, 0, 0, 0), 9, 1)
    value, margin = rules.blend(3, 0, 4, 0, 500_000_000, 0)
    assert not refused_with(release=CEILING)
    return f"""60 60 {n(rules.weight(60, 60))} 1 {n(60_000)} {n(rules.weight(1, 60_000))}
    3 4 0 {n(500_000_000)} 0 {value} {margin}
    300 0 100 {n(1_000_000)} 0 {n(2_000_000)} {n(SCALE * 300 // 400)} {n(high.discharge)} {high.margin} {high.variance}
    {high.variance_margin}
    0 0 1 7 0 9 {low.discharge} {low.margin} {low.variance} {low.variance_margin}
    {n(piece.a)} {n(piece.b)} {n(1_500)} {n(rules.curve(piece, 1_500))} 500 {rules.curve(piece, 500)} 499
    {tried_figures.refusal(rules.curve, piece, 499)}
    {n(1_000)} {n(30_001)} 999 1 {n(1_000)} 2
    1 1 {refused_with(down=1)} {n(3_000)} {n(3_001)} {refused_with(rain=3_001)} {n(30_000)} {n(30_001)} {refused_with(stage=30_001)}
    {n(CEILING)} {n(CEILING + 1)} {refused_with(release=CEILING + 1)} {n(30_001)}
    {refused_with(release=CEILING + 1, stage=30_001)}
    {noises_to_try()} {tables_to_try()} {tanks_to_try()}
    36 60 60 {n(1_000)} {n(1_000)} 100 {more_rain_to_try()}"""


def noises_to_try():
    """The largest β, a noise of C and one above it, and that 14 and a trial's 15 come before its 16."""
    stage, beta, R, beside = 1_500, 100, 1_000, CEILING - 4_000

    def table(R, beta=beta, version=2):
        gauges = [dict(element=number, R=R, pieces=[(LAST_TOP, 20_000, -500)], beta=each) for number, each in ((1, beta), (2, 0))]
        return table_bytes(dict(version=version, T=60, L=1, elements=[dict(kind=REACH, lag=60)] * 2, gauges=gauges))

    def refused(table, *stages):
        return Program(RULES).run(table + record_bytes((), stages)).splitlines()[-1].decode().partition("refused ")[2]

    (_, z, noise, _), (_, _, most_noise, _) = (RULES.rate(table(R, each), 1, stage) for each in (beta, 500))
    (_, t, square, right), (_, most, _, most_right) = (noise_parts(Gauge(1, 1, R, (), each), z) for each in (beta, 500))
    above = table(beside + 1)
    assert (noise, most_noise) == (right, most_right) and beside + int(square) == CEILING and not refused(table(beside), stage, GAP)
    assert not refused(above, GAP, GAP) and not refused(above, GAP, stage) and not refused(table(beside + 1, version=1), stage, GAP)
    trial = tried_figures.refusal(RULES.trial, above, record_bytes((), (stage, GAP)), RULES.start(above, State()), [0] * 7)
    return f"""{n(20_000)} {n(-500)} {n(R)} {beta} {n(stage)} {n(z)} {n(t)} {n(noise)}
    500 {n(most)} {n(most_noise)} {n(HIGHEST_STAGE)} {refused(table(R, 500), HIGHEST_STAGE, GAP)} 501 {refused(table(R, 501), GAP, GAP)}
    {beta} {n(z)} {n(beside)} {n(CEILING)} {n(beside + 1)} {refused(above, stage, GAP)} {n(-500)} 499 {refused(above, stage, 499)}
    4 {trial}"""


def more_rain_to_try():
    """The page's one basin with the rain 200 beside the rain 100: both discharges, and the variances of both."""
    table = table_bytes(dict(T=60, L=1, elements=[dict(kind=BASIN, lag=60, area=3_600, f=1_000, G=1_000)], gauges=[]))
    pairs = compared(*(table + record_bytes((rain,), ()) for rain in (100, 200)))
    assert all(less[3] < more[3] for less, more in pairs)
    return f"200 100 {' '.join(n(more[3]) for _, more in pairs)} {' '.join(n(more[5]) for _, more in pairs)}"


def tables_to_try():
    """Versions, and the longest tables of both; longer ones have their last gauge twice, as far as there is space."""
    def table(version, size=None):
        gauges = [dict(element=number, R=1_000, pieces=[(LAST_TOP, 1, 0)]) for number in range(1, 17)]
        made = table_bytes(dict(version=version, T=60, L=1, elements=[dict(kind=REACH, lag=60)] * 64, gauges=gauges))
        size = size or len(made)
        return len(made), (size - 4).to_bytes(4, "big") + (made + made[-48:])[4:size]

    def refused(version, size=None):
        return Program(RULES).run(table(version, size)[1]).decode().partition("refused ")[2].strip()

    (one, _), (two, _) = table(1), table(2)
    assert not refused(1) and not refused(2) and refused(0) == refused(3) and refused(1, one + 1) == refused(1, two)
    assert refused(1, two + 1) == refused(2, two + 1)
    return f"0 3 {refused(3)} 64 16 {n(one)} 1 {n(two)} 2 1 {n(one + 1)} {n(two)} {refused(1, two)} {n(two + 1)} {refused(2, two + 1)}"


def tanks_to_try():
    """Counts and fields that rule 5 takes and refuses, and a step of two tanks."""
    def refused(**changes):
        tanks = dict(kind=TANKS, lag=60, f=2) | changes
        gauges = [dict(element=2, R=1_000, pieces=[(LAST_TOP, 1, 0)])]
        table = dict(T=60, L=1, elements=[dict(kind=REACH, lag=60, down=2), tanks], gauges=gauges)
        return tried_figures.refusal(RULES.start, table_bytes(table), State())

    wrong = {refused(f=count) for count in (0, 1, 9, 258)} | {refused(area=1), refused(G=1), refused(lag=59)}
    (number,), lag, T = wrong, 60, 60
    assert not refused(f=2) and not refused(f=8)
    element, rules = dict(kind=TANKS, lag=lag, f=2, first_discharge=10 ** 6, first_variance=300, W=10), Noted()
    two = table_bytes(dict(T=T, L=1, elements=[element], gauges=[]))
    second, first = rules.step(two, record_bytes((), ()), RULES.start(two, State())).figures[:2]
    old, new, inflow = 10 ** 6, first.discharge, rules.moves[1].inflow
    return f"""2 8 0 1 9 258 {number} 1 1 60 59 {lag} {T} {n(old)} 300 10 {figures_written(first)}
    [({n(old)} + {n(new)}) / 2] = {n(inflow.discharge)} [(0 + {first.margin}) / 2] + 1 = {inflow.margin} {figures_written(second)}"""


def refused_with(down=0, rain=3_000, release=0, stage=30_000):
    """What the program prints last for one small basin, its gauge and a dam: the refusal's number, or nothing where the record passes."""
    elements = [dict(kind=1, down=down, lag=60, area=10, f=1_000), dict(kind=3)]
    table = dict(T=60, L=1, elements=elements, gauges=[dict(element=1, R=1_000, pieces=[(30_001, 1, 0)])])
    last = run(table_bytes(table) + record_bytes((rain,), (stage,), (release,))).splitlines()[-1].decode()
    return last.split()[2] if "refused" in last else ""


def worked():
    """By name of the example: its numbers as text, in the page's order."""
    return {"the weight": the_weight, "a rise in a straight line": straight_line, "one move": one_move,
            "from bits to millimetres": from_bits, "every pattern that a gauge can send": every_pattern, "one look along a curve": one_look,
            "the noise of a reading": noises_of_readings, "one reading": one_reading, "one reading at high water": high_water,
            "one step of a river": one_step, "one lead": one_lead, "the mean of the last rains": later_rains, "a trial": a_trial,
            "a river with a dam": river_with_a_dam,
            "a reach of three tanks": chain_of_tanks, "where tanks stand in the state": tank_places,
            "how tanks flatten a wave": flattened_wave, "how many tanks": tanks_chosen, "two storms": two_storms,
            "a tenth more rain on the sample river": a_tenth_more_rain,
            "the weight's 3": weight_errors,
            "margins of the sample river": sample_margins, "noise from a doubt": noises, "R and β from gaugings": from_gaugings,
            "what β does to the gain": gains, "several β on the sample river": several_betas, "where a noise passes C": highest_noise,
            "the same table in both versions": same_tables, "the same records in both versions": same_records,
            "rain, stage and curve": rain_and_curve,
            "the highest rain of a basin": basin_sizes, "the sum of variances": variance_sum,
            "a margin that grows from reading to reading": growing_margin,
            "a step that stands though its forecast is refused": step_that_stands, "what the display shows": displayed,
            "bytes in the wrong order": wrong_order, "a rain line that fails": failing_rain_line,
            "a byte lost on the line": lost_byte, "a new table in the middle of an event": new_table, "figures to try": figures_to_try}


# ---- The sample river ----------------------------------------------------------------------------------------------------------------


def sample_rows(name):
    with open(SAMPLE_FOLDER / name, newline="") as file:
        return list(csv.DictReader(file))


class Gauged:
    """What the sample river prints for the element of a gauge (numbered from 0; the last is Kaisei's, the outlet), and what was observed
    there; hours count from 1."""

    def __init__(self, data, gauge=1, rules=RULES):
        self.table, self.stages = decode_table(cut_table(data)), sample_rows("stage.csv")
        self.records, self.gauge = list(cut_records(data, len(cut_table(data)))), gauge
        lines = (list(map(int, line.split())) for line in Program(rules).run(data).splitlines())
        number = self.table.gauges[gauge].element
        self.discharge = {(hour, lead): discharge for hour, element, lead, discharge, *_ in lines if element == number}

    def rated(self, hour):
        """The discharge of the hour's stage in grains, or GAP."""
        stage = record_fields(self.table, self.records[hour - 1])[2][self.gauge]
        return GAP if stage == GAP else RULES.look(self.table.gauges[self.gauge], stage).discharge

    def observed(self, hour):
        return "gap" if self.rated(hour) == GAP else thousandths(self.rated(hour))

    def forecasts(self, lead):
        """By hour, in m³/s: the forecast made so many hours before, and what was observed; hours with a gap are left out."""
        hours = [hour for hour in range(lead + 1, len(self.records) + 1) if self.rated(hour) != GAP]
        return {hour: (self.discharge[hour - lead, lead] / 10 ** 6, self.rated(hour) / 10 ** 6) for hour in hours}

    def rows(self, hour):
        """The hour's forecasts, and what was observed one, two and three hours later."""
        given = self.stages[hour - 1]
        day, time = given["datetime"].split("T")
        forecasts = " ".join(thousandths(self.discharge[hour, lead]) for lead in range(4))
        return f"""{hour} {int(day[-2:])} {time} {given["kaisei_m"]} {self.observed(hour)} {forecasts}
        {" ".join(self.observed(hour + lead) for lead in (1, 2, 3))}"""


def kaisei():
    river = Gauged(SAMPLE.read_bytes())
    curve = [row for row in sample_rows("rating.csv") if (row["point"], row["year"]) == ("Kaisei", "2001")]
    stage = Fraction(river.stages[16 - 1]["kaisei_m"])
    piece = next(row for row in curve if not row["stage_to_m"] or stage < Fraction(row["stage_to_m"]))
    by_2001 = Fraction(piece["a_m3s_per_m2"]) * (stage - Fraction(piece["h0_m"])) ** 2
    before = " ".join(thousandths(river.discharge[35 - lead, lead]) for lead in (1, 2, 3))
    return f"""0 1 2 3 {" ".join(river.rows(hour) for hour in (1, 16, 35, 36))}
    35 36 35 {before}
    16 {thousandths(river.discharge[15, 1])} {thousandths(river.discharge[16, 0])} 2001 {d(by_2001, 0)}"""


def varied(**changes):
    """The sample river's input made with other choices."""
    folder = ROOT / "target/variation"
    folder.mkdir(parents=True, exist_ok=True)
    rows = [row | dict(value=changes.get(row["choice"], row["value"])) for row in sample_rows("choices.csv")]
    with open(folder / "choices.csv", "w", newline="") as file:
        writer = csv.DictWriter(file, rows[0].keys())
        writer.writeheader()
        writer.writerows(rows)
    command = [sys.executable, SAMPLE_FOLDER / "make.py", "--choices", folder / "choices.csv", "--out", folder]
    subprocess.run(command, check=True, stdout=subprocess.DEVNULL)
    return (folder / "cabinet.bin").read_bytes()


def variations():
    def at_36(wanted, **changes):
        river = Gauged(varied(**changes))
        return " ".join(thousandths(river.discharge[36, lead]) for lead in wanted)

    first = range(4)
    assert at_36(first, leads="6") == at_36(first)
    return f"""36 0 1 2 3 {at_36(first)}
    0.39 0.2 {at_36(first, f_upper="0.39", f_lower="0.2")}
    2001 {at_36(first, curve_year="2001")}
    6 {at_36((4, 5, 6), leads="6")}"""


def passed(series, discharge):
    """When a series, in m³/s by time, first passes a discharge; between two times it counts as a straight line."""
    times = sorted(series)
    for before, after in zip(times, times[1:]):
        if series[before] < discharge <= series[after]:
            return before + (discharge - series[before]) / (series[after] - series[before]) * (after - before)


def skill(river, lead):
    """Of forecasts against what was observed: the root mean square error in m³/s, the peak's error in %, and by how many hours half of the
    observed peak is passed too late."""
    pairs = river.forecasts(lead)
    errors = [(forecast - observed) ** 2 for forecast, observed in pairs.values()]
    series = [{hour: pair[which] for hour, pair in pairs.items()} for which in (0, 1)]
    highest, peak = (max(each.values()) for each in series)
    late = passed(series[0], peak / 2) - passed(series[1], peak / 2)
    return (sum(errors) / len(errors)) ** 0.5, 100 * (highest - peak) / peak, late


def put_field(table, number, at, value, size):
    """Writes a field of an element, which begins so many bytes after its first, into a table's bytes."""
    at += 10 + 26 * (number - 1)
    table[at:at + size] = value.to_bytes(size, "big")


def without_reaches(data, left_out):
    """The sample river with what drains into these reaches draining into what is below them. They stay in the table as outlets by
    themselves, into which nothing drains."""
    changed, elements = bytearray(data), decode_table(cut_table(data)).elements
    for number, element in enumerate(elements, 1):
        down = element.down
        while down in left_out:
            down = elements[down - 1].down
        put_field(changed, number, 1, 0 if number in left_out else down, 1)
    return bytes(changed)


def other_step(T, least_lag, with_readings):
    """The sample river in steps of T minutes, its lags raised to the least one, with the readings of each step's last hour or with gaps.
    Hours of rain are repeated, or their mean is taken, to the nearest tenth of mm/h."""
    data = SAMPLE.read_bytes()
    table, decoded = bytearray(cut_table(data)), decode_table(cut_table(data))
    table[5:7] = T.to_bytes(2, "big")
    for number, element in enumerate(decoded.elements, 1):
        put_field(table, number, 2, max(least_lag, element.lag), 2)
    given = [record_fields(decoded, record) for record in cut_records(data, len(table))]
    hours, times, records = max(1, T // 60), max(1, 60 // T), []
    for at in range(0, len(given) - hours + 1, hours):
        means = [(2 * sum(each) + hours) // (2 * hours) for each in zip(*(rains for rains, _, _ in given[at:at + hours]))]
        records += [record_bytes(means, given[at + hours - 1][2] if with_readings else [GAP] * len(decoded.gauges))] * times
    return bytes(table) + b"".join(records)


def errors_in_steps(T, travel):
    """The errors of lead 1 at both gauges in longer steps, before and now: the whole network, and without the reaches that the water passes
    in less than T / 2 (`travel` has the minutes by number)."""
    whole = other_step(T, T, True)
    short = {number for number, minutes in travel.items() if minutes < T / 2}
    return [" ".join(f"{skill(Gauged(data, gauge, rules), 1)[0]:.1f}" for gauge in (0, 1) for rules in (BEFORE_M103, RULES))
            for data in (whole, without_reaches(whole, short))], short


def before_and_after():
    """Forecasts of the sample river by the rule before M-103 and by today's; how long its water takes between the gauges; when its rise
    comes in steps of several lengths."""
    data, both, rows = SAMPLE.read_bytes(), (BEFORE_M103, RULES), []
    network, elements = sample_rows("network.csv"), decode_table(cut_table(SAMPLE.read_bytes())).elements
    reaches = {row["id"]: number for number, row in enumerate(network, 1)}
    for given, gauge in ((data, 0), (data, 1), (without_reaches(data, {reaches["E"], reaches["G"]}), 1)):
        rivers = [Gauged(given, gauge, rules) for rules in both]
        for lead in (1, 2, 3):
            before, after = (skill(river, lead) for river in rivers)
            rows.append(f"{lead} {before[0]:.1f} {after[0]:.1f} {' '.join(f'{signed(before[at])} {signed(after[at])}' for at in (1, 2))}")
    speed = next(Fraction(row["value"]) for row in sample_rows("choices.csv") if row["choice"] == "speed")
    travel = {reaches[row["id"]]: Fraction(row["length_m"]) / speed / 60 for row in network if row["kind"] == "reach"}
    chain, weight = [reaches[name] for name in "CDEG"], exact_weight(60, 60)
    assert {elements[number - 1].lag for number in chain} == {60}
    late = len(chain) * 60 * weight / (1 - weight)  # as in straight_line
    taken = [travel[number] for number in chain]
    rows.append(" ".join(f"{float(each):.0f}" for each in (sum(taken), *taken[2:], 60, late, late + len(chain) * 30)))
    longer = []
    for T in (120, 180):
        (whole, less), short = errors_in_steps(T, travel)
        assert short == {reaches[name] for name in "BCDEG"}
        longer.append(f"{T} {whole} {T} {less}")
    for T in (20, 60, 120, 180):
        hours = []
        for rules in both:
            found = Gauged(other_step(T, 180, False), 1, rules).discharge
            hours.append(f"{passed({step * T / 60: grains for (step, lead), grains in found.items() if lead == 0}, 400 * 10 ** 6):.1f}")
        rows.append(f"{T} {' '.join(hours)}")
    first, before, after = 16, *(Gauged(data, 1, rules) for rules in both)
    at_first = f"{first} {after.observed(first)} {' '.join(thousandths(river.discharge[first - 1, 1]) for river in (before, after))}"
    return f"{' '.join(rows[:-5])} {at_first} {rows[-5]} {' '.join(longer)} T 180 400 {' '.join(rows[-4:])}"


def new_table():
    """The sample river begun anew in the flood: from the figures after step 7 with records 8 to 10, and after step 9 with 10 alone."""
    data, last = SAMPLE.read_bytes(), 10
    table, records = cut_table(data), list(cut_records(data, len(cut_table(data))))
    lines = [tuple(map(int, line.split())) for line in run(data).splitlines()]

    def last_lines(step):
        begun = bytearray(table)
        for count, element, lead, discharge, _, variance, _ in lines:
            if (count, lead) == (step, 0):
                at = 10 + 26 * (element - 1) + 10  # the two first values
                begun[at:at + 8] = discharge.to_bytes(4, "big") + variance.to_bytes(4, "big")
        again = [tuple(map(int, line.split())) for line in run(bytes(begun) + b"".join(records[step:last])).splitlines()]
        return [line for line in again if line[0] == last - step]

    right, good, poor = [line for line in lines if line[0] == last], last_lines(7), last_lines(9)
    same = sum((line[3], line[5]) == (there[3], there[5]) for line, there in zip(good, right))
    assert right[-1][1:3] == (23, 3)
    return f"0 7 8 9 10 10 {same} {len(right)} 0 9 10 3 {thousandths(poor[-1][3])} {thousandths(right[-1][3])}"


def sample_worked():
    return {"Kaisei at the first hour, the first reading and the peak": kaisei, "forecasts before and after M-103": before_and_after,
            "three variations": variations}
