"""Document 01, "The run in fractions", with M-100's dams, M-102's trials, M-103's unrounded half sums, M-104's floats, of which it takes
the whole millimetres, M-105's noise, which is given to it, and M-107's tanks: the same steps with exact F, no rounding, no margins and no
ceiling.

It is fed an accepted table, the records of accepted steps and nothing else, decodes them by itself and keeps its own state, so that it
shares no line with whole_numbers.py.

Exact F is a fraction over lag^12 x 12!, some sixty digits; every step multiplies such fractions and a chain of elements multiplies them
again, so the numbers have thousands of digits after a few steps. Runs for this judge are therefore short (some six steps with leads) or
have few elements; for longer ones `Enclosure` below bounds the same run from both sides.
"""
from fractions import Fraction
from functools import lru_cache
from math import factorial, floor
from struct import iter_unpack, pack, unpack, unpack_from


@lru_cache(maxsize=4096)
def exact_weight(step_minutes, lag):
    """F: the sum, for m from 0 to 12, of -T / lag to the power m, over m factorial."""
    ratio = Fraction(-step_minutes, lag)
    return sum((ratio ** m / factorial(m) for m in range(13)), Fraction(0))


def stage_of(version, sent):
    """A gauge's stage in millimetres, None for a gap. Python holds every 32-bit float as it is, and its fraction is exact."""
    if sent == (0x7FC0_0000 if version == 2 else 65_535):
        return None
    return floor(Fraction(*unpack(">f", pack(">I", sent))) * 1_000 + Fraction(1, 2)) if version == 2 else sent


def last_tanks(stores):
    return [tanks[-1] for tanks in stores]


class ExactNumbers:
    """How the run works with its numbers: here as fractions."""

    def of(self, fraction):
        return Fraction(fraction)

    def mix(self, weight, x, y):
        """weight x X + (1 - weight) x Y, weight being an exact fraction."""
        return weight * x + (1 - weight) * y

    def square_mix(self, weight, v, u):
        """The variance before W: F x F x v + (1 - F) x (1 - F) x u."""
        return weight * weight * v + (1 - weight) * (1 - weight) * u

    def corrected(self, x, v, z, noise):
        """A reading: gain v / (v + noise), discharge x + gain x (z - x), variance v x noise / (v + noise)."""
        gain = v / (v + noise)
        return x + gain * (z - x), v * noise / (v + noise)

    def within(self, figure, exact, margin):
        return abs(figure - exact) <= margin


class Enclosed:
    """A number of 0 or more known to lie between two whole multiples of 1 / 2^BITS."""
    __slots__ = ("low", "high")

    def __init__(self, low, high):
        self.low, self.high = low, high

    def __add__(self, other):
        return Enclosed(self.low + other.low, self.high + other.high)


class EnclosedNumbers:
    """The same, each number between two bounds that are rounded outwards; no number is negative, so every bound is a bound's product.

    `within` is right where it answers: it raises where the bounds do not decide, which at 256 bits is not met in practice.
    """
    BITS = 256

    def of(self, fraction):
        upper, lower = Fraction(fraction).numerator << self.BITS, Fraction(fraction).denominator
        return Enclosed(upper // lower, -(-upper // lower))

    def times(self, fraction, x):
        upper, lower = fraction.numerator, fraction.denominator
        return Enclosed(upper * x.low // lower, -(-upper * x.high // lower))

    def mix(self, weight, x, y):
        return self.times(weight, x) + self.times(1 - weight, y)

    def square_mix(self, weight, v, u):
        return self.times(weight * weight, v) + self.times((1 - weight) ** 2, u)

    def corrected(self, x, v, z, noise):
        # With the noise R: (R x X + v x z) / (v + R) and v x R / (v + R); both parts of the first and the second are monotone in v.
        r = noise.low  # it is a whole number, so its bounds are equal
        kept = Enclosed(r * x.low // (v.high + r), -(-r * x.high // (v.low + r)))
        taken = Enclosed(v.low * z.low // (v.low + r), -(-v.high * z.high // (v.high + r)))
        return kept + taken, Enclosed(v.low * r // (v.low + r), -(-v.high * r // (v.high + r)))

    def within(self, figure, exact, margin):
        low, high = (figure - margin) << self.BITS, (figure + margin) << self.BITS
        if low <= exact.low and exact.high <= high:
            return True
        if exact.high < low or high < exact.low:
            return False
        raise ArithmeticError("the bounds do not decide")


class FractionsRun:
    """The run on one accepted table; `stores` holds by element its tanks, the uppermost first, each as (discharge, variance): one where it
    is not made of several (M-107). `steps` is the step count."""

    def __init__(self, table, numbers=ExactNumbers()):
        self.numbers = numbers
        self.step_minutes, self.leads, count, gauge_count = unpack_from(">HBBB", table, 5)
        self.elements = list(iter_unpack(">BBHIHIIII", table[10:10 + 26 * count]))
        self.gauges = []
        size = 48 if table[4] == 2 else 46
        for at in range(10 + 26 * count, 10 + 26 * count + size * gauge_count, size):
            element, used, noise = unpack_from(">BBI", table, at)
            beta, = unpack_from(">H", table, at + 46) if table[4] == 2 else (0,)
            self.gauges.append((element, noise, beta, list(iter_unpack(">HIh", table[at + 6:at + 6 + 8 * used]))))
        self.basins, self.dams = ([place for place, element in enumerate(self.elements) if element[0] == kind] for kind in (1, 3))
        self.above = [[higher for higher, element in enumerate(self.elements) if element[1] == place + 1] for place in range(count)]
        self.read = set()  # places where a reading has come in
        self.start()

    def start(self):
        self.steps = 0
        self.stores = [[(self.numbers.of(element[5]), self.numbers.of(element[6]))] * tanks
                       for element, tanks in zip(self.elements, self.tank_counts())]
        self.rains = {place: [] for place in self.basins}
        self.read = set()

    @property
    def figures(self):
        """(discharge, variance) by element: those of its last tank."""
        return last_tanks(self.stores)

    def tank_counts(self):
        """By element: how many tanks it has, which for kind 4 stands in the f field."""
        return [element[4] if element[0] == 4 else 1 for element in self.elements]

    def mean_inflow(self, above):
        """M-103: half of what came before and after from (before, after) of each above, and the variance of what came after."""
        before = after = variance = self.numbers.of(0)
        for (old_discharge, _), (new_discharge, new_variance) in above:
            before, after, variance = before + old_discharge, after + new_discharge, variance + new_variance
        return self.numbers.mix(Fraction(1, 2), before, after), variance

    def moved(self, stores, rain_inflow, releases, readings):
        """One step of all elements: rain_inflow(place) gives a basin's inflow and its variance; by place, releases has a dam's discharge,
        readings z and its noise."""
        new = []
        for place, (kind, _, lag, _, _, _, _, system_noise, _) in enumerate(self.elements):
            if kind == 3:
                new.append([(releases[place], self.numbers.of(system_noise))])
                continue
            if kind == 1:
                inflow = tuple(map(self.numbers.of, rain_inflow(place)))
            else:
                inflow = self.mean_inflow([(stores[higher][-1], new[higher][-1]) for higher in self.above[place]])
            weight, tanks = exact_weight(self.step_minutes, lag), []
            for x, v in stores[place]:
                tanks.append((self.numbers.mix(weight, x, inflow[0]),
                              self.numbers.square_mix(weight, v, inflow[1]) + self.numbers.of(system_noise)))
                inflow = self.mean_inflow([((x, v), tanks[-1])])  # of the next tank, if there is one
            if place in readings:
                tanks[-1] = self.numbers.corrected(*tanks[-1], *map(self.numbers.of, readings[place]))
            new.append(tanks)
        return new

    def given_noise(self, noise, beta, z):
        """M-105: "from the whole-number z": the same whole number as the cabinet's."""
        t = floor(Fraction(beta * floor(z), 1_000_000))
        return noise + floor(Fraction(t ** 2, 1_000))

    def step_input(self, record):
        """By place: the rains, the releases, and z, unrounded, and the noise of the readings."""
        counts, version = (len(self.basins), len(self.dams), len(self.gauges)), record[2]
        fields = unpack(">{}H{}I{}{}".format(*counts, "I" if version == 2 else "H"), record[3:])
        rains, rest = dict(zip(self.basins, fields)), fields[len(self.basins):]
        releases = {place: self.numbers.of(release) for place, release in zip(self.dams, rest)}
        readings = {}
        for (element, noise, beta, pieces), sent in zip(self.gauges, rest[len(self.dams):]):
            stage = stage_of(version, sent)
            if stage is not None:
                _, a, b = next(piece for piece in pieces if stage < piece[0])
                z = Fraction(a * (stage + b) ** 2, 1_000)
                readings[element - 1] = z, self.given_noise(noise, beta, z)
        return rains, releases, readings

    def stepped(self, rains, releases, readings):
        def rain_inflow(place):
            return Fraction(5 * rains[place] * self.elements[place][3] * self.elements[place][4], 18), 0

        return self.moved(self.stores, rain_inflow, releases, readings)

    def step(self, record):
        rains, releases, readings = self.step_input(record)
        self.stores = self.stepped(rains, releases, readings)
        self.read |= readings.keys()
        self.steps += 1
        for place in self.basins:
            self.rains[place] = [rains[place]] + self.rains[place][:2]

    def trial(self, record):
        """(discharge, variance) by element as a step would leave them; the run itself stays."""
        return last_tanks(self.stepped(*self.step_input(record)))

    def forecast(self):
        """(discharge, variance) by lead 0 to L, then by element; the run itself stays."""
        by_lead, held = [self.stores], {place: self.stores[place][0][0] for place in self.dams}
        for lead in range(1, self.leads + 1):

            def rain_inflow(place):
                _, _, _, area, runoff, _, _, _, rain_noise = self.elements[place]
                mean = Fraction(sum(self.rains[place]), len(self.rains[place])) if self.rains[place] else 0
                return mean * 5 * area * runoff / 18, lead * rain_noise

            by_lead.append(self.moved(by_lead[-1], rain_inflow, held, {}))
        return list(map(last_tanks, by_lead))

    def places_above(self):
        """By place: the set of all places at or above it."""
        sets = [{place} for place in range(len(self.elements))]
        for place, element in enumerate(self.elements):
            if element[1]:
                sets[element[1] - 1] |= sets[place]  # all above an element stand before it
        return sets

    def counts_above(self):
        """By place: c of the limit 16 x n x c: the elements at or above it, of which every tank counts (M-107)."""
        tanks = self.tank_counts()
        return [sum(tanks[higher] for higher in places) for places in self.places_above()]
