#!/usr/bin/env python3
"""Shows that the judge can fail: deliberately wrong programs in the place of the program under test, each of which must be caught.

    python3 tests/mutants.py [--libraries | --papers]

For each mutant the checks of judge.py that caught it are printed with the count of inputs; the last line is
"mutants: N tried, F not caught". Each is tried on some dozens of generated.py's quick inputs; on the slow ones (10,000 steps, 100,000
records) only where these do not catch it, and on the other small ones last.

Some are tried once more without the calculator: by the same readings in records of either version, or the same numbers in tables of either
version, whose outputs must be equal, by two storms, of which the second has more rain, and by a river with tanks beside the same river in
reaches. Then come wrong runs in fractions, which must find fault with the right program, and wrong counts for the limit of margins, which
must judge margins about it otherwise than the right one.

Wrong libraries in the place of the C interface follow, which the comparison of calls.py must catch; with --libraries these alone. Some are
then tried once more by what neighbouring calls say against each other, without the calculator. The last of them are in C:
bench/plain_calls.c, which must pass as it stands, with one place changed; these wrong ones touch memory that is not theirs (needs gcc).
Before them come wrong papers, which paper.py must catch: docs/METHOD.md with one figure of its worked examples changed, each figure in turn,
and the page as it stands where the method is another; with --papers these alone.
"""
import subprocess
import sys
from array import array
from dataclasses import replace
from fractions import Fraction
from math import ceil, floor
from struct import pack, unpack

import paper
import paper_figures
from calculator import whole_numbers
from calculator.encode import big_endian
from calculator.floats import GAP_BITS, HALF
from calculator.fractions_run import EnclosedNumbers, FractionsRun
from calculator.program import LONGEST_TABLE, Program, cut_table, run
from calculator.whole_numbers import (BASIN, CEILING, DAM, ELEMENT_BYTES, GAP, GAUGE_BYTES, HEADER_BYTES, HIGHEST_BETA, HIGHEST_RAIN,
                                      HIGHEST_STAGE, REACH, SCALE, TANKS, Figures, Rating, Refused, Rules, State, decode_table, number_at,
                                      stage_in_range, under_ceiling)
from call_cases import INNER, Watched, cases
from calls import ROOT, Library, Reply, built_driver, compare, made_calls
from inputs import SHAPES, inputs, random_for
from judge import check_figures, chosen_numbers, judge, rain_complaint, reaches_complaint, version_complaint

SEED = 1
ENOUGH = 25  # inputs that catch a mutant; no more are tried then (of the slow ones, after one)


# ---- Wrong figures ---------------------------------------------------------------------------------------------------------------------


def answer_rows(answer, written):
    return [list(answer[at:at + 4]) for at in range(0, written, 4)]


class WrongAnswer(Rules):
    """A right forecast whose rows (discharge, margin, variance, variance margin) are then spoiled."""

    def spoil(self, rows, leads):
        raise NotImplementedError

    def forecast(self, table_bytes, state, lent):
        written, answer = super().forecast(table_bytes, state, lent)
        rows = self.spoil(answer_rows(answer, written), whole_numbers.decode_table(table_bytes).leads)
        return written, [number for row in rows for number in row] + list(lent[written:])


class MarginsAtCeiling(WrongAnswer):
    def spoil(self, rows, leads):
        return [[discharge, CEILING, variance, CEILING] for discharge, _, variance, _ in rows]


class MarginsZero(WrongAnswer):
    def spoil(self, rows, leads):
        return [[discharge, 0, variance, 0] for discharge, _, variance, _ in rows]


class MarginsSlightlyTooSmall(WrongAnswer):
    def spoil(self, rows, leads):
        return [[discharge, max(0, margin - 3), variance, max(0, variance_margin - 5)]
                for discharge, margin, variance, variance_margin in rows]


class LeadZeroEverywhere(WrongAnswer):
    def spoil(self, rows, leads):
        return [rows[at - at % (leads + 1)] for at in range(len(rows))]


class OneConstantLine(WrongAnswer):
    def spoil(self, rows, leads):
        return [[1_000_000, 3, 0, 6]] * len(rows)


class MarginAndVarianceSwapped(WrongAnswer):
    def spoil(self, rows, leads):
        return [[discharge, variance, margin, variance_margin] for discharge, margin, variance, variance_margin in rows]


class ReadingsIgnored(Rules):
    def correct(self, figures, z, noise):
        return figures


class ReadingsIgnoredByZeroGain(Rules):
    def correct(self, figures, z, noise):
        discharge, margin = self.blend(figures.discharge, figures.margin, z, 1, SCALE, 2)
        return Figures(discharge, margin, figures.variance, figures.variance_margin + 2)


class ReadingTakenWhole(Rules):
    def correct(self, figures, z, noise):
        right = super().correct(figures, z, noise)
        return Figures(z, right.margin, right.variance, right.variance_margin)


class CorrectionVarianceKept(Rules):
    def correct(self, figures, z, noise):
        right = super().correct(figures, z, noise)
        return Figures(right.discharge, right.margin, figures.variance, figures.variance_margin)


class GainMarginTwo(Rules):
    """Gain margin 2 whatever the variance margin: too small a margin after a reading."""

    def correct(self, figures, z, noise):
        right = super().correct(figures, z, noise)
        gain = SCALE * figures.variance // (figures.variance + noise)
        _, margin = self.blend(figures.discharge, figures.margin, z, 1, SCALE - gain, 2)
        return Figures(right.discharge, margin, right.variance, right.variance_margin)


class RainSumByThree(Rules):
    def lead_rain_inflow(self, element, rains, steps, lead):
        return super().lead_rain_inflow(element, rains, 3, lead)


class LastRainOnly(Rules):
    def lead_rain_inflow(self, element, rains, steps, lead):
        return super().lead_rain_inflow(element, rains, min(1, steps), lead)


class LeadNoiseOnce(Rules):
    """Lead variance G in place of lead x G."""

    def lead_rain_inflow(self, element, rains, steps, lead):
        return super().lead_rain_inflow(element, rains, steps, 1)


class GapAsStage65535(Rules):
    """A gap read by the last piece of the curve."""
    gap_stage = 65_535

    def readings(self, table, record):
        rains, releases, readings = super().readings(table, record)
        *_, stages = whole_numbers.record_fields(table, record)
        for gauge, stage in zip(table.gauges, stages):
            if stage == GAP:
                pieces = gauge.pieces[:gauge.used]
                piece = next((piece for piece in pieces if self.gap_stage < piece.top), pieces[-1])
                readings[gauge.element] = min(CEILING, piece.a * (self.gap_stage + piece.b) ** 2 // 1_000), gauge.noise
        return rains, releases, readings


class GapAsStageZero(GapAsStage65535):
    gap_stage = 0


class UncorrectedInflow(Rules):
    """All gauges corrected after the whole network has moved."""

    def new_outflow(self, figures, uncorrected):
        return uncorrected


class VarianceWeightNotSquared(Rules):
    def move(self, element, weight, old, inflow):
        right = super().move(element, weight, old, inflow)
        variance, _ = self.blend(old.variance, old.variance_margin, inflow.variance, inflow.variance_margin, weight, 3)
        return Figures(right.discharge, right.margin, min(CEILING, variance + element.system_noise), right.variance_margin)


class SystemNoiseLeftOut(Rules):
    def move(self, element, weight, old, inflow):
        right = super().move(element, weight, old, inflow)
        return Figures(right.discharge, right.margin, right.variance - element.system_noise, right.variance_margin)


class WeightsExchanged(Rules):
    def move(self, element, weight, old, inflow):
        return super().move(element, SCALE - weight, old, inflow)


class ShortSeries(Rules):
    """The series weight without its last two terms."""

    def weight(self, step_minutes, lag):
        h = SCALE
        for m in range(10, 0, -1):
            h = SCALE - step_minutes * h // (lag * m)
        return h


class AllWaterAtFirstStep(Rules):
    """The first step moves everything to its inflow, later steps leave all as it is."""

    def step(self, table_bytes, record, state):
        moved = super().step(table_bytes, record, state)
        return moved if state.steps == 0 else State(state.count, moved.steps, state.figures, moved.rains)


class StateNeverMoved(Rules):
    def step(self, table_bytes, record, state):
        moved = super().step(table_bytes, record, state)
        return State(state.count, moved.steps, state.figures, state.rains)


class RainsInWrongOrder(Rules):
    """The oldest rain is kept for ever."""

    def step(self, table_bytes, record, state):
        moved = super().step(table_bytes, record, state)
        moved.rains = [(new[0], old[0] if state.steps < 2 else old[1], old[1] if state.steps < 3 else old[2])
                       for new, old in zip(moved.rains, state.rains)]
        return moved


class NextPieceAtTop(Rules):
    """Stage at or below the top, in place of below it."""

    def look(self, gauge, stage):
        return super().look(replace(gauge, pieces=tuple(replace(piece, top=piece.top + 1) for piece in gauge.pieces)), stage)


class LastPieceFirst(Rules):
    """The pieces are looked along from the last to the first."""

    def look(self, gauge, stage):
        return super().look(replace(gauge, pieces=gauge.pieces[:gauge.used][::-1]), stage)


class GoesOnAfterFourteen(Rules):
    """A piece that gives 14 is passed by."""

    def look(self, gauge, stage):
        for read, piece in enumerate(gauge.pieces[:gauge.used], 1):
            try:
                if stage < piece.top:
                    z = self.curve(piece, stage)
                    return Rating(0, z, self.noise(gauge, z), read)
            except Refused:
                pass
        return Rating(14, 0, 0, gauge.used)


class EveryPieceTested(Rules):
    """Every piece on the way is tested for 14, also where the stage is not below its top."""

    def look(self, gauge, stage):
        right = super().look(gauge, stage)
        for read, piece in enumerate(gauge.pieces[:right.pieces], 1):
            try:
                self.curve(piece, stage)
            except Refused:
                return Rating(14, 0, 0, read)
        return right


class LastReadingForAll(Rules):
    """Every gauge gets the last gauge's reading."""

    def readings(self, table, record):
        rains, releases, readings = super().readings(table, record)
        last = max(readings, default=None)
        return rains, releases, {element: readings[last] for element in readings}


class DamLetsInflowThrough(Rules):
    """What drains into a dam is added to its release."""

    def dam(self, element, release, old, drained):
        return Figures(min(CEILING, release + drained.discharge), 0, element.system_noise, 0)


class DamThroughStorage(Rules):
    """A release is blended with the old discharge, as an inflow is."""

    def dam(self, element, release, old, drained):
        discharge, _ = self.blend(old.discharge, old.margin, release, 0, SCALE // 2, 3)
        return Figures(discharge, 0, element.system_noise, 0)


class OldRelease(Rules):
    """A dam lets out what the state before held."""

    def dam(self, element, release, old, drained):
        return Figures(old.discharge, 0, element.system_noise, 0)


class DamKeepsFirstVariance(Rules):
    def dam(self, element, release, old, drained):
        return Figures(release, 0, old.variance, 0)


class DamWithoutNoise(Rules):
    def dam(self, element, release, old, drained):
        return Figures(release, 0, 0, 0)


class DamNoiseAdded(Rules):
    """W added to the variance from before, at each step and lead."""

    def dam(self, element, release, old, drained):
        return Figures(release, 0, min(CEILING, old.variance + element.system_noise), 0)


class DamMarginOne(Rules):
    def dam(self, element, release, old, drained):
        return Figures(release, 1, element.system_noise, 0)


class NoReleaseAtLeads(Rules):
    def held_discharges(self, table, state):
        return dict.fromkeys(super().held_discharges(table, state), 0)


class FirstDischargeAtLeads(Rules):
    def held_discharges(self, table, state):
        return {number: table.elements[number - 1].first_discharge for number in super().held_discharges(table, state)}


class LastReleaseForAll(Rules):
    def readings(self, table, record):
        rains, releases, readings = super().readings(table, record)
        return rains, releases[-1:] * len(releases), readings


class ReleasesBeforeRains(Rules):
    def readings(self, table, record):
        rains, stages = 3 + 4 * table.dams, 3 + 4 * table.dams + 2 * table.basins
        if len(record) == stages + 2 * len(table.gauges):
            record = record[:3] + record[rains:stages] + record[3:rains] + record[stages:]
        return super().readings(table, record)


class ReleasesAfterStages(Rules):
    def readings(self, table, record):
        stages = 3 + 2 * table.basins
        releases = stages + 2 * len(table.gauges)
        if len(record) == releases + 4 * table.dams:
            record = record[:stages] + record[releases:] + record[stages:releases]
        return super().readings(table, record)


# ---- Wrong inflows of a reach ------------------------------------------------------------------------------------------------------------


def total(figures, name):
    return sum(getattr(each, name) for each in figures)


class WrongInflow(Rules):
    """A right inflow of a reach that is then spoiled."""

    def spoil(self, right, old, new):
        raise NotImplementedError

    def reach_inflow(self, old, new):
        return self.spoil(super().reach_inflow(old, new), old, new)


class SumOfNewOutflows(WrongInflow):
    """The rule before M-103."""

    def spoil(self, right, old, new):
        return replace(right, discharge=total(new, "discharge"), margin=total(new, "margin"))


class OldForNew(WrongInflow):
    """The old outflows alone, but for the variance."""

    def spoil(self, right, old, new):
        return replace(right, discharge=total(old, "discharge"), margin=total(old, "margin") + 1)


class ElementsHalvedOneByOne(WrongInflow):
    figure = "discharge"

    def spoil(self, right, old, new):
        return replace(right, **{self.figure: sum(total(pair, self.figure) // 2 for pair in zip(old, new)) + (self.figure == "margin")})


class MarginsHalvedOneByOne(ElementsHalvedOneByOne):
    figure = "margin"


class OldAndNewHalvedApart(WrongInflow):
    figure = "discharge"

    def spoil(self, right, old, new):
        halves = total(old, self.figure) // 2 + total(new, self.figure) // 2
        return replace(right, **{self.figure: halves + (self.figure == "margin")})


class MarginsHalvedApart(OldAndNewHalvedApart):
    figure = "margin"


class HalfRoundedUp(WrongInflow):
    def spoil(self, right, old, new):
        return replace(right, discharge=right.discharge + total([*old, *new], "discharge") % 2)


class MarginHalfRoundedUp(WrongInflow):
    def spoil(self, right, old, new):
        return replace(right, margin=right.margin + total([*old, *new], "margin") % 2)


class NoMarginWhereNoneDrains(WrongInflow):
    def spoil(self, right, old, new):
        return replace(right, margin=right.margin if new else 0)


class InflowMarginWithoutOne(WrongInflow):
    """Where some drains in."""

    def spoil(self, right, old, new):
        return replace(right, margin=right.margin - bool(new))


class OneForEachAbove(WrongInflow):
    """A margin of 1 for each element that drains in."""

    def spoil(self, right, old, new):
        return replace(right, margin=right.margin - 1 + max(1, len(new)))


class OldMarginsLeftOut(WrongInflow):
    def spoil(self, right, old, new):
        return replace(right, margin=total(new, "margin") // 2 + 1)


class MarginsNotHalved(WrongInflow):
    def spoil(self, right, old, new):
        return replace(right, margin=total([*old, *new], "margin") + 1)


class MeanOverElements(WrongInflow):
    """The mean of all outflows above in place of the mean of their sums."""

    def spoil(self, right, old, new):
        return replace(right, discharge=right.discharge // max(1, len(new)))


class HalfVariance(WrongInflow):
    def spoil(self, right, old, new):
        return replace(right, variance=right.variance // 2)


class HalfVarianceMargin(WrongInflow):
    def spoil(self, right, old, new):
        return replace(right, variance_margin=right.variance_margin // 2)


class MeanVariance(WrongInflow):
    """The variance as the discharge: half the sum of old and new."""

    def spoil(self, right, old, new):
        return replace(right, variance=total([*old, *new], "variance") // 2)


class MeanVarianceMargin(WrongInflow):
    def spoil(self, right, old, new):
        return replace(right, variance_margin=total([*old, *new], "variance_margin") // 2 + 1)


class OwnOldForThoseAbove(Rules):
    """The reach's own old figures in the place of those above."""

    def outflows_above(self, table, place, old, new):
        above, new = super().outflows_above(table, place, old, new)
        return [old[place]] if above else [], new


class UncorrectedOldOutflow(Rules):
    """A gauged element's old outflow as it was before its correction."""

    def __init__(self):
        self.before = {}

    def correct(self, figures, z, noise):
        corrected = super().correct(figures, z, noise)
        self.before[corrected] = figures
        return corrected

    def outflows_above(self, table, place, old, new):
        old, new = super().outflows_above(table, place, old, new)
        return [self.before.get(each, each) for each in old], new


class WithLead(Rules):
    """Rules that know the lead."""
    lead, state = 0, None  # 0 in a step; the state of a forecast

    def forecast(self, table_bytes, state, lent):
        self.state = state
        try:
            return super().forecast(table_bytes, state, lent)
        finally:
            self.lead, self.state = 0, None

    def network(self, *given):
        self.lead += self.state is not None
        return super().network(*given)


class NewForOld(WithLead):
    """The new outflows in the place of the old ones, in a step and at the leads."""

    def old_above(self, old, new):
        return new

    def outflows_above(self, table, place, old, new):
        old, new = super().outflows_above(table, place, old, new)
        return self.old_above(old, new), new


class NewForOldInSteps(NewForOld):
    def old_above(self, old, new):
        return old if self.lead else new


class NewForOldAtLeads(NewForOld):
    def old_above(self, old, new):
        return new if self.lead else old


class NewForOldAtLeadOne(NewForOld):
    def old_above(self, old, new):
        return new if self.lead == 1 else old


class StateForOldAtLeads(NewForOld):
    """The state's outflows as the old ones of every lead."""

    def outflows_above(self, table, place, old, new):
        return Rules.outflows_above(self, table, place, self.state.figures if self.lead else old, new)


class DamNewReleaseAsOld(NewForOld):
    """The old outflow of a dam alone is wrong: here its new release."""

    def dam_outflow(self, element, old, new, given):
        return new

    def outflows_above(self, table, place, old, new):
        right, new_above = Rules.outflows_above(self, table, place, old, new)
        for at, higher in enumerate(table.above[place]):
            if table.elements[higher].kind == DAM:
                right[at] = self.dam_outflow(table.elements[higher], old[higher], new[higher], self.state and self.state.figures[higher])
        return right, new_above


class DamFirstDischargeAsOld(DamNewReleaseAsOld):
    def dam_outflow(self, element, old, new, given):
        return replace(old, discharge=element.first_discharge)


class DamNothingAsOld(DamNewReleaseAsOld):
    def dam_outflow(self, element, old, new, given):
        return replace(old, discharge=0)


class DamOldMarginLeftOut(DamNewReleaseAsOld):
    def dam_outflow(self, element, old, new, given):
        return replace(old, margin=0)


class DamOldMarginAtLeads(DamNewReleaseAsOld):
    """The margin of the state at every lead."""

    def dam_outflow(self, element, old, new, given):
        return replace(old, margin=given.margin) if given else old


class SumJudged(Rules):
    """Rule 16 on the sum of old and new discharges beside its half."""
    figure = "discharge"

    def judged(self, old, new):
        return total([*old, *new], self.figure)

    def reach_inflow(self, old, new):
        self.sum = self.judged(old, new)
        return super().reach_inflow(old, new)

    def move(self, element, weight, old, inflow):
        if element.kind == REACH:
            under_ceiling(self.sum)
        return super().move(element, weight, old, inflow)


class SumOfMarginsJudged(SumJudged):
    figure = "margin"


class OldSumJudged(SumJudged):
    def judged(self, old, new):
        return total(old, self.figure)


class NewSumJudged(SumJudged):
    def judged(self, old, new):
        return total(new, self.figure)


# ---- Wrong floats ------------------------------------------------------------------------------------------------------------------------


class WrongFloats(Rules):
    """Rules that read records of version 2 wrongly; inputs with floats are asked about them first."""


def in_32_bits(number):
    """The 32-bit float nearest to a number that a 64-bit one holds exactly, as a fraction; none where it is too large."""
    try:
        return Fraction(*unpack(">f", pack(">f", float(number))))
    except OverflowError:
        return Fraction(HIGHEST_STAGE + 1)


class ProductIn32Bits(WrongFloats):
    """The float times 1,000 as a 32-bit float, which is then rounded."""

    def millimetres(self, metres):
        return floor(in_32_bits(1_000 * metres) + HALF)


class SumIn32Bits(WrongFloats):
    """The product and the half added to it as 32-bit floats, cut off."""

    def millimetres(self, metres):
        return floor(in_32_bits(in_32_bits(1_000 * metres) + HALF))


class MillimetresCutOff(WrongFloats):
    def millimetres(self, metres):
        return floor(1_000 * metres)


class MillimetresRoundedUp(WrongFloats):
    def millimetres(self, metres):
        return ceil(1_000 * metres)


class HalvesToEven(WrongFloats):
    def millimetres(self, metres):
        return round(1_000 * metres)


class HalvesDown(WrongFloats):
    def millimetres(self, metres):
        return ceil(1_000 * metres - HALF)


class FloatsInMillimetres(WrongFloats):
    """The float is taken for millimetres."""

    def millimetres(self, metres):
        return super().millimetres(metres / 1_000)


class EveryNanAGap(WrongFloats):
    def is_gap(self, bits):
        return bits & 0x7FFF_FFFF > 0x7F80_0000


class QuietNansAGap(WrongFloats):
    """Every quiet NaN without a sign."""

    def is_gap(self, bits):
        return bits >> 22 == GAP_BITS >> 22


class GapWithSignTaken(WrongFloats):
    def is_gap(self, bits):
        return bits & 0x7FFF_FFFF == GAP_BITS


class FloatGapRefused(WrongFloats):
    def is_gap(self, bits):
        return False


class FloatGapAsZero(WrongFloats):
    """A gap is a reading of 0."""

    def stages(self, version, sent):
        return [0 if version == 2 and stage == GAP else stage for stage in super().stages(version, sent)]


class StageGapAsFloat(WrongFloats):
    """The bits of 65535 are a gap too."""

    def is_gap(self, bits):
        return bits in (GAP_BITS, GAP)


class NegativesThatRoundToZero(WrongFloats):
    """A float below zero is refused only where it is so once rounded."""

    def float_in_range(self, bits):
        metres = self.metres(bits)
        return self.is_gap(bits) or (metres is not None and 0 <= self.millimetres(metres) <= HIGHEST_STAGE)


class NegativesAsZero(WrongFloats):
    def metres(self, bits):
        metres = super().metres(bits)
        return None if metres is None else max(metres, 0)


class SignLeftOut(WrongFloats):
    def metres(self, bits):
        return super().metres(bits & 0x7FFF_FFFF)


class MinusZeroRefused(WrongFloats):
    def float_in_range(self, bits):
        return bits != 0x8000_0000 and super().float_in_range(bits)


class InfinityAsHighest(WrongFloats):
    def metres(self, bits):
        return 30 if bits == 0x7F80_0000 else super().metres(bits)


class LimitBeforeRounding(WrongFloats):
    def float_in_range(self, bits):
        return super().float_in_range(bits) and (self.is_gap(bits) or self.metres(bits) <= 30)


class LimitOneHigher(WrongFloats):
    """30,001 mm is taken."""

    def float_in_range(self, bits):
        metres = self.metres(bits)
        return super().float_in_range(bits) or (metres is not None and self.millimetres(metres) == HIGHEST_STAGE + 1)


class LimitOneLower(WrongFloats):
    """30,000 mm is refused."""

    def float_in_range(self, bits):
        return super().float_in_range(bits) and (self.is_gap(bits) or self.millimetres(self.metres(bits)) < HIGHEST_STAGE)


class ExponentOneHigh(WrongFloats):
    factor = 2

    def metres(self, bits):
        metres = super().metres(bits)
        return None if metres is None else metres * self.factor


class ExponentOneLow(ExponentOneHigh):
    factor = HALF


class LeadingOneLeftOut(WrongFloats):
    def metres(self, bits):
        metres, exponent = super().metres(bits), bits >> 23 & 0xFF
        return metres if metres is None or exponent == 0 else (bits & 0x7F_FFFF) * Fraction(2) ** (exponent - 150) * (-1) ** (bits >> 31)


class SubnormalsRefused(WrongFloats):
    def float_in_range(self, bits):
        return super().float_in_range(bits) and not 0 < bits < 0x80_0000


class SubnormalsUnscaled(WrongFloats):
    """An exponent of 0 read as if it were that of 1 m."""

    def metres(self, bits):
        return Fraction(bits, 2 ** 23) if bits < 0x80_0000 else super().metres(bits)


class FloatsFromLastByte(WrongFloats):
    """Floats in little-endian order."""

    def fields(self, table, record):
        rains, releases, sent = super().fields(table, record)
        return rains, releases, [int.from_bytes(bits.to_bytes(4, "little"), "big") for bits in sent] if record[2] == 2 else sent


class FloatHalvesChangedOver(WrongFloats):
    def fields(self, table, record):
        rains, releases, sent = super().fields(table, record)
        return rains, releases, [bits << 16 & 0xFFFF_0000 | bits >> 16 for bits in sent] if record[2] == 2 else sent


class FloatsBeforeReleases(WrongFloats):
    def fields(self, table, record):
        rains, releases, sent = super().fields(table, record)
        if record[2] == 2:
            both = [*releases, *sent]
            releases, sent = both[len(sent):], both[:len(sent)]
        return rains, releases, sent


class FourBytesUnlessVersionOne(WrongFloats):
    """Rule 10 counts 4 bytes a gauge for every version but 1."""

    def reading_bytes(self, version):
        return 2 if version == 1 else 4


class TwoBytesForVersionTwo(WrongFloats):
    def reading_bytes(self, version):
        return 2


class EitherLength(WrongFloats):
    """Rule 10 takes the length of either version for version 1."""

    def readings(self, table, record):
        longer = len(record) > 2 and record[2] == 1 and len(record) == 3 + 2 * table.basins + 4 * table.dams + 4 * len(table.gauges)
        if longer and number_at(record, 0, 2) == len(record) - 2:
            record = big_endian(len(record) - 2 - 2 * len(table.gauges), 2) + record[2:len(record) - 2 * len(table.gauges)]
        return super().readings(table, record)


class VersionTwoRefused(WrongFloats):
    record_versions = (1,)


class VersionThreeTaken(WrongFloats):
    """As version 1."""
    record_versions = (1, 2, 3)

    def stages(self, version, sent):
        return super().stages(2 if version == 2 else 1, sent)


class ThirteenForEighteen(WrongFloats):
    """13 applied to version 2."""

    def stages(self, version, sent):
        try:
            return super().stages(version, sent)
        except Refused:
            raise Refused(13)


class ThirteenForHighFloats(WrongFloats):
    """13 applied to the millimetres of version 2; 18 to what has none."""

    def stages(self, version, sent):
        try:
            return super().stages(version, sent)
        except Refused as refused:
            known = [self.metres(bits) for bits in sent if version == 2 and not self.is_gap(bits)]
            high = [metres for metres in known if metres is not None and self.millimetres(metres) > HIGHEST_STAGE]
            raise Refused(13 if high else refused.number)


class ThirteenOnHalves(WrongFloats):
    """13 applied to the bytes of version 2 as if they were stages."""

    def stages(self, version, sent):
        if version == 2 and not all(stage_in_range(half) for bits in sent for half in (bits >> 16, bits & 0xFFFF)):
            raise Refused(13)
        return super().stages(version, sent)


class EighteenForThirteen(WrongFloats):
    """18 applied to version 1."""

    def stages(self, version, sent):
        try:
            return super().stages(version, sent)
        except Refused:
            raise Refused(18)


class EighteenOnPairs(WrongFloats):
    """18 applied to the bytes of version 1 as if they were floats."""

    def stages(self, version, sent):
        right = super().stages(version, sent)
        if version == 1 and not all(self.float_in_range(high << 16 | low) for high, low in zip(sent[::2], sent[1::2])):
            raise Refused(18)
        return right


class EighteenAfterFourteen(WrongFloats):
    def refusal_beside(self, table, record):
        """14 where some gauge has it, whatever the others have."""
        *_, sent = self.fields(table, record)
        for gauge, bits in zip(table.gauges, sent):
            if self.float_in_range(bits) and not self.is_gap(bits) and self.look(gauge, self.millimetres(self.metres(bits))).refusal:
                return 14
        return 18

    def readings(self, table, record):
        try:
            return super().readings(table, record)
        except Refused as refused:
            raise Refused(self.refusal_beside(table, record) if refused.number == 18 else refused.number)


class EighteenWithFourteen(EighteenAfterFourteen):
    """Gauge after gauge its 18, then its 14."""

    def refusal_beside(self, table, record):
        *_, sent = self.fields(table, record)
        for gauge, bits in zip(table.gauges, sent):
            if not self.float_in_range(bits):
                return 18
            if not self.is_gap(bits) and self.look(gauge, self.millimetres(self.metres(bits))).refusal:
                return 14


class EighteenBeforeSeventeen(WrongFloats):
    passed = (17,)

    def readings(self, table, record):
        try:
            return super().readings(table, record)
        except Refused as refused:
            if refused.number in self.passed and record[2] == 2 and not all(map(self.float_in_range, self.fields(table, record)[2])):
                raise Refused(18)
            raise


class EighteenBeforeTwelve(EighteenBeforeSeventeen):
    passed = (12, 17)


class EighteenAsGap(WrongFloats):
    """A float that 18 refuses is a gap."""

    def stages(self, version, sent):
        return super().stages(version, [GAP_BITS if version == 2 and not self.float_in_range(bits) else bits for bits in sent])


# ---- Wrong noises ------------------------------------------------------------------------------------------------------------------------


class WrongNoise(Rules):
    """Rules by which the noise of a reading or a table of version 2 is wrong; inputs with these are asked about them first."""


class BetaIgnored(WrongNoise):
    def noise(self, gauge, z):
        return gauge.noise


class TNotRounded(WrongNoise):
    """One rounding, of the square."""

    def noise(self, gauge, z):
        return gauge.noise + gauge.beta ** 2 * z ** 2 // 10 ** 15


class TRoundedUp(WrongNoise):
    def noise(self, gauge, z):
        return gauge.noise + (-(-gauge.beta * z // 10 ** 6)) ** 2 // 1_000


class NoiseRoundedUp(WrongNoise):
    def noise(self, gauge, z):
        return gauge.noise - (-(gauge.beta * z // 10 ** 6) ** 2 // 1_000)


class NoiseNotSquared(WrongNoise):
    def noise(self, gauge, z):
        return gauge.noise + gauge.beta * z // 10 ** 6


class NoiseWithoutR(WrongNoise):
    def noise(self, gauge, z):
        return max(1, super().noise(gauge, z) - gauge.noise)


class LargerNoise(WrongNoise):
    """The larger of R and what β makes of z."""

    def noise(self, gauge, z):
        return max(gauge.noise, super().noise(gauge, z) - gauge.noise)


class NoiseOfUnroundedZ(WrongNoise):
    def look(self, gauge, stage):
        right = super().look(gauge, stage)
        piece = gauge.pieces[right.pieces - 1]
        t = gauge.beta * piece.a * (stage + piece.b) ** 2 // 10 ** 9
        return right if right.refusal else right._replace(noise=gauge.noise + t * t // 1_000)


class KnownR(int):
    """The noise of a reading, with R beside it."""

    def __new__(cls, noise, R):
        known = super().__new__(cls, noise)
        known.R = R
        return known


class RKept(WrongNoise):
    """R in the place of the noise in some of a correction's numbers."""

    def noise(self, gauge, z):
        return KnownR(super().noise(gauge, z), gauge.noise)


class RInGain(RKept):
    def gain(self, figures, noise):
        return super().gain(figures, noise.R)


class RInGainAlone(RKept):
    """Not in its margin."""

    def gain(self, figures, noise):
        return super().gain(figures, noise.R)[0], super().gain(figures, noise)[1]


class RInGainMargin(RKept):
    def gain(self, figures, noise):
        return super().gain(figures, noise)[0], super().gain(figures, noise.R)[1]


class RInVariance(RKept):
    def corrected_variance(self, figures, noise):
        return super().corrected_variance(figures, noise.R)


class RInVarianceAlone(RKept):
    """Not in its margin."""

    def corrected_variance(self, figures, noise):
        return super().corrected_variance(figures, noise.R)[0], super().corrected_variance(figures, noise)[1]


class RInVarianceMargin(RKept):
    def corrected_variance(self, figures, noise):
        return super().corrected_variance(figures, noise)[0], super().corrected_variance(figures, noise.R)[1]


class RInProduct(RKept):
    """P R over P and the noise."""

    def corrected_variance(self, figures, noise):
        return figures.variance * noise.R // (figures.variance + noise), super().corrected_variance(figures, noise)[1]


class WrongBetas(WrongNoise):
    """A right table whose gauges are then given other β."""

    def spoil(self, betas):
        raise NotImplementedError

    def table(self, table_bytes):
        right = super().table(table_bytes)
        betas = self.spoil([gauge.beta for gauge in right.gauges])
        return replace(right, gauges=tuple(replace(gauge, beta=beta) for gauge, beta in zip(right.gauges, betas)))


class BetaOfFirstGauge(WrongBetas):
    def spoil(self, betas):
        return betas[:1] * len(betas)


class BetaOfNextGauge(WrongBetas):
    """The last has its own."""

    def spoil(self, betas):
        return betas[1:] + betas[-1:]


class LowByteOfBeta(WrongBetas):
    def spoil(self, betas):
        return [beta % 256 for beta in betas]


class VersionOneWithBeta(WrongNoise):
    """Version 1 means β 100."""

    def table(self, table_bytes):
        right = super().table(table_bytes)
        return right if table_bytes[4] == 2 else replace(right, gauges=tuple(replace(gauge, beta=100) for gauge in right.gauges))


class NoiseAboveCeilingTaken(WrongNoise):
    most_noise = CEILING + 1


class NoiseNotJudged(WrongNoise):
    most_noise = 2 * CEILING


class NoiseOfCeilingRefused(WrongNoise):
    most_noise = CEILING - 1


class NoiseCutOff(WrongNoise):
    """A noise above C is C."""

    def noise(self, gauge, z):
        return min(CEILING, super().noise(gauge, z))


class NoisyReadingAsGap(WrongNoise):
    """A reading with a noise above C is left out."""

    def readings(self, table, record):
        rains, releases, readings = super().readings(table, record)
        return rains, releases, {element: reading for element, reading in readings.items() if reading[1] <= CEILING}


class NoiseWithFourteen(WrongNoise):
    """Gauge after gauge its 14, then 16 for its noise."""
    number = 16

    def look(self, gauge, stage):
        right = super().look(gauge, stage)
        return right if right.noise <= CEILING else Rating(self.number, 0, 0, right.pieces)


class FourteenForNoise(NoiseWithFourteen):
    number = 14


class NoiseBeforeZ(WrongNoise):
    """At one gauge 16 for the noise before 14 for the z that it is of."""

    def look(self, gauge, stage):
        right = super().look(gauge, stage)
        piece = gauge.pieces[right.pieces - 1]
        z, taken = piece.a * (stage + piece.b) ** 2 // 1_000, stage + piece.b >= 0
        return Rating(16, 0, 0, right.pieces) if right.refusal and taken and self.noise(gauge, z) > CEILING else right


class NoiseOfGapJudged(WrongNoise):
    """A gap has the noise of the highest z."""

    def readings(self, table, record):
        right = super().readings(table, record)
        if any(gauge.element not in right[2] and self.noise(gauge, CEILING) > CEILING for gauge in table.gauges if gauge.beta):
            raise Refused(16)
        return right


# ---- Wrong tables of version 2 -----------------------------------------------------------------------------------------------------------


def gauges_of(table_bytes, size):
    """What stands before the gauges of a table, and each of them by its bytes."""
    first = HEADER_BYTES + ELEMENT_BYTES * (table_bytes[8] if len(table_bytes) > 8 else 0)
    return table_bytes[:first], [table_bytes[at:at + size] for at in range(first, len(table_bytes), size)]


class PatchedTable(WrongNoise):
    """A table of one version is judged with other bytes."""
    version = 2

    def patched(self, table_bytes):
        raise NotImplementedError

    def table(self, table_bytes):
        return super().table(self.patched(bytes(table_bytes)) if table_bytes[4:5] == bytes([self.version]) else table_bytes)


class TableVersionTwoRefused(PatchedTable):
    def patched(self, table_bytes):
        return table_bytes[:4] + bytes([3]) + table_bytes[5:]


class TableVersionThreeTaken(PatchedTable):
    """As version 2."""
    version = 3

    def patched(self, table_bytes):
        return table_bytes[:4] + bytes([2]) + table_bytes[5:]


class GaugesOf46Bytes(PatchedTable):
    """Version 2 is read as version 1."""

    def patched(self, table_bytes):
        return table_bytes[:4] + bytes([1]) + table_bytes[5:]


class GaugesOf48Bytes(PatchedTable):
    """Version 1 is read as version 2."""
    version = 1

    def patched(self, table_bytes):
        return table_bytes[:4] + bytes([2]) + table_bytes[5:]


class BetaFromLastByte(PatchedTable):
    """β in little-endian order."""

    def patched(self, table_bytes):
        head, gauges = gauges_of(table_bytes, GAUGE_BYTES[2])
        return head + b"".join(gauge[:46] + gauge[:45:-1] for gauge in gauges)


class BetaBeforeGauge(PatchedTable):
    """β stands before the rest of its gauge."""

    def patched(self, table_bytes):
        head, gauges = gauges_of(table_bytes, GAUGE_BYTES[2])
        return head + b"".join(gauge[2:] + gauge[:2] for gauge in gauges)


class BetaInVersionOne(WrongNoise):
    """The two bytes after each gauge of version 1 are read as its β; after the last there is none."""

    def table(self, table_bytes):
        right = super().table(table_bytes)
        if table_bytes[4] == 1:
            _, gauges = gauges_of(table_bytes, GAUGE_BYTES[1])
            betas = [number_at(after, 0, 2) for after in gauges[1:]] + [0]
            if max(betas) > HIGHEST_BETA:
                raise Refused(7)
            right = replace(right, gauges=tuple(replace(gauge, beta=beta) for gauge, beta in zip(right.gauges, betas)))
        return right


class BetaNotJudged(WrongNoise):
    """A β up to this is taken."""
    most_beta = 65_535

    def table(self, table_bytes):
        try:
            return super().table(table_bytes)
        except Refused as refused:
            if refused.number != 7 or table_bytes[4] != 2:
                raise
        head, gauges = gauges_of(table_bytes, GAUGE_BYTES[2])
        betas = [number_at(gauge, 46, 2) for gauge in gauges]
        if max(betas) > self.most_beta:
            raise Refused(7)
        right = super().table(head + b"".join(gauge[:46] + bytes(2) for gauge in gauges))
        return replace(right, gauges=tuple(replace(gauge, beta=beta) for gauge, beta in zip(right.gauges, betas)))


class BetaAboveHighestTaken(BetaNotJudged):
    most_beta = HIGHEST_BETA + 1


class HighestBetaRefused(WrongNoise):
    def table(self, table_bytes):
        right = super().table(table_bytes)
        if any(gauge.beta == HIGHEST_BETA for gauge in right.gauges):
            raise Refused(7)
        return right


# ---- Less water by more rain, or another variance ----------------------------------------------------------------------------------------


class RainIn8Bits(Rules):
    def kept(self, rain):
        return rain % 256

    def readings(self, table, record):
        rains, *rest = super().readings(table, record)
        return [self.kept(rain) for rain in rains], *rest


class RainCappedAndWrapped(RainIn8Bits):
    """A rain above 1,024 is taken as 1,024, which has one bit more than is kept."""

    def kept(self, rain):
        return min(rain, 1_024) % 1_024


class RainSumIn12Bits(Rules):
    def lead_rain_inflow(self, element, rains, steps, lead):
        return super().lead_rain_inflow(element, (sum(rains[:min(3, steps)]) % 4_096,), steps, lead)


class RainProductIn32Bits(Rules):
    def step_rain_inflow(self, element, rain):
        right = super().step_rain_inflow(element, rain)
        return replace(right, discharge=5 * rain * element.area * element.runoff % 2 ** 32 // 18)


class LossBySquareOfRain(Rules):
    def step_rain_inflow(self, element, rain):
        right = super().step_rain_inflow(element, rain)
        return replace(right, discharge=right.discharge * (HIGHEST_RAIN - rain) // HIGHEST_RAIN)


class MeanOfWetRains(Rules):
    """The mean over the count of the rains above 0."""

    def lead_rain_inflow(self, element, rains, steps, lead):
        wet = [rain for rain in rains[:min(3, steps)] if rain]
        return super().lead_rain_inflow(element, wet, len(wet), lead)


class LeadNoiseAfterRain(Rules):
    """No G where no rain has come."""

    def lead_rain_inflow(self, element, rains, steps, lead):
        return super().lead_rain_inflow(element, rains, steps, lead if any(rains) else 0)


class InflowVarianceOfRain(Rules):
    """A tenth of a step's inflow as its standard deviation."""

    def step_rain_inflow(self, element, rain):
        right = super().step_rain_inflow(element, rain)
        return replace(right, variance=(right.discharge // 10_000) ** 2 // 1_000)


class GainOfDischarge(Rules):
    """In the gain a tenth of the discharge counts as a standard deviation too."""

    def gain(self, figures, noise):
        return super().gain(replace(figures, variance=figures.variance + (figures.discharge // 10_000) ** 2 // 1_000), noise)


class GainOfDistance(Rules):
    """In the gain the square of the distance from the reading is added to the variance."""

    def correct(self, figures, z, noise):
        square = (abs(z - figures.discharge) // 1_000) ** 2 // 1_000
        gain, gain_margin = self.gain(replace(figures, variance=figures.variance + square), noise)
        discharge, margin = self.blend(figures.discharge, figures.margin, z, 1, SCALE - gain, gain_margin)
        return replace(super().correct(figures, z, noise), discharge=discharge, margin=margin)


class NoiseOfDischarge(WrongNoise):
    """The noise is that of the element's discharge, not of the reading's."""

    def noise(self, gauge, z):
        return gauge

    def correct(self, figures, z, gauge):
        return super().correct(figures, z, super().noise(gauge, figures.discharge))


class OnlyReadingsAbove(Rules):
    """A reading below the element's discharge corrects nothing."""

    def correct(self, figures, z, noise):
        return super().correct(figures, z, noise) if z > figures.discharge else figures


class OutflowsIn32Bits(WrongInflow):
    def spoil(self, right, old, new):
        return replace(right, discharge=total([*old, *new], "discharge") % 2 ** 32 // 2)


class HalfLagAtHighWater(Rules):
    """Above 100 m³/s an element empties twice as fast."""

    def move(self, element, weight, old, inflow):
        return super().move(element, weight * weight // SCALE if old.discharge > 100_000_000 else weight, old, inflow)


class DamHoldsInflowBack(Rules):
    """What drains into a dam is taken off its release."""

    def dam(self, element, release, old, drained):
        return Figures(max(0, release - drained.discharge), 0, element.system_noise, 0)


# ---- Wrong refusals --------------------------------------------------------------------------------------------------------------------


class TwelveForThirteen(Rules):
    def readings(self, table, record):
        try:
            return super().readings(table, record)
        except Refused as refused:
            raise Refused(12 if refused.number == 13 else refused.number)


class SixteenForEverything(Rules):
    def step(self, table_bytes, record, state):
        raise Refused(16)


class HighestRecordRuleWins(Rules):
    """13 before 12."""

    def readings(self, table, record):
        try:
            return super().readings(table, record)
        except Refused as refused:
            if refused.number == 12:
                *_, stages = whole_numbers.record_fields(table, record)
                if any(stage > HIGHEST_STAGE and stage != GAP for stage in stages):
                    raise Refused(13)
            raise


class SeventeenAfterThirteen(Rules):
    """The numbers for no in their own order: 13 before 17."""

    def readings(self, table, record):
        try:
            return super().readings(table, record)
        except Refused as refused:
            if refused.number == 17 and not all(map(stage_in_range, whole_numbers.record_fields(table, record)[2])):
                raise Refused(13)
            raise


class SeventeenBeforeTwelve(Rules):
    def readings(self, table, record):
        try:
            return super().readings(table, record)
        except Refused as refused:
            if refused.number == 12 and max(whole_numbers.record_fields(table, record)[1], default=0) > CEILING:
                raise Refused(17)
            raise


class ReleaseOfCeilingRefused(Rules):
    most_release = CEILING - 1


class ReleaseAboveCeilingTaken(Rules):
    most_release = CEILING + 1


class DamInflowJudged(Rules):
    """Rule 16 on what drains into a dam."""

    def dam(self, element, release, old, drained):
        under_ceiling(*drained.numbers())
        return super().dam(element, release, old, drained)


class RainGap(Rules):
    """Rain 65535 taken for a gap, as no rain."""

    def readings(self, table, record):
        if len(record) >= 3 + 2 * table.basins:
            patched = bytearray(record)
            for at in range(3, 3 + 2 * table.basins, 2):
                if number_at(record, at, 2) == GAP:
                    patched[at:at + 2] = b"\0\0"
            record = bytes(patched)
        return super().readings(table, record)


class NegativeDepthSquared(Rules):
    """Rule 14 without h + b below 0."""

    def curve(self, piece, stage):
        return super().curve(whole_numbers.Piece(piece.top, piece.a, abs(stage + piece.b)), 0)


class OnlyValuesUnderCeiling(Rules):
    """Rule 16 without margins."""

    def blend(self, x, x_margin, y, y_margin, weight, weight_margin):
        value, margin = super().blend(x, 0, y, 0, weight, 0)
        gap = max(x, y) - min(x, y)
        margin = ((weight * x_margin + (SCALE - weight) * y_margin) // SCALE + weight_margin * (gap + x_margin + y_margin) // SCALE + 3)
        return value, min(CEILING, margin)


class CeilingTakesOneMore(Rules):
    """Rain inflow of C itself refused."""

    def step_rain_inflow(self, element, rain):
        inflow = super().step_rain_inflow(element, rain)
        return Figures(inflow.discharge + (inflow.discharge == CEILING), *inflow.numbers()[1:])


class ElevenThousandSteps(Rules):
    most_steps = 11_000


class NineThousandSteps(Rules):
    most_steps = 9_999


class SixForSeven(Rules):
    def start(self, table_bytes, state):
        try:
            return super().start(table_bytes, state)
        except Refused as refused:
            raise Refused(6 if refused.number == 7 else refused.number)


# ---- Wrong programs --------------------------------------------------------------------------------------------------------------------


class OneLineTooFew(Program):
    def run(self, data):
        return b"".join(super().run(data).splitlines(keepends=True)[:-1])


class LinesByLead(Program):
    """By lead and then element."""

    def figure_lines(self, steps, count, leads, answer):
        lines = super().figure_lines(steps, count, leads, answer).splitlines(keepends=True)
        return b"".join(lines[number * (leads + 1) + lead] for lead in range(leads + 1) for number in range(count))


class TwoSpaces(Program):
    def figure_lines(self, steps, count, leads, answer):
        return super().figure_lines(steps, count, leads, answer).replace(b" ", b"  ")


class ElevenEndsRun(Program):
    last_ending_refusal = 16


class TenGoesOn(Program):
    last_ending_refusal = 9


class SeventeenEndsRun(Program):
    ends = b" refused 17\n"

    def run(self, data):
        return b"".join(super().run(data).partition(self.ends)[:2])


class EighteenEndsRun(SeventeenEndsRun):
    ends = b" refused 18\n"


class ForecastRefusalDropsStep(Program):
    keeps_step_without_forecast = False


class OneRecordTooMany(Program):
    most_records = 100_001


class OneRecordTooFew(Program):
    most_records = 99_999


class LongTableRead(Program):
    """A table above 2,442 bytes judged like any other."""
    longest_table = 1 << 20


class OneTableByteMore(Program):
    longest_table = LONGEST_TABLE + 1


class LongestOfVersionOne(Program):
    """The longest table is still 2,410 bytes."""
    longest_table = 2_410


class LongestByVersion(Program):
    """2,410 bytes for version 1, and 2,442 for every other."""

    def run(self, data):
        self.longest_table = 2_410 if data[4:5] == b"\1" else LONGEST_TABLE
        return super().run(data)


class CutRecordDropped(Program):
    """A cut record ends the run with nothing printed."""

    def run(self, data):
        lines = super().run(data).splitlines(keepends=True)
        return b"".join(lines[:-1] if lines and lines[-1].endswith(b"refused 10\n") else lines)


class EmptyInputSilent(Program):
    def run(self, data):
        return super().run(data) if data else b""


# ---- Wrong libraries -------------------------------------------------------------------------------------------------------------------


class OneNumberMore(Library):
    """A forecast that writes one number after its answer."""

    def forecast(self, call):
        reply = super().forecast(call)
        if reply.count < len(reply.numbers):
            reply.numbers[reply.count] = 0
        return reply


class WritesThoughRefused(Library):
    """Lead 0 is written before rule 16 is known."""

    def refused(self, call, number):
        reply = super().refused(call, number)
        if call.entry == "forecast" and number == 16:
            reply.numbers[:4] = array("Q", call.state.figures[0].numbers())
        return reply


class CountOfRoom(Library):
    """The count of lent numbers in place of those written."""

    def forecast(self, call):
        return replace(super().forecast(call), count=len(call.lent))


class CountThoughRefused(Library):
    def refused(self, call, number):
        return replace(super().refused(call, number), count=len(call.lent) if number in (15, 16) else 0)


class ForecastMovesState(Library):
    """A forecast that works in the host's state."""

    def forecast(self, call):
        return replace(super().forecast(call), kept=0)


class RoomOneShort(Library):
    def forecast(self, call):
        reply = super().forecast(replace(call, lent=(*call.lent, 0)))
        return replace(reply, numbers=reply.numbers[:-1])


class RoomOneMore(Library):
    def forecast(self, call):
        reply = super().forecast(call)
        if reply.count == len(call.lent):
            raise Refused(15)
        return reply


class RefusedStateMoved(Library):
    """The step count of a refused step goes up."""

    def refused(self, call, number):
        reply = super().refused(call, number)
        if call.entry == "step" and number == 16:
            reply.numbers[1] += 1
        return reply


class RefusedRainsMoved(Library):
    """A basin's rains are moved before rule 16 is known."""

    def refused(self, call, number):
        reply = super().refused(call, number)
        if call.entry == "step" and number == 16 and decode_table(call.table).elements[0].kind == BASIN:
            reply.numbers[6:9] = array("Q", (number_at(call.record, 3, 2), *call.state.rains[0][:2]))
        return reply


class RefusedStepBegun(Library):
    """The new figures of element 1 are in the state before rule 16 is known of the others."""

    def refused(self, call, number):
        reply = super().refused(call, number)
        table = decode_table(call.table) if call.entry == "step" and number == 16 else None
        if table and table.elements[0].kind != DAM:
            element, rain = table.elements[0], number_at(call.record, 3, 2)
            inflow = self.rules.step_rain_inflow(element, rain) if element.kind == BASIN else self.rules.reach_inflow([], [])
            try:
                weight = self.rules.weight(table.step_minutes, element.lag)
                reply.numbers[2:6] = array("Q", self.rules.move(element, weight, call.state.figures[0], inflow).numbers())
            except Refused:
                pass
        return reply


class RefusedStartBegun(Library):
    """A start sets N and the step count before rule 7 is known."""

    def refused(self, call, number):
        reply = super().refused(call, number)
        if call.entry == "start" and number == 7:
            reply.numbers[:2] = array("Q", (call.table[8], 0))
        return reply


class RefusedFloatCounted(Library):
    """The step count of a step that 18 refuses goes up."""

    def refused(self, call, number):
        reply = super().refused(call, number)
        if call.entry == "step" and number == 18:
            reply.numbers[1] += 1
        return reply


class PlacesBeyondCleared(Library):
    def step(self, call):
        reply = super().step(call)
        at = 2 + 7 * call.state.count
        reply.numbers[at:] = array("Q", [0] * (len(reply.numbers) - at))
        return reply


class StartClearsBeyond(Library):
    def start(self, call):
        reply = super().start(call)
        at = 2 + 7 * call.table[8]
        reply.numbers[at:] = array("Q", [0] * (len(reply.numbers) - at))
        return reply


class NextPlaceWritten(Library):
    """What leaves the river stands in the place after the last element's."""

    def step(self, call):
        reply = super().step(call)
        at = 2 + 7 * call.state.count
        if at < len(reply.numbers):
            reply.numbers[at:at + 4] = reply.numbers[at - 7:at - 3]
        return reply


class StepKeepsRains(Library):
    def step(self, call):
        reply = super().step(call)
        for place, rains in enumerate(call.state.rains):
            reply.numbers[6 + 7 * place:9 + 7 * place] = array("Q", rains)
        return reply


class CountsThoughRefused(Library):
    """A refused check gives the counts all the same."""

    def refused(self, call, number):
        reply = super().refused(call, number)
        if call.entry == "check" and number > 3:
            reply.numbers[:3] = array("Q", (call.table[8], call.table[7], call.table[9]))
        return reply


class NoMinutes(Library):
    def check(self, call):
        reply = super().check(call)
        reply.numbers[9] = 0
        return reply


class LowByteOfMinutes(Library):
    def check(self, call):
        reply = super().check(call)
        reply.numbers[9] %= 256
        return reply


class OldVersion(Library):
    """A library of version 5 with a header of version 6."""

    def version(self, call):
        reply = super().version(call)
        reply.numbers[0] -= 1
        return reply


class StartKeepsRains(Library):
    def start(self, call):
        reply = super().start(call)
        reply.numbers[6:9] = array("Q", call.state.rains[0])
        return reply


class StartClearsReachRains(Library):
    kind = REACH

    def start(self, call):
        reply = super().start(call)
        for place, element in enumerate(decode_table(call.table).elements):
            if element.kind == self.kind:
                reply.numbers[6 + 7 * place:9 + 7 * place] = array("Q", (0, 0, 0))
        return reply


class StartClearsDamRains(StartClearsReachRains):
    kind = DAM


class StepMovesReachRains(Library):
    kind = REACH

    def step(self, call):
        reply = super().step(call)
        for place, element in enumerate(decode_table(call.table).elements):
            if element.kind == self.kind:
                reply.numbers[6 + 7 * place:9 + 7 * place] = array("Q", (0, *call.state.rains[place][:2]))
        return reply


class StepMovesDamRains(StepMovesReachRains):
    kind = DAM


class DamLeadsKeepMargin(Library):
    """At the leads a dam keeps one of the state's figures."""
    figure = 1

    def forecast(self, call):
        reply, table = super().forecast(call), decode_table(call.table)
        for number in table.numbers_of(DAM):
            kept = call.state.figures[number - 1].numbers()[self.figure]
            for lead in range(1, table.leads + 1):
                reply.numbers[4 * ((number - 1) * (table.leads + 1) + lead) + self.figure] = kept
        return reply


class DamLeadsKeepVariance(DamLeadsKeepMargin):
    figure = 2


class DamLeadsKeepVarianceMargin(DamLeadsKeepMargin):
    figure = 3


class DamsNotTold(Library):
    def check(self, call):
        reply = super().check(call)
        reply.numbers[4] = 0
        return reply


class TanksNotTold(Library):
    def check(self, call):
        reply = super().check(call)
        reply.numbers[5] = 0
        return reply


class ElementsToldAsPlaces(Library):
    def check(self, call):
        reply = super().check(call)
        reply.numbers[6] = reply.numbers[0]
        return reply


class ForecastNumbersOfTanks(Library):
    """The plan's forecast has numbers of every tank."""

    def check(self, call):
        reply = super().check(call)
        reply.numbers[8] = 4 * reply.numbers[6] * (reply.numbers[1] + 1)
        return reply


class RecordBytesWithoutReleases(Library):
    def check(self, call):
        reply = super().check(call)
        reply.numbers[7] -= 4 * reply.numbers[4]
        return reply


class WrongLook(Rules):
    """A right look whose rating is then spoiled where a printed output does not show it."""

    def spoil(self, rating, gauge, stage):
        raise NotImplementedError

    def look(self, gauge, stage):
        return self.spoil(super().look(gauge, stage), gauge, stage)


class CountOfPiecesInUse(WrongLook):
    def spoil(self, rating, gauge, stage):
        return rating._replace(pieces=gauge.used)


class CountFromZero(WrongLook):
    def spoil(self, rating, gauge, stage):
        return rating._replace(pieces=rating.pieces - 1)


class CountFromLast(WrongLook):
    """The right piece, found and counted from the last on."""

    def spoil(self, rating, gauge, stage):
        return rating._replace(pieces=gauge.used - rating.pieces + 1)


class CountOfAllTops(WrongLook):
    """All five tops are compared and those not above the stage counted: too many where pieces are not in use, as their tops are 0."""

    def spoil(self, rating, gauge, stage):
        return rating._replace(pieces=1 + sum(piece.top <= stage for piece in gauge.pieces))


class NoCountAtFourteen(WrongLook):
    def spoil(self, rating, gauge, stage):
        return rating._replace(pieces=0) if rating.refusal else rating


class LastFourteenAsNoPiece(WrongLook):
    """14 of the last piece in use is told as of the one after it."""

    def spoil(self, rating, gauge, stage):
        return rating._replace(pieces=gauge.used + 1) if rating.refusal and rating.pieces == gauge.used else rating


class DischargeAtFourteen(WrongLook):
    def spoil(self, rating, gauge, stage):
        piece = gauge.pieces[rating.pieces - 1]
        return rating._replace(discharge=piece.a * (stage + piece.b) ** 2 // 1_000)


class NoiseAtFourteen(WrongLook):
    """R is handed out with 14."""

    def spoil(self, rating, gauge, stage):
        return rating._replace(noise=gauge.noise) if rating.refusal else rating


class WrongRate(Rules):
    """A right rate which is then spoiled, where a reading's noise is asked for."""

    def spoil(self, rating, found):
        """`found` is the look before its noise is judged."""
        raise NotImplementedError

    def rate(self, table_bytes, number, stage):
        right, gauges = super().rate(table_bytes, number, stage), self.table(table_bytes).gauges
        return self.spoil(right, self.look(gauges[number - 1], stage)) if right.pieces else right


class RateWithoutNoise(WrongRate):
    def spoil(self, rating, found):
        return rating._replace(noise=0)


class RateWithR(WrongRate):
    def rate(self, table_bytes, number, stage):
        right, gauges = super(WrongRate, self).rate(table_bytes, number, stage), self.table(table_bytes).gauges
        return right._replace(noise=gauges[number - 1].noise) if right.noise else right


class RateOfAnyNoise(WrongRate):
    """A rate does not judge its noise."""

    def spoil(self, rating, found):
        return found


class NoPiecesAtSixteen(WrongRate):
    def spoil(self, rating, found):
        return rating._replace(pieces=0) if rating.refusal == 16 else rating


class DischargeAtSixteen(WrongRate):
    def spoil(self, rating, found):
        return rating._replace(discharge=found.discharge)


class NoiseAtSixteen(WrongRate):
    def spoil(self, rating, found):
        return rating._replace(noise=found.noise)


class FourteenForSixteenInRate(WrongRate):
    def spoil(self, rating, found):
        return rating._replace(refusal=14) if rating.refusal else rating


class NoiseOfNoReading(Rules):
    """A rate of a gap tells R."""

    def rate(self, table_bytes, number, stage):
        right, gauges = super().rate(table_bytes, number, stage), self.table(table_bytes).gauges
        return right._replace(noise=gauges[number - 1].noise) if stage == GAP and 1 <= number <= len(gauges) else right


class ThirteenNotJudged(Rules):
    """A rate takes a stage above 30,000 by the last piece."""

    def rate(self, table_bytes, number, stage):
        gauges = decode_table(table_bytes).gauges
        if not stage_in_range(stage) and 1 <= number <= len(gauges):
            return self.look(gauges[number - 1], stage)
        return super().rate(table_bytes, number, GAP if stage > GAP else stage)


class ThirteenAfterGauge(Rules):
    """A gauge that is not there is answered before 13 is judged."""

    def rate(self, table_bytes, number, stage):
        there = 1 <= number <= len(decode_table(table_bytes).gauges)
        return super().rate(table_bytes, number, stage if there else 0)


class ThirteenBeforeTable(Rules):
    def rate(self, table_bytes, number, stage):
        if not stage_in_range(stage):
            raise Refused(13)
        return super().rate(table_bytes, number, stage)


class NoGaugeBeforeTable(Rules):
    """Gauge 0 is answered before the table is judged."""

    def rate(self, table_bytes, number, stage):
        return super().rate(table_bytes, number, stage) if number else Rating(0, 0, 0, 0)


class GapLookedAlong(Rules):
    """A rate takes a gap as stage 65,535, by the last piece."""

    def rate(self, table_bytes, number, stage):
        right = super().rate(table_bytes, number, stage)
        gauges = decode_table(table_bytes).gauges
        return self.look(gauges[number - 1], stage) if stage == GAP and 1 <= number <= len(gauges) else right


class GapAsThirteen(Rules):
    def rate(self, table_bytes, number, stage):
        return super().rate(table_bytes, number, stage + (stage == GAP))


class GaugeFromZero(Rules):
    def rate(self, table_bytes, number, stage):
        return super().rate(table_bytes, number + 1, stage)


class GaugeOfLowHalf(Rules):
    def rate(self, table_bytes, number, stage):
        return super().rate(table_bytes, number % 2 ** 32, stage)


class StageOfTwoBytes(Rules):
    bits = 16

    def rate(self, table_bytes, number, stage):
        return super().rate(table_bytes, number, stage % 2 ** self.bits)


class StageOfLowHalf(StageOfTwoBytes):
    bits = 32


class SevenForNoGauge(Rules):
    def rate(self, table_bytes, number, stage):
        right = super().rate(table_bytes, number, stage)
        if not 1 <= number <= len(decode_table(table_bytes).gauges):
            raise Refused(7)
        return right


# ---- Wrong displays ----------------------------------------------------------------------------------------------------------------------


def double_bits(number):
    return int.from_bytes(pack(">d", number), "big")


class WrongDisplay(Rules):
    """Rules by which a display alone is wrong."""


class DisplayMultiplied(WrongDisplay):
    def shown(self, count):
        return double_bits(count * 0.000001)


class DisplayDividedTwice(WrongDisplay):
    def shown(self, count):
        return double_bits(count / 1_000 / 1_000)


class DisplayIn32Bits(WrongDisplay):
    """The quotient as a 32-bit float."""

    def shown(self, count):
        return double_bits(float(in_32_bits(count / 1_000_000)))


class DisplayOfCountIn32Bits(WrongDisplay):
    """The count as a 32-bit float, divided in 64 bits."""

    def shown(self, count):
        return double_bits(float(in_32_bits(count)) / 1_000_000)


class DisplayCutOff(WrongDisplay):
    """The quotient rounded towards 0."""

    def shown(self, count):
        bits = super().shown(count)
        return bits - (Fraction(*unpack(">d", bits.to_bytes(8, "big"))) > Fraction(count, 1_000_000))


class DisplayInLitres(WrongDisplay):
    def shown(self, count):
        return double_bits(count / 1_000)


class DisplayChangedOver(WrongDisplay):
    """The margin in the place of the discharge, and the other way round."""

    def show(self, discharge, margin):
        return super().show(margin, discharge)


class DisplayNotJudged(WrongDisplay):
    def show(self, discharge, margin):
        return self.shown(discharge), self.shown(margin)


class DisplayDischargeJudged(WrongDisplay):
    """The ceiling is judged of the discharge alone."""

    def show(self, discharge, margin):
        return super().show(discharge, 0)[0], self.shown(margin)


class DisplayMarginJudged(WrongDisplay):
    def show(self, discharge, margin):
        return self.shown(discharge), super().show(0, margin)[1]


class DisplayLowHalvesJudged(WrongDisplay):
    def show(self, discharge, margin):
        return super().show(discharge % 2 ** 32, margin % 2 ** 32)


class DisplayOfCeilingRefused(WrongDisplay):
    def show(self, discharge, margin):
        return super().show(discharge + (discharge == CEILING), margin + (margin == CEILING))


class DisplayThoughRefused(Library):
    """A refused display shows its counts all the same."""

    def refused(self, call, number):
        reply = super().refused(call, number)
        return replace(reply, numbers=array("Q", map(self.rules.shown, call.asked))) if call.entry == "show" else reply


class DisplayRefusedAsMinusZero(Library):
    def refused(self, call, number):
        reply = super().refused(call, number)
        return replace(reply, numbers=array("Q", [2 ** 63] * 2)) if call.entry == "show" else reply


class ShownBy(Library):
    """A library by rules with a wrong display; only the cases of the display are asked about it."""


class FloatsBy(Library):
    """A library by rules with wrong floats; only the cases of floats are asked about it."""


class NoisesBy(Library):
    """A library by rules with wrong noises or tables of version 2; only the cases of these are asked about it."""


class TanksBy(Library):
    """A library by rules with wrong tanks; only the cases of these are asked about it."""

    def reply(self, call):
        """What it writes beyond the places that are sent, the driver would see."""
        try:
            return super().reply(call)
        except IndexError:
            return Reply(0, 0, 0, array("Q"))


class InflowsBy(Library):
    """A library by rules with wrong inflows; only the cases of the mean inflow are asked about it."""


class WrongTrial(Library):
    """A library that is right but for its trials; only the cases of trials are asked about it."""


class TrialsBy(WrongTrial):
    """Trials by wrong rules."""

    def __init__(self, wrong):
        super().__init__()
        self.wrong = wrong

    def trial(self, call):
        return Library(self.wrong).trial(call)


class TrialMovesState(WrongTrial):
    """A trial that works in the host's state."""

    def trial(self, call):
        return replace(super().trial(call), kept=0)


class TrialWritesOneMore(WrongTrial):
    def trial(self, call):
        reply = super().trial(call)
        if reply.count < len(reply.numbers):
            reply.numbers[reply.count] = 0
        return reply


class TrialClearsRest(WrongTrial):
    def trial(self, call):
        reply = super().trial(call)
        return replace(reply, numbers=reply.numbers[:reply.count] + array("Q", [0] * (len(call.lent) - reply.count)))


class TrialWritesThoughRefused(WrongTrial):
    """Element 1 is written before rule 16 is known of the others."""

    def refused(self, call, number):
        reply = super().refused(call, number)
        if call.entry == "trial" and number == 16:
            reply.numbers[:4] = array("Q", call.state.figures[0].numbers())
        return reply


class TrialCountOfRoom(WrongTrial):
    def trial(self, call):
        return replace(super().trial(call), count=len(call.lent))


class TrialCountThoughRefused(WrongTrial):
    """The count that would have been written."""

    def refused(self, call, number):
        return replace(super().refused(call, number), count=4 * call.table[8] if call.entry == "trial" and number in (15, 16) else 0)


class TrialRoomOneShort(WrongTrial):
    def trial(self, call):
        reply = super().trial(replace(call, lent=(*call.lent, 0)))
        return replace(reply, numbers=reply.numbers[:-1])


class TrialRoomOneMore(WrongTrial):
    def trial(self, call):
        reply = super().trial(call)
        if reply.count == len(call.lent):
            raise Refused(15)
        return reply


class TrialRoomOfForecast(WrongTrial):
    """15 where a forecast would have it."""

    def trial(self, call):
        reply = super().trial(call)
        if len(call.lent) < reply.count * (call.table[7] + 1):
            raise Refused(15)
        return reply


class TrialLaidOutByLeads(WrongTrial):
    """The figures of an element stand where a forecast has its lead 0."""

    def trial(self, call):
        reply, numbers = super().trial(call), array("Q", call.lent)
        for place in range(call.table[8]):
            at = 4 * place * (call.table[7] + 1)
            if at + 4 <= len(numbers):
                numbers[at:at + 4] = reply.numbers[4 * place:4 * place + 4]
        return replace(reply, numbers=numbers)


class FifteenAfterSixteen(Rules):
    def trial(self, table_bytes, record, state, lent):
        super().trial(table_bytes, record, state, [0] * 256)
        return super().trial(table_bytes, record, state, lent)


class NoiseBeforeFifteen(Rules):
    """16 for a noise is judged before 15."""

    def step_input(self, table_bytes, record, state):
        given = super().step_input(table_bytes, record, state)
        under_ceiling(0, *(noise for _, noise in given[-1].values()))
        return given


class FifteenBeforeFourteen(Rules):
    """15 is judged before these numbers."""
    passed = (14,)

    def trial(self, table_bytes, record, state, lent):
        try:
            return super().trial(table_bytes, record, state, lent)
        except Refused as refused:
            if refused.number in self.passed and len(table_bytes) > 8 and len(lent) < 4 * table_bytes[8]:
                raise Refused(15)
            raise


class FifteenBeforeEighteen(FifteenBeforeFourteen):
    passed = (18, 14)


class FifteenBeforeSeventeen(FifteenBeforeFourteen):
    passed = (17, 13, 18, 14)


class FifteenBeforeTen(FifteenBeforeFourteen):
    passed = (10, 11, 12, 17, 13, 18, 14)


class FifteenBeforeNine(FifteenBeforeFourteen):
    passed = (9, *FifteenBeforeTen.passed)


class FifteenBeforeEight(FifteenBeforeFourteen):
    passed = (8, *FifteenBeforeNine.passed)


class FifteenBeforeTable(FifteenBeforeFourteen):
    passed = (*range(1, 8), *FifteenBeforeEight.passed)


class NineNotGiven(Rules):
    def trial(self, table_bytes, record, state, lent):
        return super().trial(table_bytes, record, replace(state, steps=9_999) if state.steps == 10_000 else state, lent)


class FiguresBeforeStep(Rules):
    """The figures of the state that was given."""

    def stepped(self, table, rain_of, release_of, readings, state):
        super().stepped(table, rain_of, release_of, readings, state)
        return state.figures[:len(table.elements)]


class FiguresOfLeadOne(Rules):
    """Lead 1 of a forecast, with the mean rain and no reading."""

    def trial(self, table_bytes, record, state, lent):
        written, _ = super().trial(table_bytes, record, state, lent)
        table = decode_table(table_bytes)
        rows = answer_rows(self.forecast(table_bytes, state, [0] * 4 * 64 * 13)[1], written * (table.leads + 1))
        return written, [number for row in rows[1::table.leads + 1] for number in row] + list(lent[written:])


class FiguresBeforeCorrection(Rules):
    """A gauged element is handed out as it was before its correction; what flows on is corrected."""
    corrected = None

    def correct(self, figures, z, noise):
        self.corrected = super().correct(figures, z, noise)
        return figures

    def new_outflow(self, figures, uncorrected):
        given, self.corrected = self.corrected or figures, None
        return given


class FiguresOnePlaceEarly(Rules):
    """The figures of an element stand in the place before its own, those of element 1 in the last."""

    def stepped(self, table, rain_of, release_of, readings, state):
        new = super().stepped(table, rain_of, release_of, readings, state)
        return new[1:] + new[:1]


class ReadingOnElementBefore(Rules):
    """A reading corrects the element before the gauge's."""
    away = -1

    def stepped(self, table, rain_of, release_of, readings, state):
        moved = {}
        for number, reading in readings.items():
            other = number + self.away
            fits = 1 <= other <= len(table.elements) and table.elements[other - 1].kind != DAM
            moved[other if fits else number] = reading
        return super().stepped(table, rain_of, release_of, moved, state)


class ReadingOnElementAfter(ReadingOnElementBefore):
    away = 1


class ReadingOnElementsAbove(Rules):
    """A reading also corrects what drains into the gauge's element."""

    def stepped(self, table, rain_of, release_of, readings, state):
        above = {number: readings[element.down] for number, element in enumerate(table.elements, 1)
                 if element.down in readings and element.kind != DAM}
        return super().stepped(table, rain_of, release_of, above | readings, state)


class DamPassesVarianceOn(Rules):
    """What drains into a dam adds to its variance."""

    def dam(self, element, release, old, drained):
        return Figures(release, 0, min(CEILING, element.system_noise + drained.variance), 0)


class LooksBeyond(Rules):
    """Rule 8 on one place more than N."""

    def check_state(self, table, state):
        super().check_state(table, state)
        if state.count < 64 and max(state.figures[state.count].numbers()) > CEILING:
            raise Refused(8)


class LooksAtReachRains(Rules):
    kind = REACH

    def check_state(self, table, state):
        super().check_state(table, state)
        if any(max(state.rains[number - 1]) > HIGHEST_RAIN for number in table.numbers_of(self.kind)):
            raise Refused(8)


class LooksAtDamRains(LooksAtReachRains):
    kind = DAM


class LooksNotAtDams(Rules):
    """Rule 8 without the figures of dams."""

    def check_state(self, table, state):
        dams = table.numbers_of(DAM)
        figures = [Figures(0, 0, 0, 0) if number in dams else each for number, each in enumerate(state.figures, 1)]
        super().check_state(table, replace(state, figures=figures))


class DamKeepsMargin(Rules):
    def dam(self, element, release, old, drained):
        return Figures(release, old.margin, element.system_noise, 0)


class DamKeepsVarianceMargin(Rules):
    def dam(self, element, release, old, drained):
        return Figures(release, 0, element.system_noise, old.variance_margin)


class LooksNotAt(Rules):
    """Rule 8 without one of the seven numbers of a place."""
    number = 6

    def check_state(self, table, state):
        figures = [Figures(*(0 if which == self.number else value for which, value in enumerate(each.numbers()))) for each in state.figures]
        rains = [tuple(0 if which + 4 == self.number else value for which, value in enumerate(each)) for each in state.rains]
        super().check_state(table, State(state.count, state.steps, figures, rains))


class LooksNotAtLastPlace(Rules):
    def check_state(self, table, state):
        figures = [*state.figures[:state.count - 1], Figures(0, 0, 0, 0), *state.figures[state.count:]]
        super().check_state(table, replace(state, figures=figures))


class LowHalves(Rules):
    """Rule 8 on the low 32 bits of each number."""

    def check_state(self, table, state):
        figures = [Figures(*(value % 2 ** 32 for value in each.numbers())) for each in state.figures]
        super().check_state(table, State(state.count % 2 ** 32, state.steps % 2 ** 32, figures, state.rains))


class AllThreeRains(Rules):
    """The sum of all three rains of the state, whatever the step count, divided by c."""

    def lead_rain_inflow(self, element, rains, steps, lead):
        return super().lead_rain_inflow(element, (sum(rains), 0, 0) if steps == 1 else (rains[0], sum(rains[1:]), 0) if steps == 2 else rains,
                                        steps, lead)


class CeilingOf(Watched):
    """Rule 16 with another limit for the numbers of one name."""

    def __init__(self, name, limit):
        self.name, self.limit = name, limit

    def watch(self, name, number):
        if number > (self.limit if name == self.name else CEILING):
            raise Refused(16)


# The others of rule 16's numbers cannot pass C where rule 8 holds; call_cases.all_at_ceiling brings them as high as they go.
REACHING_THE_CEILING = ("basin inflow", "reach inflow", "reach inflow margin", "reach inflow variance", "reach inflow variance margin",
                        "moved margin", "moved variance", "corrected margin", "noise")
# The same of inner tanks.
TANKS_REACHING_THE_CEILING = ("reach inflow", "reach inflow margin", "reach inflow variance", "reach inflow variance margin", "moved margin",
                              "moved variance")


# ---- Wrong tanks -------------------------------------------------------------------------------------------------------------------------


class WrongTanks(WithLead):
    """Rules that work elements of tanks out wrongly; inputs with tanks are asked about them first."""


class NoTanks(WrongTanks):
    """An element of tanks is worked out as one reach."""

    def moved_tanks(self, element, weight, old, inflow):
        return [*old[:-1], self.move(element, weight, old[-1], inflow)]


class OneTankMore(WrongTanks):
    more = 1

    def table(self, table_bytes):
        table = super().table(table_bytes)
        return replace(table, elements=tuple(replace(each, runoff=each.runoff + self.more) if each.kind == TANKS else each
                                             for each in table.elements))


class OneTankLess(OneTankMore):
    more = -1


class TanksInParallel(WrongTanks):
    """Each tank is fed by what drains into the element."""

    def moved_tanks(self, element, weight, old, inflow):
        return [self.move(element, weight, figures, inflow) for figures in old]


class TankLagDivided(WrongTanks):
    """The element's lag is shared by its tanks."""

    def network(self, table, *given):
        elements = [replace(each, lag=max(table.step_minutes, each.lag // each.tanks)) for each in table.elements]
        return super().network(replace(table, elements=tuple(elements)), *given)


class TankLagMultiplied(WrongTanks):
    def network(self, table, *given):
        elements = [replace(each, lag=each.lag * each.tanks) for each in table.elements]
        return super().network(replace(table, elements=tuple(elements)), *given)


class TankNoiseOf(WrongTanks):
    """W is not added in every tank."""

    def has_noise(self, tank, count):
        raise NotImplementedError

    def moved_tanks(self, element, weight, old, inflow):
        new, silent = [], replace(element, system_noise=0)
        for tank, figures in enumerate(old):
            if tank:
                inflow = self.tank_inflow(old[tank - 1], new[tank - 1])
            new.append(self.move(element if self.has_noise(tank, len(old)) else silent, weight, figures, inflow))
        return new


class TankNoiseInLast(TankNoiseOf):
    def has_noise(self, tank, count):
        return tank == count - 1


class TankNoiseInFirst(TankNoiseOf):
    def has_noise(self, tank, count):
        return tank == 0


class TankNoiseShared(WrongTanks):
    """W is divided by the count of tanks."""

    def moved_tanks(self, element, weight, old, inflow):
        return super().moved_tanks(replace(element, system_noise=element.system_noise // len(old)), weight, old, inflow)


class TankFirstValues(WrongTanks):
    """Inner tanks start from other figures than the element's first values."""

    def first(self, element):
        raise NotImplementedError

    def start(self, table_bytes, state):
        started, table = super().start(table_bytes, state), self.table(table_bytes)
        for element, places in zip(table.elements, table.tanks):
            for place in places[:-1]:
                started.figures[place] = self.first(element)
        return started


class FirstValuesInLastTank(TankFirstValues):
    def first(self, element):
        return Figures(0, 0, 0, 0)


class FirstVarianceInLastTank(TankFirstValues):
    def first(self, element):
        return Figures(element.first_discharge, 0, 0, 0)


class FirstDischargeInLastTank(TankFirstValues):
    def first(self, element):
        return Figures(0, 0, element.first_variance, 0)


class FirstDischargeShared(TankFirstValues):
    def first(self, element):
        return Figures(element.first_discharge // element.tanks, 0, element.first_variance, 0)


class InnerTanksNotStarted(WrongTanks):
    """A start leaves in inner tanks what stands there."""

    def start(self, table_bytes, state):
        started = super().start(table_bytes, state)
        started.figures[started.count:] = state.figures[started.count:]
        return started


class ReadingOnFirstTank(WrongTanks):
    def corrected_tanks(self, tanks, z, noise):
        return [self.correct(tanks[0], z, noise), *tanks[1:]]


class ReadingOnEveryTank(WrongTanks):
    def corrected_tanks(self, tanks, z, noise):
        return [self.correct(figures, z, noise) for figures in tanks]


class ReadingCopiedToEveryTank(WrongTanks):
    def corrected_tanks(self, tanks, z, noise):
        return [self.correct(tanks[-1], z, noise)] * len(tanks)


class ReadingsOnTanksIgnored(WrongTanks):
    def corrected_tanks(self, tanks, z, noise):
        return tanks if len(tanks) > 1 else super().corrected_tanks(tanks, z, noise)


class FirstTankDrains(WrongTanks):
    """The first tank's figures are the element's."""

    def moved_tanks(self, element, weight, old, inflow):
        return super().moved_tanks(element, weight, old[::-1], inflow)[::-1]


class TankPlacesShared(WrongTanks):
    """The inner tanks of every element stand from place N on."""

    def network(self, table, *given):
        shared, first = replace(table), len(table.elements)
        shared.__dict__["tanks"] = [(*range(first, first + each.tanks - 1), place) for place, each in enumerate(table.elements)]
        shared.__dict__["places"] = table.places
        new = super().network(shared, *given)
        return [new[place] or given[0][place] for place in range(table.places)]


class FirstTankByNewOutflow(WrongTanks):
    """The first tank takes the new outflow above as if it had stood all step."""

    def outflows_above(self, table, place, old, new):
        above, new = super().outflows_above(table, place, old, new)
        return new if table.elements[place].kind == TANKS else above, new


class FirstTankByOldOutflow(WrongTanks):
    def outflows_above(self, table, place, old, new):
        above, new = super().outflows_above(table, place, old, new)
        return above, above if table.elements[place].kind == TANKS else new


class NewForOldBetweenTanks(WrongTanks):
    def tank_inflow(self, old, new):
        return super().tank_inflow(new, new)


class OldForNewBetweenTanks(WrongTanks):
    """As where the last tank is moved first."""

    def tank_inflow(self, old, new):
        return super().tank_inflow(old, old)


class SpoiledTankInflow(WrongTanks):
    """What a tank takes from the one above is wrong in one figure."""

    def spoil(self, right, old, new):
        raise NotImplementedError

    def tank_inflow(self, old, new):
        return self.spoil(super().tank_inflow(old, new), old, new)


class TankHalfRoundedUp(SpoiledTankInflow):
    def spoil(self, right, old, new):
        return replace(right, discharge=(old.discharge + new.discharge + 1) // 2)


class TankMarginHalfRoundedUp(SpoiledTankInflow):
    def spoil(self, right, old, new):
        return replace(right, margin=(old.margin + new.margin + 1) // 2 + 1)


class TankMarginWithoutOne(SpoiledTankInflow):
    def spoil(self, right, old, new):
        return replace(right, margin=right.margin - 1)


class TankMarginOfNew(SpoiledTankInflow):
    def spoil(self, right, old, new):
        return replace(right, margin=new.margin)


class TankMarginLeftOut(SpoiledTankInflow):
    def spoil(self, right, old, new):
        return replace(right, margin=0)


class TankVarianceNotCarried(SpoiledTankInflow):
    def spoil(self, right, old, new):
        return replace(right, variance=0)


class TankVarianceMarginNotCarried(SpoiledTankInflow):
    def spoil(self, right, old, new):
        return replace(right, variance_margin=0)


class TankVarianceOfOld(SpoiledTankInflow):
    def spoil(self, right, old, new):
        return replace(right, variance=old.variance, variance_margin=old.variance_margin)


class MeanVarianceBetweenTanks(SpoiledTankInflow):
    def spoil(self, right, old, new):
        return replace(right, variance=(old.variance + new.variance) // 2)


class TankOutflowsIn32Bits(SpoiledTankInflow):
    """Old and new of the tank above are added in 32 bits."""

    def spoil(self, right, old, new):
        return replace(right, discharge=(old.discharge + new.discharge) % 2 ** 32 // 2)


class TanksFrozenAtLeads(WrongTanks):
    """Inner tanks stay at the leads as the state has them."""

    def moved_tanks(self, element, weight, old, inflow):
        new = super().moved_tanks(element, weight, old, inflow)
        return [*old[:-1], self.last_by(element, weight, old, new)] if self.lead and len(old) > 1 else new

    def last_by(self, element, weight, old, new):
        return self.move(element, weight, old[-1], self.tank_inflow(old[-2], old[-2]))


class InnerTanksNotKeptAtLeads(TanksFrozenAtLeads):
    """Every lead moves the inner tanks from the state's figures; the last is worked out by them."""

    def last_by(self, element, weight, old, new):
        return new[-1]


class InnerTanksNotKept(WrongTanks):
    """A step leaves the inner tanks as they were."""

    def step(self, table_bytes, record, state):
        moved = super().step(table_bytes, record, state)
        moved.figures[state.count:] = state.figures[state.count:]
        return moved


class TanksAtLeadsAsReach(WrongTanks):
    """At the leads an element of tanks is one reach."""

    def moved_tanks(self, element, weight, old, inflow):
        if not self.lead:
            return super().moved_tanks(element, weight, old, inflow)
        return [*old[:-1], self.move(element, weight, old[-1], inflow)]


class Unjudged(Watched):
    """Rule 16 refuses nothing."""

    def watch(self, name, number):
        pass


class InnerTanksNotJudged(WrongTanks):
    """Rule 16 on the last tank of an element alone."""

    def unjudged(self):
        return True

    def moved_tanks(self, element, weight, old, inflow):
        if len(old) == 1 or not self.unjudged():
            return super().moved_tanks(element, weight, old, inflow)
        inner = Unjudged().moved_tanks(element, weight, old[:-1], inflow)
        return [*inner, self.move(element, weight, old[-1], self.tank_inflow(old[-2], inner[-1]))]


class InnerTanksNotJudgedInSteps(InnerTanksNotJudged):
    def unjudged(self):
        return not self.lead


class InnerTanksNotJudgedAtLeads(InnerTanksNotJudged):
    def unjudged(self):
        return self.lead > 0


class FirstTankNotJudged(WrongTanks):
    """Rule 16 on every tank but not on what drains into the first."""

    def moved_tanks(self, element, weight, old, inflow):
        if len(old) == 1:
            return super().moved_tanks(element, weight, old, inflow)
        first = Unjudged().moved_tanks(element, weight, old[:1], inflow)
        rest = super().moved_tanks(element, weight, old[1:], self.tank_inflow(old[0], first[0]))
        under_ceiling(*first[0].numbers())
        return first + rest


class PatchedTanks(WrongTanks):
    """A table is judged with other fields of its elements of tanks."""
    offsets = {"kind": (0, 1), "lag": (2, 2), "area": (4, 4), "f": (8, 2), "G": (22, 4)}

    def patched(self, element, step_minutes):
        raise NotImplementedError

    def table(self, table_bytes):
        data = bytes(table_bytes)
        count = data[8] if len(data) > HEADER_BYTES else 0
        for at in range(HEADER_BYTES, min(HEADER_BYTES + ELEMENT_BYTES * count, len(data) - ELEMENT_BYTES + 1), ELEMENT_BYTES):
            if data[at] == TANKS:
                for name, value in self.patched(whole_numbers.decode_element(data, at), number_at(data, 5, 2)).items():
                    start, size = self.offsets[name]
                    data = data[:at + start] + big_endian(value, size) + data[at + start + size:]
        return super().table(data)


class OneTankTaken(PatchedTanks):
    def patched(self, element, step_minutes):
        return dict(kind=REACH, f=0) if element.runoff == 1 else {}


class NoTankTaken(PatchedTanks):
    def patched(self, element, step_minutes):
        return dict(kind=REACH) if element.runoff == 0 else {}


class NineTanksTaken(PatchedTanks):
    def patched(self, element, step_minutes):
        return dict(f=8) if element.runoff == 9 else {}


class EightTanksRefused(PatchedTanks):
    def patched(self, element, step_minutes):
        return dict(f=9) if element.runoff == 8 else {}


class TwoTanksRefused(PatchedTanks):
    def patched(self, element, step_minutes):
        return dict(f=1) if element.runoff == 2 else {}


class LowByteOfTanks(PatchedTanks):
    def patched(self, element, step_minutes):
        return dict(f=element.runoff % 256)


class AreaOfTanksTaken(PatchedTanks):
    def patched(self, element, step_minutes):
        return dict(area=0)


class RainNoiseOfTanksTaken(PatchedTanks):
    def patched(self, element, step_minutes):
        return dict(G=0)


class ShortLagOfTanksTaken(PatchedTanks):
    """The lag of all tanks together is held to T."""

    def patched(self, element, step_minutes):
        return dict(lag=step_minutes) if element.lag * element.runoff >= step_minutes > element.lag else {}


class LagOverTanksJudged(PatchedTanks):
    """The lag divided by the count of tanks is held to T."""

    def patched(self, element, step_minutes):
        return dict(lag=0) if element.lag < step_minutes * element.runoff else {}


class TanksRefused(PatchedTanks):
    def patched(self, element, step_minutes):
        return dict(kind=5)


class KindFiveAsTanks(WrongTanks):
    def table(self, table_bytes):
        data = bytes(table_bytes)
        for at in range(HEADER_BYTES, HEADER_BYTES + ELEMENT_BYTES * data[8] if len(data) > HEADER_BYTES else 0, ELEMENT_BYTES):
            if data[at:at + 1] == b"\5":
                data = data[:at] + bytes([TANKS]) + data[at + 1:]
        return super().table(data)


class DownToTanksRefused(WrongTanks):
    def table(self, table_bytes):
        table = super().table(table_bytes)
        if any(each.down and table.elements[each.down - 1].kind == TANKS for each in table.elements):
            raise Refused(6)
        return table


class GaugeOnTanksRefused(WrongTanks):
    def table(self, table_bytes):
        table = super().table(table_bytes)
        if any(table.elements[gauge.element - 1].kind == TANKS for gauge in table.gauges):
            raise Refused(7)
        return table


# Only libraries: what a host's state and space show.


class LooksNotAtInnerTanks(WrongTanks):
    """Rule 8 without the inner tanks."""

    def passed_over(self, table):
        return range(len(table.elements), table.places)

    def check_state(self, table, state):
        over = self.passed_over(table)
        super().check_state(table, replace(state, figures=[Figures(0, 0, 0, 0) if place in over else figures
                                                           for place, figures in enumerate(state.figures)]))


class LooksNotAtLastInnerTank(LooksNotAtInnerTanks):
    def passed_over(self, table):
        return range(max(len(table.elements), table.places - 1), table.places)


class LooksBeyondTanks(WrongTanks):
    """Rule 8 on one place more than those in use."""

    def check_state(self, table, state):
        super().check_state(table, state)
        if max(state.figures[table.places].numbers()) > CEILING:
            raise Refused(8)


class LooksAtEightTanksEach(WrongTanks):
    """Rule 8 on eight tanks of each element of them, in use or not."""

    def check_state(self, table, state):
        super().check_state(table, state)
        places = len(table.elements) + 7 * len(table.numbers_of(TANKS))
        if any(max(figures.numbers()) > CEILING for figures in state.figures[:places]):
            raise Refused(8)


class LooksAtTankRains(LooksAtReachRains):
    """Rule 8 on the rains of an element of tanks."""
    kind = TANKS


class LooksAtInnerTankRains(WrongTanks):
    def check_state(self, table, state):
        super().check_state(table, state)
        if any(max(rains) > HIGHEST_RAIN for rains in state.rains[len(table.elements):table.places]):
            raise Refused(8)


class TankRainsMoved(WrongTanks):
    """A step moves the rains of inner tanks, as those of a basin with no rain."""

    def places_of(self, table):
        return range(len(table.elements), table.places)

    def step(self, table_bytes, record, state):
        moved = super().step(table_bytes, record, state)
        for place in self.places_of(self.table(table_bytes)):
            moved.rains[place] = (0, *moved.rains[place][:2])
        return moved


class LastTankRainsMoved(TankRainsMoved):
    def places_of(self, table):
        return [number - 1 for number in table.numbers_of(TANKS)]


class TankRainsStarted(WrongTanks):
    """A start sets the rains of inner tanks to 0."""

    def start(self, table_bytes, state):
        started, table = super().start(table_bytes, state), self.table(table_bytes)
        started.rains[started.count:table.places] = [(0, 0, 0)] * (table.places - started.count)
        return started


class UnusedPlacesStarted(WrongTanks):
    """A start sets places that are not in use to 0."""

    def start(self, table_bytes, state):
        started, table = super().start(table_bytes, state), self.table(table_bytes)
        started.figures[table.places:] = [Figures(0, 0, 0, 0)] * (len(started.figures) - table.places)
        return started


class UnusedPlacesCleared(WrongTanks):
    """A step does, in a river with tanks."""

    def step(self, table_bytes, record, state):
        moved, table = super().step(table_bytes, record, state), self.table(table_bytes)
        if table.places > len(table.elements):
            moved.figures[table.places:] = [Figures(0, 0, 0, 0)] * (len(moved.figures) - table.places)
        return moved


class InnerTankMarginsKept(WrongTanks):
    """A start leaves the margins of inner tanks."""

    def start(self, table_bytes, state):
        started, table = super().start(table_bytes, state), self.table(table_bytes)
        for place in range(started.count, table.places):
            started.figures[place] = replace(started.figures[place], margin=state.figures[place].margin)
        return started


class InnerTanksFromLast(WrongTanks):
    """The inner tanks of an element stand the lowest first."""

    def moved_tanks(self, element, weight, old, inflow):
        *inner, last = super().moved_tanks(element, weight, [*old[-2::-1], old[-1]], inflow)
        return [*inner[::-1], last]


class ElementsOfTanksFromLast(WrongTanks):
    """The inner tanks of the last element stand first."""

    def network(self, table, *given):
        turned, at = replace(table), table.places
        tanks = []
        for place, each in enumerate(table.elements):
            at -= each.tanks - 1
            tanks.append((*range(at, at + each.tanks - 1), place))
        turned.__dict__["tanks"], turned.__dict__["places"] = tanks, table.places
        return super().network(turned, *given)


class RoomForTanks(WrongTanks):
    """Rule 15 counts the inner tanks."""

    def judge_room(self, table_bytes, lent, leads):
        table = self.table(table_bytes)
        if len(lent) < 4 * table.places * (leads + 1):
            raise Refused(15)

    def forecast(self, table_bytes, state, lent):
        answer = super().forecast(table_bytes, state, lent)
        self.judge_room(table_bytes, lent, self.table(table_bytes).leads)
        return answer

    def trial(self, table_bytes, record, state, lent):
        answer = super().trial(table_bytes, record, state, lent)
        self.judge_room(table_bytes, lent, 0)
        return answer


class TanksOfOtherState(WrongTanks):
    """Rule 8 refuses an inner tank that is zero, as of a river without tanks."""

    def check_state(self, table, state):
        super().check_state(table, state)
        inner = state.figures[len(table.elements):table.places]
        if inner and all(figures == Figures(0, 0, 0, 0) for figures in inner):
            raise Refused(8)


# Standard input does not reach what these look at.
ONLY_LIBRARIES = (LooksBeyond, LooksAtReachRains, LooksAtDamRains, LooksNotAtDams, LooksNotAtLastPlace, LowHalves, AllThreeRains,
                  DamKeepsMargin, DamKeepsVarianceMargin, CountOfPiecesInUse, CountFromZero, CountFromLast, CountOfAllTops,
                  NoCountAtFourteen, LastFourteenAsNoPiece, DischargeAtFourteen, ThirteenNotJudged, ThirteenAfterGauge,
                  ThirteenBeforeTable, NoGaugeBeforeTable, GapLookedAlong, GapAsThirteen, GaugeFromZero, GaugeOfLowHalf, StageOfTwoBytes,
                  StageOfLowHalf, SevenForNoGauge, NoiseAtFourteen, RateWithoutNoise, RateWithR, RateOfAnyNoise, NoPiecesAtSixteen,
                  DischargeAtSixteen, NoiseAtSixteen, FourteenForSixteenInRate, NoiseOfNoReading)
# Wrong programs that are wrong libraries too: a rate shows more of them than standard input.
WRONG_LOOKS = (NextPieceAtTop, LastPieceFirst, GoesOnAfterFourteen, EveryPieceTested)
# The same of wrong inflows: the states of a host show more than a run.
WRONG_INFLOWS = (UncorrectedInflow, SumOfNewOutflows, OldForNew, ElementsHalvedOneByOne, MarginsHalvedOneByOne, OldAndNewHalvedApart,
                 MarginsHalvedApart, HalfRoundedUp, MarginHalfRoundedUp, NoMarginWhereNoneDrains, InflowMarginWithoutOne, OneForEachAbove,
                 OldMarginsLeftOut, MarginsNotHalved, MeanOverElements, HalfVariance, HalfVarianceMargin, MeanVariance, MeanVarianceMargin,
                 OwnOldForThoseAbove, UncorrectedOldOutflow, NewForOld, NewForOldInSteps, NewForOldAtLeads, NewForOldAtLeadOne,
                 StateForOldAtLeads, DamNewReleaseAsOld, DamFirstDischargeAsOld, DamNothingAsOld, DamOldMarginLeftOut, DamOldMarginAtLeads,
                 SumJudged, SumOfMarginsJudged, OldSumJudged, NewSumJudged)
# And of wrong floats.
WRONG_FLOATS = (ProductIn32Bits, SumIn32Bits, MillimetresCutOff, HalvesToEven, HalvesDown, EveryNanAGap, QuietNansAGap, GapWithSignTaken,
                FloatGapRefused, FloatGapAsZero, NegativesThatRoundToZero, SignLeftOut, MinusZeroRefused, InfinityAsHighest,
                LimitBeforeRounding, LimitOneHigher, LimitOneLower, ExponentOneHigh, LeadingOneLeftOut, SubnormalsRefused, FloatsFromLastByte,
                FloatsBeforeReleases, FourBytesUnlessVersionOne, TwoBytesForVersionTwo, EitherLength, VersionTwoRefused, VersionThreeTaken,
                ThirteenForEighteen, ThirteenForHighFloats, ThirteenOnHalves, EighteenForThirteen, EighteenAfterFourteen,
                EighteenWithFourteen, EighteenBeforeSeventeen, EighteenAsGap)
# And of wrong noises and tables of version 2.
WRONG_NOISES = (BetaIgnored, TNotRounded, TRoundedUp, NoiseRoundedUp, NoiseNotSquared, NoiseWithoutR, LargerNoise, NoiseOfUnroundedZ,
                RInGain, RInGainAlone, RInGainMargin, RInVariance, RInVarianceAlone, RInVarianceMargin, RInProduct, BetaOfFirstGauge,
                BetaOfNextGauge, LowByteOfBeta, VersionOneWithBeta, NoiseAboveCeilingTaken, NoiseNotJudged, NoiseOfCeilingRefused,
                NoiseCutOff, NoisyReadingAsGap, NoiseWithFourteen, FourteenForNoise, NoiseBeforeZ, NoiseOfGapJudged,
                TableVersionTwoRefused, TableVersionThreeTaken, GaugesOf46Bytes, GaugesOf48Bytes, BetaFromLastByte, BetaBeforeGauge,
                BetaInVersionOne, BetaNotJudged, BetaAboveHighestTaken, HighestBetaRefused)
# And of wrong tanks; of the second list standard input shows nothing.
WRONG_TANKS = (NoTanks, OneTankMore, OneTankLess, TanksInParallel, TankLagDivided, TankLagMultiplied, TankNoiseInLast, TankNoiseInFirst,
               TankNoiseShared, FirstValuesInLastTank, FirstVarianceInLastTank, FirstDischargeInLastTank, FirstDischargeShared,
               InnerTanksNotStarted, ReadingOnFirstTank, ReadingOnEveryTank, ReadingCopiedToEveryTank, ReadingsOnTanksIgnored,
               FirstTankDrains, TankPlacesShared, FirstTankByNewOutflow, FirstTankByOldOutflow, NewForOldBetweenTanks,
               OldForNewBetweenTanks, TankHalfRoundedUp, TankMarginHalfRoundedUp, TankMarginWithoutOne, TankMarginOfNew, TankMarginLeftOut,
               TankVarianceNotCarried, TankVarianceMarginNotCarried, TankVarianceOfOld, MeanVarianceBetweenTanks, TankOutflowsIn32Bits,
               TanksFrozenAtLeads, InnerTanksNotKeptAtLeads, InnerTanksNotKept, TanksAtLeadsAsReach, InnerTanksNotJudged,
               InnerTanksNotJudgedInSteps, InnerTanksNotJudgedAtLeads, FirstTankNotJudged, OneTankTaken, NoTankTaken, NineTanksTaken,
               EightTanksRefused, TwoTanksRefused, LowByteOfTanks, AreaOfTanksTaken, RainNoiseOfTanksTaken, ShortLagOfTanksTaken,
               LagOverTanksJudged, TanksRefused, KindFiveAsTanks, DownToTanksRefused, GaugeOnTanksRefused)
ONLY_TANK_LIBRARIES = (LooksNotAtInnerTanks, LooksNotAtLastInnerTank, LooksBeyondTanks, LooksAtEightTanksEach, LooksAtTankRains,
                       LooksAtInnerTankRains, TankRainsMoved, LastTankRainsMoved, TankRainsStarted, UnusedPlacesStarted,
                       UnusedPlacesCleared, InnerTankMarginsKept, InnerTanksFromLast, ElementsOfTanksFromLast, RoomForTanks,
                       TanksOfOtherState)
# Of wrong tanks, what the same river in reaches shows without the calculator: all but those that take or refuse another table.
APART_BY_REACHES = WRONG_TANKS[:WRONG_TANKS.index(OneTankTaken)]
# Of these, what the same numbers in tables of both versions show without the calculator, β being 0.
APART_BY_TABLE = (TableVersionTwoRefused, GaugesOf46Bytes, GaugesOf48Bytes, BetaBeforeGauge, BetaInVersionOne, VersionOneWithBeta)
# Of wrong floats, what the same readings in both versions show.
APART_BY_VERSION = (MillimetresCutOff, FloatGapAsZero, FloatsInMillimetres, ExponentOneHigh, LeadingOneLeftOut, FloatsFromLastByte,
                    FloatsBeforeReleases, VersionTwoRefused)
# What two storms show, the second with more rain. A wrong rule by which more rain still gives at least as much water, as RainSumByThree,
# is none of these.
APART_BY_RAIN = (RainIn8Bits, RainCappedAndWrapped, RainSumIn12Bits, RainProductIn32Bits, LossBySquareOfRain, MeanOfWetRains,
                 LeadNoiseAfterRain, InflowVarianceOfRain, GainOfDischarge, GainOfDistance, NoiseOfDischarge, OnlyReadingsAbove,
                 OutflowsIn32Bits, HalfLagAtHighWater, DamHoldsInflowBack, TankOutflowsIn32Bits)
WRONG_DISPLAYS = (DisplayMultiplied, DisplayDividedTwice, DisplayIn32Bits, DisplayOfCountIn32Bits, DisplayCutOff, DisplayInLitres,
                  DisplayChangedOver, DisplayNotJudged, DisplayDischargeJudged, DisplayMarginJudged, DisplayLowHalvesJudged,
                  DisplayOfCeilingRefused)
# Rules by which trials alone are worked out: what only they can have wrong, and wrong steps.
WRONG_TRIALS = (FifteenAfterSixteen, NoiseBeforeFifteen, FifteenBeforeFourteen, FifteenBeforeEighteen, FifteenBeforeSeventeen,
                FifteenBeforeTen, FifteenBeforeNine, FifteenBeforeEight, FifteenBeforeTable, NineNotGiven, FiguresBeforeStep,
                FiguresOfLeadOne, FiguresBeforeCorrection, FiguresOnePlaceEarly, ReadingOnElementBefore, ReadingOnElementAfter,
                ReadingOnElementsAbove, DamPassesVarianceOn)
WRONG_STEPS = (ReadingsIgnored, ReadingsIgnoredByZeroGain, ReadingTakenWhole, CorrectionVarianceKept, GainMarginTwo, GapAsStage65535,
               GapAsStageZero, UncorrectedInflow, VarianceWeightNotSquared, SystemNoiseLeftOut, NextPieceAtTop, LastReadingForAll,
               SumOfNewOutflows, OldForNew, NewForOldInSteps, DamNewReleaseAsOld, DamOldMarginLeftOut, NoMarginWhereNoneDrains, SumJudged,
               DamLetsInflowThrough, OldRelease, LastReleaseForAll, DamInflowJudged, TwelveForThirteen, SeventeenAfterThirteen,
               SeventeenBeforeTwelve, NegativeDepthSquared, OnlyValuesUnderCeiling, CeilingTakesOneMore, NineThousandSteps,
               ElevenThousandSteps, LooksBeyond, LooksAtReachRains, LooksAtDamRains, LooksNotAtLastPlace, LowHalves, ProductIn32Bits,
               HalvesDown, EveryNanAGap, FloatGapAsZero, NegativesThatRoundToZero, LimitOneHigher, ThirteenForEighteen,
               EighteenAfterFourteen, EighteenBeforeSeventeen, BetaIgnored, TNotRounded, NoiseOfUnroundedZ, RInGain, RInGainMargin,
               RInVariance, RInVarianceMargin, BetaOfNextGauge, NoiseNotJudged, NoiseOfCeilingRefused, NoiseWithFourteen, NoiseOfGapJudged)
# Of these, readings that change what their gauge's water does not reach.
LEAKS = (ReadingOnElementBefore, ReadingOnElementAfter, ReadingOnElementsAbove, DamPassesVarianceOn, LastReadingForAll, DamLetsInflowThrough)
# DamOldMarginLeftOut and the next: in a run a dam's margin is 0.
NO_PROGRAMS = (Rules, Program, WrongAnswer, WrongInflow, WrongFloats, WrongNoise, RKept, WrongBetas, PatchedTable, WrongLook, WrongRate,
               WrongDisplay, Watched, LooksNotAt, CeilingOf, DamOldMarginLeftOut, DamOldMarginAtLeads, *ONLY_LIBRARIES, *WRONG_TRIALS,
               *WRONG_DISPLAYS, WithLead, WrongTanks, TankNoiseOf, TankFirstValues, SpoiledTankInflow, Unjudged, PatchedTanks,
               *ONLY_TANK_LIBRARIES)
NO_LIBRARIES = (Library, InflowsBy, FloatsBy, NoisesBy, TanksBy, ShownBy, WrongTrial, TrialsBy)


def libraries():
    for wrong in list(globals().values()):
        if isinstance(wrong, type) and issubclass(wrong, Library) and wrong not in NO_LIBRARIES:
            yield wrong.__name__, wrong()
    for wrong in ONLY_LIBRARIES:
        yield wrong.__name__, Library(wrong())
    for wrong in WRONG_LOOKS:
        yield f"{wrong.__name__} in calls", Library(wrong())
    for wrong in WRONG_INFLOWS:
        yield f"{wrong.__name__} in calls", InflowsBy(wrong())
    for wrong in WRONG_FLOATS:
        yield f"{wrong.__name__} in calls", FloatsBy(wrong())
    for wrong in WRONG_NOISES:
        yield f"{wrong.__name__} in calls", NoisesBy(wrong())
    for wrong in WRONG_TANKS:
        yield f"{wrong.__name__} in calls", TanksBy(wrong())
    for wrong in ONLY_TANK_LIBRARIES:
        yield wrong.__name__, TanksBy(wrong())
    for wrong in WRONG_DISPLAYS:
        yield wrong.__name__, ShownBy(wrong())
    for wrong in (*WRONG_TRIALS, *WRONG_STEPS):
        yield f"{wrong.__name__} in trials", TrialsBy(wrong())
    for number in range(7):
        wrong = LooksNotAt()
        wrong.number = number
        yield f"LooksNotAt {number}", Library(wrong)
    for name in REACHING_THE_CEILING:
        yield f"CeilingOf {name}, C refused", Library(CeilingOf(name, CEILING - 1))
        yield f"CeilingOf {name}, C + 1 taken", Library(CeilingOf(name, CEILING + 1))
    for name in TANKS_REACHING_THE_CEILING:
        yield f"CeilingOf {INNER}{name}, C refused", TanksBy(CeilingOf(INNER + name, CEILING - 1))
        if name != "moved variance":  # C + 1 there is C + 1 as the variance of the next tank's inflow
            yield f"CeilingOf {INNER}{name}, C + 1 taken", TanksBy(CeilingOf(INNER + name, CEILING + 1))


# What stands once in bench/plain_calls.c or bench/river_in_c.h, and what a wrong library has in its place.
STEPPED, FORECAST = "    set_next_values(&t, record + 3, space, state);\n", "    memcpy(numbers, space + t.leads + 1, sizeof *numbers * count);\n"
WRITTEN = "    refusal = forecast_elements(&t, weights, NULL, state, space);\n"
SPACE, WORKED = "    Figures space[MOST_ELEMENTS + 1];\n", "    if (work(&t, record, readings, state, space, 0)) return 16;\n"
JUDGED = "    u32 refusal = judge_step(&t, table, table_bytes, record, record_bytes, state, readings);\n"
TRIAL_NEED, TRIAL_ROOM = "    size_t count = 4 * t.count;\n", "    if (numbers_lent < count) return (river_written){15, 0};\n"
TRIAL_JUDGED, TRIAL_REFUSED = "    if (refusal) return (river_written){refusal, 0};\n" + TRIAL_NEED, "(river_written){16, 0};\n"
TRIAL_WORKED = "    if (work(&t, record, readings, state, space, 0)) return " + TRIAL_REFUSED
TRIED = "    memcpy(numbers, space + 1, sizeof *numbers * count);\n"
TOO_SHORT = "numbers_lent < 4 * t.count"
WRONG_IN_C = {
    "a step writes after the state": (STEPPED, STEPPED + "    state[1].elements = 0;\n"),
    "a step writes before the state": (STEPPED, STEPPED + "    ((u64 *)state)[-1] = 0;\n"),
    "a start writes after the state": ("set_first_values(&t, state);", "set_first_values(&t, state), state[1].elements = 0;"),
    "a start clears the whole state": ("set_first_values(&t, state);", "memset(state, 0, sizeof *state), set_first_values(&t, state);"),
    "a step writes the place after the last": ("place->figures = space[i + 1];", "place->figures = place[1].figures = space[i + 1];"),
    "a step moves the rains of reaches": ("        if (e[KIND] != BASIN) continue;\n", ""),
    "a step refused by 16 has moved the state": (WORKED + STEPPED, WORKED.replace("return", "refusal =") + STEPPED
                                                 + "    if (refusal) return 16;\n"),
    "a step writes into its record": (STEPPED, STEPPED + "    ((u8 *)record)[2] = 1;\n"),
    "a check writes into its table what stands there": ("(&t, table, table_bytes);\n    if (refusal) return (river_plan)",
                                                        "(&t, table, table_bytes);\n    if (!refusal) *(volatile u8 *)table = table[0];\n"
                                                        "    if (refusal) return (river_plan)"),
    "a forecast writes into the state what stands there": (WRITTEN, WRITTEN + "    *(volatile u64 *)state = t.count;\n"),
    "a forecast refused by 16 has written": (WRITTEN, WRITTEN + FORECAST),
    "a forecast clears all that is lent": (FORECAST, "    memset(numbers, 0, sizeof *numbers * numbers_lent);\n" + FORECAST),
    "a forecast writes after what is lent": (FORECAST, FORECAST + "    numbers[numbers_lent] = 0;\n"),
    "a forecast writes before what is lent": (FORECAST, FORECAST + "    numbers[-1] = 0;\n"),
    "rule 8 looks at the place after the last": ("i < t->count; i++, e += ELEMENT_BYTES) {\n        const u64 *rain",
                                                 "i <= t->count; i++, e += ELEMENT_BYTES) {\n        const u64 *rain"),
    "rule 1 reads ten bytes of any table": ("if (size < HEADER || be4(table) != size - 4) return 1;",
                                            "if (table[9] > 255 || be4(table) != size - 4 || size < HEADER) return 1;"),
    "rule 10 reads two bytes of any record": ("if (size < 3 || be2(record) != size - 2)", "if (be2(record) != size - 2 || size < 3)"),
    "a step's space is kept from call to call": (SPACE + JUDGED + "    if (refusal) return refusal;\n",
                                                 "    static" + SPACE + JUDGED + "    if (refusal) return refusal;\n",
                                                 "    memset(space, 0, sizeof *space * (t->count + 1)); /*", "    /*"),
    "a gauge on a dam is taken": ("    if (t->elements[ELEMENT_BYTES * (g[ELEMENT] - 1u) + KIND] == DAM) return 0;\n", ""),
    "a release above C is taken": ("        if (be4(release + 4 * k) > CEILING) return 17;\n", "        ;\n"),
    "a dam has a weight": ("        if (e[KIND] != DAM) weights[i] =", "        weights[i] ="),
    "a step judges what drains into a dam": ("            now = dam_figures(be4(release), noise);\n",
                                             "            if (in.discharge > CEILING) return 1;\n"
                                             "            now = dam_figures(be4(release), noise);\n"),
    "a forecast judges what drains into a dam": ("            lead_dam(leads, e, own, below);\n",
                                                 "            if (own[leads].discharge > CEILING) return 16;\n"
                                                 "            lead_dam(leads, e, own, below);\n"),
    "a dam's leads are the state": ("        own[lead] = held;\n", "        own[lead] = held = own[0];\n"),
    "a down may name no dam": ("+ KIND] == BASIN)) refusal = 6;", "+ KIND] != REACH)) refusal = 6;"),
    "a lag of 0 for all kinds": ("return be2(e + LAG) >= step_minutes &&", "return (be2(e + LAG) == 0 || be2(e + LAG) >= step_minutes) &&"),
    "a look counts from 0": ("    size_t pieces = 1;\n", "    size_t pieces = 0;\n"),
    "a look hands out a discharge with 14": ("return (river_rating){14, 0, 0, pieces};", "return (river_rating){14, z, 0, pieces};"),
    "a look has h + b in 16 bits": ("    int depth = (int)h + (int16_t)be2(piece + OFFSET);\n",
                                    "    int depth = (int16_t)(h + be2(piece + OFFSET));\n"),
    "a look has z in 32 bits": ("    u64 z = be4(piece + FACTOR) *", "    u32 z = be4(piece + FACTOR) *"),
    "a rate judges the low half of its stage": ("stage > HIGHEST_STAGE && stage != GAP) refusal = 13;",
                                                "(u32)stage > HIGHEST_STAGE && (u32)stage != GAP) refusal = 13;"),
    "a rate does not judge 13": ("    if (!refusal && stage > HIGHEST_STAGE && stage != GAP) refusal = 13;\n", ""),
    "a rate looks along the gauge after the last": ("gauge > t.gauge_count) return (river_rating)",
                                                    "gauge > t.gauge_count + 1) return (river_rating)"),
    "a rate takes any gauge": ("|| gauge < 1 || gauge > t.gauge_count) return (river_rating)", ") return (river_rating)"),
    "a rate writes into its table what stands there": ("    if (!refusal && stage > HIGHEST_STAGE",
                                                       "    if (!refusal) *(volatile u8 *)table = table[0];\n"
                                                       "    if (!refusal && stage > HIGHEST_STAGE"),
    "a trial moves the state": (TRIED, TRIED + "    set_next_values(&t, record + 3, space, (river_state *)state);\n"),
    "a trial counts as a step": (TRIED, TRIED + "    ((river_state *)state)->steps++;\n"),
    "a trial moves a rain of the state": (TRIED, TRIED + "    ((river_state *)state)->place[0].rain[1] = state->place[0].rain[0];\n"),
    "a trial writes into the state what stands there": (TRIED, TRIED + "    *(volatile u64 *)state = t.count;\n"),
    "a trial refused by 16 has moved the state": (TRIAL_WORKED, TRIAL_WORKED.replace(
        "return", "{\n        set_next_values(&t, record + 3, space, (river_state *)state);\n        return") + "    }\n"),
    "a trial writes into its record what stands there": (TRIED, TRIED + "    *(volatile u8 *)record = record[0];\n"),
    "a trial writes into its table what stands there": (TRIED, TRIED + "    *(volatile u8 *)table = table[0];\n"),
    "a trial judges 15 after 16": (TRIAL_NEED + TRIAL_ROOM, TRIAL_NEED, TRIAL_WORKED, TRIAL_WORKED + TRIAL_ROOM),
    "a trial judges a noise before 15": (TRIAL_NEED + TRIAL_ROOM, TRIAL_NEED + "    for (Reading *each = readings; each->element; each++)\n"
                                         "        if (each->noise > CEILING) return (river_written){16, 0};\n" + TRIAL_ROOM),
    "a trial judges 15 before 14": (TRIAL_JUDGED, f"    if (refusal == 14 && {TOO_SHORT}) refusal = 15;\n" + TRIAL_JUDGED),
    "a trial judges 15 before 18": (TRIAL_JUDGED, f"    if (refusal == 18 && {TOO_SHORT}) refusal = 15;\n" + TRIAL_JUDGED),
    "a trial judges 15 before 9": (TRIAL_JUDGED, f"    if (refusal >= 9 && {TOO_SHORT}) refusal = 15;\n" + TRIAL_JUDGED),
    "a trial judges 15 before 8": (TRIAL_JUDGED, f"    if (refusal >= 8 && {TOO_SHORT}) refusal = 15;\n" + TRIAL_JUDGED),
    "a trial judges 15 before its table": (TRIAL_JUDGED, "    if (table_bytes > 8 && numbers_lent < 4u * table[8]) refusal = 15;\n"
                                           + TRIAL_JUDGED),
    "a trial does not judge 15": (TRIAL_NEED + TRIAL_ROOM, TRIAL_NEED),
    "a trial does not judge 9": (TRIAL_JUDGED, "    if (refusal == 9) refusal = judge_record(&t, record, record_bytes, readings);\n"
                                 + TRIAL_JUDGED),
    "a trial asks for the space of a forecast": (TRIAL_NEED + TRIAL_ROOM,
                                                 TRIAL_NEED + TRIAL_ROOM.replace("count", "count * (t.leads + 1)")),
    "a trial asks for one number more": (TRIAL_NEED + TRIAL_ROOM, TRIAL_NEED + TRIAL_ROOM.replace("<", "<=")),
    "a trial takes one number less": (TRIAL_NEED + TRIAL_ROOM, TRIAL_NEED + TRIAL_ROOM.replace("numbers_lent", "numbers_lent + 1")),
    "a trial writes after its answer": (TRIED, TRIED + "    if (count < numbers_lent) numbers[count] = 0;\n"),
    "a trial clears all that is lent": (TRIED, "    memset(numbers, 0, sizeof *numbers * numbers_lent);\n" + TRIED),
    "a trial writes after what is lent": (TRIED, TRIED + "    numbers[numbers_lent] = 0;\n"),
    "a trial writes before what is lent": (TRIED, TRIED + "    numbers[-1] = 0;\n"),
    "a trial refused by 16 has written": (TRIAL_WORKED, TRIAL_WORKED.replace("return", "{\n    " + TRIED + "        return") + "    }\n"),
    "a trial refused by 15 has written": (TRIAL_NEED + TRIAL_ROOM, TRIAL_NEED + TRIAL_ROOM.replace(
        "return", "return memset(numbers, 0, sizeof *numbers * numbers_lent),")),
    "a trial hands out the state before it": (TRIED, "    for (size_t i = 0; i < t.count; i++) space[i + 1] = state->place[i].figures;\n"
                                              + TRIED),
    "a trial hands out lead 1 of a forecast": (
        TRIED, "    u64 weights[MOST_ELEMENTS];\n    Figures ahead[(MOST_ELEMENTS + 1) * (MOST_LEADS + 1)];\n    weigh(&t, weights);\n"
        "    if (forecast_elements(&t, weights, NULL, state, ahead)) return (river_written){16, 0};\n"
        "    for (size_t i = 1; i <= t.count; i++) space[i] = ahead[(t.leads + 1) * i + 1];\n" + TRIED),
    "a trial hands out its figures one place late": (TRIED, TRIED.replace("space + 1", "space")),
    "a trial is laid out for all leads": (
        TRIED, "    for (size_t i = 0, at; i < t.count; i++)\n        if ((at = 4 * i * (t.leads + 1)) + 4 <= numbers_lent) "
        "memcpy(numbers + at, space + i + 1, sizeof *space);\n"),
    "a trial counts all that is lent": (TRIED, TRIED + "    count = numbers_lent;\n"),
    "a trial refused by 15 tells its count": (TRIAL_NEED + TRIAL_ROOM, TRIAL_NEED + TRIAL_ROOM.replace("{15, 0}", "{15, count}")),
    "a trial refused by 16 tells its count": (TRIAL_WORKED, TRIAL_WORKED.replace("{16, 0}", "{16, count}")),
    "a trial corrects after the whole network": (
        TRIAL_WORKED, TRIAL_WORKED.replace("readings", "&(Reading){0}") + "    for (Reading *each = readings; each->element; each++)\n"
        "        if (correct(&space[each->element], each)) return " + TRIAL_REFUSED),
    "a trial corrects the element before": (
        TRIAL_WORKED, "    for (Reading *each = readings; each->element; each++) each->element -= each->element > 1;\n" + TRIAL_WORKED),
    "a trial lets water into a dam": (
        TRIED, "    const u8 *e = t.elements;\n    for (size_t i = 1; i <= t.count; i++, e += ELEMENT_BYTES)\n        if (e[DOWN] && "
        "t.elements[ELEMENT_BYTES * (e[DOWN] - 1) + KIND] == DAM) drain(&space[e[DOWN]], &space[i], &space[i]);\n" + TRIED),
    "a trial corrects by no reading": (TRIAL_WORKED, TRIAL_WORKED.replace("readings", "&(Reading){0}")),
    "an old library": ("return RIVER_VERSION;", "return RIVER_VERSION - 1;"),
}
DISCHARGES, MARGINS = "old->discharge + new->discharge;", "old->discharge_margin + new->discharge_margin;"
INFLOW, DISCHARGE_JUDGED = "    Estimate inflow = {in.discharge / 2, in.discharge_margin / 2 + 1};\n", "    if (inflow.value > CEILING ||"
STEP_DRAINS, LEAD_OLD = "        drain(&space[e[DOWN]], old, &now);\n", "        Figures old = now;\n"
BASIN_MOVED = "        if (move(w, noise, (Estimate){inflow, 1}, b, &now)) return 1;\n"
REACH_MOVED = "        if (move_reach(w, noise, own[lead], &now)) return 1;\n"
# These are tried by the cases of the mean inflow alone.
WRONG_INFLOWS_IN_C = {
    "outflows are halved one by one": (DISCHARGES, f"({DISCHARGES[:-1]}) / 2;", INFLOW, INFLOW.replace("discharge / 2", "discharge")),
    "outflows add up in 32 bits": (DISCHARGES, DISCHARGES + "\n    into->discharge = (u32)into->discharge;"),
    "margins of outflows add up in 32 bits": (MARGINS, MARGINS + "\n    into->discharge_margin = (u32)into->discharge_margin;"),
    "an inflow is not halved": (INFLOW, INFLOW.replace("discharge / 2", "discharge")),
    "half an inflow is rounded up": (INFLOW, INFLOW.replace("in.discharge / 2", "(in.discharge + 1) / 2")),
    "an inflow margin without its 1": (INFLOW, INFLOW.replace(" + 1", "")),
    "no inflow margin where none drains in": (INFLOW, INFLOW.replace("+ 1", "+ (in.discharge_margin > 0)")),
    "the sum of outflows is judged": (DISCHARGE_JUDGED, DISCHARGE_JUDGED.replace("inflow.value", "in.discharge")),
    "the sum of margins is judged": ("inflow.margin > CEILING", "in.discharge_margin > CEILING"),
    "half a sum of C is refused": (DISCHARGE_JUDGED, DISCHARGE_JUDGED.replace(">", ">=")),
    "an inflow variance is the mean": ("into->variance += new->variance;", "into->variance += (old->variance + new->variance) / 2;"),
    "a step drains the new outflow twice": (STEP_DRAINS, STEP_DRAINS.replace("old", "&now")),
    "a step drains the old outflow twice": (STEP_DRAINS, STEP_DRAINS.replace("&now", "old")),
    "a step drains a dam's new release twice": (STEP_DRAINS, STEP_DRAINS.replace("old", "e[KIND] == DAM ? &now : old")),
    "a lead of a basin drains the new outflow twice": (LEAD_OLD + BASIN_MOVED, BASIN_MOVED + LEAD_OLD),
    "a lead of a reach drains the new outflow twice": (LEAD_OLD + REACH_MOVED, REACH_MOVED + LEAD_OLD),
    "a lead of a basin drains the state's outflow": (LEAD_OLD + BASIN_MOVED, LEAD_OLD.replace("now", "own[0]") + BASIN_MOVED),
    "a lead of a reach drains the state's outflow": (LEAD_OLD + REACH_MOVED, LEAD_OLD.replace("now", "own[0]") + REACH_MOVED),
    "a lead of a dam leaves out the state's margin": ("    Figures old = own[0], held =",
                                                      "    Figures old = dam_figures(own[0].discharge, 0), held ="),
    "a lead of a dam keeps the state's margin": ("        old = held;\n", ""),
}
HIGHEST, FITS = "#define HIGHEST_FLOAT 0x41F00106u\n", "return bits <= HIGHEST_FLOAT || bits == FLOAT_GAP || bits == MINUS_ZERO;"
IN_MILLIMETRES = "    return (u32)((thousandfold + (1ull << (shift - 1))) >> shift);\n"
AS_FLOAT = "    float metres;\n    memcpy(&metres, &bits, 4);\n"
FLOAT_READ, FLOAT_JUDGED = "        u32 bits = be4(sent + 4 * k);\n", "        if (!float_fits(bits)) return 18;\n"
GAP_PASSED, ALL_READ = "        if (stages[k] == GAP) continue;\n", "    readings->element = 0;\n"
COUNTED, VERSIONS = "(version == 2 ? 4 : 2) * t->gauge_count) return 10;\n", "    if (version != 1 && version != 2) return 11;\n"
STEP_REFUSED = "    if (refusal) return refusal;\n    if (t.inner_count) return step_tanks("
# These are tried by the cases of floats alone.
WRONG_FLOATS_IN_C = {
    "a float is multiplied in 32 bits": (IN_MILLIMETRES, AS_FLOAT + "    return (u32)(metres * 1000.0f + 0.5f);\n"),
    "a float's product in 32 bits is rounded": (IN_MILLIMETRES, AS_FLOAT + "    return (u32)((double)(metres * 1000.0f) + 0.5);\n"),
    "a float is multiplied and cut off": (IN_MILLIMETRES, AS_FLOAT + "    return (u32)(metres * 1000.0);\n"),
    "a float is rounded to the nearest even": (IN_MILLIMETRES, IN_MILLIMETRES.replace("(1ull << (shift - 1))",
                                                                                     "(1ull << (shift - 1)) - 1 + (thousandfold >> shift & 1)")),
    "half a millimetre is rounded down": (IN_MILLIMETRES, IN_MILLIMETRES.replace("(shift - 1))", "(shift - 1)) - 1")),
    "a float's thousandfold in 32 bits": ("    u64 thousandfold =", "    u32 thousandfold ="),
    "a float without its leading 1": ("((bits & 0x7FFFFF) | 0x800000)", "(bits & 0x7FFFFF)"),
    "a float's exponent one lower": ("    u32 shift = 150 -", "    u32 shift = 151 -"),
    "a small float is shifted too far": ("    if (shift > 36) shift = 36;\n", ""),
    "a small float is shifted too little": ("    if (shift > 36) shift = 36;\n", "    if (shift > 34) shift = 34;\n"),
    "every NaN is a gap": (FITS, FITS.replace("bits == FLOAT_GAP", "(bits & 0x7FFFFFFF) > 0x7F800000"),
                           "return bits == FLOAT_GAP ? GAP : 0;", "return bits == MINUS_ZERO ? 0 : GAP;"),
    "every NaN is 0": (FITS, FITS.replace("bits == FLOAT_GAP", "(bits & 0x7FFFFFFF) > 0x7F800000")),
    "a gap in floats is refused": (FITS, FITS.replace("bits == FLOAT_GAP || ", "")),
    "a gap in floats is 0": ("return bits == FLOAT_GAP ? GAP : 0;", "return 0;"),
    "floats below 0 that round to it are taken": (FITS, FITS.replace("bits == MINUS_ZERO", "(bits >= MINUS_ZERO && bits <= 0xBA03126Eu)")),
    "minus zero is refused": (FITS, FITS.replace(" || bits == MINUS_ZERO", "")),
    "minus zero is a gap": ("return bits == FLOAT_GAP ? GAP : 0;", "return GAP;"),
    "floats above 30 m are refused": (HIGHEST, HIGHEST.replace("0106", "0000")),
    "30,001 mm is taken in floats": (HIGHEST, HIGHEST.replace("0106", "0312")),
    "one float too many is taken": (HIGHEST, HIGHEST.replace("0106", "0107")),
    "one float too few is taken": (HIGHEST, HIGHEST.replace("0106", "0105")),
    "infinity is the highest stage": (FITS, FITS.replace("return", "return bits == 0x7F800000u ||"),
                                      "    u32 shift = 150 -", "    if (bits == 0x7F800000u) return HIGHEST_STAGE;\n    u32 shift = 150 -"),
    "13 is given for floats": (FLOAT_JUDGED, FLOAT_JUDGED.replace("18", "13")),
    "18 is given for stages": ("!= GAP) return 13;\n        }", "!= GAP) return 18;\n        }"),
    "18 is judged with 14, gauge by gauge": (FLOAT_JUDGED, "        if (!float_fits(bits)) {\n            stages[k] = GAP + 1;\n"
                                             "            continue;\n        }\n", GAP_PASSED, GAP_PASSED
                                             + "        if (stages[k] > GAP) return 18;\n"),
    "18 is judged after 14": (FLOAT_JUDGED, "        if (!float_fits(bits)) {\n            stages[k] = GAP + 1;\n            continue;\n"
                              "        }\n", GAP_PASSED, GAP_PASSED.replace("==", ">="), ALL_READ,
                              "    for (size_t k = 0; k < t->gauge_count; k++)\n        if (stages[k] > GAP) return 18;\n" + ALL_READ),
    "floats are read from the last byte on": (FLOAT_READ, FLOAT_READ.replace("be4(sent + 4 * k)", "__builtin_bswap32(be4(sent + 4 * k))")),
    "floats are read where the releases stand": ("version, release + 4 * t->dam_count, stages);", "version, release, stages);"),
    "floats are read two bytes apart": (FLOAT_READ, FLOAT_READ.replace("4 * k", "2 * k")),
    "an unknown version has 4 bytes a gauge": (COUNTED, COUNTED.replace("version == 2 ? 4 : 2", "version == 1 ? 2 : 4")),
    "version 2 has 2 bytes a gauge": (COUNTED, COUNTED.replace("(version == 2 ? 4 : 2)", "2")),
    "version 2 has either length": (COUNTED, COUNTED.replace(") return 10;", " && (version != 2 || size != 3 + 2 * t->basin_count + "
                                                             "4 * t->dam_count + 2 * t->gauge_count)) return 10;")),
    "version 2 is refused": (VERSIONS, VERSIONS.replace(" && version != 2", "")),
    "version 3 is taken": (VERSIONS, VERSIONS.replace("version != 2", "version != 2 && version != 3")),
    "a byte after the floats is read": (VERSIONS, VERSIONS + "    if (version == 2) (void)*(const volatile u8 *)(record + size);\n"),
    "a step refused by 18 counts": (STEP_REFUSED, "    if (refusal == 18) state->steps++;\n" + STEP_REFUSED),
}
SHOWN, SHOW_JUDGED = "return (double)(int64_t)grains / 1000000.0;", "    if (discharge > CEILING || margin > CEILING) return "
SHOW_REFUSED, SHOW_BOTH = "(river_shown){16, 0, 0};", "{0, in_cubic_metres(discharge), in_cubic_metres(margin)};"
# These are tried by the cases of the display alone.
WRONG_DISPLAYS_IN_C = {
    "a display multiplies by 0.000001": (SHOWN, SHOWN.replace("/ 1000000.0", "* 0.000001")),
    "a display divides twice by 1,000": (SHOWN, SHOWN.replace("1000000.0", "1000.0 / 1000.0")),
    "a display divides in 32 bits": (SHOWN, "return (float)grains / 1000000.0f;"),
    "a display has its counts in 32 bits": (SHOWN, SHOWN.replace("(double)", "(double)(float)")),
    "a display has its counts as signed 32 bits": (SHOWN, SHOWN.replace("int64_t", "int32_t")),
    "a display is in litres": (SHOWN, SHOWN.replace("1000000.0", "1000.0")),
    "a display is cut off after a thousandth": (SHOWN, SHOWN.replace("(int64_t)grains / 1000000.0", "(int64_t)(grains / 1000) / 1000.0")),
    "a display has its floats changed over": (SHOW_BOTH, "{0, in_cubic_metres(margin), in_cubic_metres(discharge)};"),
    "a display shows its discharge twice": (SHOW_BOTH, SHOW_BOTH.replace("(margin)", "(discharge)")),
    "a display does not judge its counts": (SHOW_JUDGED + SHOW_REFUSED, ""),
    "a display does not judge its discharge": (SHOW_JUDGED, SHOW_JUDGED.replace("discharge > CEILING || ", "")),
    "a display does not judge its margin": (SHOW_JUDGED, SHOW_JUDGED.replace(" || margin > CEILING", "")),
    "a display judges both counts at once": (SHOW_JUDGED, SHOW_JUDGED.replace("||", "&&")),
    "a display judges the sum of its counts": (SHOW_JUDGED, SHOW_JUDGED.replace("discharge > CEILING ||", "discharge + margin > CEILING ||")),
    "a display refuses C": (SHOW_JUDGED, SHOW_JUDGED.replace("discharge >", "discharge >=")),
    "a display judges low halves": (SHOW_JUDGED, SHOW_JUDGED.replace("discharge >", "(u32)discharge >")),
    "a display is refused by another number": (SHOW_REFUSED, SHOW_REFUSED.replace("16", "17")),
    "a refused display shows its discharge": (SHOW_REFUSED, SHOW_REFUSED.replace("16, 0,", "16, in_cubic_metres(discharge),")),
    "a refused display shows its margin": (SHOW_REFUSED, SHOW_REFUSED.replace(" 0}", " in_cubic_metres(margin)}")),
    "a refused display shows minus zero": (SHOW_REFUSED, SHOW_REFUSED.replace("16, 0,", "16, -0.0,")),
}
T_ROUNDED = "    u64 t = beta(table, g) * z / 1000000;\n"
RATED = "    return (river_rating){0, z, be4(g + NOISE) + t * t / 1000, pieces};\n"
BETA_READ, BETA_JUDGED = "return t->version == 2 ? be2(g + BETA) : 0;", " && beta(t, g) <= HIGHEST_BETA;"
TABLE_VERSIONS = "    if (t->version != 1 && t->version != 2) return 2;\n"
GAUGE_SIZES, NOISE_JUDGED = "    t->gauge_bytes = t->version == 2 ? 48 : 46;\n", "    if (noise > CEILING) return 1;\n"
FOURTEEN, RATE_LOOKS = "        if (found.refusal) return 14;\n", "    river_rating found = look(&t,"
RATE_JUDGED = "    return found.noise > CEILING ? (river_rating){16, 0, 0, found.pieces} : found;\n"
# A reading that has R as well.
WITH_R = ("typedef struct { u64 element, z, noise; } Reading;", "typedef struct { u64 element, z, noise, r; } Reading;",
          "(Reading){g[ELEMENT], found.discharge, found.noise};", "(Reading){g[ELEMENT], found.discharge, found.noise, be4(g + NOISE)};",
          NOISE_JUDGED, NOISE_JUDGED + "    u64 r = reading->r, less = f->variance + r;\n")
GAIN, GAIN_MARGIN = "SCALE * f->variance / total", "SCALE * f->variance_margin / total + 2"
VARIANCE, VARIANCE_MARGIN = "f->variance * noise / total", "f->variance_margin * noise / total + 2"
# These are tried by the cases of noises and of tables of version 2 alone.
WRONG_NOISES_IN_C = {
    "beta is ignored": (BETA_READ, "return 0;"),
    "t is not rounded": (T_ROUNDED + RATED, "    u64 t = beta(table, g) * z;\n    return (river_rating){0, z, be4(g + NOISE) + "
                         "(u64)((unsigned __int128)t * t / 1000000000000000), pieces};\n"),
    "t is rounded up": (T_ROUNDED, T_ROUNDED.replace("z / 1000000", "z / 1000000 + (beta(table, g) * z % 1000000 > 0)")),
    "t is rounded to the nearest": (T_ROUNDED, T_ROUNDED.replace("beta(table, g) * z /", "(beta(table, g) * z + 500000) /")),
    "a noise is rounded up": (RATED, RATED.replace("t * t / 1000", "(t * t + 999) / 1000")),
    "beta z has 32 bits": (T_ROUNDED, T_ROUNDED.replace("beta(table, g) * z", "(u32)(beta(table, g) * z)")),
    "t x t has 32 bits": (RATED, RATED.replace("t * t", "(u32)(t * t)")),
    "a noise has 32 bits": (RATED, RATED.replace("be4(g + NOISE) + t * t / 1000", "(u32)(be4(g + NOISE) + t * t / 1000)")),
    "a noise is without R": (RATED, RATED.replace("be4(g + NOISE) + t * t / 1000", "t * t / 1000 + !t")),
    "a noise is that of the unrounded z": (T_ROUNDED, "    u64 t = beta(table, g) * (be4(piece + FACTOR) * ((u64)depth * (u64)depth)) / "
                                           "1000000000;\n"),
    "a noise is the first gauge's": (T_ROUNDED, T_ROUNDED.replace("(table, g)", "(table, table->gauges)")),
    "a noise is the next gauge's": (T_ROUNDED, T_ROUNDED.replace("(table, g)", "(table, g + table->gauge_bytes)")),
    "R is left in the gain": (*WITH_R, GAIN, "SCALE * f->variance / (f->variance + reading->r)"),
    "R is left in the gain margin": (*WITH_R, GAIN_MARGIN, "SCALE * f->variance_margin / (f->variance + reading->r) + 2"),
    "R is left in the variance": (*WITH_R, VARIANCE, "f->variance * r / less"),
    "R is left in the margin of the variance": (*WITH_R, VARIANCE_MARGIN, "f->variance_margin * r / less + 2"),
    "a noise above C is taken": (NOISE_JUDGED, ""),
    "a noise of C is refused": (NOISE_JUDGED, NOISE_JUDGED.replace(">", ">=")),
    "a noise above C is cut off": (NOISE_JUDGED, "    if (noise > CEILING) noise = CEILING;\n"),
    "a noise above C is a gap": (FOURTEEN, FOURTEEN + "        if (found.noise > CEILING) continue;\n"),
    "a noise is judged with 14, gauge by gauge": (FOURTEEN, FOURTEEN + "        if (found.noise > CEILING) return 16;\n"),
    "14 is given for a noise": (FOURTEEN, FOURTEEN.replace("found.refusal", "found.refusal || found.noise > CEILING")),
    "a gap's noise is judged": (GAP_PASSED, "        u64 most = beta(t, g) * 4000ull;\n        if (stages[k] == GAP && most && "
                                "be4(g + NOISE) + most * most / 1000 > CEILING) return 16;\n" + GAP_PASSED),
    "a beta of 501 is taken": (BETA_JUDGED, BETA_JUDGED.replace("HIGHEST_BETA", "HIGHEST_BETA + 1")),
    "a beta of 500 is refused": (BETA_JUDGED, BETA_JUDGED.replace("<=", "<")),
    "a beta is not judged": (BETA_JUDGED, ";"),
    "the low byte of beta is judged": (BETA_JUDGED, BETA_JUDGED.replace("beta(t, g)", "beta(t, g) % 256")),
    "beta is read from the last byte on": (BETA_READ, BETA_READ.replace("be2(g + BETA)", "(g[BETA + 1] << 8 | g[BETA])")),
    "beta is read in version 1 too": (BETA_READ, "return be2(g + BETA);"),
    "beta stands before the curve": ("PIECES = 6, BETA = 46,", "PIECES = 8, BETA = 6,"),
    "a table of version 2 is refused": (TABLE_VERSIONS, TABLE_VERSIONS.replace(" && t->version != 2", "")),
    "a table of version 3 is taken": (TABLE_VERSIONS, TABLE_VERSIONS.replace("t->version != 2", "t->version != 2 && t->version != 3")),
    "a table of version 0 is taken": (TABLE_VERSIONS, TABLE_VERSIONS.replace("t->version != 1", "t->version > 1")),
    "version 2 has gauges of 46 bytes": (GAUGE_SIZES, "    t->gauge_bytes = 46;\n"),
    "version 1 has gauges of 48 bytes": (GAUGE_SIZES, "    t->gauge_bytes = 48;\n"),
    "a look hands out R with 14": ("return (river_rating){14, 0, 0, pieces};", "return (river_rating){14, 0, be4(g + NOISE), pieces};"),
    "a rate tells no noise": (RATE_JUDGED, "    found.noise = 0;\n" + RATE_JUDGED),
    "a rate tells R": (RATE_LOOKS, "    t.version = 1;\n" + RATE_LOOKS),
    "a rate does not judge its noise": (RATE_JUDGED, "    return found;\n"),
    "a rate refuses a noise of C": (RATE_JUDGED, RATE_JUDGED.replace(">", ">=")),
    "a rate gives 14 for a noise": (RATE_JUDGED, RATE_JUDGED.replace("16", "14")),
    "a rate refused by 16 tells no pieces": (RATE_JUDGED, RATE_JUDGED.replace("found.pieces}", "0}")),
    "a rate refused by 16 tells its discharge": (RATE_JUDGED, RATE_JUDGED.replace("16, 0,", "16, found.discharge,")),
    "a rate refused by 16 tells its noise": (RATE_JUDGED, RATE_JUDGED.replace("0, 0, found", "0, found.noise, found")),
    "a rate of a gap tells R": ("gauge > t.gauge_count) return (river_rating){refusal, 0, 0, 0};",
                                "gauge > t.gauge_count)\n        return (river_rating){refusal, 0, "
                                "!refusal && gauge == 1 && t.gauge_count ? be4(t.gauges + NOISE) : 0, 0};"),
}
TANKS_MOVED = "        if (move_reach(w, noise, in, moved)) return 1;\n"
TANK_DRAINED, LEAD_DRAINED = "        drain(&in, &inner->figures, moved);\n", "            drain(&own[lead], &old, &now);\n"
TANK_LEADS, LAST_LEADS = "        Figures now = inner->figures;\n", "    return lead_reach(leads, e, w, own, below);\n"
LEAD_MOVED = "            if (move_reach(w, noise, own[lead], &now)) return 1;\n"
TANKS_FIT, TANKS_SET = "    for (size_t k = 0; k < count; k++)\n        if (!figures_fit", "    set_next_tanks(t, space, state);\n"
TANKS_NEXT = "i < t->count + t->inner_count; i++) state->place[i].figures = space[i + 1];\n"
FIRST_TANKS = "    if (t->inner_count) set_first_tanks(t, state);\n"
TANK_LIMITS = "return tanks >= FEWEST_TANKS && tanks <= MOST_TANKS &&"
PLANNED, TANKS_TRIED = "t.inner_count, t.count + t.inner_count,", "    memcpy(numbers, space + 1, sizeof *space * t->count);\n"
WRONG_TANKS_IN_C = {
    "a start sets no inner tank": (FIRST_TANKS, ""),
    "a start sets one place beyond the tanks": (FIRST_TANKS, FIRST_TANKS.replace(";", ", state->place[t->count + t->inner_count].figures = "
                                                                                 "first_figures(t->elements);")),
    "a start clears all places not in use": (FIRST_TANKS, FIRST_TANKS + "    memset(state->place + t->count + t->inner_count, 0, sizeof "
                                             "*state->place * (RIVER_MOST_PLACES - t->count - t->inner_count));\n"),
    "a start clears the rains of inner tanks": ("inner++->figures = first_figures(e);",
                                                "memset(inner->rain, 0, sizeof inner->rain), inner++->figures = first_figures(e);"),
    "rule 8 looks at no inner tank": (TANKS_FIT, TANKS_FIT.replace("k < count", "k < 0")),
    "rule 8 looks not at the last inner tank": (TANKS_FIT, TANKS_FIT.replace("k < count", "k + 1 < count")),
    "rule 8 looks at one place beyond the tanks": (TANKS_FIT, TANKS_FIT.replace("k < count", "k <= count")),
    "rule 8 looks at the rains of inner tanks": ("if (!figures_fit(&inner[k].figures)) return 0;",
                                                 "if (!figures_fit(&inner[k].figures) || inner[k].rain[0] > HIGHEST_RAIN) return 0;"),
    "a step keeps the inner tanks": (TANKS_SET, ""),
    "a step of tanks writes the place after the last": (TANKS_NEXT, TANKS_NEXT.replace("i < t->count + t->inner_count",
                                                                                      "i <= t->count + t->inner_count")),
    "a step moves the rains of inner tanks": (TANKS_NEXT, TANKS_NEXT.replace("state->place[i].figures",
                                                                            "state->place[i].rain[1] = state->place[i].rain[0], "
                                                                            "state->place[i].figures")),
    "a step of tanks refused by 16 has moved the state": (
        "    if (work(t, record, readings, state, space, 1)) return 16;\n    set_next_values(t, record + 3, space, state);\n",
        "    int above = work(t, record, readings, state, space, 1);\n    set_next_values(t, record + 3, space, state);\n"
        "    if (above) return 16;\n"),
    "a trial of tanks writes the inner ones too": (TANKS_TRIED, TANKS_TRIED.replace("t->count", "(t->count + t->inner_count)")),
    "a trial of tanks moves the state": (TANKS_TRIED, TANKS_TRIED + "    set_next_tanks(t, space, (river_state *)state);\n"),
    "a forecast moves the inner tanks of the state": (TANK_LEADS, TANK_LEADS + "        ((river_place *)inner)->figures.discharge++;\n"),
    "a tank is fed the new outflow": (TANK_DRAINED, TANK_DRAINED.replace("&inner->figures", "moved")),
    "a tank is fed the old outflow": (TANK_DRAINED, TANK_DRAINED.replace("inner->figures, moved", "inner->figures, &inner->figures")),
    "a tank is fed the new outflow at leads": (LEAD_DRAINED, LEAD_DRAINED.replace("&old", "&now")),
    "a tank passes on what drained into the first": ("        in = (Figures){0};\n", ""),
    "a tank passes on what drained into it at leads": ("            own[lead] = (Figures){0};\n", ""),
    "inner tanks are not judged by 16 at a step": (TANKS_MOVED, "        move_reach(w, noise, in, moved);\n"),
    "inner tanks are not judged by 16 at leads": (LEAD_MOVED, "            move_reach(w, noise, own[lead], &now);\n"),
    "inner tanks have no W": (TANKS_MOVED, TANKS_MOVED.replace("noise", "0")),
    "inner tanks have no W at leads": (LEAD_MOVED, LEAD_MOVED.replace("noise", "0")),
    "inner tanks start each lead from the state": (LEAD_DRAINED, LEAD_DRAINED + "            now = inner->figures;\n"),
    "one tank fewer at a step": ("    for (; tanks > 1; tanks--, inner++, moved++) {\n", "    for (tanks--; tanks > 1; tanks--, inner++, "
                                 "moved++) {\n"),
    "one tank fewer at leads": ("be2(e + TANK_COUNT); tanks > 1;", "be2(e + TANK_COUNT) - 1; tanks > 1;"),
    "all elements share the first inner places": ("            inner += tanks - 1;\n", ""),
    "all elements share the first inner places at leads": ("            inner += be2(e + TANK_COUNT) - 1;\n        }\n    }\n    return 0;",
                                                           "        }\n    }\n    return 0;"),
    "a lag is divided by the count of tanks": ("if (e[KIND] != DAM) weights[i] = series_weight(t->step_minutes, be2(e + LAG));",
                                               "if (e[KIND] != DAM) weights[i] = series_weight(t->step_minutes, e[KIND] == TANKS && "
                                               "be2(e + LAG) / be2(e + TANK_COUNT) >= t->step_minutes ? be2(e + LAG) / be2(e + TANK_COUNT) "
                                               ": be2(e + LAG));"),
    "one tank is taken": (TANK_LIMITS, TANK_LIMITS.replace("FEWEST_TANKS", "1")),
    "nine tanks are taken": (TANK_LIMITS, TANK_LIMITS.replace("MOST_TANKS", "9")),
    "eight tanks are refused": (TANK_LIMITS, TANK_LIMITS.replace("<= MOST_TANKS", "< MOST_TANKS")),
    "the low byte of a count of tanks is judged": ("    u32 tanks = be2(e + TANK_COUNT);\n    return", "    u32 tanks = e[TANK_COUNT + 1];\n"
                                                   "    return"),
    "the area of tanks is not judged": ("tanks <= MOST_TANKS && be4(e + AREA) == 0 &&", "tanks <= MOST_TANKS &&"),
    "the rain noise of tanks is not judged": (" && be4(e + AREA) == 0 && be4(e + RAIN_NOISE) == 0;\n}\n\nstatic inline int element_fits",
                                              " && be4(e + AREA) == 0;\n}\n\nstatic inline int element_fits"),
    "the lag of tanks is not judged": ("case TANKS: return lag_fits(e, step_minutes) && holds_tanks(e);", "case TANKS: return holds_tanks(e);"),
    "a plan tells one tank more": (PLANNED, PLANNED.replace("t.inner_count,", "t.inner_count + 1,", 1)),
    "a plan tells places as elements": (PLANNED, "t.inner_count, t.count,"),
    "all tanks are counted as inner": ("case TANKS: inner += be2(e + TANK_COUNT) - 1;\n        }", "case TANKS: inner += be2(e + TANK_COUNT);"
                                       "\n        }"),
}
WRONG_IN_C |= WRONG_INFLOWS_IN_C | WRONG_FLOATS_IN_C | WRONG_NOISES_IN_C | WRONG_DISPLAYS_IN_C | WRONG_TANKS_IN_C


def library_in_c(name, changes):
    """The object file of bench/plain_calls.c with these places changed."""
    folder = ROOT / "target/tests" / name.replace(" ", "_")
    folder.mkdir(parents=True, exist_ok=True)
    texts = {file: (ROOT / "bench" / file).read_text() for file in ("plain_calls.c", "river_in_c.h")}
    for old, new in zip(changes[::2], changes[1::2]):
        assert sum(text.count(old) for text in texts.values()) == 1, f"{name}: {old!r} does not stand once in bench/"
        texts = {file: text.replace(old, new) for file, text in texts.items()}
    for file, text in texts.items():
        (folder / file).write_text(text)
    command = ["gcc", "-O1", "-w", "-c", "-DNAMED(call)=river_##call", f"-I{ROOT / 'bench'}", "-o", folder / "library.o"]
    subprocess.run([*command, folder / "plain_calls.c"], check=True)
    return folder / "library.o"


NOISE_CASES = ("noise: ", "ceiling: noise", "trial: noise, ", "rule 2", "rule 4", "rule 7", "last places")
TANK_CASES = ("tanks: ", "ceiling: tanks, ", "trial: run with tanks", "rule 5", "rule 6", "rule 7", "last places",
              "check")


def built_cases():
    """Each case of calls.py by its place among them, with its calls and the right replies."""
    right = Library()
    for number, case in enumerate(cases()):
        calls = list(case.build(random_for(SEED, number)))
        yield number + 1, replace(case, exact=False), calls, [right.reply(call) for call in calls]


def caught_libraries():
    """By name of a wrong library: the first case of calls.py whose comparison catches it, and its place among the cases."""
    built = list(built_cases())
    record_rules = tuple(f"rule {number}" for number in range(10, 19))
    trials, inflows, floats, noises, shows, storms, tanks = ([each for each in built if each[1].name.startswith(begins)] for begins in (
        "trial: ", "mean inflow: ", ("float: ", *record_rules), NOISE_CASES, "show: ", "storm: ", TANK_CASES))

    def first_caught(reply_to, among, alone=False):
        """`alone`: by neighbouring calls alone, as if the calculator had the same mistake."""
        for place, case, calls, expected in among:
            replies = [reply_to(call) for call in calls]
            if compare(case, calls, replies if alone else expected, replies)[0]:
                return case.name, place
        return "NOT CAUGHT", len(built)

    def first_caught_in_c(name, changes):
        driver = built_driver(library_in_c(name, changes))
        among = (tanks if name in WRONG_TANKS_IN_C else trials if name.startswith("a trial ")
                 else inflows if name in WRONG_INFLOWS_IN_C else floats if name in WRONG_FLOATS_IN_C
                 else noises if name in WRONG_NOISES_IN_C else shows if name in WRONG_DISPLAYS_IN_C else built)
        replies = iter(made_calls(driver, [call for _, _, calls, _ in among for call in calls], starts=1))
        return first_caught(lambda _: next(replies), among)

    for name, wrong in libraries():
        asked = {InflowsBy: inflows, FloatsBy: floats, NoisesBy: noises, TanksBy: tanks, ShownBy: shows}.get(type(wrong), built)
        yield name, *first_caught(wrong.reply, trials if isinstance(wrong, WrongTrial) else asked)
    yield "ReadingsIgnored in trials, by the step alone", *first_caught(TrialsBy(ReadingsIgnored()).reply, trials, alone=True)
    for wrongs, among, words in ((LEAKS, trials, "two trials"), (APART_BY_VERSION, floats, "both versions"),
                                 (APART_BY_TABLE, noises, "both tables"), (APART_BY_RAIN, storms, "two storms"),
                                 (APART_BY_REACHES, tanks, "reaches")):
        for wrong in wrongs:
            library = (TanksBy if among is tanks else Library)(wrong())
            yield f"{wrong.__name__}, by {words} alone", *first_caught(library.reply, among, alone=True)
    if first_caught_in_c("as it stands", ())[0] != "NOT CAUGHT":
        sys.exit("bench/plain_calls.c as it stands is caught; see tests/calls.py")
    for name, changes in WRONG_IN_C.items():
        yield f"in C, {name}", *first_caught_in_c(name, changes)


def mutants():
    for wrong in list(globals().values()):
        if isinstance(wrong, type) and issubclass(wrong, (Rules, Program)) and wrong not in NO_PROGRAMS:
            yield wrong.__name__, (wrong().run if issubclass(wrong, Program) else Program(wrong()).run)


def names_of(*bases):
    return {each.__name__ for each in list(globals().values()) if isinstance(each, type) and issubclass(each, bases)}


# By what they have wrong: the wrong programs, and the families that are asked about these first.
FLOATS_FIRST, FLOAT_FAMILIES = names_of(WrongFloats, EighteenEndsRun), ("float", "rule 18", "order: ", "river_in_floats", "mixed_floats",
                                                                       "last place: 18")
NOISES_FIRST, NOISE_FAMILIES = names_of(WrongNoise, OneTableByteMore, LongestOfVersionOne, LongestByVersion), (
    "noise", "size of table: ", "last place: 7, beta", "last place: 16")
STORMS_FIRST, STORM_FAMILIES = {wrong.__name__ for wrong in APART_BY_RAIN}, "storm: "
TANKS_FIRST, TANK_FAMILIES = names_of(WrongTanks), ("tanks: ", "tank river", "last place: 5, ")


def chosen_inputs():
    """Seven groups: those with floats, those with noises, storms, those with tanks, some dozens of all other families, the slow ones, the
    other quick ones that are small."""
    floats, noises, storms, tanks, dozens, others, slow, seen = [], [], [], [], [], [], [], {}
    for number, given in enumerate(inputs()):
        family = given.family.split(" cut at")[0].split(" spoiled at")[0]
        seen[family] = seen.get(family, 0) + 1
        if given.family.startswith(FLOAT_FAMILIES):
            floats.append((number, given))
        elif given.family.startswith(NOISE_FAMILIES):
            noises.append((number, given))
        elif given.family.startswith(STORM_FAMILIES):
            storms.append((number, given))
        elif given.family.startswith(TANK_FAMILIES):
            tanks.append((number, given))
        elif not given.fractions:
            slow.append((number, given))
        elif family.startswith(("river of 64", "longest", "long river", "Yubetsu")):
            continue
        elif seen[family] <= 3 and family.split()[0] not in SHAPES:
            dozens.append((number, given))
        else:
            others.append((number, given))
    return floats, noises, storms, tanks, dozens, slow, others


def told(caught):
    """By check: how many inputs it caught a wrong program on."""
    return ", ".join(f"{check} {count}" for check, count in sorted(caught.items())) if caught else "NOT CAUGHT"


def try_programs():
    """Prints a line for each wrong program; gives how many were tried and how many not caught."""
    (floats, noises, storms, tanks, *groups), expected = chosen_inputs(), {}
    tried = missed = 0
    for name, wrong in mutants():
        caught, used = {}, 0
        for group in ([floats] * (name in FLOATS_FIRST) + [noises] * (name in NOISES_FIRST) + [storms] * (name in STORMS_FIRST)
                      + [tanks] * (name in TANKS_FIRST) + groups + [floats, noises, storms, tanks]):
            for number, given in group:
                if caught.get("bytes", 0) >= (ENOUGH if given.fractions else 1):
                    break
                if number not in expected:
                    data = given.build(random_for(SEED, number))
                    expected[number] = data, run(data)
                data, right = expected[number]
                output = wrong(data)
                used += 1
                if output != right:
                    for check in judge(data, output, right, given.fractions):
                        caught[check] = caught.get(check, 0) + 1
            if caught:
                break
        tried += 1
        missed += not caught
        print(f"{name}: {told(caught)} (of {used} inputs)")
    return tried, missed


def try_versions():
    """Wrong programs that print another output for the same readings, or table, in version 1: how many tried and how many not caught."""
    missed = 0
    for family, wrongs, words in (("float: ", APART_BY_VERSION, "versions"), ("noise: ", APART_BY_TABLE, "tables")):
        pairs = [[build(random_for(SEED, number)) for build in (given.build, given.twin)]
                 for number, given in enumerate(inputs()) if given.twin and given.family.startswith(family)]
        for wrong in wrongs:
            program = Program(wrong())
            caught = sum(bool(version_complaint(program.run(data), program.run(twin))) for data, twin in pairs)
            missed += not caught
            print(f"{wrong.__name__}, by both {words} alone: {f'versions {caught}' if caught else 'NOT CAUGHT'} (of {len(pairs)} inputs)")
    return len(APART_BY_VERSION) + len(APART_BY_TABLE), missed


def try_storms():
    """Wrong programs by which more rain gives less water somewhere, or another variance: how many tried and how many not caught."""
    pairs = [[build(random_for(SEED, number)) for build in (given.build, given.wetter)]
             for number, given in enumerate(inputs()) if given.wetter]
    missed = 0
    for wrong in APART_BY_RAIN:
        program, caught = Program(wrong()), {}
        for data, wetter in pairs:
            for check in rain_complaint(data, program.run(data), wetter, program.run(wetter)):
                caught[check] = caught.get(check, 0) + 1
        missed += not caught
        print(f"{wrong.__name__}, by two storms alone: {told(caught)} (of {len(pairs)} pairs)")
    return len(APART_BY_RAIN), missed


def try_reaches():
    """Wrong programs that print something else for a river with tanks than for the same river in reaches: how many tried and not caught."""
    pairs = [[build(random_for(SEED, number)) for build in (given.build, given.reaches)]
             for number, given in enumerate(inputs()) if given.reaches]
    missed = 0
    for wrong in APART_BY_REACHES:
        program = Program(wrong())
        caught = sum(bool(reaches_complaint(data, program.run(data), program.run(written))) for data, written in pairs)
        missed += not caught
        print(f"{wrong.__name__}, by reaches alone: {f'reaches {caught}' if caught else 'NOT CAUGHT'} (of {len(pairs)} pairs)")
    return len(APART_BY_REACHES), missed


# ---- Wrong runs in fractions -------------------------------------------------------------------------------------------------------------


class RGiven(FractionsRun):
    def given_noise(self, noise, beta, z):
        return noise


class NoiseOfUnroundedZGiven(FractionsRun):
    def given_noise(self, noise, beta, z):
        return super().given_noise(noise, 1, beta * z)


class TUnroundedGiven(FractionsRun):
    """[t x t / 1,000] alone is rounded."""

    def given_noise(self, noise, beta, z):
        return noise + floor(Fraction(beta * floor(z), 10 ** 6) ** 2 / 1_000)


class NoiseUnroundedGiven(FractionsRun):
    def given_noise(self, noise, beta, z):
        return noise + (beta * z / 10 ** 6) ** 2 / 1_000


class OneTankGiven(FractionsRun):
    def tank_counts(self):
        return [1 for _ in self.elements]


class FirstValuesInLastTankGiven(FractionsRun):
    def start(self):
        super().start()
        zero = self.numbers.of(0)
        self.stores = [[(zero, zero)] * (len(tanks) - 1) + tanks[-1:] for tanks in self.stores]


class TankLagDividedGiven(FractionsRun):
    def start(self):
        super().start()
        self.elements = [(kind, down, max(self.step_minutes, lag // tanks), *rest)
                         for (kind, down, lag, *rest), tanks in zip(self.elements, self.tank_counts())]


class NewOutflowGiven(FractionsRun):
    """A reach and a tank take what came after alone."""

    def mean_inflow(self, above):
        return super().mean_inflow([(after, after) for _, after in above])


WRONG_RUNS = (RGiven, NoiseOfUnroundedZGiven, TUnroundedGiven, NoiseUnroundedGiven)
WRONG_TANK_RUNS = (OneTankGiven, FirstValuesInLastTankGiven, TankLagDividedGiven, NewOutflowGiven)


def built_inputs(family, most):
    """The quick inputs of a family of at most so many bytes; larger rivers take long in fractions."""
    chosen = (given.build(random_for(SEED, number)) for number, given in enumerate(inputs()) if given.family.startswith(family))
    return [data for data in chosen if len(data) < most]


def try_fractions():
    """Runs in fractions that are given another noise or other tanks than the cabinet's: how many were tried and how many found no fault."""
    missed = 0
    for family, most, wrongs in (("noise: ", 1_000, WRONG_RUNS), ("tanks: ", 200, WRONG_TANK_RUNS)):
        outputs = [(data, run(data)) for data in built_inputs(family, most)]
        for wrong in wrongs:
            caught = sum("fractions" in check_figures(data, output, chosen_numbers(data), wrong) for data, output in outputs)
            missed += not caught
            print(f"{wrong.__name__}: {f'fractions {caught}' if caught else 'NOT CAUGHT'} (of {len(outputs)} inputs)")
    return len(WRONG_RUNS + WRONG_TANK_RUNS), missed


# ---- Wrong limits ------------------------------------------------------------------------------------------------------------------------


class LimitOfElements(FractionsRun):
    """c counts elements, whatever their tanks."""

    def counts_above(self):
        return list(map(len, self.places_above()))


class LimitWithoutOwnTanks(FractionsRun):
    """c counts the tanks above an element, and its own as one."""

    def counts_above(self):
        return [count - own + 1 for count, own in zip(super().counts_above(), self.tank_counts())]


class LimitOfOwnTanks(FractionsRun):
    """c counts an element's own tanks, and those above as one each."""

    def counts_above(self):
        return [len(places) + own - 1 for places, own in zip(self.places_above(), self.tank_counts())]


class LimitOfOneMore(FractionsRun):
    def counts_above(self):
        return [count + 1 for count in super().counts_above()]


WRONG_LIMITS = (LimitOfElements, LimitWithoutOwnTanks, LimitOfOwnTanks, LimitOfOneMore)


def at_the_limit(data, output, more):
    """An output with every discharge margin at 16 x n x c and so many more."""
    counts, lines = FractionsRun(cut_table(data)).counts_above(), []
    for line in output.splitlines():
        words = line.split(b" ")
        if len(words) == 7:
            words[4] = b"%d" % (16 * (int(words[0]) + int(words[2])) * counts[int(words[1]) - 1] + more)
        lines.append(b" ".join(words) + b"\n")
    return b"".join(lines)


def try_limits():
    """Runs that count c otherwise, on margins at the limit and one above it in rivers with tanks: how many were tried and how many always
    agree with the right one."""
    outputs = []
    for data in built_inputs("tanks: ", 400):
        right = run(data)
        if not cut_table(data)[9] and b"refused" not in right:
            outputs += [(data, at_the_limit(data, right, more), more) for more in (0, 1)]

    def judged(run_of):
        return ["limit" in check_figures(data, output, EnclosedNumbers(), run_of) for data, output, _ in outputs]

    right, missed = judged(FractionsRun), 0
    if right != [more == 1 for *_, more in outputs]:
        sys.exit("margins at the limit are not judged by it; see tests/judge.py")
    for wrong in WRONG_LIMITS:
        caught = sum(one != other for one, other in zip(judged(wrong), right))
        missed += not caught
        print(f"{wrong.__name__}: {f'limit {caught}' if caught else 'NOT CAUGHT'} (of {len(outputs)} outputs)")
    return len(WRONG_LIMITS), missed


# Rules that change figures of the worked examples.
WRONG_METHODS = (GainMarginTwo, ReadingsIgnored, CorrectionVarianceKept, RainSumByThree, LastRainOnly, LeadNoiseOnce,
                 VarianceWeightNotSquared, SystemNoiseLeftOut, WeightsExchanged, ShortSeries, SumOfNewOutflows, OldForNew, NewForOldInSteps,
                 NewForOldAtLeads, StateForOldAtLeads, DamNewReleaseAsOld, InflowMarginWithoutOne, MeanVariance, ProductIn32Bits, HalvesToEven,
                 EveryNanAGap, NegativesThatRoundToZero, ThirteenForEighteen, DisplayMultiplied, BetaIgnored, TNotRounded, TRoundedUp,
                 NoiseRoundedUp, NoiseWithoutR, NoiseOfUnroundedZ, RInGain, RInGainMargin, RInVariance, RInVarianceMargin, BetaOfNextGauge,
                 NoiseAboveCeilingTaken, GainOfDischarge, NoiseOfDischarge, RainIn8Bits, MeanOfWetRains)


def changed_figures(text):
    """A worked example with one figure one higher in its last digit, each in turn."""
    for found in paper.NUMBER.finditer(text):
        end = found.end()
        yield text[:end - 1] + str((int(text[end - 1], 16) + 1) % 10) + text[end:]


def try_papers():
    """Wrong papers: how many were tried and how many not caught."""
    there = paper.examples(paper.METHOD.read_text())
    figures = missed = 0
    for name, text in there.items():
        right = paper.worked()[name]()
        if paper.compare_example(name, text, lambda: right):
            sys.exit(f"{name} as it stands is caught; see tests/paper.py")
        for wrong in changed_figures(text):
            figures, missed = figures + 1, missed + (paper.compare_example(name, wrong, lambda: right) is None)
    print(f"papers with a changed figure: {figures} tried, {missed} not caught")
    for wrong in WRONG_METHODS:
        paper_figures.RULES, paper_figures.Noted = wrong(), paper_figures.noting(wrong)
        caught = [name for name, text in there.items() if paper.compare_example(name, text, paper.worked()[name])]
        print(f"paper under {wrong.__name__}: {', '.join(caught) or 'NOT CAUGHT'}")
        missed += not caught
    paper_figures.RULES, paper_figures.Noted = whole_numbers.RULES, paper_figures.noting(Rules)
    return figures + len(WRONG_METHODS), missed


def main():
    chosen = sys.argv[1:]
    programs = [try_programs, try_versions, try_storms, try_reaches, try_fractions, try_limits]
    parts = ([] if chosen else programs) + ([] if "--libraries" in chosen else [try_papers])
    tried, missed = map(sum, zip((0, 0), *(part() for part in parts)))
    for name, caught, used in caught_libraries() if "--papers" not in chosen else ():
        tried, missed = tried + 1, missed + (caught == "NOT CAUGHT")
        print(f"library {name}: {caught} (case {used})")
    print(f"mutants: {tried} tried, {missed} not caught")
    return 1 if missed else 0


if __name__ == "__main__":
    sys.exit(main())
