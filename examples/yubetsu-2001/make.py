#!/usr/bin/env python3
"""Makes the sample river's input, cabinet.bin, and the list of its table's figures, cabinet-parameters.csv.

    make.py                             writes both files beside this program
    make.py --check                     writes nothing; compares both with those that stand there
    make.py --choices FILE --out DIR    writes a variation into DIR, made with the choices in FILE

The data are network.csv, rain.csv, stage.csv and rating.csv beside this program, the choices are choices.csv there unless FILE is
given. To vary the data, copy this directory and change the copy. README.md says how each figure follows. All is worked in decimal
numbers of 50 digits; a half is rounded up. Ranges are not judged here: the cabinet refuses a wrong table or record by its number.
Exit status: 0 made or equal, 1 not equal, 2 wrong data or wrong use.
"""
import argparse
import csv
import io
import sys
from datetime import datetime, timedelta
from decimal import ROUND_CEILING, ROUND_HALF_UP, Decimal, InvalidOperation, getcontext
from pathlib import Path

HERE = Path(__file__).resolve().parent
INPUT, PARAMETERS = "cabinet.bin", "cabinet-parameters.csv"
LAST_TOP = 30001  # mm: the top of a curve's last piece
MOST_PIECES = 5
GAP = 65535  # in place of a stage
BASIN, REACH = 1, 2
VARIANCE_UNIT = "0.001 (m3/s)2"
# An element's figures as they stand in the table: name, bytes, unit.
ELEMENT_FIELDS = (("kind", 1, "1 basin, 2 reach"), ("down", 1, ""), ("lag_min", 2, "min"), ("area_001km2", 4, "0.01 km2"),
                  ("f_thousandths", 2, "0.001"), ("first_discharge_grains", 4, "0.000001 m3/s"), ("first_variance", 4, VARIANCE_UNIT),
                  ("W", 4, VARIANCE_UNIT), ("G", 4, VARIANCE_UNIT))
getcontext().prec = 50


class Wrong(Exception):
    """The data or the choices do not make a table."""


# ---- Reading ----

class Cells(dict):
    """A row's cells by column, or the choices by name."""
    def __missing__(self, name):
        raise Wrong(f"{name} is missing")


def read_rows(path):
    try:
        with open(path, newline="", encoding="utf-8") as file:
            return [Cells(row) for row in csv.DictReader(file)]
    except OSError as error:
        raise Wrong(f"{path}: {error.strerror}")


def read_choices(path):
    return Cells((row["choice"], row["value"]) for row in read_rows(path))


def number(cells, name):
    try:
        value = Decimal(cells[name])
    except (InvalidOperation, TypeError):
        value = Decimal("NaN")
    if not value.is_finite():
        raise Wrong(f"{name}: {cells[name]!r} is no number")
    return value


def whole(value):
    """The nearest whole number, a half rounded up."""
    return int(value.to_integral_value(ROUND_HALF_UP))


def check_times(rain, stages, choices):
    """Rain and stage must stand side by side, one row for each step."""
    times = [row["datetime"] for row in rain]
    if times != [row["datetime"] for row in stages]:
        raise Wrong("rain.csv and stage.csv do not hold the same times")
    step = timedelta(minutes=whole(number(choices, "T")))
    for time, following in zip(times, times[1:]):
        if datetime.fromisoformat(following) - datetime.fromisoformat(time) != step:
            raise Wrong(f"{time} and {following} are not one step T apart")


# ---- The network ----

def upstream_areas(network):
    """By id, in km2: the areas of all sub-basins at or above an element. A row drains into a later one."""
    areas = {row["id"]: number(row, "area_km2") if row["kind"] == "basin" else Decimal(0) for row in network}
    for row in network:
        if number(row, "upstream_area_km2") != areas[row["id"]]:
            raise Wrong(f"network.csv: the areas at and above {row['id']} add up to {areas[row['id']]} km2")
        if row["drains_into"] in areas:
            areas[row["drains_into"]] += areas[row["id"]]
        elif row["drains_into"] != "outlet":
            raise Wrong(f"network.csv: {row['id']} drains into {row['drains_into']}, which is not there")
    return areas


def ids_above(point, network):
    """The ids of a point and of all from which the water comes to it."""
    if point not in [row["id"] for row in network]:
        raise Wrong(f"network.csv: there is no {point}")
    above = {point}
    for row in reversed(network):
        if row["drains_into"] in above:
            above.add(row["id"])
    return above


# ---- Curves and stages ----

def curve(gauge, datum, year, rating):
    """A gauge's pieces: top in mm (the first whole mm that is not under stage_to), a in 0.001 m3/s per m2, b in mm."""
    rows = [row for row in rating if row["point"] == gauge and row["year"] == year]
    if not 1 <= len(rows) <= MOST_PIECES:
        raise Wrong(f"rating.csv: {len(rows)} pieces for {gauge} in {year}")
    tops = [int((1000 * number(row, "stage_to_m") - datum).to_integral_value(ROUND_CEILING)) for row in rows[:-1]] + [LAST_TOP]
    return [{"top": top, "a": whole(1000 * number(row, "a_m3s_per_m2")), "b": whole(datum - 1000 * number(row, "h0_m"))}
            for top, row in zip(tops, rows)]


def stage_and_discharge(row, gauge):
    """Stage in mm and its discharge in grains; a gap and None where none was read or it lies under the foot of the curve."""
    column = gauge["name"].lower() + "_m"
    if row[column] == "":
        return GAP, None
    stage = whole(1000 * number(row, column) - gauge["datum"])
    piece = next((piece for piece in gauge["pieces"] if stage < piece["top"]), None)
    if piece is None:
        raise Wrong(f"stage.csv: {column} {row[column]} is above the curve")
    if stage + piece["b"] < 0:
        return GAP, None
    return stage, Decimal(piece["a"] * (stage + piece["b"]) ** 2) / 1000


# ---- The table's figures ----

def variance(share, discharge):
    """In 0.001 (m3/s)2, where the standard deviation is a share of a discharge in m3/s."""
    return whole((share * discharge) ** 2 * 1000)


def lag(row, choices):
    """In minutes; the cabinet takes none under T."""
    if row["kind"] == "basin":
        minutes = number(choices, "basin_lag") * number(row, "area_km2") ** number(choices, "basin_lag_exponent")
    elif row["kind"] == "reach":
        minutes = number(row, "length_m") / number(choices, "speed") / 60
    elif row["kind"] == "point":
        minutes = number(choices, "point_lag_" + row["id"])
    else:
        raise Wrong(f"network.csv: {row['id']} is neither basin nor reach nor point")
    return max(whole(number(choices, "T")), whole(minutes))


def rain_noise(area, runoff, choices):
    """G: the variance of a sub-basin's inflow one step ahead. 1 mm/h on 1 km2 is 1 / 3.6 m3/s."""
    rain_variance = number(choices, "rain_noise") ** 2 * number(choices, "rain") ** number(choices, "rain_noise_exponent")
    return whole((area * runoff / Decimal("3.6")) ** 2 * rain_variance * 1000)


def make_elements(network, areas, first_grains, choices):
    """first_grains is the first discharge of 1 km2."""
    numbers = {row["id"]: at for at, row in enumerate(network, 1)}
    upper = ids_above(choices["upper_point"], network)
    elements = []
    for row in network:
        is_basin = row["kind"] == "basin"
        area = number(row, "area_km2") if is_basin else Decimal(0)
        runoff = number(choices, "f_upper" if row["id"] in upper else "f_lower") if is_basin else Decimal(0)
        first = whole(first_grains * areas[row["id"]])
        share = number(choices, "w_point" if row["kind"] == "point" else "w")
        elements.append({
            "kind": BASIN if is_basin else REACH,
            "down": numbers.get(row["drains_into"], 0),
            "lag_min": lag(row, choices),
            "area_001km2": whole(100 * area),
            "f_thousandths": whole(1000 * runoff),
            "first_discharge_grains": first,
            "first_variance": variance(number(choices, "w"), Decimal(first) / 1000000),
            "W": variance(share, number(choices, "typical_discharge") * areas[row["id"]]),
            "G": rain_noise(area, runoff, choices),
        })
    return elements


def make_gauges(network, areas, rating, choices):
    gauges = []
    for at, row in enumerate(network, 1):
        if row["gauge"]:
            datum = whole(number(choices, "datum_" + row["id"]))
            typical = number(choices, "typical_discharge") * areas[row["id"]]
            gauges.append({"id": row["id"], "name": row["gauge"], "element": at, "datum": datum,
                           "R": variance(number(choices, "r"), typical),
                           "pieces": curve(row["gauge"], datum, choices["curve_year"], rating)})
    return gauges


def first_discharge(gauges, areas, stages, choices):
    """The first discharge of 1 km2 in grains: that of the first point at the first hour, spread by area."""
    gauge = next((gauge for gauge in gauges if gauge["id"] == choices["first_point"]), None)
    row = next((row for row in stages if row["hour"] == choices["first_hour"]), None)
    if gauge is None or row is None:
        raise Wrong("first_point is no gauged point, or first_hour not in stage.csv")
    grains = stage_and_discharge(row, gauge)[1]
    if grains is None:
        raise Wrong("no discharge at first_point in first_hour")
    return grains / areas[gauge["id"]]


# ---- Bytes ----

def field(value, size, signed=False):
    try:
        return value.to_bytes(size, "big", signed=signed)  # signed: two's complement
    except OverflowError:
        raise Wrong(f"{value} does not fit into its field of {size} bytes")


def gauge_bytes(gauge):
    made = field(gauge["element"], 1) + field(len(gauge["pieces"]), 1) + field(gauge["R"], 4)
    for piece in gauge["pieces"]:
        made += field(piece["top"], 2) + field(piece["a"], 4) + field(piece["b"], 2, signed=True)
    return made + bytes(8 * (MOST_PIECES - len(gauge["pieces"])))


def table_bytes(header, elements, gauges):
    body = field(1, 1) + field(header["T"], 2) + b"".join(field(header[name], 1) for name in "LNM")
    for element in elements:
        body += b"".join(field(element[name], size) for name, size, _ in ELEMENT_FIELDS)
    body += b"".join(map(gauge_bytes, gauges))
    return field(len(body), 4) + body


def record_bytes(rain_row, stage_row, basins, gauges):
    """Rain in tenths of mm/h by sub-basin, then stages by gauge."""
    figures = [whole(10 * number(rain_row, "basin_" + basin)) for basin in basins]
    figures += [stage_and_discharge(stage_row, gauge)[0] for gauge in gauges]
    body = field(1, 1) + b"".join(field(figure, 2) for figure in figures)
    return field(len(body), 2) + body


# ---- The list of figures ----

def parameter_rows(header, network, elements, gauges):
    yield "part", "number", "id", "field", "value", "unit"
    for name, value in header.items():
        yield "table", "", "", name, value, "min" if name == "T" else ""
    for at, (row, element) in enumerate(zip(network, elements), 1):
        for name, _, unit in ELEMENT_FIELDS:
            yield "element", at, row["id"], name, element[name], unit
    for at, gauge in enumerate(gauges, 1):
        figures = [("element", gauge["element"], ""), ("datum", gauge["datum"], "mm, old levelling"), ("R", gauge["R"], VARIANCE_UNIT),
                   ("pieces", len(gauge["pieces"]), "")]
        for of, piece in enumerate(gauge["pieces"], 1):
            figures += [(f"top_{of}", piece["top"], "mm"), (f"a_{of}", piece["a"], "0.001 m3/s per m2"), (f"b_{of}", piece["b"], "mm")]
        for figure in figures:
            yield "gauge", at, gauge["name"], *figure


def csv_bytes(rows):
    text = io.StringIO()
    csv.writer(text, lineterminator="\n").writerows(rows)
    return text.getvalue().encode()


# ---- The whole ----

def make(choices):
    """Both files' bytes, by name."""
    network, rain, stages, rating = (read_rows(HERE / name) for name in ("network.csv", "rain.csv", "stage.csv", "rating.csv"))
    check_times(rain, stages, choices)
    areas = upstream_areas(network)
    gauges = make_gauges(network, areas, rating, choices)
    elements = make_elements(network, areas, first_discharge(gauges, areas, stages, choices), choices)
    header = {"T": whole(number(choices, "T")), "L": whole(number(choices, "leads")), "N": len(elements), "M": len(gauges)}
    basins = [row["id"] for row in network if row["kind"] == "basin"]
    records = [record_bytes(*rows, basins, gauges) for rows in zip(rain, stages)]
    return {INPUT: table_bytes(header, elements, gauges) + b"".join(records),
            PARAMETERS: csv_bytes(parameter_rows(header, network, elements, gauges))}


def difference(name, made, there):
    """In words, where two files first differ."""
    at = next((at for at, pair in enumerate(zip(made, there)) if pair[0] != pair[1]), min(len(made), len(there)))
    if name == PARAMETERS:
        line = made[:at].count(b"\n")
        lines = [(data.decode(errors="replace").splitlines(keepends=True) + [""] * (line + 1))[line] for data in (there, made)]
        return f"{name}: line {line + 1} is {lines[0]!r}, made {lines[1]!r}"
    table = 4 + int.from_bytes(made[:4], "big")
    record = 2 + int.from_bytes(made[table:table + 2], "big")
    part = "the table" if at < table else f"record {(at - table) // record + 1}"
    return f"{name}: {len(there)} bytes, made {len(made)}; the first that differs is byte {at}, counted from 0, in {part}"


def check(files, directory):
    """Prints what differs; the exit status."""
    found = []
    for name, made in files.items():
        there = (directory / name).read_bytes() if (directory / name).exists() else None
        if there != made:
            found.append(f"{name} is missing" if there is None else difference(name, made, there))
    for line in found:
        print(f"{directory.name}: {line}")
    if not found:
        print(f"{directory.name}: {INPUT} ({len(files[INPUT])} bytes) and {PARAMETERS} as made")
    return 1 if found else 0


def main():
    parser = argparse.ArgumentParser(description=__doc__, formatter_class=argparse.RawDescriptionHelpFormatter)
    parser.add_argument("--check", action="store_true", help="write nothing, compare")
    parser.add_argument("--choices", type=Path, metavar="FILE", help="choices to use in place of choices.csv")
    parser.add_argument("--out", type=Path, metavar="DIR", help="directory of the two made files")
    given = parser.parse_args()
    if given.choices and not (given.out or given.check):
        parser.error("--choices needs --out: the files here are made with choices.csv")
    directory = given.out.resolve() if given.out else HERE
    try:
        files = make(read_choices(given.choices or HERE / "choices.csv"))
        if given.check:
            return check(files, directory)
        directory.mkdir(parents=True, exist_ok=True)
        for name, made in files.items():
            (directory / name).write_bytes(made)
            print(f"{directory / name}: {len(made)} bytes")
        return 0
    except (Wrong, OSError, ValueError) as error:  # ValueError: a time or text that cannot be read
        print(f"make.py: {error}", file=sys.stderr)
        return 2


if __name__ == "__main__":
    sys.exit(main())
