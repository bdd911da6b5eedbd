"""Tables and records as bytes from plain Python values. Nothing is checked here: wrong values make the wrong tables that the tests need.

A table is a dict: T, L, elements, gauges and, where it is not 1, version; an element a dict of ELEMENT_FIELDS, a gauge a dict of element,
R, pieces (up to five of (top, a, b)), where it shall differ from the count of pieces, used, and for version 2 beta, if it is not 0.
"""
from struct import pack

ELEMENT_FIELDS = (("kind", 1), ("down", 1), ("lag", 2), ("area", 4), ("f", 2), ("first_discharge", 4), ("first_variance", 4), ("W", 4),
                  ("G", 4))


def big_endian(value, size):
    return (value % (1 << (8 * size))).to_bytes(size, "big")


def element_bytes(element):
    return b"".join(big_endian(element.get(name, 0), size) for name, size in ELEMENT_FIELDS)


def gauge_bytes(gauge):
    pieces = list(gauge["pieces"])
    head = big_endian(gauge["element"], 1) + big_endian(gauge.get("used", len(pieces)), 1) + big_endian(gauge["R"], 4)
    pieces += [(0, 0, 0)] * (5 - len(pieces))
    return head + b"".join(big_endian(top, 2) + big_endian(a, 4) + big_endian(b, 2) for top, a, b in pieces)


def beta_bytes(gauge):
    return big_endian(gauge.get("beta", 0), 2)


def table_bytes(table):
    """`with_beta`, `N`, `M` and `length` may be given to differ from what the rest says: gauges end with β in version 2 and no other."""
    elements, gauges, version = table["elements"], table["gauges"], table.get("version", 1)
    with_beta = table.get("with_beta", version == 2)
    body = b"".join(map(element_bytes, elements))
    body += b"".join(gauge_bytes(gauge) + beta_bytes(gauge) * with_beta for gauge in gauges)
    head = (big_endian(version, 1) + big_endian(table["T"], 2) + big_endian(table["L"], 1)
            + big_endian(table.get("N", len(elements)), 1) + big_endian(table.get("M", len(gauges)), 1))
    return big_endian(table.get("length", 6 + len(body)), 4) + head + body


def float_bits(metres):
    """The bits of the 32-bit float nearest to so many metres."""
    return int.from_bytes(pack(">f", metres), "big")


def record_bytes(rains, stages, releases=(), version=1, length=None, size=None):
    """The releases stand between rains and stages; a stage has 4 bytes in version 2, where it is the bits of a float, and 2 in every other,
    or `size`."""
    size = size or (4 if version == 2 else 2)
    fields = [(rain, 2) for rain in rains] + [(release, 4) for release in releases] + [(stage, size) for stage in stages]
    body = big_endian(version, 1) + b"".join(big_endian(value, size) for value, size in fields)
    return big_endian(len(body) if length is None else length, 2) + body
