# The questions: lines of the letters C, O, K, P, F, D and S. Each function is a group of docs/VECTORS.md.
import random

from document01 import Reading, Row, words
from list_reads import LONGEST, rich
from wkb_bytes import *

LARGEST = (1 << 64) - 1
ONES = "F" * 16
ZEROS = "0" * 16


def shown(table):
    return ",".join("%016X" % word for word in table) or "-"


def table_of(data):
    return words(Reading(data).rows)


def digits(data):
    return data.hex().upper() or "-"


def row(**fields):
    """The two words of a row that no reading gave: all zero but for the fields given."""
    return words([Row(*[0] * len(Row._fields))._replace(**fields)])


def coordinates(table, asked, data):
    """The four questions on one row's coordinates, at an index and an axis that are often there."""
    yield "O %s %d 0 1 %s" % (table, asked, data)
    yield "K %s %d 0 %s" % (table, asked, data)
    yield "P %s %d %s" % (table, asked, data)
    yield "F %s %d %s" % (table, asked, data)


def zoo(style):
    """Rows: collection 0, point 1, empty point 2, line 3, polygon 4, ring 5."""
    return style.geometry(COLLECTION, [style.child().point(), style.child().empty_point(), style.child().line(2, 20), style.child().polygon([1])])


def good_tables():
    """Every dimension in both orders: each axis, each index, and rows of every kind."""
    for dimension in DIMENSIONS:
        for order in (LITTLE, BIG):
            data = digits(zoo(Style(dimension, order, SRID)))
            for axis in (0, 1, 2, 3, 4, LARGEST):
                yield "O = 3 1 %d %s" % (axis, data)
            for axis in (2, 3):
                yield "O = 1 0 %d %s" % (axis, data)
                yield "O = 5 0 %d %s" % (axis, data)
            for index in (2, LARGEST):
                yield "O = 3 %d 0 %s" % (index, data)
                yield "O = 3 %d 9 %s" % (index, data)
                yield "K = 3 %d %s" % (index, data)
            yield "K = 3 1 %s" % data
            for asked in (0, 1, 2, 3, 4, 5, 6, LARGEST):
                yield from coordinates("=", asked, data)
            yield "S = %s" % data
            yield "C = %s" % data


def patterns():
    """Ordinates are kept bit for bit; a coordinate's NaN is just a NaN."""
    for order in (LITTLE, BIG):
        for x in (NAN, SIGNALLING, MINUS_NAN, INFINITY, 0xFFF0000000000000, 0x8000000000000000, 1, 0x7FEFFFFFFFFFFFFF):
            data = digits(Style(XYM, order).point([x, 0x3FF0000000000000, x]))
            yield "O = 0 0 0 %s" % data
            yield "O = 0 0 3 %s" % data
            yield "K = 0 0 %s" % data
    data = digits(Style().head(LINE_STRING) + number(1) + bits([NAN, SIGNALLING]))
    yield from coordinates("=", 0, data)


def made_up_rows():
    """Rows that no reading gave, at the edges of the first test: body start, end and length anywhere."""
    data = bytes(range(64))
    for fields in (
        dict(kind=2, count=2, body=0, end=32),
        dict(kind=1, count=4, body=0, end=64),
        dict(kind=0, count=4, body=0, end=63),
        dict(kind=0, count=4, body=1, end=64),
        dict(kind=1, count=1, body=47, end=63, start=0xFFFFF, order=1),
        dict(kind=2, count=1, body=48, end=64, start=64),
        dict(kind=2, count=0, body=64, end=64),
        dict(kind=2, count=0, body=64, end=63),
        dict(kind=2, count=0, body=65, end=65),
        dict(kind=2, count=1, body=8, end=65),
        dict(kind=2, dimension=1, count=2, body=16, end=64, order=1),
        dict(kind=2, dimension=2, count=2, body=16, end=64),
        dict(kind=2, dimension=3, count=2, body=0, end=64, srid=1, level=63),
        dict(kind=2, dimension=3, count=2, body=1, end=64),
        dict(kind=2, dimension=3, count=0xFFFFF, body=0xFFFFF, end=0xFFFFF),
        dict(kind=2, count=0x10000, body=0, end=0xFFFFF),
        dict(kind=3, count=1, body=0, end=64),
        dict(kind=4, count=1, body=0, end=64),
        dict(kind=7, count=1, body=0, end=64),
    ):
        yield from coordinates(shown(row(**fields)), 0, digits(data))
    a, b = row(kind=2, count=2, body=0, end=32)
    zero_fields = shown([a | 0x7FF << 40, b | 0xF])
    yield from coordinates(zero_fields, 0, digits(data))
    for table in ("-", ZEROS, ",".join([ZEROS] * 2), ",".join([ZEROS] * 3), ",".join([ONES] * 4), ",".join([ONES] * 5)):
        for asked in (0, 1, 2):
            yield from coordinates(table, asked, "-")
        yield "C %s %s" % (table, digits(Style().point()))
        yield "S %s %s" % (table, digits(data))
        yield "D %s 0 0" % table
        yield "D %s 1 0" % table
    # a row beyond the listed ones is answered as on any table
    beyond = "=,%s" % shown(row(kind=2, count=1, body=5, end=21))
    yield from coordinates(beyond, 1, digits(Style().point()))


def checks():
    """Each field of each word changed, words missing and words after the rows, other bytes in the buffer."""
    data = Style(XYZM, BIG, SRID).polygon([1, 0])
    table = table_of(data)
    for place in range(len(table)):
        fields = (61, 59, 58, 57, 51, 40, 50, 20, 0) if place % 2 == 0 else (44, 24, 4, 0, 3)
        for bit in fields:
            changed = list(table)
            changed[place] ^= 1 << bit
            yield "C %s %s" % (shown(changed), digits(data))
    for length in range(len(table) + 1):
        yield "C %s %s" % (shown(table[:length]), digits(data))
    for after in ("", "," + ONES, ",%s,%s,%s" % (ZEROS, ONES, ZEROS)):
        yield "C =%s %s" % (after, digits(data))
    for other in (data + b"\xFF", data[:-1], b"", data[:5] + bytes(4) + data[9:], data[:17] + bytes(24) + data[41:]):
        yield "C %s %s" % (shown(table), digits(other))
    point = Style().point()
    for zeros in (LONGEST - len(point), LONGEST - len(point) + 1):
        yield "C %s %s+%d" % (shown(table_of(point)), digits(point), zeros)
    for other in (Style().empty_point(), Style().point([NAN, 0]), Style(order=BIG).point(), Style(spelling=SRID).point()):
        yield "C %s %s" % (shown(table_of(point)), digits(other))
    yield "C = %s" % digits(rich())


def children():
    """Each child of good tables, and one beyond."""
    for data in (rich(), Style().example(POLYGON), Style().example(MULTI_POINT), Style().example(MULTI_POLYGON), nested(3), Style().point()):
        table = table_of(data)
        for asked, r in enumerate(Reading(data).rows):
            for index in range(r.count + 1) if r.kind >= POLYGON else (0,):
                yield "D %s %d %d" % (shown(table), asked, index)
    table = shown(table_of(rich()))
    for asked, index in ((14, 0), (LARGEST, 0), (0, LARGEST), (0, LARGEST - 1), (LARGEST, LARGEST)):
        yield "D %s %d %d" % (table, asked, index)


def broken_children():
    """Subtrees of 0, too short, past the end and as long as can be; kinds that have no children; odd tables."""
    leaf = row(kind=1, count=1, subtree=1)
    for subtree in (0, 1, 2, 3, 4, 5, 0xFFFFF):
        for first in (0, 1, 2, 0xFFFFF):
            table = row(kind=7, count=4, subtree=subtree) + row(kind=2, subtree=first) + leaf + leaf
            for index in (0, 1, 2, 3, 4):
                yield "D %s 0 %d" % (shown(table), index)
    for kind in range(8):
        table = row(kind=kind, count=2, subtree=3) + leaf + leaf
        yield "D %s 0 1" % shown(table)
        yield "D %s 0 2" % shown(table)
    table = leaf + row(kind=4, count=2, subtree=3) + leaf + leaf
    for length in (8, 7, 6, 5, 4, 3):
        for index in (0, 1, 2):
            yield "D %s 1 %d" % (shown(table[:length]), index)


def srids():
    """Row 0's flag, start and order, whatever its kind, over buffers that hold the four bytes or not."""
    data = bytes(range(32))
    for order in (LITTLE, BIG):
        for start in (0, 1, 22, 23, 24, 0xFFFFF):
            yield "S %s %s" % (shown(row(kind=start % 8, order=order, srid=1, start=start)), digits(data))
        for value in (0, 1, 4326, 0x7FFFFFFF, 0x80000000, 0xFFFFFFFF):
            yield "S = %s" % digits(Style(XYM, order, SRID, value).line(0))
        yield "S %s -" % shown(row(kind=1, order=order, start=9))
        for length in (0, 8, 9, 10):
            yield "S %s %s" % (shown(row(kind=7, order=order, srid=1)), digits(data[:length]))
    yield "S %s %s" % (shown(row(srid=1)[:1]), digits(data))
    yield "S = %s" % digits(Style().point())


def random_tables():
    """Every question on rows of random fields, small enough that many answer, and on random words."""
    bits_of = random.Random(1)

    def below(n):
        return bits_of.getrandbits(32) % n

    def field_row(kinds):
        return row(
            kind=below(kinds),
            dimension=below(4),
            order=below(2),
            srid=below(2),
            level=below(64),
            start=below(80),
            end=32 + below(40),
            count=below(3),
            subtree=below(4),
            body=below(24),
        )

    for turn in range(60):
        data = digits(bytes(bits_of.getrandbits(8) for _ in range(64)))
        if turn % 4 == 0:
            table = [bits_of.getrandbits(64) for _ in range(5)]
        else:
            # now every kind, now those with coordinates
            table = sum((field_row(8 if turn % 4 == 1 else 3) for _ in range(4)), [])
        text = shown(table)
        yield "O %s %d %d %d %s" % (text, below(5), below(2), below(4), data)
        yield "K %s %d %d %s" % (text, below(5), below(2), data)
        yield "P %s %d %s" % (text, below(5), data)
        yield "F %s %d %s" % (text, below(5), data)
        yield "D %s %d %d" % (text, below(3), below(2))
        yield "%s %s %s" % ("C" if turn % 8 == 0 else "S", text, data)


GROUPS = [good_tables, patterns, made_up_rows, checks, children, broken_children, srids, random_tables]
