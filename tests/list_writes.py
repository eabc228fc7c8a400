# The ISO writer's records: lines `W TABLE ORDER OUTLEN HEX`. Each function is a group of docs/VECTORS.md.
from document01 import ORDERS, Reading, iso
from list_questions import ONES, ZEROS, digits, shown, table_of
from list_reads import LONGEST, rich
from wkb_bytes import *


def needed(data):
    return len(iso(data, Reading(data).rows, BIG))


def line(data, order, room, table="=", zeros=0):
    return "W %s %s %d %s%s" % (table, ORDERS[order], room, digits(data), "+%d" % zeros if zeros else "")


def kinds():
    """Every kind, dimension and order, to both orders; the spelling changes from one to the next. The output is now exact, now longer."""
    turn = 0
    for kind in range(POINT, COLLECTION + 1):
        for dimension in DIMENSIONS:
            for order in (LITTLE, BIG):
                data = Style(dimension, order, (ISO, SRID, FLAGS)[turn % 3]).example(kind)
                yield line(data, LITTLE, needed(data) + turn % 2)
                yield line(data, BIG, needed(data) + turn % 2)
                turn += 1


def outputs():
    """Outputs of length 0, one short, exact and longer."""
    for data in (Style().point(), Style(spelling=SRID).empty_point(), Style(XYZM, BIG).polygon([1, 0]), rich()):
        for room in (0, 1, needed(data) - 1, needed(data), needed(data) + 1, needed(data) + 20):
            yield line(data, LITTLE, room)
            yield line(data, BIG, room)


def patterns():
    """What is kept bit for bit, and what an empty point becomes."""
    one = 0x3FF0000000000000
    for dimension in DIMENSIONS:
        for written in ([SIGNALLING] * 4, [MINUS_NAN, NAN, SIGNALLING, one], [one, SIGNALLING, MINUS_NAN, INFINITY], [NAN, 0x8000000000000000, 1, NAN]):
            for order in (LITTLE, BIG):
                data = Style(dimension, order).point(written[: SIZE[dimension]])
                yield line(data, 1 - order, needed(data))
    data = Style().head(LINE_STRING) + number(2) + bits([NAN, SIGNALLING, MINUS_NAN, NAN])
    yield line(data, BIG, needed(data))
    yield line(data, LITTLE, needed(data))


def mixed():
    """Children in other orders and dimensions, levels down to the deepest, and bytes after the prefix."""
    deep = nested(16, inner=Style(XYM).geometry(MULTI_POLYGON, [Style(XYM).polygon([1, 2]), Style(XYM).polygon([])]), orders=[LITTLE, BIG])
    for data in (rich() + b"\xFF\xFF", deep, nested(16)):
        for order in (LITTLE, BIG):
            yield line(data, order, needed(data) + 3)
    for kind in (MULTI_POINT, MULTI_LINE_STRING, MULTI_POLYGON, COLLECTION):
        child = kind - 3 if kind != COLLECTION else MULTI_POINT
        data = Style(order=BIG).geometry(kind, [Style(order=o).example(child) for o in (LITTLE, BIG, LITTLE)])
        for order in (LITTLE, BIG):
            yield line(data, order, needed(data))
    point = Style(spelling=SRID).point()
    for length in (LONGEST, LONGEST + 1):
        yield line(point, BIG, 21, shown(table_of(point)), zeros=length - len(point))


def unsound():
    """9 unless the check says yes, also where the output is too short."""
    point, polygon = Style().point(), Style(XYZ, BIG).polygon([1, 0])
    for room in (0, 21, 60):
        for table in ("-", ZEROS, ",".join([ZEROS] * 2), ",".join([ONES] * 6), shown(table_of(Style(order=BIG).point()))):
            yield line(point, LITTLE, room, table)
        for length in (0, 2, 4, 5):
            yield line(polygon, BIG, room, shown(table_of(polygon)[:length]))
        for place in (0, 1, 2, 3, 4, 5):
            changed = table_of(polygon)
            changed[place] ^= 1 << 50
            yield line(polygon, LITTLE, room, shown(changed))
        yield line(polygon[:-1], BIG, room, shown(table_of(polygon)))
        yield line(b"", BIG, room, shown(table_of(polygon)))
    # words after the rows do not count
    for after in (ONES, "%s,%s,%s" % (ZEROS, ONES, ZEROS)):
        yield line(polygon, LITTLE, 60, "=," + after)


GROUPS = [kinds, outputs, patterns, mixed, unsound]
