# Document 01 as a short program: what is read, refused, asked and written, in the document's words and order. The expected answers of the
# vectors come from here, so it is written from the document alone and knows nothing of the crates.
#
# A buffer is bytes, a table a list of 64-bit words, an output a bytearray. Each function answers, or raises Refused and has changed nothing.
from collections import namedtuple

LONGEST = 1_048_575
RING, POINT, LINE_STRING, POLYGON, MULTI_POINT, MULTI_LINE_STRING, MULTI_POLYGON, COLLECTION = range(8)
SIZE = [2, 3, 3, 4]
# where each axis (X 0, Y 1, Z 2, M 3) stands in a coordinate: "in Xym the third number is M"
STANDS = [{0: 0, 1: 1}, {0: 0, 1: 1, 2: 2}, {0: 0, 1: 1, 3: 2}, {0: 0, 1: 1, 2: 2, 3: 3}]
ORDERS = ["big", "little"]

Row = namedtuple("Row", "kind dimension order srid level start end count subtree body")


class Refused(Exception):
    def __init__(self, number, place):
        super().__init__(number, place)
        self.number, self.place = number, place


def number(buf, at, width, order):
    return int.from_bytes(buf[at : at + width], ORDERS[order])


# Codes


def type_of(code):
    """Kind, dimension and SRID flag, or None: "all else is refused"."""
    z, m, srid = code >> 31, code >> 30 & 1, code >> 29 & 1
    if z or m or srid:
        kind, dimension = code & 0x1FFFFFFF, z + 2 * m
    else:
        dimension, kind = divmod(code, 1000)
    return (kind, dimension, srid) if 1 <= kind <= 7 and dimension <= 3 else None


# Reading


def is_nan(bits):
    return bits & 0x7FF0000000000000 == 0x7FF0000000000000 and bits & 0x000FFFFFFFFFFFFF != 0


class Reading:
    """One pass over a buffer, which leaves the rows of the geometries and rings met, in reading order."""

    def __init__(self, buf):
        if len(buf) > LONGEST:
            raise Refused(1, 0)
        self.buf, self.at, self.rows = buf, 0, []
        self.geometry(0, None)

    def take(self, size):
        """Goes past a field or a coordinate run, and answers where it began."""
        start = self.at
        if start + size > len(self.buf):
            raise Refused(2, start)
        self.at += size
        return start

    def count(self, order):
        return number(self.buf, self.take(4), 4, order)

    def geometry(self, level, parent):
        start = self.take(1)
        order = self.buf[start]
        if order > 1:
            raise Refused(3, start)
        place = self.take(4)
        known = type_of(number(self.buf, place, 4, order))
        if known is None:
            raise Refused(4, place)
        kind, dimension, srid = known
        if parent and parent.kind != COLLECTION and (kind, dimension) != (parent.kind - 3, parent.dimension):
            raise Refused(5, place)
        if parent and srid:
            raise Refused(6, place)
        if kind == COLLECTION and level >= 16:
            raise Refused(7, start)
        if srid:
            self.take(4)
        self.body(Row(kind, dimension, order, srid, level, start, None, None, None, None))

    def body(self, row):
        """What follows the header; the row takes its place before those of its children."""
        mine = len(self.rows)
        self.rows.append(row)
        run = 8 * SIZE[row.dimension]
        if row.kind == POINT:
            body = self.take(run)
            empty = all(is_nan(number(self.buf, at, 8, row.order)) for at in range(body, body + run, 8))
            count = 0 if empty else 1
        else:
            count, body = self.count(row.order), self.at
            if row.kind in (RING, LINE_STRING):
                self.take(run * count)
            elif row.kind == POLYGON:
                for _ in range(count):
                    self.body(row._replace(kind=RING, srid=0, level=row.level + 1, start=self.at))
            else:
                for _ in range(count):
                    self.geometry(row.level + 1, row)
        self.rows[mine] = row._replace(end=self.at, count=count, subtree=len(self.rows) - mine, body=body)


# The table


def pack(fields):
    """A word of (width, value) pairs, most significant first."""
    word = 0
    for width, value in fields:
        assert value < 1 << width
        word = word << width | value
    return word


def words(rows):
    found = []
    for r in rows:
        heading = [(3, r.kind), (2, r.dimension), (1, r.order), (1, r.srid), (6, r.level), (11, 0)]
        found.append(pack(heading + [(20, r.start), (20, r.end)]))
        found.append(pack([(20, r.count), (20, r.subtree), (20, r.body), (4, 0)]))
    return found


def row_at(table, row):
    """The fields of a row, or None: "a table has as many rows as half its length, rounded down"."""
    if row >= len(table) // 2:
        return None
    a, b = table[2 * row], table[2 * row + 1]
    return Row(
        kind=a >> 61,
        dimension=a >> 59 & 3,
        order=a >> 58 & 1,
        srid=a >> 57 & 1,
        level=a >> 51 & 63,
        start=a >> 20 & 0xFFFFF,
        end=a & 0xFFFFF,
        count=b >> 44,
        subtree=b >> 24 & 0xFFFFF,
        body=b >> 4 & 0xFFFFF,
    )


def read(buf, table):
    """Prefix length and rows used; the rows are in the table."""
    rows = Reading(buf).rows
    if len(table) // 2 < len(rows):
        raise Refused(8, len(rows))
    table[: 2 * len(rows)] = words(rows)
    return rows[0].end, len(rows)


# Questions


def check(buf, table):
    try:
        listed = words(Reading(buf).rows)
    except Refused:
        return False
    return table[: len(listed)] == listed


def with_coordinates(buf, table, row):
    r = row_at(table, row)
    if r is None or r.kind > LINE_STRING or not r.body + 8 * SIZE[r.dimension] * r.count <= r.end <= len(buf):
        raise Refused(9, row)
    return r


def ordinate(buf, table, row, index, axis):
    r = with_coordinates(buf, table, row)
    if index >= r.count:
        raise Refused(10, index)
    if axis not in STANDS[r.dimension]:
        raise Refused(10, axis)
    return number(buf, r.body + 8 * (SIZE[r.dimension] * index + STANDS[r.dimension][axis]), 8, r.order)


def coordinate(buf, table, row, index):
    """The dimension and the patterns of X, Y, Z, M, where absent ones are positive zero."""
    ordinate(buf, table, row, index, 0)
    dimension = row_at(table, row).dimension
    return dimension, [ordinate(buf, table, row, index, axis) if axis in STANDS[dimension] else 0 for axis in range(4)]


def part(buf, table, row):
    try:
        r = with_coordinates(buf, table, row)
    except Refused:
        return b""
    return buf[r.body : r.body + 8 * SIZE[r.dimension] * r.count]


def form(buf, table, row):
    """The part's sibling answer: order and count."""
    r = with_coordinates(buf, table, row)
    return ORDERS[r.order], r.count


def child(table, row, index):
    asked = row_at(table, row)
    if asked is None or asked.kind < POLYGON:
        raise Refused(9, row)
    if index >= asked.count:
        raise Refused(10, index)
    bound = min(len(table) // 2, row + asked.subtree)
    reached, steps = row + 1, index
    while reached < bound:
        if steps == 0:
            return reached
        subtree = row_at(table, reached).subtree
        if subtree == 0:
            break
        reached, steps = reached + subtree, steps - 1
    raise Refused(9, row)


def srid(buf, table):
    """The SRID, or None."""
    r = row_at(table, 0)
    if r is None or r.srid and r.start + 9 > len(buf):
        raise Refused(9, 0)
    return number(buf, r.start + 5, 4, r.order) if r.srid else None


# ISO writer


def iso(buf, rows, order):
    """The bytes of the geometry with no flags. Reading order is writing order, so the rows' own bytes follow each other."""
    out = bytearray()

    def put(value, width):
        out.extend(value.to_bytes(width, ORDERS[order]))

    for r in rows:
        if r.kind != RING:
            put(order, 1)
            put(1000 * r.dimension + r.kind, 4)
        if r.kind != POINT:
            put(r.count, 4)
        if r.kind == POINT and r.count == 0:
            for _ in range(SIZE[r.dimension]):
                put(0x7FF8000000000000, 8)
        elif r.kind <= LINE_STRING:
            for i in range(SIZE[r.dimension] * r.count):
                put(number(buf, r.body + 8 * i, 8, r.order), 8)
    return bytes(out)


def write(buf, table, order, out):
    if not check(buf, table):
        raise Refused(9, 0)
    written = iso(buf, Reading(buf).rows, order)
    if len(out) < len(written):
        raise Refused(11, len(written))
    out[: len(written)] = written
    return len(written)
