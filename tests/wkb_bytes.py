# Bytes of geometries, good ones and broken ones, to make vectors of.
import struct

XY, XYZ, XYM, XYZM = DIMENSIONS = range(4)
BIG, LITTLE = range(2)
# the three spellings of a code: 1000k + t, the flags Z and M, and those with the SRID flag
ISO, FLAGS, SRID = range(3)
SIZE = [2, 3, 3, 4]
POINT, LINE_STRING, POLYGON, MULTI_POINT, MULTI_LINE_STRING, MULTI_POLYGON, COLLECTION = range(1, 8)

Z_FLAG, M_FLAG, SRID_FLAG = 0x80000000, 0x40000000, 0x20000000
NAN, SIGNALLING, MINUS_NAN, INFINITY = 0x7FF8000000000000, 0x7FF0000000000001, 0xFFF8000000000000, 0x7FF0000000000000


def number(n, order=LITTLE, width=4):
    return n.to_bytes(width, ["big", "little"][order])


def code_of(kind, dimension=XY, spelling=ISO):
    if spelling == ISO:
        return 1000 * dimension + kind
    return dimension % 2 * Z_FLAG + dimension // 2 * M_FLAG + (SRID_FLAG if spelling == SRID else 0) + kind


def head(code, order=LITTLE):
    return bytes([order]) + number(code, order)


def bits(patterns, order=LITTLE):
    """Ordinates by their 64-bit patterns."""
    return b"".join(number(x, order, 8) for x in patterns)


def run(count, dimension=XY, order=LITTLE, first=1):
    """Coordinates that hold 1.0, 2.0, 3.0 .., so that no two ordinates are alike."""
    values = [float(first + i) for i in range(count * SIZE[dimension])]
    return b"".join(struct.pack(">d" if order == BIG else "<d", x) for x in values)


class Style:
    """How geometries are spelt: dimension, byte order and code."""

    def __init__(self, dimension=XY, order=LITTLE, spelling=ISO, srid=4326):
        self.dimension, self.order, self.spelling, self.srid = dimension, order, spelling, srid

    def child(self):
        """The same for a child, which may carry no SRID."""
        spelling = FLAGS if self.spelling == SRID else self.spelling
        return Style(self.dimension, self.order, spelling)

    def head(self, kind):
        srid = number(self.srid, self.order) if self.spelling == SRID else b""
        return head(code_of(kind, self.dimension, self.spelling), self.order) + srid

    def geometry(self, kind, elements):
        """Header, count and elements."""
        return self.head(kind) + number(len(elements), self.order) + b"".join(elements)

    def point(self, patterns=None):
        ordinates = run(1, self.dimension, self.order) if patterns is None else bits(patterns, self.order)
        return self.head(POINT) + ordinates

    def empty_point(self):
        return self.point([NAN] * SIZE[self.dimension])

    def line(self, count, first=1):
        return self.head(LINE_STRING) + self.ring(count, first)

    def ring(self, count, first=1):
        return number(count, self.order) + run(count, self.dimension, self.order, first)

    def polygon(self, counts):
        return self.geometry(POLYGON, [self.ring(n, 1 + 100 * i) for i, n in enumerate(counts)])

    def example(self, kind):
        """A small geometry of the kind that has elements."""
        c = self.child()
        if kind == POINT:
            return self.point()
        if kind == LINE_STRING:
            return self.line(2)
        if kind == POLYGON:
            return self.polygon([2, 0, 1])
        if kind == MULTI_POINT:
            return self.geometry(kind, [c.point(), c.empty_point()])
        if kind == MULTI_LINE_STRING:
            return self.geometry(kind, [c.line(1), c.line(0)])
        if kind == MULTI_POLYGON:
            return self.geometry(kind, [c.polygon([1]), c.polygon([])])
        return self.geometry(kind, [c.point(), c.line(1), c.geometry(COLLECTION, [])])


def nested(depth, inner=None, orders=(LITTLE,)):
    """Collections of one child each, `depth` of them, and the bytes of what stands in the last; with none it is an empty collection."""
    found = b""
    for level in range(depth):
        order = orders[level % len(orders)]
        empty = level == depth - 1 and inner is None
        found += head(COLLECTION, order) + number(0 if empty else 1, order)
    return found + (inner or b"")
