# The expected line for a line of a list of vectors, by document 01's model. docs/VECTORS.md describes the lines.
import document01
from document01 import ORDERS, Reading, Refused

UNTOUCHED = 0xEEEEEEEEEEEEEEEE


def buffer_of(text):
    digits, _, zeros = text.partition("+")
    return bytes.fromhex("" if digits == "-" else digits) + bytes(int(zeros or 0))


def table_of(text, buf=None):
    if text == "-":
        return []
    if text.startswith("="):
        return document01.words(Reading(buf).rows) + [int(word, 16) for word in text[2:].split(",") if word]
    return [int(word, 16) for word in text.split(",")]


def hex_word(word):
    return "%016X" % word


def kept(memory, from_, untouched):
    return "kept" if all(x == untouched for x in memory[from_:]) else "changed"


def read(room, data):
    table = [UNTOUCHED] * int(room)
    try:
        length, rows = document01.read(buffer_of(data), table)
    except Refused as e:
        return "refused %d %d %s" % (e.number, e.place, kept(table, 0, UNTOUCHED))
    shown = " ".join(map(hex_word, table[: 2 * rows]))
    return "length %d rows %d %s %s" % (length, rows, shown, kept(table, 2 * rows, UNTOUCHED))


def check(table, data):
    buf = buffer_of(data)
    return "yes" if document01.check(buf, table_of(table, buf)) else "no"


def ordinate(table, row, index, axis, data):
    buf = buffer_of(data)
    return hex_word(document01.ordinate(buf, table_of(table, buf), int(row), int(index), int(axis)))


def coordinate(table, row, index, data):
    buf = buffer_of(data)
    dimension, floats = document01.coordinate(buf, table_of(table, buf), int(row), int(index))
    return " ".join([str(dimension)] + ["nan" if document01.is_nan(x) else hex_word(x) for x in floats])


def part(table, row, data):
    buf = buffer_of(data)
    return "part " + (document01.part(buf, table_of(table, buf), int(row)).hex().upper() or "-")


def form(table, row, data):
    buf = buffer_of(data)
    return "%s %d" % document01.form(buf, table_of(table, buf), int(row))


def child(table, row, index):
    return "row %d" % document01.child(table_of(table), int(row), int(index))


def srid(table, data):
    buf = buffer_of(data)
    found = document01.srid(buf, table_of(table, buf))
    return "none" if found is None else "srid %d" % found


def write(table, order, room, data):
    buf, out = buffer_of(data), bytearray(b"\xEE" * int(room))
    try:
        length = document01.write(buf, table_of(table, buf), ORDERS.index(order), out)
    except Refused as e:
        return "refused %d %d %s" % (e.number, e.place, kept(out, 0, 0xEE))
    return "length %d %s %s" % (length, out[:length].hex().upper(), kept(out, length, 0xEE))


ASKED = {"R": read, "C": check, "O": ordinate, "K": coordinate, "P": part, "F": form, "D": child, "S": srid, "W": write}


def answer(line):
    letter, *fields = line.split(" ")
    try:
        return ASKED[letter](*fields)
    except Refused as e:
        return "refused %d %d" % (e.number, e.place)
