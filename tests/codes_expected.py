# What the program `codes` has to write, made from document 01 and not from the program:
#
#     python3 tests/codes_expected.py < crates/codes/stdin > crates/codes/stdout
#
# All 77 codes that the section "Codes" allows are listed in a dictionary, and a line of input is looked up in it.
import re
import sys

KINDS = ["Point", "LineString", "Polygon", "MultiPoint", "MultiLineString", "MultiPolygon", "GeometryCollection"]

# what stands before the kind in an allowed code: dimension and SRID flag
FORMS = {
    # "With none set, the code must be 1000k + t, k 0 to 3 (Xy, Xyz, Xym, Xyzm)"
    0: "Xy no srid",
    1000: "Xyz no srid",
    2000: "Xym no srid",
    3000: "Xyzm no srid",
    # "Flags: Z 0x80000000, M 0x40000000, SRID 0x20000000"
    0x20000000: "Xy srid",
    0x40000000: "Xym no srid",
    0x60000000: "Xym srid",
    0x80000000: "Xyz no srid",
    0xA0000000: "Xyz srid",
    0xC0000000: "Xyzm no srid",
    0xE0000000: "Xyzm srid",
}

ALLOWED = {
    base + kind: "%d %s %s" % (kind, name, form)
    for base, form in FORMS.items()
    for kind, name in enumerate(KINDS, start=1)
}


def wrong(line):
    if line == "":
        return "empty"
    if len(line) > 8:
        return "%d characters" % len(line)
    return "character %d is no hex digit" % (re.search("[^0-9A-Fa-f]", line).start() + 1)


for number, line in enumerate(sys.stdin, start=1):
    line = line.removesuffix("\n")
    if re.fullmatch("[0-9A-Fa-f]{1,8}", line):
        code = int(line, 16)
        print("%08X %s" % (code, ALLOWED.get(code, "refused 4")))
    else:
        print("line %d: %s; expected a type code of 1 to 8 hex digits, such as 200003E9" % (number, wrong(line)))
