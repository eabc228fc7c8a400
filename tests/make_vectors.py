# Makes the vectors: lists of records, and the answers that document 01 gives to each (docs/VECTORS.md).
#
#     python3 tests/make_vectors.py                   write the lists and their expected answers
#     python3 tests/make_vectors.py --check           write nothing, and fail where a file is not as it would be written
#     python3 tests/make_vectors.py --oracle PATH     also compare what is read and written with the Rust (against_rust.py)
import argparse
import os
import sys

import list_questions
import list_reads
import list_writes
from against_rust import cross_check
from answers import answer

ROOT = os.path.dirname(os.path.dirname(os.path.abspath(__file__)))
FILES = [
    (list_reads.GROUPS + list_questions.GROUPS, "crates/vectors/stdin", "crates/vectors/stdout"),
    (list_writes.GROUPS, "tests/iso.txt", "tests/iso.expected"),
]


def write(path, lines):
    with open(os.path.join(ROOT, path), "w") as file:
        file.write("".join(line + "\n" for line in lines))
    return True


def same(path, lines):
    with open(os.path.join(ROOT, path)) as file:
        found = file.read() == "".join(line + "\n" for line in lines)
    if not found:
        print("%s is not what document 01 gives" % path)
    return found


def main():
    parser = argparse.ArgumentParser()
    parser.add_argument("--check", action="store_true")
    parser.add_argument("--oracle")
    options = parser.parse_args()
    put = same if options.check else write
    good, pairs = True, []
    for groups, list_path, answers_path in FILES:
        # each line once, where it came first
        lines = list(dict.fromkeys(line for group in groups for line in group()))
        answers = [answer(line) for line in lines]
        good = put(list_path, lines) and put(answers_path, answers) and good
        pairs += zip(lines, answers)
        print("%s: %d records" % (list_path, len(lines)))
    if options.oracle:
        compared, different = cross_check(options.oracle, pairs)
        print("compared with the Rust: %d, different: %d" % (compared, len(different)))
        for line, ours, oracles in different:
            print("%s\n  document 01: %s\n  the Rust:    %s" % (line, ours, oracles))
        good = good and not different
    return 0 if good else 1


sys.exit(main())
