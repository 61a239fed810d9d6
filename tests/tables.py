#!/usr/bin/env python3
"""The constants of crates/outside_row/src/tables.rt, and what the program `tables` has to print.

The outside patterns are listed here from documents 01 ("Distances and configurations") and 02 (T-06) alone, by the ranks of values; nothing
comes from the crates. The numbers of the file have to be these lists in rising order, and crates/tables/stdout has to be the file, but for its layout:
`rt fmt` puts as many numbers on a line as it holds, and the program one.
"""
import itertools
import pathlib
import re
import sys

ROOT = pathlib.Path(__file__).resolve().parent.parent
SOURCE = "crates/outside_row/src/tables.rt"
PRINTED = "crates/tables/stdout"
TABLE = re.compile(r"pub const (\w+): \[i8; (\d+)\] = \[([^\]]*)\];")
NAMES = {"ONE": 1, "TWO": 2, "THREE": 3, "FOUR": 4}

# ---- the outside patterns


def ranks(values, c1, c2):
    """The signed rank of each of some values outside c1 to c2: counted from the nearest, equal values sharing a rank."""
    above = sorted({x for x in values if x > c2})
    below = sorted({x for x in values if x < c1}, reverse=True)
    return tuple(above.index(x) + 1 if x > c2 else -1 - below.index(x) for x in values)


def patterns(variables, c1=0, c2=0, far=4):
    """The outside patterns that values up to `far` beyond c1 and c2 form, in rising order."""
    beyond = [*range(c1 - far, c1), *range(c2 + 1, c2 + far + 1)]
    return sorted({ranks(values, c1, c2) for values in itertools.product(beyond, repeat=variables)})


LISTS = {variables: patterns(variables) for variables in NAMES.values()}
# by hand, and the numbers of T-06 and T-01
assert LISTS[1] == [(-1,), (1,)]
assert LISTS[2] == [(-2, -1), (-1, -2), (-1, -1), (-1, 1), (1, -1), (1, 1), (1, 2), (2, 1)]
assert [len(entries) for entries in LISTS.values()] == [2, 8, 44, 308]
assert LISTS[4][0] == (-4, -3, -2, -1) and LISTS[4][-1] == (4, 3, 2, 1)
# other constants, and values farther out, form no others
assert all(patterns(variables, -2, 3, 6) == entries for variables, entries in LISTS.items())

# ---- the files


def faults(name, size, numbers):
    """What is wrong with a table: its name, its length as written, and its numbers."""
    variables = NAMES[name]
    found = list(itertools.zip_longest(*[iter(numbers)] * variables))
    if size != len(numbers):
        yield f"{name} is said to have {size} numbers and has {len(numbers)}"
    if len(found) != len(LISTS[variables]):
        yield f"{name} has {len(found)} entries, expected {len(LISTS[variables])}"
    for at, (entry, expected) in enumerate(zip(found, LISTS[variables]), 1):
        if entry != expected:
            yield f"{name}: entry {at} is {entry}, expected {expected}"
            return


def laid_out(text):
    """The text but for what `rt fmt` decides: blanks and line ends within a constant, and the comma after its last number."""
    return re.sub(rb"\[([^\]]*)\]", lambda m: b"[" + re.sub(rb"\s+", b"", m[1]).rstrip(b",") + b"]", text)


def main():
    source, printed = (ROOT / SOURCE).read_bytes(), (ROOT / PRINTED).read_bytes()
    text = re.sub("//.*", "", source.decode())
    tables = TABLE.findall(text)
    wrong = []
    if [name for name, _, _ in tables] != [*NAMES] or TABLE.sub("", text).strip():
        wrong = [f"{SOURCE}: expected the constants {', '.join(NAMES)} and nothing else"]
    else:
        for name, size, numbers in tables:
            told = faults(name, int(size), [int(number) for number in numbers.split(",") if number.strip()])
            wrong += [f"{SOURCE}: {fault}" for fault in told]
    if laid_out(printed) != laid_out(source):
        wrong.append(f"{PRINTED} and {SOURCE} differ: the program `tables` has to print that file")
    if wrong:
        print("\n".join(wrong))
        return 1
    print(f"2, 8, 44 and 308 outside patterns agree, and {PRINTED} with their file")
    return 0


if __name__ == "__main__":
    sys.exit(main())
