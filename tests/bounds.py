#!/usr/bin/env python3
"""Flows with their bounds (document 02, T-01), for the program `test_bounds`.

A bound is worked out twice: by a listing of all instructions, sets of tapes and patterns, where there are few enough, and by the formulas of
T-01. The reports, with as many cells as the bound says, are those of the plain searches of tests/searches.py, and the refusals of texts those of
tests/readings.py; nothing comes from the crates. The files of crates/test_bounds are compared with what this script makes; with --write they
are written. The reports stored in crates/test_reports are held to the bounds of their flows too.
"""
import itertools
import sys

import readings
import reports
import searches
import stored

# "over" if a bound exceeds this
MOST = 65536

# ---- the bound by formula: T-01, and the reader of tests/searches.py

PATTERNS = {1: lambda w: w + 2, 2: lambda w: w ** 2 + 4 * w + 8, 3: lambda w: w ** 3 + 6 * w ** 2 + 24 * w + 44,
            4: lambda w: w ** 4 + 8 * w ** 3 + 48 * w ** 2 + 176 * w + 308}


def by_formula(text):
    """The bound of a legal text, also where it exceeds 65,536."""
    t, v, program = searches.parse(text)
    w = max(searches.constants(program)) - min(searches.constants(program)) + 1
    return len(program) * 2 ** t * PATTERNS[v](w)


# ---- the bound by listing: document 01 ("Distances and configurations"), and a reader of its own

# so many choices of values are listed at most
LISTED = 45000
SEEN = {}


def pattern(values, c1, c2):
    """The value itself for one from C1 to C2; for those above C2, their ranks counted from the nearest, equal values sharing a rank; the
    same for those below C1."""
    def rank(distance, distances):
        return 1 + len({d for d in distances if d < distance})

    above, below = [x - c2 for x in values if x > c2], [c1 - x for x in values if x < c1]
    return tuple(("above", rank(x - c2, above)) if x > c2 else ("below", rank(c1 - x, below)) if x < c1 else ("inside", x) for x in values)


def patterns(v, c1, c2):
    """How many patterns v variables have. With v variables no rank is greater than v, so values up to v beyond C1 and C2 form them all."""
    if (v, c1, c2) not in SEEN:
        values = range(c1 - v, c2 + v + 1)
        SEEN[v, c1, c2] = len({pattern(chosen, c1, c2) for chosen in itertools.product(values, repeat=v)})
    return SEEN[v, c1, c2]


def by_listing(text):
    """The bound of a legal text; None if there are too many choices to list."""
    first, *rest = (text or "flow,1,0,1\n1,stop\n").rstrip("\n").split("\n")
    tapes, _, v = (int(x) for x in first.split(",")[1:])
    basic = [0]
    for line in rest:
        fields = line.split(",")
        if fields[1] in ("set", "over"):
            basic.append(int(fields[2]))
        elif fields[1] == "under":
            basic.append(int(fields[3]))
    c1, c2 = sorted(basic)[0], sorted(basic)[-1]
    if (c2 - c1 + 1 + 2 * v) ** v > LISTED:
        return None
    ended = [set(chosen) for n in range(tapes + 1) for chosen in itertools.combinations(range(1, tapes + 1), n)]
    return sum(patterns(v, c1, c2) for _ in rest for _ in ended)


def pattern_numbers():
    """Holds the formulas to listings, for C1 and C2 at several places around 0; the number of listings."""
    places = [(v, c1, c1 + w - 1) for v, most in ((1, 12), (2, 10), (3, 8), (4, 5)) for w in range(1, most + 1) for c1 in range(1 - w, 1)]
    places += [(1, -9999, 9999), (1, 0, 9999), (2, -100, 100), (2, -200, 0), (3, -14, 14), (4, -3, 2)]
    for v, c1, c2 in places:
        assert patterns(v, c1, c2) == PATTERNS[v](c2 - c1 + 1), f"patterns of {v} variables with {c1} to {c2}"
    return len(places)


# ---- the texts, by topic and name

TOPICS = {}


def case(topic, name, text):
    texts = TOPICS.setdefault(topic, {})
    assert name not in texts and text not in texts.values(), name
    texts[name] = text


def sized(t, v, count, low, high):
    """So many instructions: a comparison with each of the two constants that is not 0, `nop`, and where there is room a read and `stop`."""
    lines = [f"over,{low},{v},+,+"] * (low != 0) + [f"under,1,{high},+,+"] * (high != 0)
    if count > len(lines) + 1:
        lines.insert(0, f"read,{t},{v},+,+")
    lines += ["nop,+"] * (count - len(lines))
    lines[-1] = "stop" if lines[-1] == "nop,+" and count > 1 else lines[-1].replace("+", "1")
    assert len(lines) == count
    return reports.flow(f"{t},0,{v}", *lines)


def of_width(t, v, count, w):
    """The same with w numbers from C1 to C2, some of them below 0 if two instructions can be had for the constants."""
    low = 0 if count == 1 else -9999 if w > 10000 else -((w - 1) // 3)
    return sized(t, v, count, low, low + w - 1)


def ring(t, v, *lines, outputs=0):
    """Reads of all tapes, to all variables, and then these lines. Both exits of each instruction lead to the next, and those of the last
    to the first; so every instruction is met with every set of ended tapes and every pattern, and K is the bound."""
    reads = [f"read,{i % t + 1},{i % v + 1}" for i in range(max(t, v))]
    lines = [x + (",{0},{0}" if x.split(",")[0] in ("read", "less", "over", "under") else ",{0}") for x in [*reads, *lines]]
    return reports.flow(f"{t},{outputs},{v}", *(x.format("+") for x in lines[:-1]), lines[-1].format(1))


# documents 01 and 02, and the flows of the folder flows/
case("document", "no-bytes", "")
case("document", "stop-alone", reports.flow("1,0,1", "stop"))
case("document", "chain", reports.chain("2,0,2", "read,1,1", "read,2,2", "over,3,1", "less,1,2", "under,2,5"))
for name in ("second-read", "under-first", "less-itself", *(file.stem for file in sorted((stored.ROOT / "flows").glob("*.flow")))):
    case("document", name, reports.TOPICS["document"][name])

# one to four variables, one to three tapes; outputs do not matter
for v in (1, 2, 3, 4):
    for t in (1, 2, 3):
        reads = [f"read,{i % t + 1},{i % v + 1},+,end" for i in range(max(v, t))]
        case("heads", f"{t}-tapes-{v}-variables", reports.flow(f"{t},0,{v}", *reads, "end: stop"))
for outputs in (0, 1, 2, 3):
    case("heads", f"{outputs}-outputs", reports.flow(f"2,{outputs},2", "read,2,1,+,end", "over,3,1,+,end", "end: stop"))
case("heads", "stop-alone-of-most", reports.flow("3,3,4", "stop"))

# so many instructions
for count in (1, 2, 3, 7, 16, 33, 63, 64):
    case("instructions", f"{count}", reports.flow("1,0,1", *["nop,+"] * (count - 1), "stop"))
    case("instructions", f"{count}-with-two-variables", sized(2, 2, count, 0, 4))
case("instructions", "64-reads", reports.flow("3,0,1", *(f"read,{i % 3 + 1},1,+,64" for i in range(63)), "stop"))
case("instructions", "64-reads-of-four", reports.flow("1,0,1", *["read,1,1,+,64"] * 63, "over,3,1,64,64"))

# the constants: C1 and C2 are the least and the greatest of them and of 0
READ = "read,1,1,+,end"
for name, lines in [
    ("none", ["less,1,1,+,end"]), ("0-alone", ["over,0,1,+,end"]), ("0-by-set", ["set,0,1,+"]), ("0-by-under", ["under,1,0,+,end"]),
    ("above-0", ["over,5,1,+,end", "under,1,9,+,end"]), ("above-0-falling", ["over,9,1,+,end", "under,1,5,+,end"]),
    ("below-0", ["over,-9,1,+,end", "under,1,-5,+,end"]), ("below-0-falling", ["under,1,-5,+,end", "over,-9,1,+,end"]),
    ("both-sides", ["over,-4,1,+,end", "under,1,7,+,end"]), ("both-sides-by-set", ["set,-4,1,+", "set,7,1,+"]),
    ("1-alone", ["over,1,1,+,end"]), ("minus-1-alone", ["under,1,-1,+,end"]),
    ("set-is-least", ["over,2,1,+,end", "set,-6,1,+", "under,1,3,+,end"]), ("set-is-greatest", ["over,2,1,+,end", "under,1,3,+,end", "set,6,1,+"]),
    ("over-is-least", ["set,-2,1,+", "over,-6,1,+,end", "under,1,3,+,end"]), ("over-is-greatest", ["under,1,-3,+,end", "over,6,1,+,end"]),
    ("under-is-least", ["under,1,-6,+,end", "over,-3,1,+,end"]), ("under-is-greatest", ["set,5,1,+", "under,1,6,+,end", "over,-2,1,+,end"]),
    ("same-three-times", ["over,4,1,+,end", "set,4,1,+", "under,1,4,+,end"]), ("least-between", ["set,3,1,+", "set,-8,1,+", "set,5,1,+"]),
    ("9999", ["under,1,9999,+,end"]), ("minus-9999", ["over,-9999,1,+,end"]),
]:
    case("constants", name, reports.flow("1,0,1", READ, *lines, "end: stop"))
# an instruction that is never reached: its constant counts, and so does the instruction
case("constants", "unreached-above", reports.flow("1,0,1", READ, "over,5,1,+,end", "end: stop", "set,8,1,end"))
case("constants", "unreached-below", reports.flow("1,0,1", READ, "over,5,1,+,end", "end: stop", "under,1,-8,end,end"))
case("constants", "unreached-between", reports.flow("1,0,1", READ, "over,5,1,+,end", "end: stop", "over,4,1,end,end"))
case("constants", "unreached-without-constant", reports.flow("1,0,1", READ, "over,5,1,+,end", "end: stop", "less,1,1,end,end"))
case("constants", "unreached-alone", reports.flow("1,0,2", "stop", "set,-30,2,1", "set,30,2,1"))
# other numbers of a line are no constants
case("constants", "tape-3", reports.flow("3,0,1", "read,3,1,+,+", "stop"))
case("constants", "targets-64", reports.flow("1,0,1", "nop,64", *["nop,64"] * 62, "stop"))
case("constants", "variable-4", reports.flow("1,3,4", "copy,4,3,+", "put,4,3,+", "less,3,4,+,+", "stop"))

# The bound is 65,536. That is a power of 2, so I and the number of patterns are powers of 2 too. V is 1: w + 2 is one for some w; with two to
# four variables no number of patterns is one.
for t, count, w in [(1, 2, 16382), (1, 4, 8190), (1, 8, 4094), (1, 64, 510), (2, 2, 8190), (2, 16, 1022), (2, 64, 254), (3, 1, 8190), (3, 2, 4094),
                    (3, 32, 254), (3, 64, 126)]:
    case("65536", f"{t}-tapes-{count}-instructions", of_width(t, 1, count, w))
case("65536", "only-below-0", sized(1, 1, 4, -8189, 0))
case("65536", "only-above-0", sized(1, 1, 4, 0, 8189))
case("65536", "to-9999", sized(1, 1, 2, -6382, 9999))

# 2 to the power T divides the bound, so it is even: 65,535 and 65,537 cannot occur, and 65,534 and 65,538 are the next values
NEXT = {"2-less": (1, 1, 7, 4679, 65534), "2-less-31": (1, 1, 31, 1055, 65534), "2-more": (1, 1, 3, 10921, 65538),
        "4-less": (1, 1, 2, 16381, 65532), "4-more": (1, 1, 2, 16383, 65540), "4-more-of-two-tapes": (2, 1, 5, 3275, 65540),
        "8-less-of-three-tapes": (3, 1, 1, 8189, 65528), "8-more-of-three-tapes": (3, 1, 1, 8191, 65544)}
for name, (t, v, count, w, _) in NEXT.items():
    case("next", name, of_width(t, v, count, w))


# the greatest w with which the bound is given, and one more
def last(t, v, count):
    return max(w for w in range(1, 20000) if count * 2 ** t * PATTERNS[v](w) <= MOST)


BORDERS = [(1, 1, 3), (2, 1, 5), (3, 1, 64), (1, 2, 2), (1, 2, 64), (2, 2, 7), (3, 2, 12), (1, 3, 1), (1, 3, 4), (2, 3, 9), (3, 3, 64), (1, 4, 1),
           (1, 4, 2), (1, 4, 3), (2, 4, 1), (2, 4, 5), (3, 4, 3), (3, 4, 8)]
for t, v, count in BORDERS:
    w = last(t, v, count)
    case("border", f"{t}-tapes-{v}-variables-{count}-instructions", of_width(t, v, count, w))
    case("over", f"{t}-tapes-{v}-variables-{count}-instructions", of_width(t, v, count, w + 1))

# over by far; the greatest of all is past 64 bits
case("over", "both-ends", of_width(1, 1, 3, 19999))
case("over", "two-to-the-power-17", of_width(1, 1, 4, 16382))
case("over", "four-variables-without-constants", sized(3, 4, 64, 0, 0))
case("over", "greatest-of-two", sized(3, 2, 64, -9999, 9999))
case("over", "greatest-of-three", sized(3, 3, 64, -9999, 9999))
case("over", "greatest-of-all", sized(3, 4, 64, -9999, 9999))
case("over", "longest-text", reports.flow("3,3,4", *(f"under,4,{-9999 if i % 2 else 9999},64,64" for i in range(64))))
case("over", "few-configurations", reports.flow("1,0,4", "set,9999,1,+", "set,-9999,2,+", "less,1,2,+,+", "stop"))

# Bounds past 65,536 that would be 65,536 or less if the product, or the number of patterns, were kept in 32 bits. No bound is so in 64 bits:
# of all T, V, I and w the least number left of a product past 64 bits is 1,649,468,793,856, with four variables and w = 16,382.
WRAPPING = [(2, 2, 64, 4094), (3, 2, 32, 4094), (2, 2, 62, 7206), (1, 2, 32, 8190), (3, 2, 2, 16382), (2, 3, 1, 1022), (1, 3, 2, 1022),
            (1, 3, 17, 1079), (1, 3, 1, 2046), (3, 3, 54, 6267), (1, 3, 9, 14854), (1, 4, 41, 83), (1, 4, 7, 2134), (3, 4, 27, 2384),
            (1, 4, 7, 6106), (1, 4, 1, 9814)]
for t, v, count, w in WRAPPING:
    case("32-bits", f"{t}-tapes-{v}-variables-{count}-instructions-w-{w}", of_width(t, v, count, w))
# bounds that would be below 0 in 32 or 64 bits with a sign, and the one of which the least is left past 64 bits
SIGNED = {"two-variables": (32, 3, 2, 64, 2100), "three-variables": (32, 1, 3, 5, 700), "four-variables": (64, 3, 4, 64, 12000),
          "four-variables-of-one-tape": (64, 1, 4, 64, 17500)}
for name, (_, t, v, count, w) in SIGNED.items():
    case("below-0", name, of_width(t, v, count, w))
case("64-bits", "least-left", of_width(3, 4, 32, 16382))

# K is the bound
case("equal", "one-read", reports.flow("1,0,1", "read,1,1,1,1"))
for v in (1, 2, 3, 4):
    for t in (1, 2, 3):
        if (t, v) != (1, 1):
            case("equal", f"{t}-tapes-{v}-variables", ring(t, v))
case("equal", "one-variable-both-sides", ring(1, 1, "over,-3,1", "under,1,4"))
case("equal", "one-variable-every-word", ring(1, 1, "put,1,1", "copy,1,1", "less,1,1", "over,-20,1", "under,1,30", "nop", outputs=1))
case("equal", "one-variable-64", ring(1, 1, *["nop"] * 63))
case("equal", "three-tapes-64", ring(3, 1, *["under,1,5"] * 61))
case("equal", "two-variables-above", ring(1, 2, "over,12,2"))
case("equal", "two-variables-below", ring(2, 2, "less,2,1", "under,1,-9"))
case("equal", "three-variables-both-sides", ring(1, 3, "over,-2,3", "under,2,2"))
case("equal", "four-variables-below", ring(1, 4, "over,-1,3"))
# 5 * 2 * 4,013
case("equal", "four-variables-w-5", ring(1, 4, "under,4,4"))
# K is the bound and 65,536
case("equal", "65536", ring(1, 1, "over,8189,1", "nop", "nop"))
case("equal", "65536-of-three-tapes", ring(3, 1, "over,-500,1", "under,1,521", *["nop"] * 3))

# K is one less: instruction 1 is met again with each value but 0, and 0 stands there at the start only, before the end of the tape
for name, more in [("1-alone", []), ("both-sides", ["over,-3,1,+,+", "under,1,4,+,+"]), ("far", ["over,-300,1,+,+", "under,1,301,+,+", "nop,+"])]:
    case("one-less", name, reports.flow("1,0,1", "read,1,1,second,second", "other: read,1,1,+,+", *more, "first: under,1,0,1,other",
         "second: over,0,1,1,other"))
case("one-less", "exchanged", reports.flow("1,0,1", "read,1,1,3,4", "read,1,1,4,3", "under,1,0,1,2", "over,0,1,1,2"))

# K is far below
case("far-below", "stop-first", reports.flow("3,0,4", "stop", *["read,1,1,1,1"] * 3))
case("far-below", "no-read-of-four", reports.flow("1,0,4", "set,2,1,+", "copy,1,2,+", "less,2,1,+,+", "under,1,-1,+,+", "stop"))
case("far-below", "nop-for-ever", reports.flow("3,0,3", "nop,1", "set,9,1,2"))
case("far-below", "less-itself", reports.flow("3,0,4", "less,4,4,2,1", "stop"))
case("far-below", "64-in-a-chain", reports.flow("3,0,2", *["nop,+"] * 63, "stop"))
case("far-below", "set-far", reports.flow("1,0,1", "set,-9999,1,+", "set,6000,1,1"))
# long distances
case("far-below", "counted-8-8", reports.counted([8, 8]))
case("far-below", "counted-2-2-2", reports.counted([2, 2, 2]))
case("far-below", "checked-3-3", reports.checked([3, 3], 1))

# by chance
for seed, (t, v, low, high) in enumerate([(1, 1, -9, 9), (2, 1, 0, 20), (3, 1, -5, 0), (1, 2, -3, 3), (2, 2, 0, 2), (3, 2, -1, 1), (1, 3, -1, 1),
                                          (2, 3, 0, 1), (1, 4, 0, 0), (2, 4, -1, 0)], 100):
    dice = reports.Dice(seed)
    for k in (1, 2, 3):
        case("chance", f"{t}-tapes-{v}-variables-{k}", reports.by_chance(dice, t, v, 4 + dice.below(7), low, high))

# The texts that are turned back, with their refusals by hand; no empty line can be among them. A text with a bound past 65,536 is turned
# back too. The last of all texts has no byte 10 at its end, and nothing stands after it.
FLOW_A = reports.TOPICS["document"]["a"]
MANY = sized(3, 4, 64, -9999, 9999)
REFUSED = {}
for name, refusal, text in [
    ("4097-bytes", "1,0", FLOW_A + "x" * (4096 - len(FLOW_A)) + "\n"), ("4096-bytes", "13,5", FLOW_A + "x" * (4095 - len(FLOW_A)) + "\n"),
    ("4097-bytes-of-many", "1,0", MANY + "x" * (4096 - len(MANY)) + "\n"),
    ("tapes-4", "5,1", "flow,4,0,1\n1,stop\n"), ("tapes-0", "5,1", "flow,0,0,1\n1,stop\n"), ("outputs-4", "5,1", "flow,1,4,1\n1,stop\n"),
    ("variables-5", "5,1", "flow,1,0,5\n1,stop\n"), ("variables-0", "5,1", "flow,1,0,0\n1,stop\n"),
    ("constant-10000", "5,2", "flow,1,0,1\n1,set,10000,1,1\n"), ("constant-minus-10000", "5,3", "flow,1,0,1\n1,nop,2\n2,over,-10000,1,1,1\n"),
    ("turn", "6,2", "flow,1,0,1\n2,stop\n"), ("turn-later", "6,4", FLOW_A.replace("3,stop", "4,stop")),
    ("turn-of-many", "6,65", MANY.replace("\n64,", "\n65,")),
    ("target", "7,2", "flow,1,0,1\n1,nop,2\n"), ("target-0", "7,3", FLOW_A.replace("over,5,1,1,3", "over,5,1,0,3")),
    ("target-of-many", "7,64", MANY.replace("63,nop,64", "63,nop,65")),
    ("only-line-1", "8,2", "flow,1,0,1\n"), ("only-line-1-of-most", "8,2", "flow,3,3,4\n"), ("line-66", "8,66", MANY + "65,stop\n"),
    ("line-66-faulty", "8,66", MANY + "x\n"),
    ("word", "13,2", "flow,1,0,1\n1,halt\n"), ("word-of-line-1", "13,1", "bound,1,0,1\n1,stop\n"),
    ("word-of-many", "13,65", MANY.replace("64,stop", "64,stops")),
    ("count", "14,2", "flow,1,0,1\n1,nop\n"), ("count-of-line-1", "14,1", "flow,1,0\n1,stop\n"), ("counters", "14,1", "flow,1,0,1,1\n1,stop\n"),
    ("number", "15,2", "flow,1,0,1\n1,nop,01\n"), ("minus-0", "15,2", "flow,1,0,1\n1,set,-0,1,1\n"),
    ("number-of-line-1", "15,1", "flow,1,0,x\n1,stop\n"),
    ("no-last-byte-10", "3,0", FLOW_A[:-1]),
]:
    case("turned-back", name, text)
    REFUSED[name] = refusal


# ---- bounds that are written by hand

BY_HAND = {
    "document/no-bytes": 6,  # 1 * 2 * 3
    "document/a": 48,  # 3 * 2 * (6 + 2)
    "document/b": 18,  # 3 * 2 * 3
    "document/chain": 6 * 4 * (36 + 24 + 8),
    "document/control_break": 11 * 2 * 75,
    "document/articles": None,  # 8 * 2 * 10,002
    "heads/3-tapes-4-variables": 5 * 8 * 541,
    "heads/stop-alone-of-most": 8 * 541,
    "heads/3-outputs": 3 * 4 * (16 + 16 + 8),
    "constants/none": 3 * 2 * 3, "constants/0-by-set": 3 * 2 * 3,
    "constants/above-0-falling": 4 * 2 * 12, "constants/below-0": 4 * 2 * 12, "constants/both-sides": 4 * 2 * 14,
    "constants/set-is-least": 5 * 2 * 12, "constants/same-three-times": 5 * 2 * 7, "constants/unreached-above": 4 * 2 * 11,
    "constants/unreached-below": 4 * 2 * 16, "constants/unreached-between": 4 * 2 * 8, "constants/unreached-alone": 3 * 2 * (61 * 61 + 244 + 8),
    "constants/targets-64": 64 * 2 * 3, "constants/tape-3": 2 * 8 * 3, "constants/9999": 3 * 2 * 10002,
    "over/greatest-of-all": None, "over/few-configurations": None, "over/two-to-the-power-17": None,
    "equal/one-read": 6, "equal/four-variables-w-5": 5 * 2 * 4013, "equal/3-tapes-4-variables": 4 * 8 * 541,
}


# ---- the answers

class Found:
    """The bound of a legal text, by formula and, if it could be listed, by listing; and the report with so many cells."""

    def __init__(self, topic, name, text):
        self.name, self.topic, self.text = f"{topic}/{name}", topic, text
        self.bound, self.listed = by_formula(text), by_listing(text)
        assert self.listed in (None, self.bound), f"{self.name}: {self.listed} by listing, {self.bound} by formula"
        self.over = self.bound > MOST
        if not self.over:
            found = searches.configurations(text, self.bound)
            assert found, f"{self.name}: more configurations than the bound says"
            self.count, self.exits = found
            within(self.name, self.bound, self.count, self.exits.values())
            others, whole = searches.bounds(text, 300)
            assert others.items() <= self.exits.items() and (not whole or others == self.exits), self.name

    def lines(self):
        if self.over:
            return "bound,over\n"
        program = searches.parse(self.text)[2]
        two = [i for i, x in program.items() if x[0] in ("read", "less", "over", "under")]
        told = "".join(f"{i},{side},{self.exits.get((i, side), 'none')}\n" for i in two for side in "pm")
        return f"bound,{self.bound}\nreport,{len(program)},{self.count}\n{told}"


def within(name, bound, count, distances):
    """T-01: reachable configurations never outnumber the bound, and no distance exceeds it."""
    assert count <= bound, f"{name}: {count} configurations, the bound is {bound}"
    assert all(d <= bound for d in distances), f"{name}: a distance exceeds the bound, {bound}"


def files():
    """The data are one file of all texts, each with its name before it and an empty line after it, but for the last text, which has no byte
    10 at its end: the file ends with it."""
    data = stdout = ""
    flows, refused = [], 0
    assert list(TOPICS)[-1] == "turned-back" and list(REFUSED)[-1] == "no-last-byte-10"
    for topic, texts in TOPICS.items():
        for name, text in texts.items():
            data += f"{topic}/{name}\n{text}\n"
            ends = name != "no-last-byte-10"
            assert text.split("\n") == [line for line in text.split("\n") if line] + [""] * ends or not text, name
            read = readings.read(text.encode()).decode()
            if topic == "turned-back":
                assert read == f"refused,{REFUSED[name]}\n", name
                refused += 1
            else:
                assert read == (text or "flow,1,0,1\n1,stop\n"), name
                flows.append(Found(topic, name, text))
                read = flows[-1].lines()
            stdout += f"{topic}/{name}\n{read}"
    return {"test_bounds/data/flows": data[:-1], "test_bounds/stdout": stdout}, flows, refused


def by_topic(flows):
    """What the topics promise."""
    named = {x.name: x for x in flows}
    for name, bound in BY_HAND.items():
        assert (None if named[name].over else named[name].bound) == bound, f"{name}: {named[name].bound}, by hand {bound}"
    for name, (*_, bound) in NEXT.items():
        assert named[f"next/{name}"].bound == bound, name
    for t, v, count in BORDERS:
        name = f"{t}-tapes-{v}-variables-{count}-instructions"
        assert named[f"border/{name}"].bound <= MOST < named[f"over/{name}"].bound, name
    for name, (bits, *_) in SIGNED.items():
        assert named[f"below-0/{name}"].bound % 2 ** bits >= 2 ** (bits - 1), name
    for x in flows:
        told = f"{x.name}: the bound is {x.bound}"
        assert x.over == (x.topic in ("over", "32-bits", "below-0", "64-bits")) or x.topic in ("document", "next"), told
        assert x.topic != "65536" or x.bound == MOST, told
        assert x.topic != "32-bits" or x.bound % 2 ** 32 <= MOST, told
        if x.topic in ("equal", "one-less"):
            assert x.bound - x.count == (x.topic == "one-less"), f"{told}, {x.count} configurations"
        assert x.topic != "far-below" or 10 * x.count < x.bound, f"{told}, {x.count} configurations"
    assert named["64-bits/least-left"].bound % 2 ** 64 == 1649468793856
    assert named["over/greatest-of-all"].bound > 2 ** 66


def reports_stored():
    """Holds each report stored in crates/test_reports to the bound of its flow; the number of those given. One that is refused by 9 has
    more configurations than cells, so its bound is greater too."""
    cells, answers = {}, {}
    for topic, texts in reports.TOPICS.items():
        cells.update({f"{topic}/{name}": (text, reports.CELLS[reports.file_of(topic)]) for name, text in texts.items()})
    for line in (stored.ROOT / "crates/test_reports/stdout").read_text().splitlines():
        if line in cells:
            lines = answers.setdefault(line, [])
        else:
            lines.append(line.split(","))
    assert answers.keys() == cells.keys()
    given = 0
    for name, (first, *exits) in answers.items():
        text, lent = cells[name]
        if first[0] == "report":
            given += 1
            within(name, by_formula(text), int(first[2]), [int(d) for _, _, d in exits if d != "none"])
        elif first[1] == "9":
            assert by_formula(text) > lent, name
    return given


def main():
    numbers = pattern_numbers()
    made, flows, refused = files()
    by_topic(flows)
    given = reports_stored()
    for name, content in made.items():
        assert "/data/" not in name or len(content) <= 131072, "the programs lend a row of that size"
    listed, over = sum(x.listed is not None for x in flows), sum(x.over for x in flows)
    equal = sum(not x.over and x.count == x.bound for x in flows)
    agreed = (f"{len(flows) + refused} texts agree: {len(flows) - over} bounds, {over} over, {refused} refused; {listed} bounds by listing and by "
              f"formula, {len(flows) - listed} by formula only; {numbers} pattern numbers by both; {equal} flows with as many configurations as "
              f"their bound says; {given} stored reports within their bounds")
    return stored.compare(["test_bounds"], {name: content.encode() for name, content in made.items()}, agreed)


if __name__ == "__main__":
    sys.exit(main())
