#!/usr/bin/env python3
"""Flows with their reports, for the programs `test_reports` and `test_samples`.

The reports are those of the plain searches of tests/searches.py, and the refusals of texts those of tests/readings.py; nothing
comes from the crates. The searches are held to each other, and the files of crates/test_reports and crates/test_samples are compared with
what this script makes; with --write they are written.
"""
import multiprocessing
import sys

import readings
import searches
import stored

# the cells lent to each flow of a data file; the programs print the answers of the files in this order
CELLS = {"flows": 4096, "wide": 65536}
# the length of the record row of a sample, for both
ROW = 4096

# ---- the flows, by topic and name

TOPICS = {}


def file_of(topic):
    """The data file in which the flows of a topic stand."""
    return "wide" if topic.startswith("wide") else "flows"


def case(topic, name, text):
    flows = TOPICS.setdefault(topic, {})
    assert name not in flows, name
    flows[name] = text


def flow(head, *lines):
    """The text of a flow. An instruction may have a label before it, `again: read,1,1,+,end`, and a target may be a label, a
    number, or `+` for the next instruction."""
    labels, bare = {}, []
    for i, line in enumerate(lines, 1):
        label, colon, rest = line.rpartition(": ")
        if colon:
            labels[label] = i
        bare.append(rest.split(","))
    def field(i, f):
        return str(i + 1 if f == "+" else labels.get(f, f))
    numbered = [",".join([str(i), word] + [field(i, f) for f in fields]) for i, (word, *fields) in enumerate(bare, 1)]
    return "".join(line + "\n" for line in [f"flow,{head}"] + numbered)


def chain(head, *lines):
    """Instructions in a chain: each p leads to the next, every m and the last p to stop."""
    return flow(head, *(x + (",+" if x.split(",")[0] in ("set", "copy", "nop", "put") else ",+,end") for x in lines), "end: stop")


# how many targets a line ends with; 1 for the words that are not here
TARGETS = {"read": 2, "less": 2, "over": 2, "under": 2, "stop": 0}


def later(nops, text):
    """The flow with so many instructions `nop` before it, each a configuration more."""
    first, *rest = text.splitlines()
    moved = []
    for line in rest:
        i, word, *f = line.split(",")
        kept = len(f) - TARGETS.get(word, 1)
        moved.append(",".join([str(int(i) + nops), word] + f[:kept] + [str(int(x) + nops) for x in f[kept:]]))
    return "".join(x + "\n" for x in [first] + [f"{i},nop,{i + 1}" for i in range(1, nops + 1)] + moved)


# the pieces of documents 01 and 02, and the flows of the folder flows/
case("document", "chain", chain("2,0,2", "read,1,1", "read,2,2", "over,3,1", "less,1,2", "under,2,5"))
case("document", "second-read", flow("1,0,1", "read,1,1,3,2", "read,1,1,3,3", "stop"))
case("document", "under-first", flow("1,0,1", "under,1,5,2,2", "stop"))
case("document", "less-itself", flow("1,0,1", "less,1,1,2,2", "stop"))
case("document", "stop-alone", flow("1,0,1", "stop"))
case("document", "no-bytes", "")
for file in sorted((stored.ROOT / "flows").glob("*.flow")):
    case("document", file.stem, file.read_text())

# flows as they are used
case("used", "doubles-left-out", flow("1,1,2", "read,1,1,+,end", "again: put,1,1,+", "next: read,1,2,+,end", "less,1,2,keep,+",
     "less,2,1,keep,next", "keep: copy,2,1,again", "end: stop"))
case("used", "in-order", flow("1,2,2", "read,1,1,+,end", "again: read,1,2,+,end", "less,2,1,wrong,+", "copy,2,1,again",
     "wrong: put,2,2,again", "end: stop"))
case("used", "in-range", flow("1,2,1", "again: read,1,1,+,end", "under,1,-10,bad,+", "over,10,1,bad,+", "put,1,1,again",
     "bad: put,1,2,again", "end: stop"))
case("used", "by-sign", flow("1,3,1", "again: read,1,1,+,end", "under,1,0,minus,+", "over,0,1,plus,+", "put,1,2,again",
     "minus: put,1,1,again", "plus: put,1,3,again", "end: stop"))
case("used", "least-and-greatest", flow("1,2,3", "read,1,1,+,none", "copy,1,2,+", "copy,1,3,+", "again: read,1,1,+,out",
     "less,1,2,low,+", "less,3,1,high,again", "low: copy,1,2,again", "high: copy,1,3,again", "out: put,2,1,+", "put,3,2,+", "none: stop"))
case("used", "header-lines-trailer", flow("1,2,1", "read,1,1,+,short", "under,1,1,wrong,+", "over,1,1,wrong,+",
     "line: read,1,1,+,short", "under,1,2,wrong,+", "over,2,1,+,line", "under,1,9,wrong,+", "over,9,1,wrong,+", "read,1,1,wrong,end",
     "wrong: put,1,2,+", "end: stop", "short: put,1,2,end"))
case("used", "merge-of-three", flow("3,1,3", "read,1,1,+,two", "read,2,2,+,cut", "read,3,3,+,cut", "again: less,2,1,second,+",
     "less,3,1,third,+", "put,1,1,+", "read,1,1,again,cut", "second: less,3,2,third,+", "put,2,1,+", "read,2,2,again,cut",
     "third: put,3,1,+", "read,3,3,again,cut", "two: read,2,2,+,cut", "put,2,1,two", "cut: stop"))
case("used", "master-and-changes", flow("2,2,2", "read,1,1,+,end", "change: read,2,2,+,rest", "old: less,1,2,+,match", "put,1,1,+",
     "read,1,1,old,lost", "match: less,2,1,+,hit", "put,2,2,change", "hit: put,2,1,+", "read,1,1,change,end",
     "rest: put,1,1,+", "read,1,1,rest,end", "lost: put,2,2,+", "read,2,2,lost,end", "end: stop"))
case("used", "credit-limit", flow("2,2,2", "read,1,1,+,end", "over,1000,1,end,+", "under,1,0,end,+", "again: read,2,2,+,end",
     "less,1,2,+,good", "put,2,2,again", "good: put,2,1,again", "end: stop"))
case("used", "between-two-readings", flow("1,1,3", "read,1,1,+,end", "read,1,2,+,end", "less,1,2,again,+", "copy,1,3,+", "copy,2,1,+",
     "copy,3,2,+", "again: read,1,3,+,end", "less,3,1,again,+", "less,2,3,again,+", "put,3,1,again", "end: stop"))

# between two constants there are so many whole numbers
for low, gap, count in [(3, 2, 1), (3, 1, 1), (3, 2, 2), (3, 3, 2), (3, 3, 3), (3, 4, 3), (-2, 1, 1), (-2, 2, 1), (-2, 2, 2), (-2, 3, 2),
                        (-2, 4, 4), (-2, 5, 4), (998, 2, 1), (998, 2, 2), (-1000, 2, 1), (-1000, 1, 1), (0, 4, 4), (-4, 4, 4), (-4, 4, 3)]:
    rising = [f"less,{x},{x + 1}" for x in range(1, count)]
    case("gaps", f"{count}-between-{low}-and-{low + gap}".replace("--", "-minus-"), chain(f"1,0,{count}",
         *(f"read,1,{x}" for x in range(1, count + 1)), f"over,{low},1", *rising, f"under,{count},{low + gap}"))
for side in (1, -1):
    # variable 1 is read first, and later records have to find room between it and the constants
    def beyond(x, y):
        return f"less,{x},{y}" if side > 0 else f"less,{y},{x}"
    outside = "over,3,{}" if side > 0 else "under,{},-3"
    name = "above" if side > 0 else "below"
    case("gaps", f"room-for-2-{name}", chain("1,0,3", "read,1,1", "read,1,2", "read,1,3", outside.format(2), beyond(2, 3), beyond(3, 1)))
    case("gaps", f"room-for-3-{name}", chain("1,0,4", "read,1,1", "read,1,2", "read,1,3", "read,1,4", outside.format(4), beyond(4, 3),
         beyond(3, 2), beyond(2, 1)))
    case("gaps", f"farther-again-{name}", flow("1,0,2", "read,1,1,+,end", outside.format(1) + ",+,end", "read,1,2,+,end",
         beyond(1, 2) + ",+,end", "copy,2,1,3", "end: stop"))
    case("gaps", f"nearer-again-{name}", flow("1,0,2", "read,1,1,+,end", "read,1,2,+,end", outside.format(2) + ",+,end",
         beyond(2, 1) + ",+,end", "copy,2,1,2", "end: stop"))
    case("gaps", f"no-circle-{name}", chain("1,0,3", "read,1,1", "read,1,2", "read,1,3", outside.format(1), beyond(1, 2), beyond(2, 3), beyond(3, 1)))
case("gaps", "equal-by-two-tests", flow("1,0,2", "read,1,1,+,end", "read,1,2,+,end", "less,1,2,end,+", "less,2,1,end,+", "less,1,2,never,+",
     "over,7,1,+,end", "over,7,2,end,never", "never: nop,end", "end: stop"))
case("gaps", "zero-is-a-constant", flow("1,0,2", "read,1,1,+,end", "over,5,1,end,+", "under,1,5,end,+", "less,2,1,+,never",
     "copy,1,2,+", "less,2,1,never,end", "never: less,1,2,end,end", "end: stop"))
case("gaps", "set-is-exact", flow("1,0,2", "set,7,1,+", "under,1,7,never,+", "over,7,1,never,+", "over,6,1,+,never", "under,1,8,+,never",
     "set,-7,2,+", "less,2,1,end,never", "never: less,1,1,end,end", "end: stop"))

# the ends of tapes
case("ends", "keeps-its-value", flow("1,0,1", "set,3,1,+", "read,1,1,end,+", "over,2,1,+,end", "under,1,4,end,end", "end: stop"))
case("ends", "other-tape-goes-on", flow("2,0,1", "read,1,1,end,+", "read,2,1,+,end", "read,1,1,end,+", "read,2,1,+,end", "read,1,1,end,end", "end: stop"))
case("ends", "record-after-the-end", flow("1,0,1", "again: read,1,1,again,+", "nop,+", "read,1,1,+,end", "over,0,1,end,end", "end: stop"))
case("ends", "end-again-and-again", flow("1,0,1", "read,1,1,+,1", "stop"))
case("ends", "only-after-both-ends", flow("2,0,2", "read,1,1,1,+", "read,2,2,2,+", "less,1,2,+,end", "read,2,1,end,+", "read,1,1,end,end", "end: stop"))
for order in ["123", "132", "213", "231", "312", "321"]:
    a, b, c = order
    case("ends", f"three-in-order-{order}", flow("3,0,2", f"read,{a},1,+,+", f"read,{b},2,+,+", f"read,{c},1,1,+", f"read,{c},2,end,+",
         f"read,{a},1,+,end", "less,1,2,1,end", "end: stop"))
case("ends", "none-needs-three-ends", flow("3,0,1", "read,1,1,end,+", "read,2,1,end,+", "read,3,1,end,+", "read,1,1,end,+", "read,2,1,end,+",
     "read,3,1,end,end", "end: stop"))
case("ends", "which-came-first", flow("2,0,2", "read,1,1,+,first", "read,2,2,1,second", "first: read,2,2,first,+", "read,1,1,end,end",
     "second: read,1,1,second,+", "read,2,2,end,end", "end: stop"))

# shapes of flows
case("shapes", "nop-for-ever", flow("1,0,1", "nop,1"))
case("shapes", "set-for-ever", flow("1,0,1", "set,5,1,1"))
case("shapes", "less-to-itself", flow("1,0,1", "less,1,1,2,1", "stop"))
case("shapes", "read-to-itself", flow("1,0,1", "read,1,1,1,1"))
case("shapes", "read-two-to-itself", flow("1,0,2", "read,1,2,1,1"))
case("shapes", "equal-targets", flow("1,0,1", "read,1,1,2,2", "over,0,1,3,3", "under,1,0,4,4", "less,1,1,5,5", "stop"))
case("shapes", "never-reached", flow("2,1,2", "nop,8", "read,1,1,3,4", "less,1,2,4,5", "over,1,1,5,6", "under,1,1,6,7", "put,1,1,7", "copy,1,2,2", "stop"))
case("shapes", "no-stop", flow("1,0,1", "read,1,1,2,1", "over,3,1,1,2"))
case("shapes", "no-read", flow("1,0,2", "set,4,1,+", "less,2,1,+,end", "copy,1,2,+", "less,2,1,+,end", "less,1,2,end,end", "end: stop"))
case("shapes", "copy-to-itself", flow("1,0,1", "read,1,1,+,+", "copy,1,1,+", "over,0,1,1,end", "end: stop"))
case("shapes", "exchange", flow("1,0,3", "read,1,1,+,end", "read,1,2,+,end", "less,1,2,+,end", "copy,1,3,+", "copy,2,1,+", "copy,3,2,+",
     "less,1,2,never,+", "less,2,1,end,never", "never: less,3,3,end,end", "end: stop"))
case("shapes", "64-nops", flow("1,0,1", *["nop,+"] * 63, "stop"))
case("shapes", "64-reads", flow("1,0,1", *["read,1,1,+,64"] * 63, "stop"))
case("shapes", "64-reads-of-three", flow("3,0,1", *(f"read,{i % 3 + 1},1,+,64" for i in range(63)), "stop"))
case("shapes", "63-tests", flow("1,0,1", "read,1,1,+,64", *(f"over,{i},1,+,64" for i in range(62)), "stop"))
case("shapes", "64-backwards", flow("1,0,1", "nop,63", "stop", *(f"read,1,1,{i - 1},2" for i in range(3, 64)), "nop,2"))
case("shapes", "equals-0-to-19", flow("1,0,1", *(x for i in range(20) for x in ["read,1,1,+,end", f"over,{i - 1},1,+,end", f"under,1,{i + 1},+,end"]),
     "end: stop"))
case("shapes", "every-word", flow("2,1,2", "read,2,1,+,end", "put,1,1,+", "copy,1,2,+", "set,-3,1,+", "less,1,2,+,end", "over,-5,2,+,end",
     "under,2,5,+,end", "nop,1", "end: stop"))

# the texts that are turned back
for name, text in [("word", "flow,1,0,1\n1,halt\n"), ("count", "flow,1,0,1\n1,nop\n"), ("number", "flow,1,0,1\n1,nop,01\n"),
                   ("turn", "flow,1,0,1\n2,stop\n"), ("range", "flow,1,0,1\n1,set,10000,1,1\n"), ("target", "flow,1,0,1\n1,nop,2\n"),
                   ("only-line-1", "flow,1,0,1\n"), ("tapes", "flow,4,0,1\n1,stop\n")]:
    case("turned-back", name, text)


# the largest constants; a record has to be one number of 2,001, or of 19,999
def exactly(c, before="read,1,1,+,end"):
    return [before, f"over,{c - 1},1,+,end", f"under,1,{c + 1},+,end"]


def largest(c):
    """Flows with c or -c among their constants, or both, by name."""
    return {
        f"only-{c}": flow("1,0,1", *exactly(c - 1), "end: stop"),
        f"only-minus-{c}": flow("1,0,1", "read,1,1,+,end", f"over,-{c},1,end,+", f"under,1,-{c},end,end", "end: stop"),
        f"over-{c}": flow("1,0,1", "read,1,1,+,end", f"over,{c},1,+,end", f"over,{c},1,end,never", "never: nop,end", "end: stop"),
        f"under-minus-{c}": flow("1,0,1", "read,1,1,+,end", f"under,1,-{c},+,end", f"over,-{c},1,never,end", "never: nop,end", "end: stop"),
        "both-ends": flow("1,0,1", "read,1,1,+,end", f"over,-{c},1,+,end", f"under,1,{c},end,end", "end: stop"),
        "set-both": flow("1,0,2", f"set,-{c},1,+", f"set,{c},2,+", "less,1,2,+,end", f"over,{c},2,end,+", f"under,1,-{c},end,end",
                         "end: stop"),
        f"last-in-{c + 1}": flow("1,0,1", "read,1,1,+,end", "under,1,0,end,+", f"over,{c - 1},1,+,end", f"under,1,{c},end,end",
                                 "end: stop"),
        f"third-in-{2 * c + 1}": flow("1,0,1", "read,1,1,+,end", f"under,1,-{c - 2},+,end", f"over,-{c},1,+,end",
                                      f"over,-{c - 1},1,end,end", "end: stop", f"set,{c},1,5"),
        "too-many-in-two": flow("1,0,2", "read,1,1,+,end", "read,1,2,+,end", f"over,{c},1,end,+", f"under,2,-{c},end,end", "end: stop"),
        f"two-above-{c}": flow("1,0,2", "read,1,1,+,end", f"over,{c},1,+,end", "copy,1,2,+", "set,0,1,+", "stop", "end: stop"),
        f"one-in-{2 * c + 1}-three-times": flow("1,0,1", *exactly(1 - c), *exactly(c - 1), "read,1,1,+,end", "end: stop"),
    }


for name, text in largest(1000).items():
    case("constants", name, text)
# with 4,096 cells these are refused by 9, but for the one without a read; they stand among the wide flows too
for name, text in largest(9999).items():
    case("constants-9999", name, text)
case("constants-9999", "flow-a-unreached", flow("1,0,1", "read,1,1,2,3", "over,5,1,1,3", "stop", "set,9999,1,3"))
# no read, so few configurations
case("constants-9999", "set-9999", flow("1,0,1", "set,9999,1,+", "over,9998,1,+,end", "over,9999,1,end,+", "under,1,9999,end,+",
     "end: stop"))
case("constants-9999", "set-minus-9999", flow("1,0,1", "set,-9999,1,+", "under,1,-9998,+,end", "under,1,-9999,end,+", "over,-9999,1,end,+",
     "end: stop"))
case("constants-9999", "set-four", flow("1,1,4", "set,9999,1,+", "set,-9999,2,+", "set,9998,3,+", "set,-9998,4,+", "less,2,4,+,never",
     "less,3,1,+,never", "less,4,3,+,never", "less,1,3,never,+", "copy,2,1,+", "less,1,2,never,+", "less,1,4,+,never", "put,1,1,end",
     "never: less,1,1,end,end", "end: stop"))
case("constants-9999", "set-1001-and-back", flow("1,0,2", "set,1001,1,+", "set,-1001,2,+", "less,2,1,+,end", "copy,1,2,+", "set,-1001,1,+",
     "less,2,1,end,+", "over,1000,2,+,end", "under,1,-1000,1,end", "end: stop"))
case("constants-9999", "unreached-without-read", flow("1,0,1", "over,-9999,1,+,end", "under,1,9999,+,end", "over,0,1,end,+", "end: stop",
     "set,9999,1,1", "set,-9999,1,1"))


# ---- long distances: counters. A variable is a digit; one more is `set`, and after the last digit the next variable is due.

def counter(bases, first=1, loop="again", out="out"):
    """One more, in variables that start at `first`: then to `loop`, and to `out` if all were at their last digit. A base may be
    a list of digits instead."""
    lines = []
    for k, base in enumerate(bases):
        v, label = first + k, f"digit{k}" if k else "more"
        least, *others = base if isinstance(base, list) else range(base)
        tests = [f"under,{v},{d},to{v}-{d},+" for d in others]
        sets = [f"to{v}-{d}: set,{d},{v},{loop}" for d in others]
        carry = f"set,{least},{v},digit{k + 1}" if k + 1 < len(bases) else f"nop,{out}"
        lines += [f"{label}: {tests[0]}", *tests[1:], carry, *sets]
    return lines


def counted(bases):
    """No read at all: the run counts, and takes the last test's exit after all numbers."""
    return flow(f"1,0,{len(bases)}", *(x.replace("again", "more") for x in counter(bases)), f"out: less,{len(bases)},1,+,+", "stop")


def counted_with(digits, v):
    """The same with these digits in v variables, which start at the least of them."""
    counts = (x.replace("again", "more") for x in counter([digits] * v))
    return flow(f"1,0,{v}", *(f"set,{digits[0]},{x},+" for x in range(1, v + 1)), *counts, f"out: less,{v},1,+,+", "stop")


def checked(bases, digit):
    """Each count reads a record that has to be a digit of the count."""
    v = len(bases) + 1
    return flow(f"1,0,{v}", f"again: read,1,{v},+,end", f"less,{v},{digit},end,+", f"less,{digit},{v},end,more", *counter(bases),
                "out: read,1,1,+,end", "less,1,2,end,end", "end: stop")


def climbing(base, side):
    """Variable 1 is read first; then so many records, each farther out than the one before, and all nearer than variable 1."""
    def beyond(x, y):
        return f"less,{x},{y}" if side > 0 else f"less,{y},{x}"
    return flow("2,0,4", "read,1,1,+,end", "again: read,2,3,+,end", beyond(2, 3) + ",+,end", beyond(3, 1) + ",+,end", "copy,3,2,more",
                *counter([base], first=4), "out: read,2,3,+,end", beyond(1, 3) + ",end,end", "end: stop")


for name, bases in [("3-digits-of-2", [2, 2, 2]), ("4-digits-of-3", [3, 3, 3, 3]), ("6-6-6", [6, 6, 6]), ("4-5-6-7", [4, 5, 6, 7]), ("8-8-8", [8, 8, 8]), ("9-9-9", [9, 9, 9])]:
    case("long", f"counted-{name}", counted(bases))
for name, bases, digit in [("3-3", [3, 3], 1), ("4-4-second", [4, 4], 2), ("3-3-3-third", [3, 3, 3], 3), ("4-4-4", [4, 4, 4], 1), ("4-5-5", [4, 5, 5], 2), ("12-5", [12, 5], 1)]:
    case("long", f"checked-{name}", checked(bases, digit))
for name, digits, v in [("2-far", [-9999, 9999], 4), ("3-far", [-9999, 0, 9999], 4), ("5-far", [-9999, -9998, 0, 9998, 9999], 4),
                        ("7-far", [-9999, -9998, -1001, 0, 1001, 9998, 9999], 3)]:
    case("long", f"counted-{name}", counted_with(digits, v))
for base in (4, 9, 20):
    case("long", f"climbing-{base}", climbing(base, 1))
    case("long", f"sinking-{base}", climbing(base, -1))


# ---- the limit: 4,096 configurations are reported, 4,097 are refused

def limit(name, text, count, topic="limit"):
    """A flow of so many configurations, brought to the limit and to one past it by `nop` before it."""
    cells = CELLS[file_of(topic)]
    for more in (cells - count, cells - count + 1):
        case(topic, f"{name}-{count + more}", later(more, text))


limit("one-variable", flow("1,0,1", "read,1,1,+,end", "over,-1000,1,end,+", *["nop,+"] * 30, "end: stop", "set,1000,1,end"), 4068)
limit("four-variables", flow("2,0,4", "read,1,1,+,+", "read,2,2,+,+", "read,1,3,+,+", "read,2,4,+,+", "less,1,2,+,low", "less,3,4,+,low",
      "less,2,3,+,low", "less,1,3,+,low", "low: nop,+", "nop,+", "nop,+", "stop"), 4087)
limit("three-tapes", flow("3,0,2", "again: read,1,1,+,+", "read,2,2,+,+", "read,3,2,+,+", "less,1,2,again,+", "over,6,1,+,low",
      "low: read,1,2,end,+", "read,2,1,end,+", "read,3,1,end,+", *["nop,+"] * 10, "end: stop"), 4073)
limit("no-tapes", counted([6, 8, 4, 4]), 4083)
limit("long-sample", checked([6, 5, 5], 2), 4075)


# ---- flows by chance

class Dice:
    """Numbers by chance, the same on every machine."""

    def __init__(self, seed):
        self.state = seed

    def below(self, n):
        self.state = (self.state * 6364136223846793005 + 1442695040888963407) % 2 ** 64
        return (self.state >> 33) % n

    def of(self, *choices):
        return choices[self.below(len(choices))]


def by_chance(dice, tapes, variables, count, low, high):
    """A flow that mostly goes forward, with a `stop` at its end."""
    def variable():
        return 1 + dice.below(variables)

    def target(i):
        return i + 1 if dice.below(3) else dice.of(1 + dice.below(count), i + 1 + dice.below(count - i))

    def line(i):
        word = dice.of("read", "read", "read", "less", "less", "less", "over", "under", "set", "copy", "put", "nop") if i > 1 else "read"
        c = low + dice.below(high - low + 1)
        fields = {"read": [1 + dice.below(tapes), variable()], "put": [variable(), 1], "copy": [variable(), variable()], "set": [c, variable()],
                  "less": [variable(), variable()], "over": [c, variable()], "under": [variable(), c], "nop": []}[word]
        return ",".join(map(str, [word] + fields + [target(i) for _ in range(2 if word in ("read", "less", "over", "under") else 1)]))

    return flow(f"{tapes},1,{variables}", *(line(i) for i in range(1, count)), "stop")


def some(topic, number, seed, tapes, variables, counts, low, high):
    dice = Dice(seed)
    for k in range(1, number + 1):
        count = counts[0] + dice.below(counts[1] - counts[0] + 1)
        case(topic, f"{k:02}", by_chance(dice, tapes, variables, count, low, high))


some("chance-small", 30, 1, 1, 2, (5, 9), -1, 1)
some("chance-two-tapes", 25, 2, 2, 2, (8, 14), 0, 3)
some("chance-three-tapes", 20, 3, 3, 2, (12, 20), -2, 2)
some("chance-four-variables", 20, 4, 1, 4, (8, 12), -1, 0)
some("chance-three-variables", 15, 5, 2, 3, (10, 16), 0, 1)
some("chance-64", 10, 6, 2, 1, (64, 64), -9, 9)


# ---- wide flows: with 65,536 cells a variable may have 20,001 patterns, one for each number from -9999 to 9999, one above, one below

def unreached(*constants):
    """Instructions that are never reached; their constants count."""
    return [f"set,{c},1,end" for c in constants]


def patient(head, *lines, constants=()):
    """Instructions in a chain with few configurations: where a comparison does not hold it is made again for ever, or where it
    holds if `not` is before it; with `both` before it both exits lead on. At the end of a tape the run stops."""
    def on(i, line):
        if line.startswith("not "):
            return f"{line[4:]},{i},+"
        if line.startswith("both "):
            return f"{line[5:]},+,+"
        return line + {"read": ",+,end", "less": f",+,{i}", "over": f",+,{i}", "under": f",+,{i}"}.get(line.split(",")[0], ",+")
    return flow(head, *(on(i, x) for i, x in enumerate(lines, 1)), "end: stop", *unreached(*constants))


def wide_limit(name, at, past, constants, head, *lines):
    """A flow with a number X in it: 65,536 configurations if X is `at`, 65,537 if it is `past`."""
    for count, x in ((65536, at), (65537, past)):
        case("wide-limit", f"{name}-{count}", flow(head, *lines, "end: stop", *unreached(*constants)).replace("X", str(x)))


# Three instructions with all 20,001 patterns, and the fourth with those above X, 10,000 - X; 1 for the start, 1 for the end of the
# tape. 1 + 3 * 20,001 + 5,531 + 1. From the other side 10,000 + X are under X.
wide_limit("one-variable", 4469, 4468, (-9999, 9999), "1,0,1", "read,1,1,+,end", "nop,+", "over,X,1,+,end", "nop,end")
wide_limit("under", -4469, -4468, (-9999, 9999), "1,0,1", "read,1,1,+,end", "nop,+", "under,1,X,+,end", "nop,end")
# -9999 to 9998, and -9998 to 9999: 20,000 patterns, 9,999 - X and 10,000 - X of them above X. 1 + 3 * 20,000 + 5,534 + 1
wide_limit("one-less-above", 4465, 4464, (-9999, 9998), "1,0,1", "read,1,1,+,end", "nop,+", "over,X,1,+,end", "nop,end")
wide_limit("one-less-below", 4466, 4465, (-9998, 9999), "1,0,1", "read,1,1,+,end", "nop,+", "over,X,1,+,end", "nop,end")
# 0 to 9999: 10,002 patterns, 10,000 - X above X. 1 + 6 * 10,002 + 5,522 + 1; and -9999 to 0 from the other side
wide_limit("from-0", 4478, 4477, (9999,), "1,0,1", "read,1,1,+,end", *["nop,+"] * 4, "over,X,1,+,end", "nop,end")
wide_limit("to-0", -4478, -4477, (-9999,), "1,0,1", "read,1,1,+,end", *["nop,+"] * 4, "under,1,X,+,end", "nop,end")
# Those under X, a number below 0, come back to the read, where 0 stands too: 10,001 + X. After it stand 20,001. All of these leave,
# and 0 twice, at the end of the tape and by the comparison: 20,002 at `nop` and at `stop`. 5,531 + 20,001 + 2 * 20,002
wide_limit("back-to-the-read", -4470, -4469, (-9999, 9999), "1,0,1", "read,1,1,+,out", "under,1,X,1,out", "out: nop,+")
# 20,001 before the end of tape 1, 20,001 after it. Of these 2,766 are above 7234; they read tape 2, which leads to all 20,001 or, at
# its end, keeps the 2,766. 3 * 20,001 + 2 * 2,766
limit("two-tapes", flow("2,0,1", "read,1,1,1,+", "over,7234,1,+,end", "read,2,1,end,end", "end: stop", *unreached(-9999, 9999)), 65535,
      "wide-limit")
# One at each of the three reads and one after the three ends; 20,001 from tape 1, 20,001 from tape 2 after the end of tape 1, and
# 20,001 from tape 3 after both ends, of which those above X go on, 10,000 - X. 4 + 3 * 20,001 + 5,529
wide_limit("three-tapes", 4471, 4470, (-9999, 9999), "3,0,1", "read,1,1,end,+", "read,2,1,end,+", "read,3,1,+,end", "over,X,1,end,4")
# 10,002 patterns. Before the second read all of them and, after the end of tape 1, 0 alone. After it all of them where none or one
# of the two tapes has ended, and 0 alone where both have. Above 1492 are 8,508. 1 + 10,003 + 3 * 10,002 + 1 + 3 * 8,508
limit("three-sets", flow("3,0,1", "read,1,1,+,+", "read,2,1,+,+", "over,1492,1,end,3", "end: stop", *unreached(9999)), 65535, "wide-limit")
# 0 to 9355: 9,358 patterns. All of them stand in the first comparison with one set of ended tapes, in the second with two, in the
# third with four. 9355 and the one above go on, and at the end of a tape what was there: 1, 3, 7 and 15 with 1, 2, 4 and 8 sets.
# 7 * 9,358 + 26
limit("eight-sets", flow("3,0,1", "read,1,1,+,3", "over,9354,1,+,2", "read,2,1,+,5", "over,9354,1,+,4", "read,3,1,+,7",
      "over,9354,1,+,6", "end: stop", *unreached(9355)), 65532, "wide-limit")
# Variable 1 above: variable 2 has 19,999 patterns inside, one below and three above, 20,003; and above X 10,002 - X. Each read is
# met in one configuration, and its end gives one more. 4 + 20,001 + 2 * 20,003 + 5,525
wide_limit("two-variables", 4477, 4476, (-9999,), "1,0,2", "read,1,1,+,end", "over,9999,1,+,2", "read,1,2,+,end", "nop,+",
           "over,X,2,+,5")
# 0 to 9999, each of four variables above the one before: 10,002, 10,004, 10,006 and three times 10,008 patterns; of these 10,006 - X
# have variable 4 above X. 8 + 10,002 + 10,004 + 10,006 + 3 * 10,008 + 5,492. And -9999 to 0 from the other side
wide_limit("four-above", 4514, 4513, (), "1,0,4", "read,1,1,+,end", "over,9999,1,+,2", "read,1,2,+,end", "less,1,2,+,4",
           "read,1,3,+,end", "less,2,3,+,6", "read,1,4,+,end", "nop,+", "nop,+", "over,X,4,+,10")
wide_limit("four-below", -4514, -4513, (), "1,0,4", "read,1,1,+,end", "under,1,-9999,+,2", "read,1,2,+,end", "less,2,1,+,4",
           "read,1,3,+,end", "less,3,2,+,6", "read,1,4,+,end", "nop,+", "nop,+", "under,4,X,+,10")

# the flows for most of which 4,096 cells are too few
for name, text in TOPICS["constants-9999"].items():
    case("wide", name, text)

# a record has to be one number, or there is none
for name, lines, constants in [
    ("exactly-9999", ["over,9998,1", "not over,9999,1"], (-9999,)), ("exactly-minus-9999", ["under,1,-9998", "not under,1,-9999"], (9999,)),
    ("exactly-9998", ["over,9997,1", "under,1,9999"], (-9999,)), ("exactly-minus-9998", ["over,-9999,1", "under,1,-9997"], (9999,)),
    ("exactly-1001", ["over,1000,1", "under,1,1002"], (-9999, 9999)), ("exactly-0", ["over,-1,1", "under,1,1"], (-9999, 9999)),
    ("exactly-minus-1001", ["under,1,-1000", "over,-1002,1"], (-9999, 9999)),
    ("none-after-9998", ["over,9998,1", "under,1,9999"], (-9999,)),
    ("none-after-minus-9999", ["over,-9999,1", "under,1,-9998"], (9999,)), ("none-outside-both", ["over,9999,1", "under,1,-9999"], ()),
    ("none-after-1000", ["under,1,1001", "over,1000,1"], (-9999, 9999)), ("none-above", ["over,9999,1", "not over,9998,1"], (-9999,)),
    ("none-below", ["under,1,-9999", "not under,1,-9998"], (9999,)), ("only-inside", ["not over,9999,1", "not under,1,-9999"], ()),
    ("only-above", ["over,9999,1", "not under,1,9999"], (-9999,)), ("only-below", ["under,1,-9999", "not over,-9999,1"], (9999,)),
]:
    case("wide", name, patient("1,0,1", "read,1,1", *lines, constants=constants))

# records outside: with both ends among the constants there is room for three reads, with 9999 or -9999 alone for six
for side in (1, -1):
    def outside(x):
        return f"over,9999,{x}" if side > 0 else f"under,{x},-9999"

    def beyond(x, y):
        return f"less,{x},{y}" if side > 0 else f"less,{y},{x}"

    name, both = ("above", (-9999,)) if side > 0 else ("below", (9999,))
    first = ["read,1,1", outside(1)]
    for shape, variables, constants, lines in [
        ("two", 2, both, ["read,1,2", beyond(1, 2)]),
        ("two-inwards", 2, both, ["read,1,2", outside(2), beyond(2, 1)]),
        ("two-equal", 2, both, ["read,1,2", "not less,1,2", "not less,2,1", outside(2)]),
        ("three", 3, both, ["read,1,2", beyond(1, 2), "read,1,3", beyond(2, 3)]),
        ("three-inwards", 3, both, ["read,1,2", outside(2), beyond(2, 1), "read,1,3", outside(3), beyond(3, 2)]),
        ("three-between", 3, both, ["read,1,2", beyond(1, 2), "read,1,3", beyond(1, 3), beyond(3, 2)]),
        ("three-in-a-circle", 3, both, ["read,1,2", beyond(1, 2), "read,1,3", beyond(2, 3), beyond(3, 1)]),
        ("four", 4, (), ["read,1,2", beyond(1, 2), "read,1,3", beyond(2, 3), "read,1,4", beyond(3, 4)]),
        ("four-inwards", 4, (), ["read,1,2", outside(2), beyond(2, 1), "read,1,3", outside(3), beyond(3, 2), "read,1,4", outside(4),
                                 beyond(4, 3)]),
        ("four-between", 4, (), ["read,1,2", beyond(1, 2), "read,1,3", beyond(1, 3), beyond(3, 2), "read,1,4", beyond(1, 4), beyond(4, 3)]),
        ("six-reads", 3, (), ["read,1,2", outside(2), beyond(2, 1)] + ["read,1,3", beyond(2, 3), beyond(3, 1), "copy,3,2"] * 4),
    ]:
        case("wide", f"{shape}-{name}", patient(f"1,0,{variables}", *first, *lines, constants=constants))
    case("wide", f"again-{name}", flow("1,0,2", "read,1,1,+,end", outside(1) + ",+,2", "read,1,2,+,end", beyond(1, 2) + ",+,4",
         "copy,2,1,3", "end: stop", *unreached(*both)))
    case("wide", f"kept-{name}", flow("2,0,2", "read,1,1,+,end", outside(1) + ",+,2", "read,1,1,3,+", outside(1) + ",+,4", "copy,1,2,+",
         "read,2,1,+,end", beyond(2, 1) + ",+,7", "read,1,1,end,+", beyond(2, 1) + ",end,+", "end: stop"))

# some above and others below, from one tape or from three; a fourth variable gets its value by `set` or `copy`
for name, head, lines in [
    ("above-and-below", "1,0,2", ["read,1,1", "over,9999,1", "read,1,2", "under,2,-9999", "less,2,1"]),
    ("below-and-above", "2,0,2", ["read,2,1", "under,1,-9999", "read,1,2", "over,9999,2", "less,1,2"]),
    ("above-below-above", "3,0,3", ["read,1,1", "over,9999,1", "read,2,2", "under,2,-9999", "read,3,3", "less,1,3"]),
    ("above-below-below", "3,0,3", ["read,3,1", "over,9999,1", "read,2,2", "under,2,-9999", "read,1,3", "less,3,2"]),
    ("above-below-inwards", "1,0,3", ["read,1,1", "over,9999,1", "read,1,2", "under,2,-9999", "read,1,3", "over,9999,3", "less,3,1"]),
    ("below-above-inwards", "1,0,3", ["read,1,1", "under,1,-9999", "read,1,2", "over,9999,2", "read,1,3", "under,3,-9999", "less,1,3"]),
    ("one-above-two-below-9999", "1,0,4", ["read,1,1", "over,9999,1", "copy,1,2", "read,1,1", "under,1,-9999", "copy,1,3", "read,1,1",
     "less,1,3", "copy,1,4", "set,9999,1", "less,4,3", "less,3,1", "less,1,2", "not less,2,4"]),
    ("two-above-one-below-minus-9999", "1,0,4", ["read,1,1", "under,1,-9999", "copy,1,4", "read,1,1", "over,9999,1", "copy,1,3", "read,1,1",
     "less,3,1", "copy,1,2", "set,-9999,1", "less,4,1", "less,1,3", "less,3,2", "not less,2,4"]),
    ("two-above-two-below", "2,1,4", ["read,1,1", "over,9999,1", "copy,1,2", "read,2,1", "under,1,-9999", "copy,1,3", "put,1,1", "read,2,1",
     "less,1,3", "copy,2,4", "not less,2,4", "not less,4,2", "less,3,4", "set,0,2", "less,2,4", "less,3,2"]),
]:
    case("wide", name, patient(head, *lines))

# 4,827 steps and 4,005 exits: the record row is long enough. Of n digits each round of a variable takes 1 to n - 1 tests for the next digit,
# and n - 1 where the next variable is due: 44 for 9, and 81, 9 and 1 rounds; 54 for 10, and 100, 10 and 1 rounds. 5,995 exits are too many.
case("wide", "counted-9-far", counted_with([-9999, -9998, -1001, -1000, 0, 1000, 1001, 9998, 9999], 3))
case("wide", "counted-10-far", counted_with([-9999, -9998, -1001, -1000, -1, 0, 1000, 1001, 9998, 9999], 3))

# by chance
some("wide-chance", 12, 7, 2, 1, (5, 9), -9999, 9999)
some("wide-chance-three-tapes", 6, 8, 3, 1, (5, 8), -9999, 9999)
some("wide-chance-two-variables", 12, 9, 2, 2, (6, 9), -9999, 9999)


# ---- the nine pairs: two variables, each below C1, inside from C1 to C2, or above C2

POSITIONS = ("below", "inside", "above")


def pairs(head, u, v, low, high, compared):
    """A record to u and a record to v. Tests with C1 and C2 part the nine pairs, u first, and each pair has a comparison of its
    own: from there to `low`, and from `low` to `stop`, or to `stop` at once."""
    def parted(x, before):
        return [f"under,{x},{low},{before}below,+", f"over,{high},{x},{before}above,{before}inside"]

    lines = [f"read,1,{u},+,end", f"read,1,{v},+,end", *parted(u, "")]
    for a in POSITIONS:
        first, second = parted(v, f"{a}-")
        lines += [f"{a}: {first}", second, *(f"{a}-{b}: less,{compared},low,end" for b in POSITIONS)]
    return flow(head, *lines, "low: nop,+", "end: stop")


for name, head, u, v, low, high in [("around-0", "1,0,2", 1, 2, -1, 2), ("of-0", "1,0,2", 1, 2, 0, 0), ("to-0", "1,0,4", 4, 2, -2, 0),
                                    ("from-0", "1,0,3", 2, 3, 0, 1)]:
    case("nine", f"pairs-{name}", pairs(head, u, v, low, high, f"{u},{v}"))
    case("nine", f"pairs-{name}-exchanged", pairs(head, u, v, low, high, f"{v},{u}"))

# the like pairs: less, greater, equal; and equal values are not less
THREE_WAYS = ["less,1,2,end,+", "less,2,1,end,+", "less,1,2,never,+", "less,2,1,never,end"]
case("nine", "like-pairs", flow("1,0,2", "read,1,1,+,end", "read,1,2,+,end", "under,1,-1,below,+", "over,1,1,above,+",
     "under,2,-1,end,+", "over,1,2,end,+", *THREE_WAYS, "below: under,2,-1,+,end", *THREE_WAYS, "above: over,1,2,+,end", *THREE_WAYS,
     "never: less,1,1,end,end", "end: stop"))


# where a variable stands is known from `less`, and then each of C1 and C2 is compared with it by `over` and `under`
def with_constants(label, *constants):
    first, *others = [f"over,{c},1" for c in constants] + [f"under,1,{c}" for c in constants]
    return [f"{label}: {first},+,+", *(x + ",+,+" for x in others[:-1]), f"{others[-1]},end,end"]


case("nine", "constants", flow("1,0,3", "set,-2,2,+", "set,3,3,+", "read,1,1,+,end", "less,1,2,below,+", "less,3,1,above,+",
     "less,2,1,+,at-low", "less,1,3,between,at-high",
     *(x for label in ("below", "at-low", "between", "at-high", "above") for x in with_constants(label, -2, 3)), "end: stop"))
case("nine", "constants-of-0", flow("1,0,2", "read,1,1,+,end", "less,1,2,below,+", "less,2,1,above,at-0",
     *(x for label in ("below", "at-0", "above") for x in with_constants(label, 0)), "end: stop"))


def each_two(v):
    """Each two of so many variables, and each with itself."""
    return [f"both less,{x},{y}" for x in range(1, v + 1) for y in range(1, v + 1)]


def equal_to(c, v):
    """A record to v that is this constant; no other constant is needed."""
    return [f"read,1,{v}", f"not under,{v},{c}", f"not over,{c},{v}"]


# Four variables, and one pattern of them is left where each two are compared. A report would be the same if all ranks of one side were
# compared the wrong way round; the samples would not be.
for side in (1, -1):
    def beyond(x, y):
        return f"less,{x},{y}" if side > 0 else f"less,{y},{x}"

    # ranks 1, 2, 3, 4; then variable 4 gets a record equal to variable 3, to variable 2, to variable 1
    again = [y for x in (3, 2, 1) for y in ["read,1,4", f"not {beyond(x, 4)}", f"not {beyond(4, x)}", f"both {beyond(x, 4)}",
                                           f"both {beyond(4, x)}"]]
    name, outside = ("above", "over,2,{}") if side > 0 else ("below", "under,{},-2")
    case("nine", f"ranks-{name}", patient("1,0,4", "read,1,1", outside.format(1), "read,1,2", beyond(1, 2), "read,1,3", beyond(2, 3),
         "read,1,4", beyond(3, 4), *each_two(4), *again))
    # ranks 4, 3, 2, 1: each record moves the ones before it out by one
    inwards = [y for x in (1, 2, 3) for y in [f"read,1,{x + 1}", outside.format(x + 1), beyond(x + 1, x)]]
    case("nine", f"ranks-{name}-inwards", patient("1,0,4", "read,1,1", outside.format(1), *inwards, *each_two(4)))
case("nine", "inside-neighbours", patient("1,0,4", *equal_to(-1, 1), *equal_to(0, 2), *equal_to(1, 3), *equal_to(2, 4), *each_two(4)))
case("nine", "inside-equal", patient("1,0,4", *equal_to(-1, 1), *equal_to(-1, 2), *equal_to(1, 3), *equal_to(1, 4), *each_two(4)))
case("nine", "below-low-high-above", patient("1,0,4", "read,1,1", "under,1,-2", *equal_to(-2, 2), *equal_to(3, 3), "read,1,4", "over,3,4",
     *each_two(4)))
case("nine", "two-below-two-above", patient("1,0,4", "read,1,1", "under,1,-1", "read,1,2", "less,2,1", "read,1,3", "over,1,3", "read,1,4",
     "less,3,4", *each_two(4)))
# variable 1 below -9999, variable 3 above 9999, and variable 2 the one or the other constant
for name, lines in [("9999", ["not under,2,9999", "not over,9999,2"]), ("minus-9999", ["not over,-9999,2", "not under,2,-9999"])]:
    case("wide-nine", f"inside-{name}", patient("1,0,3", "read,1,1", "under,1,-9999", "read,1,3", "over,9999,3", "read,1,2", *lines,
         *each_two(3)))


# ---- every outside pattern: all variables outside C1 to C2 form 2, 8, 44 and 308 patterns for one to four of them (T-06)

def kept_outside(v, low, high, back):
    """A record to each variable in turn: from one above `high` or below `low` the run goes on, with another it stays at the test.
    After the last variable it goes to `back`."""
    lines = []
    for x in range(1, v + 1):
        on = 3 * x + 1 if x < v else back
        lines += [f"read,1,{x},+,end", f"over,{high},{x},{on},+", f"under,{x},{low},{on},{3 * x}"]
    return flow(f"1,0,{v}", *lines, "end: stop")


# a record to each variable, from one tape, from two in turn that both lead on at their ends, and from three; 0 alone or more numbers
for v, name in enumerate(("one", "two", "three", "four"), 1):
    case("outside", name, patient(f"1,0,{v}", *(f"read,1,{x}" for x in range(1, v + 1))))
case("outside", "four-of-two-tapes", flow("2,0,4", "read,1,2,+,+", "read,2,4,+,+", "read,1,1,+,+", "read,2,3,+,+", "end: stop", *unreached(-2)))
case("outside", "four-of-three-tapes", patient("3,0,4", "read,3,4", "read,1,3", "read,2,2", "read,3,1", constants=(3,)))
# all patterns of four are compared: rising, falling, equal
case("outside", "four-compared", flow("1,0,4", "read,1,1,+,end", "read,1,2,+,end", "read,1,3,+,end", "read,1,4,+,end",
     "less,1,2,+,other", "less,2,3,+,end", "less,3,4,+,end", "over,0,1,end,+", "under,4,-1,end,end",
     "other: less,2,1,+,equal", "less,4,2,+,end", "less,3,4,+,end", "under,1,-1,end,+", "over,0,3,end,end",
     "equal: less,1,3,end,+", "less,3,1,end,+", "less,1,4,end,+", "less,4,1,end,+", "over,0,1,end,+", "under,1,-1,end,end", "end: stop"))
# each variable is copied to each other one: nine times three values are left, then two
case("outside", "four-copied", patient("1,0,4", "read,1,1", "read,1,2", "read,1,3", "read,1,4", "copy,1,2", "copy,3,1", "copy,4,3", "copy,2,4",
     "copy,3,2", "copy,1,3", "copy,4,1", "copy,3,4", "copy,2,3", "copy,2,1", "copy,4,2", "copy,1,4", "set,1,2", "set,-1,1"))
# the variables are read again and again: from every pattern to every other, and from outside to outside
RING = ["again: read,1,1,+,end", "read,1,2,+,end", "read,1,3,+,end", "read,1,4,again,end", "end: stop"]
case("outside", "four-in-a-ring", flow("1,0,4", *RING))
case("outside", "four-kept-outside", kept_outside(4, 0, 0, 1))
# constants farther apart, for which 4,096 cells are too few
case("wide-outside", "two-kept-outside", kept_outside(2, 0, 9999, "end"))
case("wide-outside", "three-kept-outside", kept_outside(3, -2971, 0, "end"))
case("wide-outside", "four-kept-outside", kept_outside(4, -293, 293, "end"))
case("wide-outside", "four-in-a-ring", flow("1,0,4", *RING, *unreached(-3, 4)))


# ---- exits and not steps (T-04): `put`, `copy`, `set` and `nop` add nothing to a distance

# before the first read or comparison, one of them or each
case("exits", "nop-first", flow("1,0,1", "nop,+", "read,1,1,+,+", "stop"))
case("exits", "put-first", flow("1,1,1", "put,1,1,+", "read,1,1,+,+", "stop"))
case("exits", "copy-first", flow("1,0,2", "copy,2,1,+", "read,1,1,+,+", "stop"))
case("exits", "set-first", flow("1,0,1", "set,4,1,+", "read,1,1,+,+", "stop"))
case("exits", "each-first", flow("1,1,2", "put,1,1,+", "set,3,1,+", "copy,1,2,+", "nop,+", "less,1,2,+,+", "nop,+", "over,2,2,+,end", "nop,+",
     "read,1,1,+,+", "end: stop"))
case("exits", "63-nops-first", flow("1,0,1", *["nop,+"] * 63, "read,1,1,64,64"))
# flow A with `nop` before it and behind every exit
case("exits", "flow-a", flow("1,0,1", "nop,+", "again: read,1,1,+,over", "nop,test", "over: nop,end", "test: over,5,1,+,low", "nop,again",
     "low: nop,end", "end: stop"))
# the way with fewer steps takes more exits; in the first it has a record and the other has none, in the second the reverse
case("exits", "fewer-by-the-end", flow("1,0,1", "read,1,1,+,long", "less,1,1,end,+", "less,1,1,end,goal", "long: nop,+", "nop,+", "nop,+",
     "nop,+", "goal: over,0,1,end,end", "end: stop"))
case("exits", "fewer-by-records", flow("1,0,1", "read,1,1,+,short", "nop,+", "nop,+", "read,1,1,+,end", "nop,+", "goal: less,1,1,end,end",
     "end: stop", "short: less,1,1,end,+", "less,1,1,end,goal"))
# One configuration at `goal`, met by an exit first and then, with one exit fewer, at the end of a chain. In the second the chain is so
# long that all behind `goal` was met before. In the third two values of variable 1 arrive, and the read does away with both.
case("exits", "met-by-an-exit-first", flow("1,0,1", "read,1,1,+,end", "over,0,1,+,long", "set,0,1,+", "less,1,1,end,goal", "long: set,0,1,+",
     "nop,+", "nop,+", "nop,+", "goal: read,1,1,+,+", "over,0,1,end,end", "end: stop"))
case("exits", "met-long-before", flow("1,0,1", "read,1,1,+,end", "over,0,1,+,long", "set,0,1,+", "less,1,1,end,goal", "goal: under,1,1,+,end",
     "less,1,1,end,+", "read,1,1,+,end", "over,0,1,goal,end", "end: stop", "long: set,0,1,+", *["nop,+"] * 39, "nop,goal"))
case("exits", "met-with-another-value", flow("2,0,2", "read,2,2,+,end", "over,0,2,+,long", "set,0,2,+", "set,5,1,+", "less,1,1,goal,goal",
     "long: set,0,2,+", "nop,+", "nop,+", "nop,+", "goal: read,1,1,+,+", "over,2,1,+,+", "end: stop"))
# without end, and without an exit
case("exits", "nop-to-itself", flow("1,0,1", "read,1,1,+,other", "nop,2", "other: over,0,1,+,+", "stop"))
case("exits", "nop-to-itself-first", flow("1,0,1", "nop,1", "read,1,1,+,+", "stop"))
case("exits", "cycle-of-each", flow("1,1,2", "read,1,1,+,other", "again: put,1,1,+", "copy,1,2,+", "set,0,1,+", "nop,again",
     "other: less,1,2,+,+", "stop"))
case("exits", "cycle-entered-twice", flow("1,0,1", "read,1,1,one,other", "over,0,1,2,2", "one: nop,+", "nop,+", "other: nop,+", "nop,one"))
# chains that come to a configuration that is known: in another chain, and where the run began
case("exits", "chains-meet", flow("1,0,1", "read,1,1,+,end", "over,0,1,+,other", "set,0,1,+", "nop,+", "meet: nop,next", "other: set,0,1,+",
     "nop,meet", "next: read,1,1,+,+", "end: stop"))
case("exits", "back-to-the-start", flow("1,0,1", "read,1,1,+,out", "set,0,1,+", "nop,1", "out: over,0,1,+,+", "stop"))
case("exits", "both-to-one-chain", flow("1,0,1", "read,1,1,+,+", "over,0,1,+,+", "nop,+", "nop,+", "under,1,0,+,+", "nop,+", "stop"))
case("exits", "ended-behind-a-chain", flow("1,0,1", "read,1,1,end,+", "nop,+", "read,1,1,end,end", "end: stop"))
# chains to `stop`, and behind a read of many values
case("exits", "chains-to-stop", flow("1,1,2", "read,1,1,+,out", "put,1,1,+", "copy,1,2,+", "nop,end", "out: set,7,2,+", "end: stop"))
case("exits", "chains-of-many-values", flow("1,1,2", "read,1,1,+,end", "put,1,1,+", "copy,1,2,+", "nop,+", "under,2,-2,end,+", "nop,+",
     "over,3,2,end,+", "set,3,1,+", "less,2,1,end,end", "end: stop"))
# as many between two reads as a flow can have, with `stop` and without it
case("exits", "61-nops", flow("1,0,1", "read,1,1,+,end", *["nop,+"] * 61, "read,1,1,+,+", "end: stop"))
case("exits", "62-nops", flow("1,0,1", "read,1,1,+,+", *["nop,+"] * 62, "read,1,1,1,1"))
case("exits", "60-of-each", flow("1,1,2", "read,1,1,+,end", *["put,1,1,+", "copy,1,2,+", "set,0,2,+", "nop,+"] * 15, "read,1,2,+,+",
     "less,1,2,+,+", "end: stop"))
# loops with more steps than exits: a counter that waits after each count, and values that move from variable to variable
case("exits", "counted-waiting", flow("1,0,3", *counter([2, 2, 2], loop="wait"), "out: less,3,1,+,+", "stop", "wait: nop,+", *["nop,+"] * 38,
     "nop,more"))
case("exits", "moved-along", flow("1,0,4", "again: copy,3,4,+", "copy,2,3,+", "copy,1,2,+", "set,1,1,+", "over,0,4,+,again", "nop,+",
     "read,1,1,+,+", "stop"))
case("wide-exits", "all-patterns", flow("1,0,1", "nop,+", "read,1,1,+,end", "nop,+", "over,9999,1,+,end", "nop,+", "end: stop",
     *unreached(-9999)))
case("wide-exits", "two-below", patient("1,0,2", "read,1,1", "under,1,-9999", "copy,1,2", "nop", "read,1,1", "less,1,2", "set,-9999,2",
     "less,1,2"))
# As long as the record row, and longer: 9, 14, 35 and 35 tests in a round of the four variables (4, 5, 8 and 8 digits), 320, 64, 8 and 1
# rounds. That is 4,091 exits, and more than 5,000 steps; eight tests follow.
case("wide-exits", "row-4096", flow("1,0,4", *(x.replace("again", "more") for x in counter([4, 5, 8, 8])), "out: less,1,1,+,+",
     *["less,1,1,+,+"] * 7, "stop"))


# ---- flows with instructions `nop` more: each distance stays

def padded(dice, text, more):
    """A text with so many instructions `nop` more, each in a way from one instruction to another, or before the first; other ways to the same
    instruction may share it. The new lines stand anywhere. And the number that each instruction now has."""
    first, *rest = text.splitlines()
    # by the old numbers, and from 65 on the new instructions; a way is an instruction and the place of the target in its line
    lines = {int(i): fields for i, *fields in (line.split(",") for line in rest)}
    ways = [(i, k) for i, f in lines.items() for k in range(len(f) - TARGETS.get(f[0], 1), len(f))]
    for i, k in ways:
        lines[i][k] = int(lines[i][k])
    order = list(lines)
    for new in range(65, 65 + more):
        at = dice.below(len(ways) + 1)
        if at == len(ways):
            there = order[0]
            order.insert(0, new)
        else:
            i, k = ways[at]
            there = lines[i][k]
            for j, n in ways:
                if (j, n) == (i, k) or lines[j][n] == there and dice.below(4) == 0:
                    lines[j][n] = new
            order.insert(1 + dice.below(len(order)), new)
        lines[new] = ["nop", there]
        ways.append((new, 1))
    number = {i: n for n, i in enumerate(order, 1)}
    for i, k in ways:
        lines[i][k] = number[lines[i][k]]
    return "".join(x + "\n" for x in [first, *(",".join(map(str, [number[i], *lines[i]])) for i in order)]), number


# some of the flows above, with as many as 64 instructions allow, or fewer
PADDED = {}
for seed, (topic, name, more) in enumerate([
    ("document", "a", 61), ("document", "chain", 20), ("document", "merge", 52), ("document", "control_break", 53), ("document", "match", 15),
    ("used", "least-and-greatest", 40), ("used", "merge-of-three", 12), ("ends", "which-came-first", 30), ("gaps", "nearer-again-above", 25),
    ("long", "checked-3-3", 30), ("long", "climbing-4", 30), ("chance-two-tapes", "07", 40), ("chance-three-tapes", "05", 30),
    ("chance-four-variables", "07", 12), ("nine", "like-pairs", 20), ("exits", "met-by-an-exit-first", 50),
], 1000):
    text, number = padded(Dice(seed), TOPICS[topic][name], more)
    PADDED[f"{topic}-{name}"] = f"{topic}/{name}", number
    case("padded", f"{topic}-{name}", text)


# ---- the reports, and the searches held to each other

class Found:
    """What the first search finds of a legal flow: the configurations, None past the limit, and the distances."""

    def __init__(self, topic, name, text):
        self.topic, self.name, self.text = topic, name, text
        self.wide = file_of(topic) == "wide"
        self.cells = CELLS[file_of(topic)]
        self.program = searches.parse(text)[2]
        self.count, self.exits = searches.configurations(text, self.cells) or (None, None)

    def lines(self, told):
        """A line for each exit, by number: what is told of its distance, None for none."""
        two = [i for i, x in self.program.items() if x[0] in ("read", "less", "over", "under")]
        return "".join(f"{i},{side},{told(self.exits and self.exits.get((i, side)))}\n" for i in two for side in "pm")

    def report(self):
        if self.exits is None:
            return "refused,9,0\n"
        return f"report,{len(self.program)},{self.count}\n" + self.lines(lambda d: d or "none")

    def samples(self):
        if self.exits is None:
            return self.lines(lambda d: "refused,9,0")
        return self.lines(lambda d: "none" if not d else f"{d},taken" if d <= ROW else "refused,10,0")


def by_bounds(found):
    """Holds the second search to the first: the same distances; and whether it saw all, so that each none is one there too."""
    exits, whole = searches.bounds(found.text, 8000)
    assert found.exits in (None, exits), found.name
    return whole


def by_tapes(found):
    """Holds the third search to the first, where few tapes are many enough: no exit sooner and no configuration more; and whether
    it came to the same distances and the same configurations. Of a wide flow only tapes of one record are few enough, and only
    those with one variable are looked at."""
    t, v, program = searches.parse(found.text)
    values = max(searches.constants(program)) - min(searches.constants(program)) + 1 + 2 * v
    most, least, steps = (20002, 1, 9) if found.wide else (1500, 2, 25)
    length = max(n for n in range(5) if sum(values ** k for k in range(n + 1)) ** t <= most)
    if found.exits is None or length < least or found.wide and v > 1:
        return False
    count, exits = searches.tapes(found.text, length, v, steps)
    assert count <= found.count and all(found.exits[x] <= exits[x] for x in exits), found.name
    return (count, exits) == (found.count, found.exits)


def moved(exits, number):
    """Distances, by the numbers that the instructions have elsewhere."""
    return {(number[i], side): d for (i, side), d in exits.items()}


def by_padding(flows):
    """Holds the distances of a flow, and each none, to those of the flow with `nop` in it, for the flows of few configurations, for others by
    chance, and for those that are stored; configurations may only become more. The number of flows."""
    dice, grown = Dice(77), 0
    named = {f"{x.topic}/{x.name}": x for x in flows}
    few = [(name, x.text, x.count, x.exits) for name, x in named.items() if x.exits is not None and x.count <= 600 and x.text]
    for k in range(600):
        text = by_chance(dice, 1 + k % 3, 1 + k % 2, 5 + dice.below(12), -1, 2)
        few.append((f"by chance, {k}", text, *searches.configurations(text, 65536)))
    for name, text, count, exits in few:
        room = 65 - len(text.splitlines())
        other, number = padded(dice, text, dice.below(room + 1))
        more, found = searches.configurations(other, 65536)
        assert found == moved(exits, number) and more >= count, f"{name}: the distances are others with `nop` in it\n{text}{other}"
        grown += more > count
    assert 2 * grown > len(few), "in most of the flows a new instruction is run"
    for name, (of, number) in PADDED.items():
        assert named[f"padded/{name}"].exits == moved(named[of].exits, number), name
    return len(few) + len(PADDED)


# ---- reports that are written by hand, and how their configurations are counted

BY_HAND = {
    # 1, 20,001, the two above 9998, and at `stop` 9999 and, after the end of the tape, 0
    "wide/exactly-9999": "report,5,20006 1,p,1 1,m,1 2,p,2 2,m,2 3,p,3 3,m,3",
    # 1, 20,001, 8,999 numbers under -1000 and the one below, 2
    "wide/exactly-minus-1001": "report,6,29004 1,p,1 1,m,1 2,p,2 2,m,2 3,p,3 3,m,3",
    # 1, 20,001, 2, 1
    "wide/none-after-9998": "report,5,20005 1,p,1 1,m,1 2,p,2 2,m,2 3,p,none 3,m,3",
    # at the read 0, 9,994 numbers over 5 and the one above; 10,002; at `stop` the 9,996 of the read, 0 to 5 and the one below
    "wide/flow-a-unreached": "report,4,30001 1,p,1 1,m,1 2,p,2 2,m,2",
    # no read: each instruction that is run stands in one configuration, all but instruction 13
    "wide/set-four": "report,14,13 5,p,1 5,m,none 6,p,2 6,m,none 7,p,3 7,m,none 8,p,none 8,m,4 10,p,none 10,m,5 11,p,6 11,m,none "
                     "13,p,none 13,m,none",
    # a read has 1; after it are 20,001, then 20,003, then the one with equal values and the one with variable 2 farther, then 1; 3
    "wide/two-equal-below": "report,8,40012 1,p,1 1,m,1 2,p,2 2,m,2 3,p,3 3,m,3 4,p,4 4,m,4 5,p,5 5,m,5 6,p,6 6,m,none",
    # each of three reads has 1, and its end gives 1; 20,001, 20,003, 20,005; 1
    "wide/three-above": "report,8,60016 1,p,1 1,m,1 2,p,2 2,m,2 3,p,3 3,m,3 4,p,4 4,m,4 5,p,5 5,m,5 6,p,6 6,m,6",
    # the same; and 3 and 5 that are outside, before they are compared with each other
    "wide/three-inwards-below": "report,10,60024 1,p,1 1,m,1 2,p,2 2,m,2 3,p,3 3,m,3 4,p,4 4,m,4 5,p,5 5,m,5 6,p,6 6,m,6 7,p,7 7,m,7 "
                                "8,p,8 8,m,8",
    # four reads and four ends; 10,002, 10,004, 10,006, 10,008; 1
    "wide/four-above": "report,9,40029 1,p,1 1,m,1 2,p,2 2,m,2 3,p,3 3,m,3 4,p,4 4,m,4 5,p,5 5,m,5 6,p,6 6,m,6 7,p,7 7,m,7 8,p,8 8,m,8",
    # two reads and two ends; 20,001, 20,003; 1 at the last comparison, 1 after it
    "wide/above-and-below": "report,6,40010 1,p,1 1,m,1 2,p,2 2,m,2 3,p,3 3,m,3 4,p,4 4,m,4 5,p,5 5,m,none",
    # -1 to 2: w = 4 numbers, w + 2 = 6 patterns of one variable, w * w + 4 * w + 8 = 40 of two. With variable 1 below there are w + 4 = 8
    # of these, 3 with variable 2 below, 4 inside, 1 above; with variable 1 inside 24, which are 4, 16, 4; with variable 1 above 8, which
    # are 1, 4, 3. Variable 1 is less in 1 + 4 + 1, in 6 + 4 and in 1, which are 17. At the reads 1 and 6, at 3 and 4 all 40 and the 32
    # that are not below. Then 8, 5, 3, 4, 1; 24, 20, 4, 16, 4; 8, 7, 1, 4, 3. At `nop` 17, at `stop` 40 and, after the end of the tape,
    # the 6 with 0 in variable 2.
    # 1 + 6 + 40 + 32 + 21 + 68 + 23 + 17 + 40 + 6
    "nine/pairs-around-0": "report,21,254 1,p,1 1,m,1 2,p,2 2,m,2 3,p,3 3,m,3 4,p,4 4,m,4 "
                           "5,p,4 5,m,4 6,p,5 6,m,5 7,p,5 7,m,5 8,p,6 8,m,none 9,p,6 9,m,none "
                           "10,p,5 10,m,5 11,p,6 11,m,6 12,p,none 12,m,6 13,p,7 13,m,7 14,p,7 14,m,none "
                           "15,p,5 15,m,5 16,p,6 16,m,6 17,p,none 17,m,6 18,p,none 18,m,7 19,p,7 19,m,7",
    # the same; variable 2 is less as often
    "nine/pairs-around-0-exchanged": "report,21,254 1,p,1 1,m,1 2,p,2 2,m,2 3,p,3 3,m,3 4,p,4 4,m,4 "
                                     "5,p,4 5,m,4 6,p,5 6,m,5 7,p,5 7,m,5 8,p,none 8,m,6 9,p,none 9,m,6 "
                                     "10,p,5 10,m,5 11,p,6 11,m,6 12,p,6 12,m,none 13,p,7 13,m,7 14,p,none 14,m,7 "
                                     "15,p,5 15,m,5 16,p,6 16,m,6 17,p,6 17,m,none 18,p,7 18,m,none 19,p,7 19,m,7",
    # 0 alone: w = 1. Two variables that are inside are equal. 1 + 3 + 13 + 8; 5, 2, 3, 1, 1; 3, 2, 1, 1, 1; 5, 4, 1, 1, 3; 5 + 13 + 3
    "nine/pairs-of-0": "report,21,80 1,p,1 1,m,1 2,p,2 2,m,2 3,p,3 3,m,3 4,p,4 4,m,4 "
                       "5,p,4 5,m,4 6,p,5 6,m,5 7,p,5 7,m,5 8,p,6 8,m,none 9,p,6 9,m,none "
                       "10,p,5 10,m,5 11,p,6 11,m,6 12,p,none 12,m,6 13,p,none 13,m,7 14,p,7 14,m,none "
                       "15,p,5 15,m,5 16,p,6 16,m,6 17,p,none 17,m,6 18,p,none 18,m,7 19,p,7 19,m,7",
    # -2 to 0: w = 3. The first record goes to variable 4, the second to variable 2; 1 and 3 stay 0.
    # 1 + 5 + 29 + 22; 7, 4, 3, 3, 1; 15, 12, 3, 9, 3; 7, 6, 1, 3, 3; 12 + 29 + 5
    "nine/pairs-to-0": "report,21,183 1,p,1 1,m,1 2,p,2 2,m,2 3,p,3 3,m,3 4,p,4 4,m,4 "
                       "5,p,4 5,m,4 6,p,5 6,m,5 7,p,5 7,m,5 8,p,6 8,m,none 9,p,6 9,m,none "
                       "10,p,5 10,m,5 11,p,6 11,m,6 12,p,none 12,m,6 13,p,7 13,m,7 14,p,7 14,m,none "
                       "15,p,5 15,m,5 16,p,6 16,m,6 17,p,none 17,m,6 18,p,none 18,m,7 19,p,7 19,m,7",
    # 0 to 1: w = 2. Variable 1 stays 0. 1 + 4 + 20 + 14; 6, 3, 3, 2, 1; 8, 6, 2, 4, 2; 6, 5, 1, 2, 3; 8 + 20 + 4
    "nine/pairs-from-0-exchanged": "report,21,125 1,p,1 1,m,1 2,p,2 2,m,2 3,p,3 3,m,3 4,p,4 4,m,4 "
                                   "5,p,4 5,m,4 6,p,5 6,m,5 7,p,5 7,m,5 8,p,none 8,m,6 9,p,none 9,m,6 "
                                   "10,p,5 10,m,5 11,p,6 11,m,6 12,p,6 12,m,none 13,p,7 13,m,7 14,p,none 14,m,7 "
                                   "15,p,5 15,m,5 16,p,6 16,m,6 17,p,6 17,m,none 18,p,7 18,m,none 19,p,7 19,m,7",
    # -1 to 1: 5 patterns of one variable, 29 of two, 22 with variable 1 not below. Inside 15, then 12 with variable 2 not below, 9 with
    # both inside, 6 of them not less, 3 equal, which stay. Below 7, then 3, of which 2 are not less and 1 is equal; above the same.
    # 1 + 5 + 29 + 22; 15, 12, 9, 6, 3, 3; 7, 3, 2, 1, 1; 7, 3, 2, 1, 1; at `stop` 29 and, after the end of the tape, 5
    "nine/like-pairs": "report,22,167 1,p,1 1,m,1 2,p,2 2,m,2 3,p,3 3,m,3 4,p,4 4,m,4 "
                       "5,p,5 5,m,5 6,p,6 6,m,6 7,p,7 7,m,7 8,p,8 8,m,8 9,p,none 9,m,9 10,p,none 10,m,10 "
                       "11,p,4 11,m,4 12,p,5 12,m,5 13,p,6 13,m,6 14,p,none 14,m,7 15,p,none 15,m,8 "
                       "16,p,5 16,m,5 17,p,6 17,m,6 18,p,7 18,m,7 19,p,none 19,m,8 20,p,none 20,m,9 21,p,none 21,m,none",
    # -2 to 3: variables 2 and 3 are -2 and 3. 1 up to the read; 8, 7, 6, 5 at the four comparisons by `less`; then four times 1 below, 1 at
    # -2, 4 between, 1 at 3, 1 above; at `stop` 8 and, after the end of the tape, 1. 3 + 26 + 4 * 8 + 9
    "nine/constants": "report,28,70 3,p,1 3,m,1 4,p,2 4,m,2 5,p,3 5,m,3 6,p,4 6,m,4 7,p,5 7,m,5 "
                      "8,p,none 8,m,3 9,p,none 9,m,4 10,p,5 10,m,none 11,p,6 11,m,none "
                      "12,p,none 12,m,5 13,p,none 13,m,6 14,p,none 14,m,7 15,p,8 15,m,none "
                      "16,p,6 16,m,none 17,p,none 17,m,7 18,p,none 18,m,8 19,p,9 19,m,none "
                      "20,p,6 20,m,none 21,p,none 21,m,7 22,p,none 22,m,8 23,p,none 23,m,9 "
                      "24,p,4 24,m,none 25,p,5 25,m,none 26,p,none 26,m,6 27,p,none 27,m,7",
    # 0 alone: 1 at the read, then 3 and 2, then twice 1 in each position, and 3 and 1 at `stop`
    "nine/constants-of-0": "report,10,16 1,p,1 1,m,1 2,p,2 2,m,2 3,p,3 3,m,3 4,p,none 4,m,3 5,p,4 5,m,none "
                           "6,p,none 6,m,4 7,p,none 7,m,5 8,p,4 8,m,none 9,p,none 9,m,5",
    # 0 to 2: w = 3. A read has 1, and its end gives 1, seven times. At the tests w + 2, w + 4, w + 6, w + 8; 16 comparisons. Then three
    # times w + 8; of these w + 7, w + 5, w + 3 are not farther than variable 3, 2, 1, and one is equal, for two comparisons. 1 at `stop`.
    # 14 + 32 + 16 + 33 + 24 + 6 + 1
    "nine/ranks-above": "report,40,126 1,p,1 1,m,1 2,p,2 2,m,2 3,p,3 3,m,3 4,p,4 4,m,4 5,p,5 5,m,5 6,p,6 6,m,6 7,p,7 7,m,7 8,p,8 8,m,8 "
                        "9,p,none 9,m,9 10,p,10 10,m,none 11,p,11 11,m,none 12,p,12 12,m,none "
                        "13,p,none 13,m,13 14,p,none 14,m,14 15,p,15 15,m,none 16,p,16 16,m,none "
                        "17,p,none 17,m,17 18,p,none 18,m,18 19,p,none 19,m,19 20,p,20 20,m,none "
                        "21,p,none 21,m,21 22,p,none 22,m,22 23,p,none 23,m,23 24,p,none 24,m,24 "
                        "25,p,25 25,m,25 26,p,26 26,m,26 27,p,27 27,m,27 28,p,none 28,m,28 29,p,none 29,m,29 "
                        "30,p,30 30,m,30 31,p,31 31,m,31 32,p,32 32,m,32 33,p,none 33,m,33 34,p,none 34,m,34 "
                        "35,p,35 35,m,35 36,p,36 36,m,36 37,p,37 37,m,37 38,p,none 38,m,38 39,p,none 39,m,39",
    # -2 to 0: the same from the other side, where the greater rank is less
    "nine/ranks-below": "report,40,126 1,p,1 1,m,1 2,p,2 2,m,2 3,p,3 3,m,3 4,p,4 4,m,4 5,p,5 5,m,5 6,p,6 6,m,6 7,p,7 7,m,7 8,p,8 8,m,8 "
                        "9,p,none 9,m,9 10,p,none 10,m,10 11,p,none 11,m,11 12,p,none 12,m,12 "
                        "13,p,13 13,m,none 14,p,none 14,m,14 15,p,none 15,m,15 16,p,none 16,m,16 "
                        "17,p,17 17,m,none 18,p,18 18,m,none 19,p,none 19,m,19 20,p,none 20,m,20 "
                        "21,p,21 21,m,none 22,p,22 22,m,none 23,p,23 23,m,none 24,p,none 24,m,24 "
                        "25,p,25 25,m,25 26,p,26 26,m,26 27,p,27 27,m,27 28,p,none 28,m,28 29,p,none 29,m,29 "
                        "30,p,30 30,m,30 31,p,31 31,m,31 32,p,32 32,m,32 33,p,none 33,m,33 34,p,none 34,m,34 "
                        "35,p,35 35,m,35 36,p,36 36,m,36 37,p,37 37,m,37 38,p,none 38,m,38 39,p,none 39,m,39",
    # 0 to 2: w = 3. A read has 1, and its end gives 1; after it are w + 2, w + 4, w + 6, w + 8, and of the last three 3, 5, 7 are above.
    # 16 comparisons, and 1 at `stop`. 8 + 32 + 15 + 16 + 1
    "nine/ranks-above-inwards": "report,28,72 1,p,1 1,m,1 2,p,2 2,m,2 3,p,3 3,m,3 4,p,4 4,m,4 5,p,5 5,m,5 6,p,6 6,m,6 "
                                "7,p,7 7,m,7 8,p,8 8,m,8 9,p,9 9,m,9 10,p,10 10,m,10 11,p,11 11,m,11 "
                                "12,p,none 12,m,12 13,p,none 13,m,13 14,p,none 14,m,14 15,p,none 15,m,15 "
                                "16,p,16 16,m,none 17,p,none 17,m,17 18,p,none 18,m,18 19,p,none 19,m,19 "
                                "20,p,20 20,m,none 21,p,21 21,m,none 22,p,none 22,m,22 23,p,none 23,m,23 "
                                "24,p,24 24,m,none 25,p,25 25,m,none 26,p,26 26,m,none 27,p,none 27,m,27",
    # -2 to 0: the same from the other side, where variable 1, the farthest, is the least
    "nine/ranks-below-inwards": "report,28,72 1,p,1 1,m,1 2,p,2 2,m,2 3,p,3 3,m,3 4,p,4 4,m,4 5,p,5 5,m,5 6,p,6 6,m,6 "
                                "7,p,7 7,m,7 8,p,8 8,m,8 9,p,9 9,m,9 10,p,10 10,m,10 11,p,11 11,m,11 "
                                "12,p,none 12,m,12 13,p,13 13,m,none 14,p,14 14,m,none 15,p,15 15,m,none "
                                "16,p,none 16,m,16 17,p,none 17,m,17 18,p,18 18,m,none 19,p,19 19,m,none "
                                "20,p,none 20,m,20 21,p,none 21,m,21 22,p,none 22,m,22 23,p,23 23,m,none "
                                "24,p,none 24,m,24 25,p,none 25,m,25 26,p,none 26,m,26 27,p,none 27,m,27",
    # -1 to 2: w = 4. A read has 1; after it are 6, of which 5, 4, 3, 2 are not under -1, 0, 1, 2. 16 comparisons, 1 at `stop`, and 3
    # after the end of the tape: variable 2 is 0 before its read and after it. 4 + 24 + 14 + 16 + 1 + 3
    "nine/inside-neighbours": "report,29,62 1,p,1 1,m,1 2,p,2 2,m,2 3,p,3 3,m,3 4,p,4 4,m,4 5,p,5 5,m,5 6,p,6 6,m,6 "
                              "7,p,7 7,m,7 8,p,8 8,m,8 9,p,9 9,m,9 10,p,10 10,m,10 11,p,11 11,m,11 12,p,12 12,m,12 "
                              "13,p,none 13,m,13 14,p,14 14,m,none 15,p,15 15,m,none 16,p,16 16,m,none "
                              "17,p,none 17,m,17 18,p,none 18,m,18 19,p,19 19,m,none 20,p,20 20,m,none "
                              "21,p,none 21,m,21 22,p,none 22,m,22 23,p,none 23,m,23 24,p,24 24,m,none "
                              "25,p,none 25,m,25 26,p,none 26,m,26 27,p,none 27,m,27 28,p,none 28,m,28",
    # -1 to 1: after a read are 5, of which 4, 4, 2, 2 are not under -1, -1, 1, 1. 4 + 20 + 12 + 16 + 1 + 4
    "nine/inside-equal": "report,29,57 1,p,1 1,m,1 2,p,2 2,m,2 3,p,3 3,m,3 4,p,4 4,m,4 5,p,5 5,m,5 6,p,6 6,m,6 "
                         "7,p,7 7,m,7 8,p,8 8,m,8 9,p,9 9,m,9 10,p,10 10,m,10 11,p,11 11,m,11 12,p,12 12,m,12 "
                         "13,p,none 13,m,13 14,p,none 14,m,14 15,p,15 15,m,none 16,p,16 16,m,none "
                         "17,p,none 17,m,17 18,p,none 18,m,18 19,p,19 19,m,none 20,p,20 20,m,none "
                         "21,p,none 21,m,21 22,p,none 22,m,22 23,p,none 23,m,23 24,p,none 24,m,24 "
                         "25,p,none 25,m,25 26,p,none 26,m,26 27,p,none 27,m,27 28,p,none 28,m,28",
    # -2 to 3: w = 6. A read has 1, and its end gives 1; after it are w + 2, and w + 4 with variable 1 below: 3 below, 6 inside, 1 above. Of
    # these 7 are not under -2, and 2 not under 3. 8 + 8 + 10 + 7 + 10 + 2 + 10 + 16 + 1
    "nine/below-low-high-above": "report,27,72 1,p,1 1,m,1 2,p,2 2,m,2 3,p,3 3,m,3 4,p,4 4,m,4 5,p,5 5,m,5 6,p,6 6,m,6 "
                                 "7,p,7 7,m,7 8,p,8 8,m,8 9,p,9 9,m,9 10,p,10 10,m,10 "
                                 "11,p,none 11,m,11 12,p,12 12,m,none 13,p,13 13,m,none 14,p,14 14,m,none "
                                 "15,p,none 15,m,15 16,p,none 16,m,16 17,p,17 17,m,none 18,p,18 18,m,none "
                                 "19,p,none 19,m,19 20,p,none 20,m,20 21,p,none 21,m,21 22,p,22 22,m,none "
                                 "23,p,none 23,m,23 24,p,none 24,m,24 25,p,none 25,m,25 26,p,none 26,m,26",
    # -1 to 1: w = 3. A read has 1, and its end gives 1; after it are w + 2, w + 4, w + 6, and w + 8: 5 below, 3 inside, 3 above.
    # 8 + 5 + 7 + 9 + 11 + 16 + 1. Variable 2 is the least, then 1, 3, 4
    "nine/two-below-two-above": "report,25,57 1,p,1 1,m,1 2,p,2 2,m,2 3,p,3 3,m,3 4,p,4 4,m,4 "
                                "5,p,5 5,m,5 6,p,6 6,m,6 7,p,7 7,m,7 8,p,8 8,m,8 "
                                "9,p,none 9,m,9 10,p,none 10,m,10 11,p,11 11,m,none 12,p,12 12,m,none "
                                "13,p,13 13,m,none 14,p,none 14,m,14 15,p,15 15,m,none 16,p,16 16,m,none "
                                "17,p,none 17,m,17 18,p,none 18,m,18 19,p,none 19,m,19 20,p,20 20,m,none "
                                "21,p,none 21,m,21 22,p,none 22,m,22 23,p,none 23,m,23 24,p,none 24,m,24",
    # a read has 1, and its end gives 1; after it are 20,001, 20,003 and 20,005; of these 4 are not under 9999, 1 is 9999; 9 comparisons; 1
    "wide-nine/inside-9999": "report,17,60029 1,p,1 1,m,1 2,p,2 2,m,2 3,p,3 3,m,3 4,p,4 4,m,4 5,p,5 5,m,5 6,p,6 6,m,6 7,p,7 7,m,7 "
                             "8,p,none 8,m,8 9,p,9 9,m,none 10,p,10 10,m,none "
                             "11,p,none 11,m,11 12,p,none 12,m,12 13,p,13 13,m,none "
                             "14,p,none 14,m,14 15,p,none 15,m,15 16,p,none 16,m,16",
    # Every outside pattern. For w numbers from C1 to C2 there are w + 2, w * w + 4 * w + 8, w^3 + 6 * w^2 + 24 * w + 44 and w^4 + 8 * w^3 +
    # 48 * w^2 + 176 * w + 308 patterns of one to four variables; for 0 alone 3, 13, 75, 541. At the read of the next variable stand all
    # patterns of those before it, at `stop` all patterns, and after the end of the tape those with 0 in the last variable.
    # 1 + 3 + 1
    "outside/one": "report,2,5 1,p,1 1,m,1",
    # 1 + 3 + 13 + 3
    "outside/two": "report,3,20 1,p,1 1,m,1 2,p,2 2,m,2",
    # 1 + 3 + 13 + 75 + 13
    "outside/three": "report,4,105 1,p,1 1,m,1 2,p,2 2,m,2 3,p,3 3,m,3",
    # 1 + 3 + 13 + 75 + 541 + 75
    "outside/four": "report,5,708 1,p,1 1,m,1 2,p,2 2,m,2 3,p,3 3,m,3 4,p,4 4,m,4",
    # -2 to 0: w = 3; 5, 29, 197, 1,565. At each place the sets of ended tapes are none, tape 1, tape 2, both. A variable that was due
    # after the end of its tape is 0. 1; 5, 1; 29, 5, 5, 1; 197, 29, 29, 5; 1,565, 197, 197, 29
    "outside/four-of-two-tapes": "report,6,2295 1,p,1 1,m,1 2,p,2 2,m,2 3,p,3 3,m,3 4,p,4 4,m,4",
    # 0 to 3: w = 4; 6, 40, 300, 2,548. At `stop` after the end of tape 3 300, and one of these from the first read; of tape 1 6, of tape 2 40.
    # 1 + 6 + 40 + 300 + 2,548 + 300 + 6 + 40
    "outside/four-of-three-tapes": "report,6,3241 1,p,1 1,m,1 2,p,2 2,m,2 3,p,3 3,m,3 4,p,4 4,m,4",
    # -1 to 0: w = 2; 4, 20, 124, 932. Two variables are equal in 124 of the 932, and one is less than the other in half of the rest, 404.
    # Three are in one order in (932 - 3 * 124 + 2 * 20) / 6 = 100, four in 5 + 2 * 4 + 3 = 16: none, one or two are inside, and the rest
    # part into those below and above. One of the 16 is all above, one all below. With two equal 124, 52 less, 72 not; with three equal
    # 20, 8 less, 12 not; with four equal 4.
    # 1 + 4 + 20 + 124; 932, 404, 100, 16, 15; 528, 404, 100, 16, 15; 124, 72, 20, 12, 4, 3; at `stop` 932 and, after the end, 124
    "outside/four-compared": "report,21,3970 1,p,1 1,m,1 2,p,2 2,m,2 3,p,3 3,m,3 4,p,4 4,m,4 "
                             "5,p,5 5,m,5 6,p,6 6,m,6 7,p,7 7,m,7 8,p,8 8,m,8 9,p,9 9,m,9 "
                             "10,p,6 10,m,6 11,p,7 11,m,7 12,p,8 12,m,8 13,p,9 13,m,9 14,p,10 14,m,10 "
                             "15,p,7 15,m,7 16,p,8 16,m,8 17,p,9 17,m,9 18,p,10 18,m,10 19,p,11 19,m,11 20,p,12 20,m,12",
    # -1 to 1: w = 3. At the first copy 1,565; at the nine after it three values, 197; at the last two copies and the first `set` two
    # values, 29; then one, 5, and 5 at `stop`; after the end 197. 1 + 5 + 29 + 197 + 1,565 + 9 * 197 + 3 * 29 + 5 + 5 + 197
    "outside/four-copied": "report,19,3864 1,p,1 1,m,1 2,p,2 2,m,2 3,p,3 3,m,3 4,p,4 4,m,4",
    # all 541 at each of four reads and, after the end, at `stop`
    "outside/four-in-a-ring": "report,5,2705 1,p,1 1,m,1 2,p,2 2,m,2 3,p,3 3,m,3 4,p,4 4,m,4",
    # All outside are 308; with 0 in the variables that are not read yet 1, 2, 8, 44 at the four reads. At `over` stand w for each pattern of
    # the other variables, with a number inside, and all outside: 44 * w + 308, and before all are read w + 2, 2 * w + 8, 8 * w + 44. At
    # `under` as many with a number inside, and half as many outside, those with the variable below. w = 1.
    # 4 * 308 + 55; 4 * 352 + 3 + 10 + 52; 4 * 198 + 2 + 6 + 30; at `stop`, after the end, 308 + 55
    "outside/four-kept-outside": "report,13,3953 1,p,1 1,m,1 2,p,2 2,m,2 3,p,3 3,m,3 4,p,3 4,m,3 5,p,4 5,m,4 6,p,5 6,m,5 "
                                 "7,p,5 7,m,5 8,p,6 8,m,6 9,p,7 9,m,7 10,p,7 10,m,7 11,p,8 11,m,8 12,p,9 12,m,9",
    # 0 to 9999: w = 10,000. At the reads 1, 2; at `over` w + 2, 2 * w + 8; at `under` w + 1, 2 * w + 4; at `stop` 8 and, after the end, 3
    "wide-outside/two-kept-outside": "report,7,60029 1,p,1 1,m,1 2,p,2 2,m,2 3,p,3 3,m,3 4,p,3 4,m,3 5,p,4 5,m,4 6,p,5 6,m,5",
    # -2971 to 0: w = 2,972. 11; at `over` 11 * w + 54; at `under` 11 * w + 27; 44 + 11
    "wide-outside/three-kept-outside": "report,10,65531 1,p,1 1,m,1 2,p,2 2,m,2 3,p,3 3,m,3 4,p,3 4,m,3 5,p,4 5,m,4 6,p,5 6,m,5 "
                                       "7,p,5 7,m,5 8,p,6 8,m,6 9,p,7 9,m,7",
    # -293 to 293: w = 587. 55; at `over` 55 * w + 362; at `under` 55 * w + 181; 308 + 55
    "wide-outside/four-kept-outside": "report,13,65531 1,p,1 1,m,1 2,p,2 2,m,2 3,p,3 3,m,3 4,p,3 4,m,3 5,p,4 5,m,4 6,p,5 6,m,5 "
                                      "7,p,5 7,m,5 8,p,6 8,m,6 9,p,7 9,m,7 10,p,7 10,m,7 11,p,8 11,m,8 12,p,9 12,m,9",
    # -3 to 4: w = 8; 4,096 + 4,096 + 3,072 + 1,408 + 308 = 12,980, five times
    "wide-outside/four-in-a-ring": "report,7,64900 1,p,1 1,m,1 2,p,2 2,m,2 3,p,3 3,m,3 4,p,4 4,m,4",
    # Distances in exits. 0 alone has 3 patterns of one variable. 1, 1; at `stop` 3 and, after the end of the tape, 1; the 2 of T-04 is 1
    "exits/nop-first": "report,3,6 2,p,1 2,m,1",
    "exits/put-first": "report,3,6 2,p,1 2,m,1",
    "exits/copy-first": "report,3,6 2,p,1 2,m,1",
    # 0 to 4: 7 patterns at `stop`, and after the end of the tape 4 is there
    "exits/set-first": "report,3,10 2,p,1 2,m,1",
    # 0 to 3: 1 up to the read, nine times; then variable 2 is 3, and variable 1 one of 6 or, after the end of the tape, 3
    "exits/each-first": "report,10,16 5,p,none 5,m,1 7,p,2 7,m,none 9,p,3 9,m,3",
    # 63 times 1; at the read 3, and after the end of the tape 3
    "exits/63-nops-first": "report,64,69 64,p,1 64,m,1",
    # the 19 of flow A; 1 at the first `nop`, 2 behind the end of the tape, 8 behind a record, 1 behind one over 5, 7 behind another
    "exits/flow-a": "report,8,38 2,p,1 2,m,1 5,p,2 5,m,2",
    # 1, 3, 3; 1 at each `nop`, after the end of the tape; 3 and 1, 3 and 1. 8,m is taken by way of 1,m with 2 exits and 6 steps, by way of
    # 1,p with 4 and 4
    "exits/fewer-by-the-end": "report,9,19 1,p,1 1,m,1 2,p,none 2,m,2 3,p,none 3,m,3 8,p,4 8,m,2",
    # 1, and 3 at each of four; 3 and 1; 3 and 3; after the end of the tape 1, 1. 6,m is taken with 3 exits, 6 steps and two records, or with 4
    # exits, 4 steps and none
    "exits/fewer-by-records": "report,9,25 1,p,1 1,m,1 4,p,2 4,m,2 6,p,none 6,m,3 8,p,none 8,m,2 9,p,none 9,m,3",
    # 1, 3; 1, 1; 2, 1, 1, 1; 1 at the read, 3 and 1 at the last comparison and at `stop`. The read is met by 1,p 2,m or by 1,p 2,p 4,m
    "exits/met-by-an-exit-first": "report,11,20 1,p,1 1,m,1 2,p,2 2,m,2 4,p,none 4,m,3 9,p,3 9,m,3 10,p,4 10,m,4",
    # 0 to 1: 4 patterns. 1, 4, the 2 over 0, 1; at `goal` 0 and, from below, the 2 over 0; 1, 1, 4; at `stop` 4 and, after the end of the tape,
    # 1; the 2 that are not over 0, and 40 times 1. 5,m is taken after 5,p 6,m 7,p 8,p
    "exits/met-long-before": "report,50,64 1,p,1 1,m,1 2,p,2 2,m,2 4,p,none 4,m,3 5,p,3 5,m,7 6,p,none 6,m,4 7,p,5 7,m,5 8,p,6 8,m,6",
    # 0 to 5: 8 patterns of one variable. 1, 8, 6, 1, 1; 2, 1, 1, 1; at the read 0 and 5; at the last comparison 8 and, after the end of tape 1,
    # 2; at `stop` these and, after the end of tape 2, 1
    "exits/met-with-another-value": "report,12,45 1,p,1 1,m,1 2,p,2 2,m,2 5,p,none 5,m,3 10,p,3 10,m,3 11,p,4 11,m,4",
    # 1, 3, 1, 1
    "exits/nop-to-itself": "report,4,6 1,p,1 1,m,1 3,p,none 3,m,2",
    "exits/nop-to-itself-first": "report,3,1 2,p,none 2,m,none",
    # 1; at `put` and `copy` variable 1 is one of 3, or 0 with one of 2 in variable 2; at `set` both are one of 3, at `nop` variable 2 is; 1, 1
    "exits/cycle-of-each": "report,7,19 1,p,1 1,m,1 6,p,none 6,m,2",
    # 1; 3 and 1 at each of four
    "exits/cycle-entered-twice": "report,6,17 1,p,1 1,m,1 2,p,none 2,m,none",
    # 1, 3; 1, 1, 1; 2, 1; 1; at `stop` 3 and, after the end of the tape, 1
    "exits/chains-meet": "report,9,15 1,p,1 1,m,1 2,p,2 2,m,2 8,p,3 8,m,3",
    # 1, 3, 1, 1, 1
    "exits/back-to-the-start": "report,5,7 1,p,1 1,m,1 4,p,none 4,m,2",
    # 1; 3 and 1 at each of six
    "exits/both-to-one-chain": "report,7,25 1,p,1 1,m,1 2,p,2 2,m,2 5,p,3 5,m,3",
    # 1, 1, 1; 3 and 1
    "exits/ended-behind-a-chain": "report,4,7 1,p,1 1,m,1 3,p,none 3,m,2",
    # 0 to 7: 1, three times 10, 1; 10 and 1
    "exits/chains-to-stop": "report,6,43 1,p,1 1,m,1",
    # -2 to 3: 1; 8 at each of four; 7, 7; 6, 6; at `stop` the one below, the one above and 6, and after the end of the tape 1
    "exits/chains-of-many-values": "report,10,68 1,p,1 1,m,1 5,p,2 5,m,2 7,p,3 7,m,3 9,p,4 9,m,4",
    # 1, 61 times 3, 3; at `stop` 3 and, after the end of the tape, 3
    "exits/61-nops": "report,64,193 1,p,1 1,m,1 63,p,2 63,m,2",
    # 3 and, after the end of the tape, 3, at each of 64
    "exits/62-nops": "report,64,384 1,p,1 1,m,1 64,p,2 64,m,2",
    # 1, 60 times 3, 3; at the comparison and at `stop` 13 patterns of two variables and, after the end of the tape, 3
    "exits/60-of-each": "report,64,216 1,p,1 1,m,1 62,p,2 62,m,2 63,p,3 63,m,3",
    # The exits in order: 1,p 1,m 4,p 1,p 1,m 4,m 7,p, then the same up to 7,m, and the last. 8, 4, 4; 4, 2, 2; 2, 1, 1; 1, 1; after each of
    # 7 counts 40
    "exits/counted-waiting": "report,51,310 1,p,1 1,m,2 4,p,3 4,m,6 7,p,7 7,m,14 10,p,none 10,m,15",
    # 0 to 1. Four times round, with 4 at each of five; 1, 1; at `stop` 4 and, after the end of the tape, 1
    "exits/moved-along": "report,8,27 5,p,4 5,m,1 7,p,5 7,m,5",
    # 1, 1, 20,001, 20,001, 1; at `stop` 20,001 and, after the end of the tape, 1
    "wide-exits/all-patterns": "report,7,60007 2,p,1 2,m,1 4,p,2 4,m,2",
    # -9999 to 0: 1, 10,002, 1, 1, 1, 10,004, 1, 1; at `stop` 1 and, after the end of the tape, 2
    "wide-exits/two-below": "report,9,20015 1,p,1 1,m,1 2,p,2 2,m,2 5,p,3 5,m,3 6,p,4 6,m,4 8,p,5 8,m,none",
}


# ---- the files of the two crates

def searched(topic, name, text):
    """What the search finds of a text, or how the text is turned back."""
    assert text == "".join(line + "\n" for line in text.split("\n") if line), name
    read = readings.read(text.encode()).decode()
    refused = read.startswith("refused,")
    assert refused == (topic == "turned-back"), name
    if refused:
        return read
    assert searches.parse(text) == searches.parse(read), name
    return Found(topic, name, text)


def files(pool):
    """The data of a crate are two files of all its flows, each with its name before it and an empty line after it. So a text may have
    no bytes, but no empty line."""
    made = {f"{crate}/{name}": "" for crate in ("test_reports", "test_samples") for name in ("data/flows", "data/wide", "stdout")}
    topics = sorted(TOPICS.items(), key=lambda x: list(CELLS).index(file_of(x[0])))
    cases = [(topic, name, text) for topic, texts in topics for name, text in texts.items()]
    flows = []
    for (topic, name, text), found in zip(cases, pool.starmap(searched, cases, chunksize=1)):
        def add(crate, answer):
            made[f"{crate}/data/{file_of(topic)}"] += f"{topic}/{name}\n{text}\n"
            made[f"{crate}/stdout"] += f"{topic}/{name}\n{answer}"
        if isinstance(found, str):
            add("test_reports", found)
            continue
        flows.append(found)
        add("test_reports", found.report())
        add("test_samples", found.samples())
    return made, flows


def main():
    with multiprocessing.Pool() as pool:
        made, flows = files(pool)
        whole = [by_bounds(x) for x in flows]
        bounded, listed = sum(whole), sum(pool.map(by_tapes, flows, chunksize=1))
    # in these each record is farther out than the one before, without end, and so are the bounds
    assert [x.name for x, seen in zip(flows, whole) if x.wide and not seen] == ["again-above", "again-below"]
    # no bytes, and the other text of that flow: the one line of the report, and no samples
    assert [(x.report(), x.samples()) for x in flows if x.text in ("", "flow,1,0,1\n1,stop\n")] == [("report,1,1\n", "")] * 2
    for x in flows:
        if x.topic in ("limit", "wide-limit"):
            count = int(x.name.rpartition("-")[2])
            assert (x.exits is None) == (count in (4097, 65537)), x.name
            assert count == (x.count or searches.configurations(x.text, count)[0]), x.name
        # the constants that 4,096 cells are too few for: each flow with a read
        if x.topic == "constants-9999":
            assert (x.exits is None) == ("read" in x.text), x.name
    named = {f"{x.topic}/{x.name}": x for x in flows}
    for name, report in BY_HAND.items():
        assert named[name].report() == report.replace(" ", "\n") + "\n", name
    # a row as long as the distance is long enough, one that is shorter by 1 is refused
    for name, last in [("wide/counted-9-far", "55,p,none 55,m,4005,taken"), ("wide/counted-10-far", "61,p,none 61,m,refused,10,0"),
                       ("wide-exits/row-4096", "51,p,none 51,m,4096,taken 52,p,none 52,m,refused,10,0 "
                                               "53,p,none 53,m,refused,10,0 54,p,none 54,m,refused,10,0")]:
        assert named[name].samples().endswith(last.replace(" ", "\n") + "\n"), name
    for name, content in made.items():
        assert "/data/" not in name or len(content) <= 131072, "the programs lend a row of that size"
    agreed = f"{len(flows)} flows agree; {bounded} searched whole by bounds, {listed} by all short tapes, {by_padding(flows)} with `nop` in them"
    return stored.compare(["test_reports", "test_samples"], {name: content.encode() for name, content in made.items()}, agreed)


if __name__ == "__main__":
    sys.exit(main())
