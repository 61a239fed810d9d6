"""Three plain searches for the report of a flow, written from documents 01 ("Runs", "Distances and configurations") and 02
(T-04, T-08) alone. They share nothing with the crates, and nothing with each other but the reading of a legal text and, of the
first and the third, the pattern. Each answers the distance of every exit that is taken: the exits taken up to and with its first
taking, the fewest (T-04); `put`, `copy`, `set` and `nop` add nothing. The first and the third count configurations.

`configurations`  over instruction, ended tapes and pattern, from a queue with two ends; a read tries every whole number of an interval
`bounds`          over instruction, ended tapes and what is known of the variables, bounds on their differences: all states of no
                  exit, then all of one exit, and so on
`tapes`           runs the flow on every choice of tapes up to a length with records of an interval
"""
import collections
import itertools
import math


def parse(text):
    """A legal text: tapes, variables, and the instructions by number, each its word and its fields."""
    if not text:
        # no bytes at all: one tape, no outputs, one variable and the single instruction `stop`
        return 1, 1, {1: ("stop",)}
    first, *rest = text.splitlines()
    t, _, v = map(int, first.split(",")[1:])
    program = {}
    for line in rest:
        i, word, *fields = line.split(",")
        program[int(i)] = (word, *map(int, fields))
    return t, v, program


def constants(program):
    """The basic constants: 0 and every constant in the flow."""
    where = {"set": 1, "over": 1, "under": 2}
    return {0} | {x[where[x[0]]] for x in program.values() if x[0] in where}


def pattern(values, low, high):
    """A value from C1 to C2 is itself; those above C2 have ranks counted from the nearest, and so have those below C1. A rank is
    written as a whole number: C2 plus the rank, C1 less the rank."""
    above = sorted({x for x in values if x > high})
    below = sorted({x for x in values if x < low}, reverse=True)
    return tuple(high + 1 + above.index(x) if x > high else low - 1 - below.index(x) if x < low else x for x in values)


def put_into(values, v, x):
    return values[:v - 1] + (x,) + values[v:]


def holds(x, values):
    """Whether a comparison holds."""
    word, a, b = x[:3]
    if word == "less":
        return values[a - 1] < values[b - 1]
    return a < values[b - 1] if word == "over" else values[a - 1] < b


def changed(x, values):
    """The variables after an instruction with one way on, and that way."""
    if x[0] == "copy":
        return put_into(values, x[2], values[x[1] - 1]), x[3]
    if x[0] == "set":
        return put_into(values, x[2], x[1]), x[3]
    return values, x[-1]


# ---- configurations

def configurations(text, cells):
    """The number of reachable configurations and the distances; None if the configurations outnumber the cells. What an exit leads
    to goes to the end of the queue, what an instruction with one way on leads to goes to its front. So configurations leave the
    queue by the exits that they take; one that is met again with fewer exits is put into it again, and its first leaving counts."""
    t, v, program = parse(text)
    low, high = min(constants(program)), max(constants(program))
    start = (1, frozenset(), (0,) * v)
    found, queue, left, exits, tried = {start: 0}, collections.deque([start]), set(), {}, set()

    def successors(i, ended, values):
        """Pairs: the exit or None, and where the run goes on."""
        x = program[i]
        if x[0] == "read":
            _, tape, into, p, m = x
            yield "m", (m, ended | {tape}, values)
            # where a record leads does not depend on the value that was there: one trial for all that agree on the pattern of
            # the other variables, which is the one with 0 there, a value from C1 to C2
            alike = (i, ended, pattern(put_into(values, into, 0), low, high))
            if tape not in ended and alike not in tried:
                tried.add(alike)
                # room for a whole number between any two values outside, and beyond the last
                apart = [2 * y - high if y > high else 2 * y - low if y < low else y for y in values]
                for record in range(low - 2 * v - 1, high + 2 * v + 2):
                    apart[into - 1] = record
                    yield "p", (p, ended, pattern(apart, low, high))
        elif x[0] in ("less", "over", "under"):
            yield ("p", (x[3], ended, values)) if holds(x, values) else ("m", (x[4], ended, values))
        elif x[0] != "stop":
            values, n = changed(x, values)
            yield None, (n, ended, pattern(values, low, high))

    while queue:
        here = queue.popleft()
        if here in left:
            continue
        left.add(here)
        for exit, there in successors(*here):
            distance = found[here] + (1 if exit else 0)
            if exit:
                exits.setdefault((here[0], exit), distance)
            if distance < found.get(there, math.inf):
                found[there] = distance
                if exit:
                    queue.append(there)
                else:
                    queue.appendleft(there)
                if len(found) > cells:
                    return None
    return (len(found), exits) if len(found) <= cells else None


# ---- bounds on differences

def bounds(text, states):
    """The distances, and whether all was seen: whoever looks at more states than given stops. What is known of the variables is
    a table of upper bounds on x - y for any two of them, and for the number 0, as the variable 0; every bound that follows from
    the others is in it, so that what is known of the rest stays when a variable gets a record. A level is all states that are arrived
    at with so many exits and not with fewer; while it is gone through it grows by what follows without an exit."""
    t, v, program = parse(text)
    names = range(v + 1)

    def less(table, x, y, by):
        """With x - y at most `by`; None if that cannot be."""
        if table[y][x] + by < 0:
            return None
        return tuple(tuple(min(table[i][j], table[i][x] + by + table[y][j]) for j in names) for i in names)

    def free(table, x):
        return tuple(tuple(0 if i == j else math.inf if x in (i, j) else table[i][j] for j in names) for i in names)

    def same(table, x, y, by):
        table = free(table, x)
        return less(less(table, x, y, by), y, x, -by)

    def after(i, ended, table):
        word, *f = program[i]
        if word == "read":
            yield "m", (f[3], ended | {f[0]}, table)
            if f[0] not in ended:
                yield "p", (f[2], ended, free(table, f[1]))
        elif word in ("less", "over", "under"):
            # x < y + c
            x, y, c = {"less": (f[0], f[1], 0), "over": (0, f[1], -f[0]), "under": (f[0], 0, f[1])}[word]
            yield "p", (f[2], ended, less(table, x, y, c - 1))
            yield "m", (f[3], ended, less(table, y, x, -c))
        elif word == "copy":
            yield None, (f[2], ended, table if f[0] == f[1] else same(table, f[1], f[0], 0))
        elif word == "set":
            yield None, (f[2], ended, same(table, f[1], 0, f[0]))
        elif word != "stop":
            yield None, (f[-1], ended, table)

    seen, exits, distance = set(), {}, 0
    level = [(1, frozenset(), ((0,) * (v + 1),) * (v + 1))]
    while level:
        distance += 1
        beyond = []
        for here in level:
            if here in seen:
                continue
            if len(seen) == states:
                return exits, False
            seen.add(here)
            for exit, there in after(*here):
                if there[2] is not None:
                    (beyond if exit else level).append(there)
                    if exit:
                        exits.setdefault((here[0], exit), distance)
        level = beyond
    return exits, True


# ---- all tapes up to a length

def run(program, variables, tapes, limit):
    """A plain run: each step's instruction, exit, and what it arrives at."""
    i, values, ended, at = 1, (0,) * variables, frozenset(), [0] * len(tapes)
    for _ in range(limit):
        x, here, exit = program[i], i, None
        if x[0] == "stop":
            return
        if x[0] == "read":
            a = x[1] - 1
            if at[a] < len(tapes[a]):
                exit, values, i = "p", put_into(values, x[2], tapes[a][at[a]]), x[3]
                at[a] += 1
            else:
                exit, ended, i = "m", ended | {x[1]}, x[4]
        elif x[0] in ("less", "over", "under"):
            exit, i = ("p", x[3]) if holds(x, values) else ("m", x[4])
        else:
            values, i = changed(x, values)
        yield here, exit, (i, ended, values)


def tapes(text, length, margin, limit):
    """The configurations and the fewest exits up to and with each exit on tapes with so many records at most, from C1 less the margin
    to C2 plus it, each run for so many steps at most."""
    t, v, program = parse(text)
    low, high = min(constants(program)), max(constants(program))
    records = range(low - margin, high + margin + 1)
    choices = [c for n in range(length + 1) for c in itertools.product(records, repeat=n)]
    found, exits = {(1, frozenset(), (0,) * v)}, {}
    for chosen in itertools.product(choices, repeat=t):
        taken = 0
        for i, exit, (n, ended, values) in run(program, v, chosen, limit):
            found.add((n, ended, pattern(values, low, high)))
            if exit:
                taken += 1
                exits[i, exit] = min(taken, exits.get((i, exit), taken))
    return len(found), exits
