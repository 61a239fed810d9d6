#!/usr/bin/env python3
"""Flow texts, and what each is read as, for the program `test_readings`.

The reader here is written from documents 01 ("The flow text", "Where a request is turned back") and 02 (T-02, T-08, T-09)
alone and shares nothing with the crates. Without an argument the files of crates/test_readings are compared with what this
script makes; with --write they are written.
"""
import sys

import stored

# ---- an independent reader: the answer is the flow, written out as a text, or the refusal

WORDS = {
    b"read": "AvPM", b"put": "vYN", b"copy": "uvN", b"set": "cvN", b"less": "uvPM",
    b"over": "cvPM", b"under": "vcPM", b"nop": "N", b"stop": "",
}


def number(field, minus=False):
    """The whole number that a field writes, or None if it is badly written."""
    if minus and field.startswith(b"-"):
        size = number(field[1:])
        return -size if size else None
    if not field or field.strip(b"0123456789") or field[0] == 48 and len(field) > 1:
        return None
    return int(field)


# the range of a constant
CONSTANTS = (-9999, 9999)

# the flow that no bytes at all mean: one tape, no outputs, one variable and the single instruction `stop`
NO_BYTES = b"flow,1,0,1\n1,stop\n"


def read(text):
    """The text of the flow, made of its words and numbers alone, or the refusal. A number has one way of writing, so a legal flow has
    exactly one text, which is the answer; only the flow of NO_BYTES has exactly two, that one and the empty one. A text is refused
    by 1, 3, 5, 6, 7, 8, 13, 14 or 15: 2 and 4 do not occur."""
    def refused(number, place):
        return b"refused,%d,%d\n" % (number, place)

    if len(text) > 4096:
        return refused(1, 0)
    if not text:
        return read(NO_BYTES)
    if text[-1] != 10:
        return refused(3, 0)
    first, *rest = text[:-1].split(b"\n")
    word, *fields = first.split(b",")
    if word != b"flow":
        return refused(13, 1)
    if len(fields) != 3:
        return refused(14, 1)
    counts = [number(field) for field in fields]
    if None in counts:
        return refused(15, 1)
    if not (1 <= counts[0] <= 3 and counts[1] <= 3 and 1 <= counts[2] <= 4):
        return refused(5, 1)
    ranges = {"A": (1, counts[0]), "Y": (1, counts[1]), "u": (1, counts[2]), "v": (1, counts[2]), "c": CONSTANTS}
    lines, lost = [b"flow,%d,%d,%d\n" % tuple(counts)], []
    for i, line in enumerate(rest, 1):
        if i == 65:
            return refused(8, 66)
        own, *after = line.split(b",")
        if not after or after[0] not in WORDS:
            return refused(13, i + 1)
        word, *fields = after
        names = WORDS[word]
        if len(fields) != len(names):
            return refused(14, i + 1)
        values = [(f, number(field, f == "c")) for f, field in zip(names, fields)]
        if None in [number(own)] + [n for _, n in values]:
            return refused(15, i + 1)
        if number(own) != i:
            return refused(6, i + 1)
        if any(not ranges[f][0] <= n <= ranges[f][1] for f, n in values if f in ranges):
            return refused(5, i + 1)
        lost += [i + 1 for f, n in values if f not in ranges and not 1 <= n <= len(rest)]
        lines.append(b",".join([b"%d" % i, word] + [b"%d" % n for _, n in values]) + b"\n")
    if not rest:
        return refused(8, 2)
    return refused(7, lost[0]) if lost else b"".join(lines)


# ---- the texts, by topic and name

CASES = {}


def case(name, text):
    assert name not in CASES, name
    CASES[name] = text if isinstance(text, bytes) else text.encode()


def answered(name, answer):
    """The answer of a text is written by hand, from the words of document 02: a refusal and its place, or the text of a flow."""
    assert read(CASES[name]) == (answer if answer.startswith("flow,") else f"refused,{answer}\n").encode(), name


def turned_back(name, refusal, text):
    """A text of the topic `kinds`; its refusal and place are written by hand."""
    case(f"kinds/{name}", text)
    answered(f"kinds/{name}", refusal)


def flow(*lines, head="flow,2,1,2"):
    """A text of line 1 and instruction lines."""
    return "".join(line + "\n" for line in (head,) + lines)


def fields(T=2, O=1, V=2, I=1, A=1, v=1, P=1, M=1, Y=1, N=1, c=1):
    """A legal text of four instructions in which every kind of field can be set."""
    return flow(f"{I},read,{A},{v},{P},{M}", f"2,put,1,{Y},{N}", f"3,set,{c},1,4", "4,stop", head=f"flow,{T},{O},{V}")


def nops(count, last="{},nop,1"):
    """So many instructions, the last of which may be given."""
    return flow(*(f"{i},nop,1" for i in range(1, count)), last.format(count))


def long(size):
    """A text of so many bytes, whose only fault, but for its size, is a target of very many digits."""
    return flow("1,nop," + "9" * (size - len(flow("1,nop,"))))


KINDS = "TOVIAvYcNPM"
FLOW_A = flow("1,read,1,1,2,3", "2,over,5,1,1,3", "3,stop", head="flow,1,0,1")

# legal texts
case("legal/flow-a", FLOW_A)
case("legal/flow-b", flow("1,read,1,1,2,3", "2,put,1,1,1", "3,stop", head="flow,1,1,1"))
case("legal/chain", flow("1,read,1,1,2,6", "2,read,1,2,3,6", "3,over,3,1,4,6", "4,less,1,2,5,6", "5,under,2,5,6,6", "6,stop"))
case("legal/stop-alone", flow("1,stop"))
case("legal/no-outputs", flow("1,nop,2", "2,stop", head="flow,1,0,1"))
case("legal/every-field", fields())
MOST = ["read,3,4,64,64", "put,4,3,64", "copy,4,4,64", "set,9999,4,64", "less,4,4,64,64", "over,9999,4,64,64",
        "under,4,9999,64,64", "nop,64", "stop"]
LEAST = ["read,1,1,1,1", "put,1,1,1", "copy,1,1,1", "set,-9999,1,1", "less,1,1,1,1", "over,-9999,1,1,1", "under,1,-9999,1,1",
         "nop,1", "stop"]
UNLIKE = ["read,2,3,4,5", "put,3,2,4", "copy,2,3,4", "set,-5,3,6", "less,2,3,4,6", "over,-5,3,7,8", "under,3,-5,8,9", "nop,9", "stop"]
case("legal/nine-kinds-greatest", flow(*(f"{i},{MOST[i % 9]}" for i in range(1, 65)), head="flow,3,3,4"))
case("legal/nine-kinds-least", flow(*(f"{i},{x}" for i, x in enumerate(LEAST, 1)), head="flow,1,1,1"))
case("legal/nine-kinds-unlike", flow(*(f"{i},{x}" for i, x in enumerate(UNLIKE, 1)), head="flow,3,2,4"))
# no legal text is longer: line 1 has 11 bytes, nine lines have 22 and 55 have 23
case("legal/longest", flow(*(f"{i},under,4,-9999,64,64" for i in range(1, 65)), head="flow,3,3,4"))
assert len(CASES["legal/longest"]) == 1474 <= 4096

# the whole text: refusals 1 and 3; a text of no bytes is a flow
case("whole/4096-bytes", long(4096))
case("whole/4097-bytes", long(4097))
case("whole/4096-bytes-no-end", long(4097)[:-1])
case("whole/4097-bytes-no-end", long(4098)[:-1])
case("whole/4096-ends", "\n" * 4096)
case("whole/no-bytes", "")
case("whole/no-end", FLOW_A[:-1])
case("whole/no-end-faulty", FLOW_A[:-1] + ",,")
case("whole/end-alone", "\n")
case("whole/byte-alone", "f")

# the lines and their count: refusal 8, and 13 for an empty line
case("lines/only-line-1", flow())
case("lines/only-line-1-faulty", flow(head="flow,4,1,2"))
case("lines/64-instructions", nops(64))
case("lines/65-instructions", nops(65))
case("lines/65-word", nops(64, "{},no,1"))
case("lines/65-turn", nops(64, "65,nop,1"))
case("lines/65-range", nops(64, "{},set,10000,1,1"))
case("lines/65-target", nops(64, "{},nop,65"))
case("lines/66-faulty", nops(65, "x"))
case("lines/66-empty", nops(65, ""))
case("lines/65-and-66-faulty", nops(64, "x") + "x\n")
case("lines/66-and-target", nops(65).replace("1,nop,1", "1,nop,0", 1))
case("lines/empty-1", "\n" + FLOW_A)
case("lines/empty-2", FLOW_A.replace("\n", "\n\n", 1))
case("lines/empty-middle", FLOW_A.replace("\n2", "\n\n2"))
case("lines/empty-last", FLOW_A + "\n")

# bytes that have no meaning of their own: refusal 13 in a word or alone on a line, 15 in a number, 14 where they join two lines
case("bytes/cr-before-ends", FLOW_A.replace("\n", "\r\n"))
case("bytes/cr-before-last-end", FLOW_A.replace("stop\n", "stop\r\n"))
case("bytes/cr-for-end", FLOW_A.replace("\n2", "\r2"))
case("bytes/nul-after-flow", FLOW_A.replace("flow", "flow\0"))
case("bytes/nul-after-word", FLOW_A.replace("stop", "stop\0"))
case("bytes/nul-after-number", FLOW_A.replace("over,5", "over,5\0"))
case("bytes/nul-after-last-end", FLOW_A + "\0\n")
case("bytes/blank-before-number", FLOW_A.replace("over,5", "over, 5"))
case("bytes/blank-after-word", FLOW_A.replace("stop", "stop "))
case("bytes/tab-before-number", FLOW_A.replace("read,1", "read,\t1"))
case("bytes/byte-order-mark", b"\xef\xbb\xbf" + FLOW_A.encode())
case("bytes/above-127-in-word", FLOW_A.encode().replace(b"stop", b"st\xf6p"))
case("bytes/above-127-for-digit", FLOW_A.encode().replace(b"over,5", b"over,\xb5"))
case("bytes/47-for-digit", FLOW_A.replace("over,5", "over,/"))
case("bytes/58-for-digit", FLOW_A.replace("over,5", "over,:"))
case("bytes/quotes", FLOW_A.replace("stop", '"stop"'))

# words: refusal 13
for word in ["stops", "sto", "STOP", "halt", "flow", ""]:
    case(f"words/{word or 'empty'}", flow("1," + word))
for word in ["rea", "reads", "READ", "flow"]:
    case(f"words/{word}-with-fields", flow(f"1,{word},1,1,2,2", "2,stop"))
for word in ["read", "FLOW", "flows", "1,flow"]:
    case(f"words/line-1-{word.replace(',', '-')}", flow("1,stop", head=word + ",1,0,1"))
case("words/stop-for-number", flow("stop,1"))
case("words/stop-without-number", flow("stop"))
case("words/number-alone", flow("1"))

# the count of fields: refusal 14, but 13 where the second field is then missing or no word
for word, line in [("flow", ""), ("read", "1,read,1,1,2,2"), ("set", "1,set,1,1,2"), ("nop", "1,nop,2"), ("stop", "1,stop")]:
    def counted(change):
        return flow(change(line), "2,stop") if line else flow("1,stop", head=change("flow,1,0,1"))
    case(f"count/{word}-comma-after", counted(lambda x: x + ","))
    case(f"count/{word}-field-more", counted(lambda x: x + ",1"))
    case(f"count/{word}-field-less", counted(lambda x: x.rpartition(",")[0]))
case("count/comma-before", flow(",1,stop"))

# badly written numbers: refusal 15
for name, digits in [("minus-0", "-0"), ("00", "00"), ("01", "01"), ("minus-01", "-01"), ("minus-00", "-00"), ("plus-1", "+1"),
                     ("minus-alone", "-"), ("minus-twice", "--1"), ("minus-after", "1-"), ("letter", "1a"), ("empty", "")]:
    case(f"badly/c-{name}", fields(c=digits))
for kind in KINDS:
    case(f"badly/{kind}-minus-1{'-is-legal' if kind == 'c' else ''}", fields(**{kind: -1}))
for kind, name, digits in [("T", "01", "01"), ("O", "00", "00"), ("V", "empty", ""), ("I", "01", "01"), ("I", "empty", ""), ("A", "plus-1", "+1"),
                           ("v", "minus-0", "-0"), ("Y", "minus-alone", "-"), ("N", "01", "01"), ("P", "empty", ""), ("M", "00", "00")]:
    case(f"badly/{kind}-{name}", fields(**{kind: digits}))
case("badly/c-0-500-digits", fields(c="0" * 499 + "1"))

# well written numbers which a reader that wraps takes for 1
for kind in KINDS:
    case(f"digits/{kind}-20", fields(**{kind: 2 ** 64 + 1}))
    case(f"digits/{kind}-40", fields(**{kind: 2 ** 64 * 10 ** 20 + 1}))
    case(f"digits/{kind}-500", fields(**{kind: 2 ** 64 * 10 ** 480 + 1}))
for kind in "TIvcN":
    case(f"digits/{kind}-10", fields(**{kind: 2 ** 32 + 1}))
for kind in "OIYM":
    case(f"digits/{kind}-3", fields(**{kind: 2 ** 8 + 1}))
case("digits/c-500-minus", fields(c=-(2 ** 64) * 10 ** 480 - 1))

# ranges: refusal 5
for kind, values in [("T", (0, 1, 3, 4)), ("O", (0, 3, 4)), ("V", (0, 1, 4, 5)), ("A", (0, 2, 3)), ("v", (0, 2, 3)), ("Y", (0, 2)),
                     ("c", (-10000, -9999, -1001, -1000, 0, 1000, 1001, 9999, 10000))]:
    for value in values:
        case(f"range/{kind}-{value}".replace("--", "-minus-"), fields(**{kind: value}))
for name, line in [("put-variable", "put,3,1,1"), ("put-no-outputs", "put,1,1,1"), ("copy-first", "copy,3,1,1"), ("copy-second", "copy,1,3,1"),
                   ("less-first", "less,3,1,1,1"), ("less-second", "less,1,3,1,1"), ("over-1001", "over,1001,1,1,1"),
                   ("over-minus-1001", "over,-1001,1,1,1"), ("over-10000", "over,10000,1,1,1"), ("over-minus-10000", "over,-10000,1,1,1"),
                   ("over-variable", "over,1,3,1,1"), ("under-1001", "under,1,1001,1,1"), ("under-minus-1001", "under,1,-1001,1,1"),
                   ("under-10000", "under,1,10000,1,1"), ("under-minus-10000", "under,1,-10000,1,1"), ("under-variable", "under,3,1,1,1"),
                   ("set-variable", "set,1,3,1")]:
    case(f"range/{name}", flow("1," + line, head="flow,1,0,2" if name == "put-no-outputs" else "flow,1,1,2"))

# turns: refusal 6
case("turn/0", flow("0,stop"))
case("turn/2-first", flow("2,stop"))
case("turn/again", flow("1,nop,1", "1,stop"))
case("turn/left-out", flow("1,nop,1", "3,stop"))

# targets: refusal 7
for kind in "NPM":
    for value in (0, 4, 5):
        case(f"target/{kind}-{value}-of-4", fields(**{kind: value}))
case("target/never-reached", flow("1,stop", "2,nop,3"))
case("target/lowest-line", flow("1,nop,1", "2,less,1,1,1,4", "3,nop,0"))

# the order of refusals
case("order/15-before-6-before-5", flow("7,set,10000,1,01"))
case("order/6-before-5", flow("7,set,10000,1,1"))
case("order/5-before-7", flow("1,set,10000,1,9"))
case("order/15-before-5-line-1", flow("1,stop", head="flow,9,9,01"))
case("order/line-1-with-5-line-2-with-13", flow("x", head="flow,9,1,1"))
case("order/line-2-with-5-line-3-with-13", flow("1,set,10000,1,1", "x"))
case("order/line-2-with-6-line-3-with-13", flow("2,stop", "x"))
case("order/line-2-with-7-line-3-with-13", flow("1,nop,0", "2,stops"))
case("order/line-2-with-7-line-3-with-6", flow("1,nop,0", "3,stop"))
case("order/line-2-with-7-line-3-with-5", flow("1,nop,0", "2,set,10000,1,1"))

# the three kinds of faulty line, 13, 14 and 15, with their borders to each other and to 6, 5, 8 and 7
for name, refusal, head in [
    ("other-word", "13,1", "flo,1,0,1"), ("other-word-capital", "13,1", "Flow,1,0,1"),
    ("other-word-alone", "13,1", "flo"), ("other-word-out-of-range", "13,1", "flo,9,9,9"),
    ("other-word-too-few", "13,1", "flo,1,0"), ("other-word-too-many", "13,1", "flo,1,0,1,1"),
    ("other-word-bad-number", "13,1", "flo,01,0,1"), ("other-word-too-few-bad-number", "13,1", "flo,01,0"),
    ("instruction-word", "13,1", "stop,1,0,1"), ("instruction", "13,1", "1,stop"),
    ("no-word", "13,1", "1,0,1"), ("word-empty", "13,1", ",1,0,1"), ("empty", "13,1", ""),
    ("flow-alone", "14,1", "flow"), ("flow-comma", "14,1", "flow,"),
    ("too-few", "14,1", "flow,2,1"), ("too-many", "14,1", "flow,2,1,2,1"),
    ("too-few-bad-number", "14,1", "flow,01,0"), ("too-many-bad-number", "14,1", "flow,1,-0,1,1"),
    ("too-few-out-of-range", "14,1", "flow,9,0"), ("too-many-out-of-range", "14,1", "flow,9,9,9,9"),
    ("T-bad", "15,1", "flow,01,0,1"), ("O-bad", "15,1", "flow,1,-0,1"), ("V-bad", "15,1", "flow,1,0,1a"),
    ("V-left-empty", "15,1", "flow,1,0,"), ("all-empty", "15,1", "flow,,,"),
    ("T-bad-V-out-of-range", "15,1", "flow,-1,0,9"), ("T-out-of-range-V-bad", "15,1", "flow,9,0,x"),
    ("V-out-of-range", "5,1", "flow,1,0,9"),
]:
    turned_back(f"line-1-{name}", refusal, flow("1,stop", head=head))

for name, refusal, line in [
    # the word
    ("empty-line", "13,3", ""), ("number-alone", "13,3", "2"), ("stop-alone", "13,3", "stop"), ("letter-alone", "13,3", "x"),
    ("word-empty", "13,3", "2,"), ("commas-alone", "13,3", ",,"), ("word-empty-with-fields", "13,3", "2,,1,1,1"),
    ("word-unknown", "13,3", "2,halt"), ("word-capital", "13,3", "2,Stop"), ("word-flow", "13,3", "2,flow,1,0,1"),
    ("line-1-again", "13,3", "flow,2,1,2"), ("word-first", "13,3", "nop,1"), ("word-third", "13,3", "2,1,stop"),
    ("word-unknown-one-after", "13,3", "2,halt,1"), ("word-unknown-six-after", "13,3", "2,halt,1,1,1,1,1,1"),
    ("word-unknown-bad-fields", "13,3", "2,halt,01,-0,x,"), ("word-unknown-own-empty", "13,3", ",halt"),
    # the count of fields; `stop` with one too few has no word
    ("read-too-few", "14,3", "2,read,1,1,1"), ("read-too-many", "14,3", "2,read,1,1,1,1,1"),
    ("put-too-few", "14,3", "2,put,1,1"), ("put-too-many", "14,3", "2,put,1,1,1,1"),
    ("copy-too-few", "14,3", "2,copy,1,1"), ("copy-too-many", "14,3", "2,copy,1,1,1,1"),
    ("set-too-few", "14,3", "2,set,1,1"), ("set-too-many", "14,3", "2,set,1,1,1,1"),
    ("less-too-few", "14,3", "2,less,1,1,1"), ("less-too-many", "14,3", "2,less,1,1,1,1,1"),
    ("over-too-few", "14,3", "2,over,1,1,1"), ("over-too-many", "14,3", "2,over,1,1,1,1,1"),
    ("under-too-few", "14,3", "2,under,1,1,1"), ("under-too-many", "14,3", "2,under,1,1,1,1,1"),
    ("nop-too-few", "14,3", "2,nop"), ("nop-too-many", "14,3", "2,nop,1,1"), ("stop-too-many", "14,3", "2,stop,1"),
    ("read-too-few-bad-tape", "14,3", "2,read,01,1,1"), ("copy-too-many-bad-first", "14,3", "2,copy,-1,1,1,1"),
    ("set-too-many-minus-0", "14,3", "2,set,-0,1,1,1"), ("over-too-few-all-bad", "14,3", "x,over,x,x,x"),
    ("nop-comma-after", "14,3", "2,nop,1,"), ("nop-two-empty", "14,3", "2,nop,,"), ("nop-too-few-own-empty", "14,3", ",nop"),
    ("stop-comma-after", "14,3", "2,stop,"), ("stop-too-many-bad-own", "14,3", "02,stop,1"),
    # each number of each word
    ("own-leading-zero", "15,3", "02,stop"), ("own-minus", "15,3", "-2,stop"),
    ("own-empty", "15,3", ",stop"), ("own-word", "15,3", "stop,stop"),
    ("read-A", "15,3", "2,read,01,1,1,1"), ("read-v", "15,3", "2,read,1,,1,1"),
    ("read-P", "15,3", "2,read,1,1,-1,1"), ("read-M", "15,3", "2,read,1,1,1,"),
    ("put-v", "15,3", "2,put,-1,1,1"), ("put-Y", "15,3", "2,put,1,-0,1"), ("put-N", "15,3", "2,put,1,1,"),
    ("copy-u", "15,3", "2,copy,01,1,1"), ("copy-v", "15,3", "2,copy,1,-1,1"), ("copy-N", "15,3", "2,copy,1,1,00"),
    ("set-c", "15,3", "2,set,-0,1,1"), ("set-v", "15,3", "2,set,1,-1,1"), ("set-N", "15,3", "2,set,1,1,x"),
    ("less-u", "15,3", "2,less,-1,1,1,1"), ("less-v", "15,3", "2,less,1,01,1,1"),
    ("less-P", "15,3", "2,less,1,1,,1"), ("less-M", "15,3", "2,less,1,1,1,-0"),
    ("over-c", "15,3", "2,over,-01,1,1,1"), ("over-v", "15,3", "2,over,1,-1,1,1"),
    ("over-P", "15,3", "2,over,1,1,01,1"), ("over-M", "15,3", "2,over,1,1,1,+1"),
    ("under-v", "15,3", "2,under,-1,1,1,1"), ("under-c", "15,3", "2,under,1,-0,1,1"),
    ("under-P", "15,3", "2,under,1,1,-1,1"), ("under-M", "15,3", "2,under,1,1,1,"),
    ("nop-N", "15,3", "2,nop,-1"), ("nop-N-empty", "15,3", "2,nop,"),
    # each of the three where the own number, turn, range or target is at fault as well, and that fault alone
    ("word-before-own", "13,3", "02,halt"), ("count-before-own", "14,3", "02,nop"), ("own-before-turn", "15,3", "09,nop,1"),
    ("word-before-turn", "13,3", "9,halt"), ("count-before-turn", "14,3", "9,nop"),
    ("number-before-turn", "15,3", "9,nop,01"), ("turn", "6,3", "9,nop,1"),
    ("word-before-range", "13,3", "2,sets,10000,1,1"), ("count-before-range", "14,3", "2,set,10000,1"),
    ("number-before-range", "15,3", "2,set,10000,1,01"), ("number-left-of-range", "15,3", "2,set,01,9,1"),
    ("range", "5,3", "2,set,10000,1,1"),
    ("word-before-target", "13,3", "2,nops,9"), ("count-before-target", "14,3", "2,nop,9,9"),
    ("number-before-target", "15,3", "2,nop,09"), ("target", "7,3", "2,nop,9"),
]:
    turned_back(name, refusal, flow("1,nop,1", line))

# two lines at fault: the first one counts, but a target only after all lines
FAULTS = {"word": "{},halt", "count": "{},nop", "number": "{},nop,01", "turn": "9,nop,1", "range": "{},set,10000,1,1", "target": "{},nop,9"}
for name, refusal in [
    ("word-then-count", "13,2"), ("word-then-number", "13,2"),
    ("word-then-turn", "13,2"), ("word-then-range", "13,2"), ("word-then-target", "13,2"),
    ("count-then-word", "14,2"), ("count-then-number", "14,2"),
    ("count-then-turn", "14,2"), ("count-then-range", "14,2"), ("count-then-target", "14,2"),
    ("number-then-word", "15,2"), ("number-then-count", "15,2"),
    ("number-then-turn", "15,2"), ("number-then-range", "15,2"), ("number-then-target", "15,2"),
    ("turn-then-word", "6,2"), ("turn-then-count", "6,2"), ("turn-then-number", "6,2"),
    ("range-then-word", "5,2"), ("range-then-count", "5,2"), ("range-then-number", "5,2"),
    ("target-then-word", "13,3"), ("target-then-count", "14,3"), ("target-then-number", "15,3"),
]:
    first, second = name.split("-then-")
    turned_back(name, refusal, flow(FAULTS[first].format(1), FAULTS[second].format(2)))
turned_back("line-1-word-then-number", "13,1", flow("1,nop,01", head="flo,1,0,1"))
turned_back("line-1-count-then-word", "14,1", flow("1,halt", head="flow,1,0"))
turned_back("line-1-number-then-word", "15,1", flow("1,halt", head="flow,1,0,x"))
turned_back("line-1-number-then-count", "15,1", flow("1,nop", head="flow,1,0,x"))
turned_back("line-1-range-then-count", "5,1", flow("1,nop", head="flow,9,0,1"))
turned_back("line-1-range-then-number", "5,1", flow("1,nop,01", head="flow,9,0,1"))

# the count of lines
turned_back("only-line-1-word", "13,1", flow(head="flo,1,0,1"))
turned_back("only-line-1-count", "14,1", flow(head="flow,1,0"))
turned_back("only-line-1-number", "15,1", flow(head="flow,1,0,x"))
turned_back("line-65-word-and-66", "13,65", nops(64, "{},halt") + "65,stop\n")
turned_back("line-65-count-and-66", "14,65", nops(64, "{},nop") + "65,stop\n")
turned_back("line-65-number-and-66", "15,65", nops(64, "{},nop,01") + "65,stop\n")
turned_back("line-66-word", "8,66", nops(65, "{},halt"))
turned_back("line-66-count", "8,66", nops(65, "{},nop"))
turned_back("line-66-number", "8,66", nops(65, "{},nop,01"))

# no bytes at all are a flow, and nothing else that may look empty is; the answers are written by hand
ALONE = "flow,1,0,1\n1,stop\n"
for name, answer, text in [
    # the flow itself, and other flows
    ("alone", ALONE, ALONE), ("alone-two-tapes", "flow,2,0,1\n1,stop\n", "flow,2,0,1\n1,stop\n"),
    ("alone-one-output", "flow,1,1,1\n1,stop\n", "flow,1,1,1\n1,stop\n"),
    ("alone-two-variables", "flow,1,0,2\n1,stop\n", "flow,1,0,2\n1,stop\n"),
    # bytes, and the last of them is not 10
    ("nul", "3,0", "\0"), ("cr", "3,0", "\r"), ("blank", "3,0", " "), ("comma", "3,0", ","), ("digit-0", "3,0", "0"),
    ("byte-255", "3,0", b"\xff"), ("byte-order-mark", "3,0", b"\xef\xbb\xbf"), ("end-blank", "3,0", "\n "),
    ("4096-nuls", "3,0", "\0" * 4096), ("flow", "3,0", "flow"), ("line-1-no-end", "3,0", "flow,1,0,1"),
    ("alone-no-end", "3,0", ALONE[:-1]),
    # line 1 is there, and its first field is not `flow`
    ("2-ends", "13,1", "\n\n"), ("3-ends", "13,1", "\n\n\n"), ("cr-end", "13,1", "\r\n"), ("blank-end", "13,1", " \n"),
    ("blank-tab-cr-end", "13,1", " \t\r\n"), ("nul-end", "13,1", "\0\n"), ("comma-end", "13,1", ",\n"),
    ("number-stop", "13,1", "1,stop\n"), ("stop", "13,1", "stop\n"),
    ("end-alone", "13,1", "\n" + ALONE), ("nul-alone", "13,1", "\0" + ALONE),
    # line 1 with nothing after it, or with an empty line
    ("flow-end", "14,1", "flow\n"), ("line-1-cr-end", "15,1", "flow,1,0,1\r\n"), ("line-1", "8,2", "flow,1,0,1\n"),
    ("line-1-end", "13,2", "flow,1,0,1\n\n"),
    # the flow, and then more; and too many bytes
    ("alone-end", "13,3", ALONE + "\n"), ("alone-twice", "13,3", ALONE + ALONE),
    ("4097-ends", "1,0", "\n" * 4097), ("4097-nuls", "1,0", "\0" * 4097),
]:
    case(f"empty/{name}", text)
    answered(f"empty/{name}", answer)
# no bytes, and other texts on the border that stand in other topics
for name, answer in [("whole/no-bytes", ALONE), ("whole/end-alone", "13,1"), ("whole/4096-ends", "13,1"),
                     ("whole/byte-alone", "3,0"), ("whole/no-end", "3,0"), ("lines/only-line-1", "8,2"),
                     ("lines/empty-1", "13,1"), ("lines/empty-2", "13,2"), ("lines/empty-last", "13,5")]:
    answered(name, answer)

# constants, in each instruction that has one; the answers are written by hand, None for the flow of the text itself
LEGAL = [-9999, -9998, -1001, -1000, -1, 0, 1, 1000, 1001, 9998, 9999]
# a reader whose numbers have 8, 16, 32 or 64 bits takes some of these, or of their minus versions, for legal ones
OUTSIDE = {
    "10000": 10000, "10001": 10001, "10255": 10255, "19998": 19998, "32767": 32767, "32768": 32768, "55537": 55537, "65535": 65535,
    "65536": 65536, "75535": 75535, "99990": 99990, "99999": 99999, "131072": 131072, "2-to-31": 2147483648,
    "2-to-32-less-9999": 4294957297, "2-to-32": 4294967296, "2-to-32-and-9999": 4294977295, "2-to-63": 9223372036854775808,
    "2-to-64-less-9999": 18446744073709541617, "2-to-64": 18446744073709551616, "2-to-64-and-9999": 18446744073709561615,
    "10-to-40": 10 ** 40, "10-to-40-and-9999": 10 ** 40 + 9999, "500-nines": 10 ** 500 - 1,
}
BADLY = {
    "09999": "09999", "010000": "010000", "minus-09999": "-09999", "minus-010000": "-010000", "plus-9999": "+9999", "plus-10000": "+10000",
    "blank-after": "9999 ", "blank-before": " 9999", "blank-inside": "99 99", "blank-after-minus": "- 9999", "cr-after": "9999\r",
    "nul-after": "9999\0", "minus-after": "9999-", "10000-minus-after": "10000-", "minus-alone": "-", "minus-twice": "--9999",
    "minus-twice-10000": "--10000", "point": "9999.", "point-0": "9999.0", "point-for-comma": "9.999", "line-inside": "9_999",
    "base-16": "270f", "power": "1e4", "minus-0": "-0", "four-zeros": "0000", "empty": "",
}
for word, line in [("set", "2,set,{},1,1"), ("over", "2,over,{},1,1,1"), ("under", "2,under,1,{},1,1")]:
    def constant(name, answer, line):
        text = flow("1,nop,2", line, head="flow,1,0,1")
        case(f"constants/{word}-{name}", text)
        answered(f"constants/{word}-{name}", answer or text)

    for c in LEGAL:
        constant(f"{c}".replace("-", "minus-"), None, line.format(c))
    for name, c in OUTSIDE.items():
        constant(name, "5,3", line.format(c))
        constant(f"minus-{name}", "5,3", line.format(-c))
    for name, digits in BADLY.items():
        constant(name, "15,3", line.format(digits))
    constant("comma-inside", "14,3", line.format("9,999"))
    # the order of checks
    for far in (10000, -10000):
        for name, answer, other in [
            ("word-before-range", "13,3", line.replace(word, word + "s")), ("count-before-range", "14,3", line + ",1"),
            ("number-before-range", "15,3", line[:-1] + "01"), ("own-before-range", "15,3", "0" + line),
            ("turn-before-range", "6,3", "9" + line[1:]), ("range-before-target", "5,3", line[:-1] + "9"),
        ]:
            constant(f"{name}-{far}".replace("--", "-minus-"), answer, other.format(far))
    constant("turn-9999", "6,3", "9" + line[1:].format(9999))
    constant("9999-before-target", "7,3", line[:-1].format(9999) + "9")
# two lines: the first at fault counts, but a target only after all lines
for name, answer, lines in [
    ("range-then-range", "5,2", ("1,set,10000,1,1", "2,over,-10000,1,1,1")),
    ("legal-then-range", "5,3", ("1,set,9999,1,1", "2,over,-10000,1,1,1")),
    ("range-then-legal", "5,2", ("1,under,1,-10000,1,1", "2,set,9999,1,1")),
    ("target-then-range", "5,3", ("1,nop,9", "2,under,1,10000,1,1")),
    ("range-then-target", "5,2", ("1,over,10000,1,1,1", "2,nop,9")),
]:
    case(f"constants/{name}", flow(*lines))
    answered(f"constants/{name}", answer)
# the other numbers have ranges of their own, and no minus
for kind, answer, minus in [
    ("T", "5,1", "15,1"), ("O", "5,1", "15,1"), ("V", "5,1", "15,1"), ("I", "6,2", "15,2"), ("A", "5,2", "15,2"), ("v", "5,2", "15,2"),
    ("Y", "5,3", "15,3"), ("N", "7,3", "15,3"), ("P", "7,2", "15,2"), ("M", "7,2", "15,2"),
]:
    for name, value, expected in [("9999", 9999, answer), ("minus-9999", -9999, minus)]:
        case(f"constants/{kind}-{name}", fields(**{kind: value}))
        answered(f"constants/{kind}-{name}", expected)
for name, answer, line in [
    ("put-variable-9999", "5,2", "1,put,9999,1,1"), ("copy-first-9999", "5,2", "1,copy,9999,1,1"),
    ("copy-second-9999", "5,2", "1,copy,1,9999,1"), ("less-first-9999", "5,2", "1,less,9999,1,1,1"),
    ("less-second-9999", "5,2", "1,less,1,9999,1,1"), ("set-both-9999", "5,2", "1,set,9999,9999,1"),
    ("over-both-9999", "5,2", "1,over,9999,9999,1,1"), ("under-both-9999", "5,2", "1,under,9999,9999,1,1"),
    ("set-all-9999", "5,2", "1,set,9999,9999,9999"), ("nop-9999", "7,2", "1,nop,9999"),
]:
    case(f"constants/{name}", flow(line))
    answered(f"constants/{name}", answer)


# ---- what holds of all texts

def counted_flows():
    """No text is there twice; no two texts are read as one flow, but for the two of NO_BYTES; and each refusal of a text occurs, 2 and
    4 do not. The number of texts that are read as a flow, and of flows."""
    assert len(set(CASES.values())) == len(CASES)
    texts, refusals = {}, set()
    for text in CASES.values():
        answer = read(text)
        if answer.startswith(b"refused,"):
            refusals.add(int(answer.split(b",")[1]))
        else:
            texts.setdefault(answer, set()).add(text)
    for answer, those in texts.items():
        assert those == ({b"", answer} if answer == NO_BYTES else {answer}), those
    assert NO_BYTES in texts and refusals == {1, 3, 5, 6, 7, 8, 13, 14, 15}, refusals
    return sum(map(len, texts.values())), len(texts)


# ---- the files of crates/test_readings

# names that are no texts: a folder, and a file that is not there; what cannot be read is not read as no bytes are
UNREAD = ["empty", "empty/missing"]


def files():
    assert not CASES.keys() & set(UNREAD)
    made = {f"test_readings/data/{name}": text for name, text in CASES.items()}
    made["test_readings/data/index"] = "".join(name + "\n" for name in [*CASES, *UNREAD]).encode()
    told = [f"{name} ".encode() + read(text) for name, text in CASES.items()] + [f"{name} cannot be read\n".encode() for name in UNREAD]
    made["test_readings/stdout"] = b"".join(told)
    return made


if __name__ == "__main__":
    as_flow, flows = counted_flows()
    agreed = f"{len(CASES)} texts agree; {as_flow} are read as {flows} flows, {len(CASES) - as_flow} are refused"
    sys.exit(stored.compare(["test_readings"], files(), agreed))
