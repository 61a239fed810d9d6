#!/usr/bin/env python3
"""The programs that read a flow, on inputs that come whole, in pieces or interrupted, on inputs without bytes, and on inputs that cannot be
read: `report` and `bound`, which read standard input, and the makers' programs in C and Rust, which read the file that they are given the
name of.

    inputs.py REPORT BOUND C RUST

What they write is compared byte for byte, and their status. Prints one line if all is as expected.
"""
import fcntl
import os
import pathlib
import signal
import socket
import struct
import subprocess
import sys
import tempfile
import termios
import time

REPORT, BOUND, C, RUST = sys.argv[1:]
FLOW_A = b"flow,1,0,1\n1,read,1,1,2,3\n2,over,5,1,1,3\n3,stop\n"
REPORT_A = b"report,3,19\n1,p,1\n1,m,1\n2,p,2\n2,m,2\n"
SAMPLES_A = pathlib.Path("examples/expected/a").read_bytes()
EMPTY = b"report,1,1\n"
# three instructions, one tape, and six numbers from 0 to 5: 3 * 2 * (6 + 2); and of no bytes 1 * 2 * (1 + 2)
BOUND_A = b"bound,48\n"
BOUND_EMPTY = b"bound,6\n"
UNREAD_FILE = b"the flow cannot be read\n"
# It can be opened, and every read of its start fails.
UNREADABLE = "/proc/self/mem"
PAUSE = 0.02
LIMIT = 20

# Says whether its first read was interrupted.
PROBE = """
import ctypes, errno
c = ctypes.CDLL(None, use_errno=True)
print(c.read(0, ctypes.create_string_buffer(1), 1) < 0 and ctypes.get_errno() == errno.EINTR)
"""


def started(stdin, command, stdout=subprocess.PIPE):
    return subprocess.Popen(command, stdin=stdin, stdout=stdout, stderr=subprocess.PIPE)


def told(process):
    """The status and both outputs. A program that does not end is killed."""
    try:
        out, err = process.communicate(timeout=LIMIT)
    except subprocess.TimeoutExpired:
        process.kill()
        out, err = process.communicate()
    return process.returncode, out, err


def wait(process, done):
    """Until done() holds or the process has ended."""
    end = time.monotonic() + LIMIT
    while process.poll() is None and not done() and time.monotonic() < end:
        time.sleep(PAUSE / 10)


def whole(text, command, stdout=subprocess.PIPE):
    with tempfile.TemporaryFile() as file:
        file.write(text)
        file.seek(0)
        return told(started(file, command, stdout))


def opened(name, command, how=os.O_RDONLY):
    """A file, a directory or a device as standard input."""
    file = os.open(name, how)
    result = told(started(file, command))
    os.close(file)
    return result


def closed(*command):
    """Without a standard input."""
    return told(started(None, ("sh", "-c", 'exec "$0" "$@" <&-', *command)))


def unread(pipe):
    return struct.unpack("i", fcntl.ioctl(pipe, termios.FIONREAD, bytes(4)))[0]


def pieces(*parts, command):
    """Each part is sent once the one before it was read, after a pause."""
    out, into = os.pipe()
    process = started(out, command)
    for part in parts:
        os.write(into, part)
        wait(process, lambda: unread(into) == 0)
        time.sleep(PAUSE)
    os.close(into)
    os.close(out)
    return told(process)


def broken_off(part, command):
    """A pipe that may not be waited for, and has a part of a text: the read after it fails."""
    out, into = os.pipe()
    os.set_blocking(out, False)
    os.write(into, part)
    result = told(started(out, command))
    os.close(into)
    os.close(out)
    return result


def state(process):
    """S if it sleeps, T if it is stopped."""
    return pathlib.Path("/proc", str(process.pid), "stat").read_text().rpartition(")")[2].split()[0]


def interrupted(command, *parts):
    """Before each part the read that waits for it is interrupted. Linux ends a read of a socket that has a time limit with EINTR when the
    process is stopped and goes on, without a handler."""
    ours, theirs = socket.socketpair()
    theirs.setsockopt(socket.SOL_SOCKET, socket.SO_RCVTIMEO, struct.pack("ll", 3 * LIMIT, 0))
    process = started(theirs, command)
    for part in parts:
        for sent, wanted in (0, "S"), (signal.SIGSTOP, "T"), (signal.SIGCONT, "S"):
            process.send_signal(sent)
            wait(process, lambda: state(process) == wanted)
        ours.sendall(part)
        time.sleep(PAUSE)
    ours.close()
    theirs.close()
    return told(process)


def bytewise(text):
    return (bytes([b]) for b in text)


def of_reader(program, name, of_a, of_empty):
    """A name, what a program that reads standard input did, and what it has to write to standard output and to standard error: its own name
    and what it prints for flow A and for no bytes are given."""
    # Line 5 has no word. No legal flow has 4,096 bytes.
    longest = FLOW_A + b"x" * (4095 - len(FLOW_A)) + b"\n"
    too_long = FLOW_A + b"x" * (4096 - len(FLOW_A)) + b"\n"
    unread, unwritten = name + b": standard input cannot be read\n", name + b": standard output cannot be written\n"
    run = program,
    yield "flow A", whole(FLOW_A, run), of_a, b""
    yield "an empty file", whole(b"", run), of_empty, b""
    yield "a pipe without bytes", pieces(command=run), of_empty, b""
    yield "the null device", opened(os.devnull, run), of_empty, b""
    yield "one byte 10", whole(b"\n", run), b"refused,13,1\n", b""
    yield "one byte 10, alone in a pipe", pieces(b"\n", command=run), b"refused,13,1\n", b""
    yield "line 1 alone", whole(b"flow,1,0,1\n", run), b"refused,8,2\n", b""
    yield "4,096 bytes", whole(longest, run), b"refused,13,5\n", b""
    yield "4,097 bytes", whole(too_long, run), b"refused,1,0\n", b""
    yield "flow A in two halves", pieces(FLOW_A[:20], FLOW_A[20:], command=run), of_a, b""
    yield "flow A byte by byte", pieces(*bytewise(FLOW_A), command=run), of_a, b""
    yield "4,096 bytes in two halves", pieces(longest[:2048], longest[2048:], command=run), b"refused,13,5\n", b""
    yield "4,097 bytes in two halves", pieces(too_long[:2048], too_long[2048:], command=run), b"refused,1,0\n", b""
    yield "4,097 bytes, the last one alone", pieces(too_long[:4096], too_long[4096:], command=run), b"refused,1,0\n", b""
    yield "a directory", opened("/", run), b"", unread
    yield "a file of which no read succeeds", opened(UNREADABLE, run), b"", unread
    yield "an input that may only be written", opened(os.devnull, run, os.O_WRONLY), b"", unread
    yield "a closed input", closed(program), b"", unread
    yield "a flow, and then a read that fails", broken_off(b"flow,1,0,1\n1,stop\n", run), b"", unread
    yield "a read that fails at once", broken_off(b"", run), b"", unread
    with open("/dev/full", "wb") as full:
        yield "an output that is full", whole(FLOW_A, run, stdout=full), None, unwritten
    if interrupted((sys.executable, "-c", PROBE), b"x")[1] == b"True\n":
        yield "interrupted reads", interrupted(run, FLOW_A[:20], FLOW_A[20:]), of_a, b""
        yield "an interrupted read of no bytes", interrupted(run, b""), of_empty, b""
    else:
        print("inputs: this system interrupts no read, so that was not tried")


def of_maker(program):
    """The same for a maker's program. Rust opens the null device where standard input is closed, so that is tried in C only."""
    named = program, "/dev/stdin"
    yield "flow A", whole(FLOW_A, named), SAMPLES_A, b""
    yield "flow A in two halves", pieces(FLOW_A[:20], FLOW_A[20:], command=named), SAMPLES_A, b""
    yield "flow A byte by byte", pieces(*bytewise(FLOW_A), command=named), SAMPLES_A, b""
    yield "an empty file", whole(b"", named), BOUND_EMPTY + EMPTY, b""
    yield "a pipe without bytes", pieces(command=named), BOUND_EMPTY + EMPTY, b""
    yield "one byte 10", whole(b"\n", named), b"refused,13,1\n", b""
    for name, file in ("a directory", "/"), ("no such file", "/no/such/file"), ("a file of which no read succeeds", UNREADABLE):
        yield name, told(started(subprocess.DEVNULL, (program, file))), b"", UNREAD_FILE
    yield "no file named", told(started(subprocess.DEVNULL, (program,))), b"", UNREAD_FILE
    if program == C:
        yield "a closed input", closed(*named), b"", UNREAD_FILE


def main():
    tried = failed = 0
    for program, cases in [(REPORT, of_reader(REPORT, b"report", REPORT_A, EMPTY)), (BOUND, of_reader(BOUND, b"bound", BOUND_A, BOUND_EMPTY)),
                           (C, of_maker(C)), (RUST, of_maker(RUST))]:
        for name, did, out, err in cases:
            tried += 1
            ought = 2 if err == UNREAD_FILE else 0, out, err
            if did != ought:
                failed += 1
                print(f"inputs: {program}, {name}: status, output and errors are {did}, expected {ought}")
    if not failed:
        print(f"inputs: report, bound and the makers' programs answer {tried} inputs as expected")
    return 1 if failed else 0


sys.exit(main())
