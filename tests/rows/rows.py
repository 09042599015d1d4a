"""Runs the rows against a program. See the file 'run' beside this one."""
import fnmatch
import os
import pathlib
import subprocess
import sys

from case import Case
from failing import failing_cases
from limits import limit_cases
from lines import line_cases
from made import made_cases
from texts import USAGE, text_cases
from transcripts import transcript_cases
from vpn import vpn_cases
from watches import watch_cases

HERE = pathlib.Path(__file__).parent


def stored_cases():
    """Each folder of cases: args (one word a line), stdin, stdout and status."""
    for case in sorted((HERE / "cases").iterdir()):
        words = tuple((case / "args").read_text().split("\n")[:-1])
        status = int((case / "status").read_text())
        yield Case(case.name, (case / "stdin").read_bytes(), (case / "stdout").read_bytes(), status, words)


def edge_cases():
    """The program's edge: input that can't be read, and output that takes nothing."""
    line = b"lockdown add 0-9\n"
    yield Case("input-is-a-folder", status=4, source="/")
    yield Case("input-closed", status=4, source="closed")
    yield Case("output-full", line, status=5, sink="/dev/full")
    yield Case("output-closed", line, status=5, sink="closed")
    yield Case("output-without-a-reader", line, status=5, sink="no reader")
    yield Case("check-of-a-folder", status=4, words=("check",), source="/")
    yield Case("check-output-full", line, status=5, words=("check",), sink="/dev/full")
    yield Case("output-full-for-the-usage", status=5, words=(), sink="/dev/full")
    yield Case("output-full-of-nothing", status=0, sink="/dev/full")
    yield Case("input-is-a-folder-for-the-usage", b"", USAGE, 2, (), source="/")


def closing(*descriptors):
    return lambda: [os.close(descriptor) for descriptor in descriptors]


def opened(stream, mode):
    """What stands for a stream of the program."""
    if stream == "pipe":
        return subprocess.PIPE
    if stream == "no reader":
        reader, writer = os.pipe()
        os.close(reader)
        return writer
    return os.open(os.devnull if stream == "closed" else stream, mode)


def run(program, case):
    """Runs the program on the row's streams, and gives what it wrote and its status."""
    streams = opened(case.source, os.O_RDONLY), opened(case.sink, os.O_WRONLY)
    closed = [number for number, stream in enumerate((case.source, case.sink)) if stream == "closed"]
    try:
        process = subprocess.Popen(
            [program, *case.words], stdin=streams[0], stdout=streams[1], stderr=subprocess.PIPE, preexec_fn=closing(*closed)
        )
        stdout, stderr = process.communicate(case.stdin if case.source == "pipe" else None, timeout=120)
        return stdout or b"", stderr, process.returncode
    finally:
        for stream in streams:
            if stream != subprocess.PIPE:
                os.close(stream)


def first_difference(got, want):
    got_lines, want_lines = got.split(b"\n"), want.split(b"\n")
    for number in range(max(len(got_lines), len(want_lines))):
        one, other = got_lines[number:number + 1], want_lines[number:number + 1]
        if one != other:
            return "line %d: got %r, want %r" % (number + 1, one, other)
    return "no difference in the output"


def passes(program, case):
    stdout, stderr, status = run(program, case)
    if (stdout, stderr, status) == (case.stdout, b"", case.status):
        return True
    print("%s: status %d (want %d), %s" % (case.name, status, case.status, first_difference(stdout, case.stdout)))
    if stderr:
        print("  standard error: %r" % stderr[:200])
    return False


def main():
    program, patterns = sys.argv[1], sys.argv[2:] or ["*"]
    passed = failed = 0
    for case in [
        *stored_cases(),
        *made_cases(),
        *text_cases(),
        *line_cases(),
        *limit_cases(),
        *watch_cases(),
        *edge_cases(),
        *failing_cases(),
        *vpn_cases(),
        *transcript_cases(),
    ]:
        if not any(fnmatch.fnmatch(case.name, pattern) for pattern in patterns):
            continue
        if passes(program, case):
            passed += 1
        else:
            failed += 1
    print("%d passed, %d failed" % (passed, failed))
    sys.exit(1 if failed or not passed else 0)


main()
