"""Runs each workload through the program at two sizes, and prints the time of a line at each and their ratio.

A time is seconds of processor, so that what else the machine does matters less: of the lines with what prepares them, less that of
the preparation alone; the least of three runs.
"""
import fnmatch
import os
import resource
import subprocess
import sys
import tempfile

from workloads import WORKLOADS

RUNS = 3


def spent():
    """The seconds of processor of the programs that have ended."""
    usage = resource.getrusage(resource.RUSAGE_CHILDREN)
    return usage.ru_utime + usage.ru_stime


def seconds(program, lines):
    with tempfile.TemporaryFile() as script:
        script.write("".join(line + "\n" for line in lines).encode())
        times = []
        for _ in range(RUNS):
            script.seek(0)
            start = spent()
            subprocess.run([program, "run"], stdin=script, stdout=subprocess.DEVNULL, check=True)
            times.append(spent() - start)
    return min(times)


def per_line(program, workload, size):
    """Microseconds of a measured line."""
    before, lines = list(workload.before(size)), list(workload.lines(size))
    return (seconds(program, before + lines) - seconds(program, before)) / len(lines) * 1e6


def main():
    program, patterns = os.path.abspath(sys.argv[1]), sys.argv[2:] or ["*"]
    late = 0
    print("%-30s %22s %22s %8s %8s" % ("workload", "small: us a line", "full: us a line", "ratio", "wanted"))
    for workload in WORKLOADS:
        if not any(fnmatch.fnmatch(workload.name, pattern) for pattern in patterns):
            continue
        small, full = (per_line(program, workload, size) for size in workload.sizes)
        ratio = full / max(small, 0.01)
        late += ratio > workload.most
        print("%-30s %12.2f at %6d %12.2f at %6d %8.2f %8.2f" % (workload.name, small, workload.sizes[0], full, workload.sizes[1], ratio, workload.most))
    peak = resource.getrusage(resource.RUSAGE_CHILDREN).ru_maxrss
    print(f"{peak // 1024} MiB at most; {late} of the ratios above what is wanted")


main()
