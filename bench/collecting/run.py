#!/usr/bin/env python3
"""Times programs that make garbage on cbvm in few blocks, and on HotSpot's interpreters in as many bytes, and prints ratios.

    run.py CBVM [PROGRAM..]

For each program of this folder the fewest blocks are found in which it ends as in many; it is then run in twice and four times as many, and
on `java -Xint` and Zero (Debian's openjdk-17-jre-zero) by the serial collector with `-Xmx` of the same bytes, or with what HotSpot asks for
at least. The least processor time of some runs counts, less the least of `Nothing` of bench/running there. What a program takes in so many
blocks that nothing is collected stands beside it: what it takes more with few is what collecting costs, and what is saved by using the same
memory again.
"""

import os
import pathlib
import resource
import subprocess
import sys
import tempfile

RUNS = 3
HERE = pathlib.Path(__file__).resolve().parent
MOST, BLOCK = 1 << 20, 2048


def timed(words):
    """Seconds of processor time of a run, its status, and what it printed."""
    before = resource.getrusage(resource.RUSAGE_CHILDREN)
    run = subprocess.run(words, capture_output=True, check=False)
    after = resource.getrusage(resource.RUSAGE_CHILDREN)
    return after.ru_utime - before.ru_utime + after.ru_stime - before.ru_stime, run.returncode, run.stdout


def least(words):
    """The least time of some runs, and what was printed, or None where the status isn't 0."""
    runs = [timed(words) for _ in range(RUNS)]
    return (min(it[0] for it in runs), runs[0][2]) if runs[0][1] == 0 else None


def cbvm(machine, folder, program, blocks):
    return [machine, "run", "--blocks", str(blocks), folder, program]


def hotspot(kind, folder, program, size):
    return ["java", kind, "-XX:+UseSerialGC", f"-Xmx{size}", "-cp", folder, program]


def fewest(machine, folder, program):
    """The fewest blocks in which a program ends as in many."""
    low, high = 0, MOST
    while high - low > 1:
        middle = (low + high) // 2
        if timed(cbvm(machine, folder, program, middle))[1] == 0:
            high = middle
        else:
            low = middle
    return high


def main():
    machine = sys.argv[1]
    with tempfile.TemporaryDirectory() as folder:
        sources = [*HERE.glob("*.java"), HERE.parent / "running" / "Nothing.java"]
        subprocess.run(["javac", "--release", "8", "-Xlint:-options", "-d", folder, *sources], check=True)
        none = least(cbvm(machine, folder, "Nothing", 1))[0]
        idle = {kind: least(hotspot(kind, folder, "Nothing", "64m"))[0] for kind in ("-Xint", "-zero")}
        for program in sys.argv[2:] or sorted(it.stem for it in HERE.glob("*.java")):
            live = fewest(machine, folder, program)
            free, printed = least(cbvm(machine, folder, program, MOST))
            print(f"{program}: lives in {live} blocks; {free - none:.2f} s where nothing is collected")
            for times in (2, 4):
                blocks = times * live
                seconds, told = least(cbvm(machine, folder, program, blocks))
                assert told == printed, program
                line = f"  {times} times: {seconds - none:.2f} s"
                for kind, name in (("-Xint", "-Xint"), ("-zero", "Zero")):
                    for size in (blocks * BLOCK, 2 << 20, 4 << 20, 8 << 20, 16 << 20):
                        found = size >= blocks * BLOCK and least(hotspot(kind, folder, program, size))
                        if found:
                            assert found[1] == printed, program
                            ratio = (seconds - none) / (found[0] - idle[kind])
                            line += f"; {name} in {size / 2**20:.1f} MiB {found[0] - idle[kind]:.2f} s, ratio {ratio:.2f}"
                            break
                print(line, flush=True)


main()
