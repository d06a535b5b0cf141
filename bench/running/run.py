#!/usr/bin/env python3
"""Times small programs on cbvm, on HotSpot's interpreter and on its Zero build, and prints ratios.

The words are machines to time beside `java -Xint`: `zero`, which needs Debian's openjdk-17-jre-zero, and the path of a cbvm.
Each program is compiled by `javac --release 8` and run some times on each machine; the run that took the least processor time
counts, less the least that a program which does nothing takes there. What is printed must be the same on all.
"""

import os
import resource
import subprocess
import sys
import tempfile

RUNS = 3
HERE = os.path.dirname(os.path.abspath(__file__))
PROGRAMS = sorted(name[:-5] for name in os.listdir(HERE) if name.endswith(".java") and name != "Nothing.java")


def command(machine, folder, program):
    """The words that run a program of a folder."""
    if machine == "int":
        return ["java", "-Xint", "-XX:+UseSerialGC", "-cp", folder, program]
    if machine == "zero":
        return ["java", "-zero", "-XX:+UseSerialGC", "-cp", folder, program]
    return [machine, "run", folder, program]


def timed(words):
    """Seconds of processor time of one run, and what it printed."""
    before = resource.getrusage(resource.RUSAGE_CHILDREN)
    run = subprocess.run(words, capture_output=True, check=False)
    after = resource.getrusage(resource.RUSAGE_CHILDREN)
    if run.returncode != 0:
        return None, run.stderr.decode(errors="replace").strip().split("\n")[-1]
    return after.ru_utime - before.ru_utime + after.ru_stime - before.ru_stime, run.stdout


def least(machine, folder, program):
    """The least time of some runs, and what was printed, or why it didn't run."""
    results = [timed(command(machine, folder, program)) for _ in range(RUNS)]
    if results[0][0] is None:
        return results[0]
    return min(seconds for seconds, _ in results), results[0][1]


def main():
    machines = ["int"] + sys.argv[1:]
    with tempfile.TemporaryDirectory() as folder:
        sources = [os.path.join(HERE, name + ".java") for name in PROGRAMS + ["Nothing"]]
        subprocess.run(["javac", "--release", "8", "-Xlint:-options", "-d", folder] + sources, check=True)
        idle = {machine: least(machine, folder, "Nothing")[0] or 0.0 for machine in machines}
        for program in PROGRAMS:
            line, first = f"{program:8}", None
            for machine in machines:
                seconds, printed = least(machine, folder, program)
                name = os.path.basename(machine)
                if seconds is None:
                    line += f"  {name}: {printed}"
                    continue
                seconds -= idle[machine]
                first = first or (seconds, printed)
                if printed != first[1]:
                    sys.exit(f"bench/running: {program} prints something else on {name}")
                line += f"  {name} {seconds:6.2f} s" + ("" if machine == "int" else f" ({seconds / first[0]:.2f})")
            print(line)


if __name__ == "__main__":
    main()
