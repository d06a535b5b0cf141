#!/usr/bin/env python3
"""Runs random programs on HotSpot and on cbvm, and compares what they print and their statuses.

    run.py CBVM FIRST COUNT [FOLDER] [--blocks N]

The programs are those of `generate.py` for COUNT seeds from FIRST on. They are compiled, a hundred at a time, in FOLDER (else a temporary
one). A program that differs is told with the first line that does, and its source stays in FOLDER. HotSpot gets a stack of 64 MB, since with its
own of 1 MB deep recursion ends there before it does here, where the limit is one of frames.

With `--blocks N` each runs in so many blocks. One that ends with a full heap is counted apart: the last line has to say that what lives and
what was asked for are more than N, and what was printed has to be how HotSpot's output begins.
"""
import argparse
import concurrent.futures
import pathlib
import re
import subprocess
import tempfile

import generate

BATCH = 100
SECONDS = 60
HEAP_FULL, FULL = 123, "heap full"


def ran(words):
    try:
        done = subprocess.run(words, capture_output=True, timeout=SECONDS)
    except subprocess.TimeoutExpired:
        return "no end", [], []
    return done.returncode, done.stdout.splitlines(), done.stderr.splitlines()


def is_refused(out, told, said, blocks):
    """Whether a run ended rightly for want of room: the numbers say so, and what it printed is how the output begins."""
    line = re.fullmatch(rb"cbvm: heap full (\d+) live (\d+) asked (\d+) allowed", said[-1] if said else b"")
    live, asked, allowed = map(int, line.groups()) if line else (0, 0, 0)
    return allowed == blocks < live + asked and b"\n".join(out).startswith(b"\n".join(told))


def compared(cbvm, folder, seed, blocks):
    """None, or FULL, or in what the two differ."""
    name = f"G{seed}"
    status, out, err = ran(["java", "-Xss64m", "-Xshare:auto", "-XX:TieredStopAtLevel=1", "-XX:+UseSerialGC", "-cp", str(folder), name])
    own, told, said = ran([cbvm, "run", *(["--blocks", str(blocks)] if blocks else []), str(folder), name])
    if blocks and own == HEAP_FULL and is_refused(out, told, said, blocks):
        return FULL
    if told != out:
        at = next((i for i, (one, other) in enumerate(zip(out, told)) if one != other), min(len(out), len(told)))
        return f"line {at + 1}: {out[at:at + 1]} on HotSpot, {told[at:at + 1]} here; {said[:1]}"
    if own != status:
        return f"status {status} on HotSpot, {own} here; {err[:1]} and {said[:1]}"
    if err[:1] != said[:1]:
        return f"{err[:1]} on HotSpot, {said[:1]} here"
    return None


def main():
    words = argparse.ArgumentParser()
    words.add_argument("cbvm")
    words.add_argument("first", type=int)
    words.add_argument("count", type=int)
    words.add_argument("folder", nargs="?")
    words.add_argument("--blocks", type=int)
    given = words.parse_args()
    first, count = given.first, given.count
    folder = pathlib.Path(given.folder or tempfile.mkdtemp())
    same, full, lines = 0, 0, 0
    for start in range(first, first + count, BATCH):
        seeds = range(start, min(start + BATCH, first + count))
        made = folder / f"from{start}"
        made.mkdir(parents=True, exist_ok=True)
        for seed in seeds:
            text = generate.source(seed)
            lines += text.count("\n")
            (made / f"G{seed}.java").write_text(text)
        sources = [str(made / f"G{seed}.java") for seed in seeds]
        subprocess.run(["javac", "-J-Xss64m", "--release", "8", "-nowarn", "-Xlint:none", "-encoding", "utf-8", "-d", str(made), *sources], check=True)
        with concurrent.futures.ThreadPoolExecutor() as pool:
            for seed, differs in zip(seeds, pool.map(lambda seed: compared(given.cbvm, made, seed, given.blocks), seeds)):
                if differs == FULL:
                    full += 1
                elif differs:
                    print(f"G{seed}: {differs}", flush=True)
                else:
                    same += 1
        refused = f", {full} filled the heap" if given.blocks else ""
        print(f"{same} of {start + len(seeds) - first} programs are the same{refused}, of {lines} lines", flush=True)


main()
