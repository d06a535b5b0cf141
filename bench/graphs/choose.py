#!/usr/bin/env python3
"""Times `condense` and `choose` by the program cb_graph_cases, as the gate builds it, beside Boost's graph library, on random acyclic graphs.

    (cd crates/cb_graph_cases && rt run < /dev/null)    # builds out/cb_graph_cases
    python3 bench/graphs/choose.py crates/cb_graph_cases/out/cb_graph_cases [RUNS]

It wants g++ and Debian's libboost-graph-dev. Both read the same graphs. What reading and printing takes is left out: Boost times its calls itself,
and of ours a line that is done many times more is compared with one that is done once. Times are of the processor, the least of some runs (three, or
as many as are asked for), ours and Boost's in turns. Both have to find flows of the same size.
"""
import os
import random
import subprocess
import sys
import tempfile
from pathlib import Path


def rising(parts, edges):
    """Edges between random parts, from lower to higher numbers."""
    found = set()
    while len(found) < edges:
        a, b = random.randrange(parts), random.randrange(parts)
        if a < b:
            found.add((a, b))
    return sorted(found)


def renumbered(parts, edges):
    names = list(range(parts))
    random.shuffle(names)
    return sorted((names[a], names[b]) for a, b in edges)


def mixed(parts, edges):
    """The same with numbers that say nothing of the edges."""
    return renumbered(parts, rising(parts, edges))


def near(parts, edges):
    """Edges between parts of a chain that are near to each other, and a tenth to a few parts that many need, with numbers that say nothing of them."""
    found = set()
    while len(found) < edges:
        a = random.randrange(parts)
        b = random.randrange(parts * 9 // 10, parts) if random.random() < 0.1 else a + random.randrange(1, 30)
        if a < b < parts:
            found.add((a, b))
    return renumbered(parts, found)


def line(nodes, edges, gains):
    return " ".join([str(nodes)] + [f"{a}>{b}" for a, b in edges] + [str(g) for g in gains])


def processor_time(words, text):
    """What a run takes of a processor, in microseconds, and what it prints."""
    with tempfile.TemporaryFile() as given, tempfile.TemporaryFile() as printed:
        given.write(text.encode())
        given.seek(0)
        child = subprocess.Popen(words, stdin=given, stdout=printed)
        _, status, used = os.wait4(child.pid, 0)
        child.returncode = status
        if status:
            sys.exit(f"{words} ended with {status}")
        printed.seek(0)
        return used.ru_utime * 1e6, printed.read().decode()


def by_ours(program, text, what):
    """Microseconds for one time, from the difference of many and one, and what is printed."""
    once, told = processor_time([program], text)
    times = 1
    while True:
        many, _ = processor_time([program], f"{text} {what}:{times}")
        if many - once > 200_000:
            return (many - once) / times, told
        times *= 4


def by_boost(boost, text):
    """How much flows, and the microseconds of its two flows, of its components, and of all that condensing takes."""
    words = processor_time([boost], text + "\n")[1].split()
    return int(words[0]), [float(word) for word in words[1:]]


def flow_of(told):
    return int(told.split(", flow ")[1].split()[0])


def shown(microseconds):
    return f"{microseconds:9.1f}"


def gains_of(parts, few):
    """Gains of both signs, or of a few parts alone."""
    gains = [random.randint(-1000, 1000) for _ in range(parts)]
    keep = set(random.sample(range(parts), parts // 50 + 1) if few else range(parts))
    return [gain if part in keep else -abs(gain) for part, gain in enumerate(gains)]


def measured(program, boost, runs, text):
    """The least microseconds of a choice by ours, and by each of Boost's two."""
    ours, theirs = [], []
    for _ in range(runs):
        time, told = by_ours(program, text, "choose")
        flow, times = by_boost(boost, text)
        if flow != flow_of(told):
            sys.exit(f"{flow} and {flow_of(told)} flow")
        ours.append(time)
        theirs.append(times)
    return min(ours), min(times[0] for times in theirs), min(times[1] for times in theirs)


def choosing(program, boost, runs):
    print("choose: microseconds for one choice, of as many graphs as is said; ours over the faster one of Boost's for all of them, and for the worst;")
    print("nanoseconds of ours for each part and edge")
    print("graph   gains  parts   edges  graphs      ours  kolmogorov  relabel  ours/faster  worst  each")
    rows = [(50, 150, 5), (200, 800, 5), (500, 1000, 5), (500, 2000, 5), (500, 8000, 5), (1000, 8000, 3), (4000, 30000, 1), (4096, 262144, 1)]
    for kind in (rising, mixed, near):
        for parts, edges, graphs in rows:
            if kind is near and edges > parts * 12:
                continue
            for few in (False, True):
                times = []
                for graph in range(graphs):
                    random.seed(graph * 7919 + parts + edges)
                    found = kind(parts, edges)
                    times.append(measured(program, boost, runs, line(parts, found, gains_of(parts, few))))
                ours, one, other = (sum(column) / graphs for column in zip(*times))
                faster = sum(min(time[1:]) for time in times) / graphs
                worst = max(time[0] / min(time[1:]) for time in times)
                print(
                    f"{kind.__name__:8}{'few' if few else 'both':5} {parts:6} {edges:7} {graphs:7} {shown(ours)}   {shown(one)} {shown(other)}"
                    f"       {ours / faster:6.2f} {worst:6.2f} {ours * 1e3 / (parts + edges):5.1f}",
                    flush=True,
                )


def condensing(program, boost, runs):
    print("condense: microseconds for one time; of Boost's components alone, and with what else is done from the same grid of marks, and ours over this;")
    print("nanoseconds of ours for each node and edge")
    print("nodes    edges   parts      ours  components     boost  ours/boost  each")
    rows = [(200, 800, 1), (500, 2000, 1), (2000, 8000, 4), (4096, 30000, 1), (4096, 262144, 1), (16384, 60000, 4), (16384, 262144, 4)]
    for nodes, edges, joined in rows:
        random.seed(nodes + edges)
        parts = nodes // joined
        cycles = [(p * joined + k, p * joined + (k + 1) % joined) for p in range(parts) for k in range(joined)] if joined > 1 else []
        between = [(a * joined + random.randrange(joined), b * joined + random.randrange(joined)) for a, b in rising(parts, edges - len(cycles))]
        text = line(nodes, sorted(set(cycles + between)), [])
        ours, theirs = [], []
        for _ in range(runs):
            time, _ = by_ours(program, text, "condense")
            ours.append(time)
            theirs.append(by_boost(boost, text)[1])
        best, alone, whole = min(ours), min(times[2] for times in theirs), min(times[3] for times in theirs)
        print(f"{nodes:5} {edges:8} {parts:7} {shown(best)}   {shown(alone)} {shown(whole)}      {best / whole:6.2f} {best * 1e3 / (nodes + edges):5.1f}", flush=True)


def main():
    program, runs = sys.argv[1], int(sys.argv[2]) if len(sys.argv) > 2 else 3
    with tempfile.TemporaryDirectory() as room:
        boost = room + "/boost"
        source = Path(__file__).with_name("boost.cpp")
        subprocess.run(["g++", "-O2", "-std=c++17", "-o", boost, source], check=True)
        choosing(program, boost, runs)
        condensing(program, boost, runs)


main()
