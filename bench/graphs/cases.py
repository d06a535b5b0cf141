#!/usr/bin/env python3
"""Writes the text of the program cb_graph_cases and what it has to print, by a chooser that tries all closed sets.

    python3 bench/graphs/cases.py crates/cb_graph_cases
"""
import random
import sys
from pathlib import Path


def reach(nodes, edges):
    """For each node the nodes to which it leads."""
    after = [[] for _ in range(nodes)]
    for a, b in edges:
        after[a].append(b)
    found = []
    for node in range(nodes):
        seen, stack = {node}, [node]
        while stack:
            for other in after[stack.pop()]:
                if other not in seen:
                    seen.add(other)
                    stack.append(other)
        found.append(seen)
    return found


def condense(nodes, edges):
    leads = reach(nodes, edges)
    parts, part_of = 0, []
    for node in range(nodes):
        first = min(other for other in leads[node] if node in leads[other])
        part_of.append(parts if first == node else part_of[first])
        parts += first == node
    joins = sorted({(part_of[a], part_of[b]) for a, b in edges if part_of[a] != part_of[b]})
    return parts, part_of, joins


def best(parts, edges, gains):
    """The set of greatest gain that is within each other one, of all that are closed."""
    most, least = 0, 0
    for chosen in range(1 << parts):
        if all(chosen >> p & 1 or not chosen >> q & 1 for p, q in edges):
            gain = sum(gains[p] for p in range(parts) if chosen >> p & 1)
            if gain > most:
                most, least = gain, chosen
            elif gain == most:
                least &= chosen
    return [p for p in range(parts) if least >> p & 1]


def checked(parts, joins, gains, shown):
    """What is first wrong with a set and a flow, which have the amounts that are shown."""
    at = {place: [shown.get((place, k), 0) for k in range(max(parts, len(joins)))] for place in ("source", "sink", "edge", "set")}
    for k, (p, q) in enumerate(joins):
        if at["set"][q] and not at["set"][p]:
            return f"edge {k} leads into the set"
    for place, sign, first in (("source", 1, 0), ("sink", -1, parts)):
        for part in range(parts):
            if at[place][part] > max(sign * gains[part], 0):
                return f"arc {first + part} is over its capacity"
    for part in range(parts):
        into = at["source"][part] + sum(at["edge"][k] for k, (p, q) in enumerate(joins) if p == part)
        out_of = at["sink"][part] + sum(at["edge"][k] for k, (p, q) in enumerate(joins) if q == part)
        if into != out_of:
            return f"as much doesn't flow into part {part} as out of it"
    gain = sum(gains[part] for part in range(parts) if at["set"][part])
    bound = sum(max(g, 0) for g in gains) - sum(at["source"])
    return "shown" if gain == bound else f"the set gains {gain}, and the bound is {bound}"


def line(nodes, edges, gains, shown={}):
    words = [f"{place}:{k}={amount}" for (place, k), amount in shown.items()]
    return " ".join([str(nodes)] + [f"{a}>{b}" for a, b in edges] + [str(g) for g in gains] + words)


def answer(part_of, joins, gains, chosen, told="shown"):
    """What has to be printed. What flows is what the best set's gain leaves of the positive gains."""
    parts = "".join(f"{p} " for p in part_of)
    edges = "".join(f" {p}>{q}" for p, q in joins) if len(joins) <= 1000 else f" {len(joins)} edges"
    gained = sum(gains[p] for p in chosen)
    flows = sum(gain for gain in gains if gain > 0) - gained
    return f"{parts}|{edges} |" + "".join(f" {p}" for p in chosen) + f" gains {gained}, flow {flows} | {told}"


def survivors(used, kept, fresh, live, last, held):
    """How many words of a part survive, by each estimate."""
    by_age = kept * (7 if held else 4) // 8 + fresh * live // last
    return {"all": used, "age": min(used, by_age), "half": used // 2}


def facts(used, kept, fresh, live, last, held):
    """A line of facts, and what has to be printed for it."""
    told = "survivors" + "".join(f" | {name} {count} gains {used - 2 * count}" for name, count in survivors(used, kept, fresh, live, last, held).items())
    return f"facts {used} {kept} {fresh} {live} {last} {'held' if held else 'free'}", told


def main():
    random.seed(55)
    texts, answers = [], []

    def case(nodes, edges, gains, shown={}):
        parts, part_of, joins = condense(nodes, edges)
        texts.append(line(nodes, edges, gains, shown))
        all_gains = (gains + [0] * parts)[:parts]
        told = checked(parts, joins, all_gains, shown) if shown else "shown"
        answers.append(answer(part_of, joins, all_gains, best(parts, joins, all_gains), told))

    bound = 2**28
    case(3, [(0, 1), (1, 0), (2, 0)], [1, 1])
    case(2, [(0, 1)], [-2, 5])
    case(2, [(0, 1)], [-5, 5])
    case(3, [(0, 1), (0, 2)], [-6, 4, 4])
    case(4, [(0, 1), (0, 2), (3, 2)], [-6, 4, 5, -1])
    case(1, [(0, 0)], [7])
    case(0, [], [])
    case(3, [(0, 1), (0, 2)], [-bound, bound, bound])
    case(3, [(0, 1), (0, 2)], [-bound, bound, 0])
    for _ in range(110):
        nodes = random.randint(1, 12)
        edges = []
        for a in range(nodes):
            for b in range(nodes):
                if a != b and random.random() < 0.6 / nodes + (0.15 if a < b else 0):
                    edges.append((a, b))
        size = random.choice([2, 3, 10, 1000, bound])
        case(nodes, edges, [random.randint(-size, size) for _ in range(nodes)])
    # flows and sets that aren't the chooser's
    both = {("set", 0): 1, ("set", 1): 1}
    flows = {("source", 1): 2, ("edge", 0): 2, ("sink", 0): 2}
    for shown in (
        {**both, **flows},
        {**both, **flows, ("edge", 0): 1},
        {**both, **flows, ("source", 1): 1},
        {**both, **flows, ("source", 1): 6},
        {**both, **flows, ("source", 0): 1},
        {**both, **flows, ("sink", 0): 3},
        {**both, ("source", 1): 1, ("edge", 0): 1, ("sink", 0): 1},
        {**flows, ("set", 1): 1},
        flows,
        both,
    ):
        case(2, [(0, 1)], [-2, 5], shown)
    # a chain: closed sets are its beginnings, of which the shortest of greatest gain is the best
    nodes = 4096
    for last in (4000, 4095, 4096):
        gains = [-1] * (nodes - 1) + [last]
        chain = [(a, a + 1) for a in range(nodes - 1)]
        texts.append(line(nodes, chain, gains))
        answers.append(answer(range(nodes), chain, gains, range(nodes) if last > nodes - 1 else []))
    # gains at their bounds, in all parts at once: without edges, and with all parts behind the first or before it
    half = nodes // 2
    texts.append(f"{nodes} {half}*{bound} {half}*-{bound}")
    answers.append(answer(range(nodes), [], [bound] * half + [-bound] * half, range(half)))
    behind, before = [(0, b) for b in range(1, nodes)], [(a, 0) for a in range(1, nodes)]
    texts.append(f"{nodes} 0>1-{nodes - 1} -{bound} {nodes - 1}*{bound}")
    answers.append(answer(range(nodes), behind, [-bound] + [bound] * (nodes - 1), range(nodes)))
    texts.append(f"{nodes} 1-{nodes - 1}>0 {bound} {nodes - 1}*-{bound}")
    answers.append(answer(range(nodes), before, [bound] + [-bound] * (nodes - 1), []))
    # a gain past its bound is brought within it
    texts.append(f"1 {bound + 1}")
    answers.append(answer([0], [], [bound], [0]))
    # chosen again and again, and condensed
    texts.append("3 0>1 0>2 -6 4 4 choose:3 condense:2")
    answers.append(answer(range(3), [(0, 1), (0, 2)], [-6, 4, 4], range(3)))
    # the most nodes that a program has sites, in one part; the most parts, and the most edges; one part more, one edge more, and both
    texts.append("16384 0>0-16383 0-16383>0 5")
    answers.append(answer([0] * 16384, [], [5], [0]))
    texts.append(f"{nodes + 1} {nodes}>{nodes - 1} {nodes - 1}>{nodes} {nodes}*1")
    answers.append(answer(list(range(nodes)) + [nodes - 1], [], [1] * nodes, range(nodes)))
    all_pairs = [(a, b) for a in range(512) for b in range(512, 1024)]
    texts.append("1025 0-511>512-1023 512*-1 512*1")
    answers.append(answer(range(1025), all_pairs, [-1] * 512 + [1] * 512 + [0], []))
    texts.append("1025 0-511>512-1023 512*-1 511*1 2")
    answers.append(answer(range(1025), all_pairs, [-1] * 512 + [1] * 511 + [2, 0], range(1024)))
    texts.append(f"{nodes + 1}")
    answers.append("too many parts")
    texts.append("1025 0-511>512-1023 0>1024")
    answers.append("too many edges")
    texts.append(f"{nodes + 1} 0-511>512-1023 0>1024")
    answers.append("too many parts")
    texts.append("none")
    answers.append("no case")
    # facts of parts, and some that can't be
    rows = [(100, 60, 40, 1, 4, True), (100, 60, 40, 1, 4, False), (0, 0, 0, 7, 8, True), (7, 0, 7, 7, 8, True), (7, 0, 7, 1, 4, False)]
    rows += [(bound, bound, 0, 1, 1, True), (bound, 0, bound, bound, bound, False), (bound, 1, bound - 1, bound - 1, bound, True), (9, 9, 0, 0, 1, True)]
    for _ in range(20):
        used, last = random.randint(0, 5000), random.randint(1, 5000)
        kept = random.randint(0, used)
        rows.append((used, kept, used - kept, random.randint(0, last), last, random.random() < 0.5))
    for row in rows:
        text, told = facts(*row)
        texts.append(text)
        answers.append(told)
    for row in ("100 60 41 1 4", "100 60 40 5 4", "100 60 40 0 0", f"{bound + 1} 0 {bound + 1} 1 4", "100 60 40"):
        texts.append(f"facts {row} held")
        answers.append("no case")
    folder = Path(sys.argv[1])
    (folder / "stdin").write_text("\n".join(texts) + "\n")
    (folder / "stdout").write_text("\n".join(answers) + "\n")


main()
