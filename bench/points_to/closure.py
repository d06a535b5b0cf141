#!/usr/bin/env python3
"""Least relations of constraints, by passes over all inclusions until nothing changes.

Without words it reads lines as `cb_points_to_cases` does and prints what that program has to print; with a number and a seed it prints so many
random lines. `crates/cb_points_to_cases/stdin` is `by_hand.txt` with the lines of `closure.py 300 1`; of `stdout` the part for `by_hand.txt` was
written by hand.
"""
import random
import sys


def numbers(text):
    return [int(part) for part in text.split(",")] if text else []


def read(line):
    words = line.split()
    nodes, sites = int(words[0]), int(words[1])
    case = {"nodes": nodes, "sites": sites, "owners": {}, "statics": set(), "filters": [], "slots": [], "calls": [], "inclusions": []}
    for word in words[2:]:
        name, rest = word.split(":")
        if name == "owner":
            node, site = rest.split("=")
            assert int(node) < nodes and int(site) < sites
            case["owners"][int(node)] = int(site)
        elif name == "static":
            assert int(rest) < nodes
            case["statics"].add(int(rest))
        elif name == "filter":
            case["filters"].append(set(numbers(rest)))
        elif name == "slots":
            entries = [tuple(map(int, part.split("="))) for part in rest.split(",")] if rest else []
            check_ascending([site for site, _ in entries], sites)
            assert all(node < nodes for _, node in entries)
            case["slots"].append(dict(entries))
        elif name == "calls":
            entries = [read_callee(part, nodes) for part in rest.split(";")] if rest else []
            check_ascending([site for site, _ in entries], sites)
            case["calls"].append(dict(entries))
        else:
            case["inclusions"].append(read_inclusion(case, name, rest))
    return case


def check_ascending(found, sites):
    assert all(a < b for a, b in zip(found, found[1:])) and all(site < sites for site in found)


def read_callee(part, nodes):
    site, rest = part.split("=")
    receiver, arguments, result = rest.split("/")
    result = int(result) if result else None
    assert all(node < nodes for node in [int(receiver)] + numbers(arguments) + ([] if result is None else [result]))
    return int(site), (int(receiver), numbers(arguments), result)


PLACES = {"has": "ns", "each": "nts", "copy": "nn", "through": "nnf", "load": "ntn", "store": "nnt", "between": "nnt"}


def read_inclusion(case, name, rest):
    limits = {"n": case["nodes"], "s": case["sites"], "f": len(case["filters"]), "t": len(case["slots"])}
    if name == "call":
        head, arguments, result = rest.split("/")
        receiver, calls = numbers(head)
        result = int(result) if result else None
        named = [receiver] + numbers(arguments) + ([] if result is None else [result])
        assert all(node < case["nodes"] for node in named) and calls < len(case["calls"])
        return name, (receiver, calls, numbers(arguments), result)
    found = numbers(rest)
    assert len(found) == len(PLACES[name]) and all(number < limits[kind] for number, kind in zip(found, PLACES[name]))
    return name, tuple(found)


def solve(case):
    pts = [set() for _ in range(case["nodes"])]
    while one_pass(case, pts):
        pass
    return pts


def one_pass(case, pts):
    before = sum(map(len, pts))
    for name, told in case["inclusions"]:
        hold(case, pts, name, told)
    return sum(map(len, pts)) > before


def hold(case, pts, name, told):
    slots = case["slots"]
    if name == "has":
        pts[told[0]].add(told[1])
    elif name == "each":
        for own in list(pts[told[0]]):
            if own in slots[told[1]]:
                pts[slots[told[1]][own]].add(told[2])
    elif name == "copy":
        pts[told[1]] |= pts[told[0]]
    elif name == "through":
        pts[told[1]] |= pts[told[0]] & case["filters"][told[2]]
    elif name == "load":
        for own in list(pts[told[0]]):
            if own in slots[told[1]]:
                pts[told[2]] |= pts[slots[told[1]][own]]
    elif name == "store":
        for own in list(pts[told[1]]):
            if own in slots[told[2]]:
                pts[slots[told[2]][own]] |= pts[told[0]]
    elif name == "between":
        for own in list(pts[told[0]]):
            for other in list(pts[told[1]]):
                if own in slots[told[2]] and other in slots[told[2]]:
                    pts[slots[told[2]][other]] |= pts[slots[told[2]][own]]
    else:
        receiver, calls, arguments, result = told
        for own in list(pts[receiver]):
            if own in case["calls"][calls]:
                at, taken, given_back = case["calls"][calls][own]
                pts[at].add(own)
                for argument, place in zip(arguments, taken):
                    pts[place] |= pts[argument]
                if given_back is not None and result is not None:
                    pts[result] |= pts[given_back]


def told(case, pts):
    nodes = []
    for node in range(case["nodes"]):
        owner = f"@{case['owners'][node]}" if node in case["owners"] else ""
        static = "!" if node in case["statics"] else ""
        nodes.append(f"{node}{owner}{static}:" + ",".join(map(str, sorted(pts[node]))))
    return " ".join(nodes)


def answer(line):
    try:
        case = read(line)
    except (AssertionError, IndexError, KeyError, ValueError):
        return "no case"
    return told(case, solve(case))


def random_line(rng):
    nodes, sites = rng.randint(1, 12), rng.randint(1, 6)
    node, site = lambda: rng.randrange(nodes), lambda: rng.randrange(sites)
    some = lambda: sorted(rng.sample(range(sites), rng.randint(0, sites)))
    words = [f"owner:{node()}={site()}" for _ in range(rng.randint(0, 2))] + [f"static:{node()}" for _ in range(rng.randint(0, 1))]
    filters, slots, calls = rng.randint(1, 2), rng.randint(1, 2), rng.randint(1, 2)
    words += ["filter:" + ",".join(map(str, some())) for _ in range(filters)]
    words += ["slots:" + ",".join(f"{own}={node()}" for own in some()) for _ in range(slots)]
    maybe = lambda: str(node()) if rng.random() < 0.7 else ""
    list_of = lambda: ",".join(str(node()) for _ in range(rng.randint(0, 3)))
    words += ["calls:" + ";".join(f"{own}={node()}/{list_of()}/{maybe()}" for own in some()) for _ in range(calls)]
    for _ in range(rng.randint(1, 12)):
        name = rng.choice(["has", "has", "has", "each", "copy", "copy", "through", "load", "store", "between", "call"])
        if name == "call":
            words.append(f"call:{node()},{rng.randrange(calls)}/{list_of()}/{maybe()}")
        else:
            draw = {"n": node, "s": site, "f": lambda: rng.randrange(filters), "t": lambda: rng.randrange(slots)}
            words.append(f"{name}:" + ",".join(str(draw[kind]()) for kind in PLACES[name]))
    return " ".join([str(nodes), str(sites)] + words)


def main():
    if len(sys.argv) == 3:
        rng = random.Random(int(sys.argv[2]))
        for _ in range(int(sys.argv[1])):
            print(random_line(rng))
    else:
        for line in sys.stdin:
            print(answer(line.rstrip("\n")))


if __name__ == "__main__":
    main()
