#!/usr/bin/env python3
"""Writes the rows of cb_memory_cases, or with the word `stdout` what the program has to print of them.

    python3 bench/memory/cases.py > crates/cb_memory_cases/stdin
    python3 bench/memory/cases.py stdout > crates/cb_memory_cases/stdout

What is expected comes from plain lists: a list of words for each part, and a list of objects, which know nothing of blocks, regions and places. All that is
random is seeded.
"""
import random
import sys

MASK = 2**64 - 1
NEAR = [0, 1, 2, 3, 254, 255, 256, 257, 258, 509, 510, 511, 512, 513, 514, 767, 768, 769, 1023, 1024, 1025]


def blocks_for(words):
    return (words + 255) // 256


class Parts:
    """Words by part, of which all fit into so many blocks."""

    def __init__(self, blocks, parts):
        self.blocks, self.parts = blocks, [[] for _ in range(parts)]

    def free(self):
        return self.blocks - sum(blocks_for(len(words)) for words in self.parts)

    def call(self, name, part, *numbers):
        """Does what a call does, and gives what is told of it."""
        words = self.parts[part]
        if name == "grow":
            if blocks_for(len(words) + numbers[0]) - blocks_for(len(words)) > self.free():
                return "full"
            words.extend([0] * numbers[0])
            return "grown"
        if name == "shrink" and numbers[0] <= len(words):
            del words[numbers[0]:]
            return None
        if name == "read" and numbers[0] < len(words):
            return words[numbers[0]]
        if name == "write" and numbers[0] < len(words):
            words[numbers[0]] = numbers[1]
            return None
        if name == "move":
            source, target, count = numbers
            if target <= source and source + count <= len(words):
                words[target:target + count] = words[source:source + count]
                return None
        if name == "used":
            return len(words)
        if name == "sum":
            total = len(words)
            for word in words:
                total = (total * 31 + word) & MASK
            return total
        return "left out"


class Row:
    """The calls of a row, and what is told of them."""

    def __init__(self, blocks, parts):
        self.parts, self.given, self.told = Parts(blocks, parts), [str(blocks), str(parts)], []

    def call(self, *call):
        self.given += map(str, call)
        told = self.parts.free() if call == ("free",) else self.parts.call(*call)
        if told is not None:
            self.told.append(str(told))

    def sums(self):
        for part in range(len(self.parts.parts)):
            self.call("sum", part)
        self.call("free")


def boundaries():
    """Every size around multiples of 256 is grown in just the blocks that it needs, one word more than that is refused, and so is one block less."""
    for size in NEAR:
        row = Row(blocks_for(size), 2)
        row.call("grow", 0, size)
        row.call("grow", 1, 1)
        row.call("grow", 0, -size % 256 + 1)
        row.call("grow", 0, -size % 256)
        row.sums()
        yield row
        if size:
            row = Row(blocks_for(size) - 1, 1)
            row.call("grow", 0, size)
            row.call("grow", 0, 2**64 - 1)
            row.sums()
            yield row


def zeros_again():
    """A part that grows, is filled, shrinks and grows again reads zeros, and so does another that takes its blocks."""
    for size in NEAR:
        for less in (0, 1, 255, 256, 257):
            if less <= size:
                row = Row(blocks_for(size), 2)
                row.call("grow", 0, size)
                for i in range(0, size, 1 if size < 20 else 37):
                    row.call("write", 0, i, i + 1)
                if size:
                    row.call("write", 0, size - 1, MASK)
                row.call("shrink", 0, less)
                row.call("grow", 1, 256 * row.parts.free())
                row.sums()
                row.call("shrink", 1, 0)
                row.call("grow", 0, size - less)
                row.sums()
                yield row


def moves():
    """Words are moved to the front from and to places around multiples of 256."""
    for source in (0, 1, 255, 256, 257, 511, 513, 700):
        for target in (0, 1, 100, 255, 256, 257, 511):
            if target <= source:
                row = Row(6, 2)
                row.call("grow", 1, 300)
                row.call("grow", 0, 1000)
                for i in range(0, 1000, 13):
                    row.call("write", 0, i, i * i + 1)
                for count in (0, 1, 255, 256, 257, 1000 - source):
                    if source + count <= 1000:
                        row.call("move", 0, source, target, count)
                        row.call("sum", 0)
                row.call("sum", 1)
                yield row


def some(random, words):
    return random.choice([random.randint(0, words), max(0, min(words, random.randint(0, words // 256 + 1) * 256 + random.randint(-2, 2)))])


def seeded(seed, calls):
    """Calls at random, so that parts take one another's blocks."""
    rng = random.Random(seed)
    parts = rng.randint(1, 6)
    row = Row(rng.choice([3, 8, 20, 70]), parts)
    for _ in range(calls):
        part = rng.randrange(parts)
        used = len(row.parts.parts[part])
        kind = rng.randrange(10)
        if kind < 3:
            row.call("grow", part, rng.choice([some(rng, 600), some(rng, 256 * max(1, row.parts.free()))]))
        elif kind < 4:
            row.call("shrink", part, some(rng, used))
        elif kind < 7 and used:
            row.call("write", part, min(used - 1, some(rng, used)), rng.getrandbits(64))
        elif kind < 8 and used:
            row.call("read", part, min(used - 1, some(rng, used)))
        elif kind < 9:
            source = some(rng, used)
            row.call("move", part, source, some(rng, source), some(rng, used - source))
        else:
            row.call(rng.choice(["used", "sum"]), part)
        if rng.randrange(8) == 0:
            row.call("free")
    row.sums()
    return row


def many_parts():
    """As many parts as there may be, each with a word in a block of its own."""
    row = Row(4096, 4096)
    for part in range(0, 4096, 64):
        row.call("grow", part, 1 + part % 256)
        row.call("write", part, part % 256, part + 1)
    for part in range(0, 4096, 64):
        row.call("read", part, part % 256)
    row.call("free")
    return row


def long_part():
    """A part of more blocks than a page of its table names, that takes turns with another."""
    row = Row(600, 2)
    for turn in range(300):
        row.call("grow", turn % 2, 256 if turn % 3 else 255)
    for i in range(0, 38000, 1009):
        for part in range(2):
            row.call("write", part, i, i + part)
    for i in range(0, 38000, 1009):
        for part in range(2):
            row.call("read", part, i)
    row.sums()
    row.call("shrink", 0, 257)
    row.call("grow", 1, 256 * 140)
    row.sums()
    return row


class Heap:
    """Objects by serial, in parts that are the strongly connected components of a graph of their sites."""

    KINDS = ["rn", "n*", "r*"]

    def __init__(self, blocks, sites, edges):
        self.blocks, self.sites, self.objects, self.granted = blocks, sites, [], []
        self.given = [str(blocks), str(sites), str(len(edges))] + [str(end) for edge in edges for end in edge]
        self.told = []
        leads = [{site} for site in range(sites)]
        for _ in range(sites):
            for a, b in edges:
                for site in range(sites):
                    if a in leads[site]:
                        leads[site].add(b)
        self.part, parts = [None] * sites, 0
        for site in range(sites):
            if self.part[site] is None:
                for other in range(sites):
                    if other in leads[site] and site in leads[other]:
                        self.part[other] = parts
                parts += 1
        self.parts, self.edges = parts, {(self.part[a], self.part[b]) for a, b in edges}

    def holds(self, kind, i):
        return self.KINDS[kind][0 if self.KINDS[kind][1] == "*" else i] == "r"

    def used(self, part, wants=()):
        return sum(3 + len(words) for site, kind, words, mark in self.objects if self.part[site] == part) + sum(words for site, words in wants if self.part[site] == part)

    def taken(self, wants=()):
        return sum(blocks_for(self.used(part, wants)) for part in range(self.parts))

    def room(self, site):
        return sum(words for at, words in self.granted if at == site)

    def call(self, *call):
        self.given += map(str, call)
        told = getattr(self, call[0] + "_told")(*call[1:])
        if told is not None:
            self.told.append(str(told))

    def grant_told(self, count, *pairs):
        wants = list(zip(pairs[::2], pairs[1::2]))
        if self.taken(wants) > self.blocks:
            return "full"
        self.granted = wants
        return "granted"

    def place_told(self, site, kind, size):
        fits = kind < 3 and (kind > 0 or size == 2)
        if not fits or self.room(site) < 3 + size:
            return "no room"
        left = 3 + size
        for i, (at, words) in enumerate(self.granted):
            if at == site:
                spent = min(words, left)
                self.granted[i], left = (at, words - spent), left - spent
        self.objects.append([site, kind, [0] * size, 0])
        return len(self.objects)

    def has(self, serial, i, mark):
        site, kind, words, _ = self.objects[serial - 1]
        return i < len(words) and self.holds(kind, i) == mark

    def get_told(self, serial, i):
        return self.objects[serial - 1][2][i] if self.has(serial, i, False) else "left out"

    def ref_told(self, serial, i):
        return self.objects[serial - 1][2][i] if self.has(serial, i, True) else "left out"

    def put_told(self, serial, i, number):
        if not self.has(serial, i, False):
            return "left out"
        self.objects[serial - 1][2][i] = number

    def link_told(self, serial, i, to):
        parts = [self.part[self.objects[at - 1][0]] for at in (serial, to or serial)]
        if not self.has(serial, i, True) or parts[0] != parts[1] and tuple(parts) not in self.edges:
            return "left out"
        self.objects[serial - 1][2][i] = to

    def head_told(self, serial):
        site, kind, words, _ = self.objects[serial - 1]
        return f"{kind} {len(words)} {site} {serial} {self.part[site]}"

    def mark_told(self, serial):
        had, self.objects[serial - 1][3] = self.objects[serial - 1][3], 1
        return had

    def sum_told(self):
        total = 0
        for site, kind, words, _ in self.objects:
            for word in [kind, site, len(words)] + words:
                total = (total * 31 + word) & MASK
        return total

    def free_told(self):
        return self.blocks - self.taken()


def grants():
    """Room for a part is granted in just the blocks that it needs beside its objects, and no word more."""
    for size in NEAR[3:]:
        heap = Heap(blocks_for(size) + 1, 2, [])
        heap.call("grant", 1, 0, size + (-size % 256) + 257)
        heap.call("grant", 2, 0, size, 1, 257)
        heap.call("grant", 2, 0, size + (-size % 256) + 1, 1, 1)
        heap.call("grant", 3, 1, 100, 0, size, 1, 156)
        heap.call("place", 0, 1, size - 2)
        heap.call("place", 0, 1, size - 3)
        heap.call("place", 0, 1, 0)
        heap.call("place", 1, 2, 10)
        heap.call("place", 1, 0, 3)
        heap.call("place", 1, 0, 2)
        heap.call("free")
        heap.call("grant", 1, 0, -size % 256)
        heap.call("grant", 1, 0, -size % 256 + 1)
        heap.call("grant", 0)
        heap.call("place", 0, 1, 0)
        heap.call("sum")
        yield heap


def links():
    """References within a part, along an edge, against it, and where none leads."""
    heap = Heap(8, 5, [(0, 1), (1, 0), (1, 2), (3, 2)])
    heap.call("grant", 5, 0, 100, 1, 100, 2, 100, 3, 100, 4, 100)
    for site in range(5):
        heap.call("place", site, 0, 2)
        heap.call("place", site, 2, 3)
    for one in range(1, 11):
        heap.call("head", one)
        for other in range(0, 11):
            heap.call("link", one, 0, other)
            heap.call("ref", one, 0)
    heap.call("sum")
    return heap


def objects(seed, calls):
    """Objects of many sizes at random, filled, linked and marked."""
    rng = random.Random(seed)
    sites = rng.randint(1, 9)
    edges = sorted({(rng.randrange(sites), rng.randrange(sites)) for _ in range(rng.randint(0, 2 * sites))})
    heap = Heap(rng.choice([12, 60, 200]), sites, edges)
    for _ in range(calls):
        kind = rng.randrange(12)
        count = len(heap.objects)
        if kind < 3 or not count:
            at = rng.sample(range(sites), rng.randint(1, min(3, sites)))
            wants = [(site, rng.choice([some(rng, 700), some(rng, 60)])) for site in at]
            heap.call("grant", len(wants), *[number for want in wants for number in want])
            for site in at:
                for _ in range(rng.randint(1, 4)):
                    kind = rng.randrange(3)
                    most = max(0, heap.room(site) - 3)
                    heap.call("place", site, kind, 2 if kind == 0 else rng.choice([most, rng.randint(0, most), rng.randint(0, 9)]))
            continue
        serial = rng.randint(1, count)
        size = len(heap.objects[serial - 1][2])
        i = min(max(0, size - rng.randrange(2)), some(rng, size))
        if kind < 6:
            heap.call("put", serial, i, rng.getrandbits(64))
        elif kind < 9:
            heap.call("link", serial, i, rng.randint(0, count))
        elif kind < 11:
            heap.call(rng.choice(["get", "ref"]), serial, i)
        else:
            heap.call(*rng.choice([("head", serial), ("mark", serial), ("sum",), ("free",)]))
    heap.call("sum")
    heap.call("free")
    return heap


def all_parts():
    """As many parts as there may be, each with an object in a block of its own, and room for no more."""
    heap = Heap(4096, 4096, [])
    for site in range(0, 4096):
        heap.part[site] = site
    for site in list(range(0, 4096, 128)) + [4095]:
        heap.call("grant", 2, site, 5, 4095 - site, 5)
        heap.call("place", site, 0, 2)
        heap.call("put", len(heap.objects), 1, site)
    heap.call("free")
    heap.call("grant", 1, 1, 256 * (4096 - 33))
    heap.call("grant", 1, 1, 256 * (4096 - 33) + 1)
    for serial in range(1, len(heap.objects) + 1):
        heap.call("head", serial)
        heap.call("get", serial, 1)
    return heap


def long_object():
    """An object over more blocks than a page of its part's table names, in turns with one of another part."""
    heap = Heap(700, 2, [(0, 1)])
    for site in (0, 1, 0, 1):
        heap.call("grant", 1, site, 3003)
        heap.call("place", site, 1, 3000)
    heap.call("grant", 2, 0, 40003, 1, 90003)
    heap.call("place", 0, 2, 40000)
    heap.call("place", 1, 1, 90000)
    for i in range(0, 40000, 251):
        heap.call("link", 5, i, 1 + i % 6)
    for i in range(0, 90000, 509):
        heap.call("put", 6, i, i * i)
    for i in range(0, 40000, 251):
        heap.call("ref", 5, i)
    for i in range(0, 90000, 509):
        heap.call("get", 6, i)
    heap.call("sum")
    heap.call("free")
    return heap


# A string of two units at the site 7 is the first array with its units and then the object that refers to it. The loops that are timed are tried here with few turns.
TIMED = [
    ("parts get 1 1000 1 7 3000", 0),
    ("map get 1 1000 1 7 3000", 0),
    ("parts get_ref 10 100 3 7 1000", 0),
    ("map get_ref 10 100 3 7 1000", 0),
    ("parts place 10 100 1 1 3", 30),
    ("map place 10 100 1 1 3", 30),
    ("parts move 1 1000 1 7 3", 1000),
]


def put_sum(count, size, objects, along, turns):
    """What the loops of `put` come to."""
    words = [[0] * size for _ in range(count)]
    for turn in range(turns):
        words[turn * objects % count][turn * along % size] = turn
    return sum(words[turn * objects % count][turn * along % size] for turn in range(count))


def tables():
    yield "blocks at boundaries", list(boundaries())
    yield "blocks read zeros again", list(zeros_again())
    yield "blocks move", list(moves())
    yield "blocks by seed", [seeded(seed, 60) for seed in range(60)]
    yield "blocks many and long", [many_parts(), long_part()]
    yield "parts at boundaries", list(grants())
    yield "parts link", [links()]
    yield "parts by seed", [objects(seed, 60) for seed in range(60)]
    yield "parts many and long", [all_parts(), long_object()]


def main():
    tells = sys.argv[1:] == ["stdout"]
    count = 0
    if not tells:
        print("# Rows for `cb_memory_cases`, written by bench/memory/cases.py.")
    for name, rows in tables():
        print(f"\ntable {name}")
        for row in rows:
            count += 1
            print("| " + " ".join(row.given) + (" | " + " ".join(row.told) if tells else ""))
    for name, row, told in (("string", "", "1 2 104 105 7 1 1"), ("trial", "", "2"), ("stack", "8 9 7", "7 9 8 none"), ("stack", "", "none")):
        count += 1
        print(f"\ntable {name}\n|{' ' if row else ''}{row}" + (f" | {told}" if tells else ""))
    print("\ntable timed")
    timed = TIMED + [(f"{store} put 10 100 3 7 1000", put_sum(10, 100, 3, 7, 1000)) for store in ("parts", "map")]
    for row, told in timed:
        count += 1
        print("| " + row + (f" | {told}" if tells else ""))
    if tells:
        print(f"\n{count} rows")


if __name__ == "__main__":
    main()
