#!/usr/bin/env python3
"""Writes the rows of cb_collection_cases, or with the word `stdout` what the program has to print of them.

    python3 bench/memory/collected.py > crates/cb_collection_cases/stdin
    python3 bench/memory/collected.py stdout > crates/cb_collection_cases/stdout

What is expected comes from the list of objects of cases.py, and from what is reached there over references from all roots, which knows nothing of marks, places
and forwarding. All that is random is seeded.
"""
import itertools
import random
import sys

from cases import Heap


class Collected(Heap):
    """A heap of which nothing is told up to a collection, and then what is left."""

    KINDS = Heap.KINDS + ["rr"]
    ROOTS = ["local", "top", "static", "constant", "class", "box", "pending", "argument"]

    def do(self, *call):
        self.given += map(str, call)
        return getattr(self, call[0] + "_told")(*call[1:])

    def reached(self, roots):
        found, waiting = set(), [serial for serial in roots if serial]
        while waiting:
            serial = waiting.pop()
            if serial not in found:
                found.add(serial)
                site, kind, words, _ = self.objects[serial - 1]
                waiting += [word for i, word in enumerate(words) if self.holds(kind, i) and word]
        return found

    def collect(self, members, **roots):
        """Collects the parts of a set, from roots that are named, and tells the objects that are left, part by part, the roots, and the blocks that are free."""
        held = [roots.get(name, 0) for name in self.ROOTS]
        self.given += map(str, ["collect", len(members), *members, *held])
        if any(a != b and b in members and a not in members for a, b in self.edges):
            self.told.append("open")
            return self
        found = self.reached(held)
        left = [serial for part in range(self.parts) for serial in range(1, len(self.objects) + 1)
                if self.part[self.objects[serial - 1][0]] == part and (part not in members or serial in found)]
        for serial in left:
            site, kind, words, _ = self.objects[serial - 1]
            self.told += map(str, [serial, kind, len(words), site, *words])
        self.told += ["roots"] + [str(serial) for serial in held if serial]
        self.objects = [self.objects[serial - 1] for serial in left]
        self.told += ["free", str(self.free_told())]
        return self


def roots_once():
    """An object for each way in which a root refers to it, and one that none does, all behind one that goes."""
    for names in [[]] + [[name] for name in Collected.ROOTS] + [Collected.ROOTS]:
        heap = Collected(4, 1, [])
        heap.do("grant", 1, 0, 60)
        for size in range(len(Collected.ROOTS) + 2):
            heap.do("place", 0, 1, size % 3)
        yield heap.collect([0], **{name: 2 + Collected.ROOTS.index(name) for name in names})


def moved():
    """An object at and around each boundary of a block, and an array over many, move behind one that goes, with what refers to them in their part and in others."""
    for size in [0, 1, 2, 248, 249, 250, 251, 252, 253, 254, 255, 256, 509, 510, 765, 1021]:
        for stays in (0, 1):
            heap = Collected(60, 3, [(0, 1), (1, 2)])
            heap.do("grant", 3, 0, 20, 1, 6 * size + 8000, 2, 20)
            heap.do("place", 1, 1, size)
            heap.do("place", 1, 0, 2)
            heap.do("place", 1, 1, size)
            heap.do("place", 1, 2, 1)
            heap.do("place", 1, 2, 1500)
            heap.do("place", 0, 0, 2)
            heap.do("place", 2, 0, 2)
            for i in (0, 1, 2, 249, 250, 251, 252, 253, 254, 255, 256, 1023, 1499):
                heap.do("link", 5, i, [2, 3, 4, 5, 7][i % 5])
            heap.do("link", 4, 0, 5)
            heap.do("link", 2, 0, 4)
            heap.do("link", 6, 0, 2)
            heap.do("put", 2, 1, 2**64 - 1)
            for i in range(0, size, 50):
                heap.do("put", 3, i, i + 7)
            yield heap.collect([0, 1], pending=6, local=1 if stays else 0)


def least_moved():
    """An array over many blocks moves by the words of an object without contents, which are the fewest by which one can move."""
    for size in (250, 253, 256, 1024, 1500):
        heap = Collected(12, 1, [])
        heap.do("grant", 1, 0, 2 * size + 20)
        heap.do("place", 0, 1, 0)
        heap.do("place", 0, 2, size)
        heap.do("place", 0, 1, size)
        for i in range(0, size, 3):
            heap.do("link", 2, i, 2 + i % 2)
            heap.do("put", 3, i, i * i)
        yield heap.collect([0], constant=2)


def emptied():
    """A part that empties, one in which nothing goes, one that isn't in the set, and sets that aren't closed."""
    for members in ([], [0], [1], [2], [0, 1], [0, 2], [1, 2], [0, 1, 2]):
        heap = Collected(9, 3, [(0, 1), (2, 1)])
        heap.do("grant", 3, 0, 500, 1, 500, 2, 500)
        for site in (0, 0, 1, 1, 2, 2):
            heap.do("place", site, 0, 2)
            heap.do("place", site, 1, 100)
        for one, other in ((1, 3), (3, 5), (5, 7), (7, 5), (9, 11), (11, 5), (11, 9)):
            heap.do("link", one, 0, other)
        yield heap.collect(members, static=9, box=10)


def each_of_three():
    """An object in each of three parts, each of which refers to one that it may refer to or to none, in all ways, from each root, and for each closed set."""
    for words in itertools.product((0, 1, 2, 3), (0, 2, 3), (0, 3)):
        for members in ([0], [0, 1], [0, 1, 2]):
            for root in (1, 2, 3):
                heap = Collected(4, 3, [(0, 1), (1, 2), (0, 2)])
                heap.do("grant", 3, 0, 10, 1, 10, 2, 10)
                for site in range(3):
                    heap.do("place", site, 0, 2)
                for serial, word in enumerate(words, 1):
                    heap.do("link", serial, 0, word)
                yield heap.collect(members, argument=root)


def each_of_one_part():
    """Three objects of one part, each of which refers to any or to none, in all ways."""
    for words in itertools.product(range(4), repeat=3):
        heap = Collected(2, 1, [])
        heap.do("grant", 1, 0, 20)
        for _ in range(3):
            heap.do("place", 0, 0, 2)
        for serial, word in enumerate(words, 1):
            heap.do("link", serial, 0, word)
        yield heap.collect([0], top=2)


def small(seed):
    """Up to six objects in up to three parts, linked at random, with roots at random."""
    rng = random.Random(seed)
    sites = rng.randint(1, 4)
    edges = sorted({(rng.randrange(sites), rng.randrange(sites)) for _ in range(rng.randint(0, 4))})
    heap = Collected(12, sites, edges)
    heap.do("grant", sites, *[number for site in range(sites) for number in (site, 100)])
    for _ in range(rng.randint(1, 6)):
        kind = rng.choice([0, 0, 1, 2])
        heap.do("place", rng.randrange(sites), kind, 2 if kind == 0 else rng.randint(0, 4))
    count = len(heap.objects)
    for _ in range(3 * count):
        heap.do("link", rng.randint(1, count), rng.randrange(3), rng.randint(0, count))
    for serial in range(1, count + 1):
        heap.do("put", serial, 1, 1000 + serial)
    members = [part for part in range(heap.parts) if rng.randrange(2)]
    if rng.randrange(5):
        for _ in range(heap.parts):
            members = sorted(set(members) | {a for a, b in heap.edges if b in members})
    roots = {name: rng.randint(1, count) for name in Collected.ROOTS if rng.randrange(4) == 0}
    return heap.collect(members, **roots)


def forests():
    """Many objects of one form, of which the collection's cost is measured with more, and how many words are used then."""
    for form, all_words, left in (("list", 1000, 500), ("tree", 1000, 500), ("arrays", 10 * 2000 + 2011, 5 * 2000 + 2011)):
        count = 2000 if form == "arrays" else 100
        for call in ("plant", "mark", "slide"):
            yield f"{form} {count} 1 {call}", left if call == "slide" else all_words
            yield f"{form} {count} 0 {call}", left


def tables():
    yield "collected from each root", list(roots_once())
    yield "collected at boundaries", list(moved())
    yield "collected by the fewest words", list(least_moved())
    yield "collected and emptied", list(emptied())
    yield "collected in three parts", list(each_of_three())
    yield "collected in one part", list(each_of_one_part())
    yield "collected by seed", [small(seed) for seed in range(400)]


def main():
    tells = sys.argv[1:] == ["stdout"]
    count = 0
    if not tells:
        print("# Rows for `cb_collection_cases`, written by bench/memory/collected.py.")
    for name, rows in tables():
        print(f"\ntable {name}")
        for row in rows:
            count += 1
            print("| " + " ".join(row.given) + (" | " + " ".join(row.told) if tells else ""))
    print("\ntable timed")
    for row, told in forests():
        count += 1
        print("| " + row + (f" | {told}" if tells else ""))
    if tells:
        print(f"\n{count} rows")


main()
