#!/usr/bin/env python3
"""Times calls of the heap in parts beside those of the store that never lets go, and a plain Vec in Rust, in the same loops.

    (cd crates/cb_memory_cases && rt run < stdin)    # builds out/cb_memory_cases
    python3 bench/memory/time.py crates/cb_memory_cases/out/cb_memory_cases

The loops over the stores are those of the table `timed` of cb_memory_cases, as LLVM builds it, and that over a Vec is loops.rs, which `rustc -O` builds. A loop
is timed with all of its turns and with none, in turn over all three, and of each the least time counts. It prints nanoseconds a turn, and ratios. With the word
`count` behind it counts the processor's instructions by callgrind in place of the time.
"""
import os
import re
import resource
import subprocess
import sys
import tempfile

# What is called; how many arrays of how many words; how far on with each turn, in the list of arrays and in their words; turns
LOOPS = [
    ("get, 1,000 objects of 2 words", "get", 1000, 2, 389, 1, 20_000_000),
    ("get_ref, 1,000 objects of 2 words", "get_ref", 1000, 2, 389, 1, 20_000_000),
    ("put, 1,000 objects of 2 words", "put", 1000, 2, 389, 1, 20_000_000),
    ("get, 20,000 objects of 8 words", "get", 20_000, 8, 7919, 3, 20_000_000),
    ("get, an array of 100,000 words in order", "get", 1, 100_000, 1, 1, 20_000_000),
    ("get, an array of 100,000 words, each 7,919th", "get", 1, 100_000, 1, 7919, 20_000_000),
    ("get_ref, an array of 100,000 words in order", "get_ref", 1, 100_000, 1, 1, 20_000_000),
    ("put, an array of 100,000 words in order", "put", 1, 100_000, 1, 1, 20_000_000),
    ("put, an array of 100,000 words, each 7,919th", "put", 1, 100_000, 1, 7919, 20_000_000),
    ("place, 20,000 objects of 2 words", "place", 20_000, 2, 1, 1, 200),
    ("place, 20,000 objects of 16 words", "place", 20_000, 16, 1, 1, 200),
    ("place, an array of 100,000 words", "place", 1, 100_000, 1, 1, 200),
    ("move_words, 100,000 words by 5", "move", 1, 100_000, 1, 5, 500),
    ("move_words, 100,000 words by 256", "move", 1, 100_000, 1, 256, 500),
]
GOES = 15


def in_time(words, text):
    """Nanoseconds of a core that a process takes."""
    before = resource.getrusage(resource.RUSAGE_CHILDREN)
    subprocess.run(words, input=text.encode(), stdout=subprocess.DEVNULL, check=True)
    after = resource.getrusage(resource.RUSAGE_CHILDREN)
    return (after.ru_utime - before.ru_utime + after.ru_stime - before.ru_stime) * 1e9


def in_instructions(words, text):
    with tempfile.TemporaryDirectory() as folder:
        ran = subprocess.run(["valgrind", "--tool=callgrind", f"--callgrind-out-file={folder}/out", *words], input=text.encode(), capture_output=True, check=True)
    return int(re.search(rb"Collected : (\d+)", ran.stderr).group(1))


def main():
    program, counts = sys.argv[1], sys.argv[2:] == ["count"]
    take = in_instructions if counts else in_time
    with tempfile.TemporaryDirectory() as folder:
        loops = f"{folder}/loops"
        subprocess.run(["rustc", "-O", "-o", loops, os.path.join(os.path.dirname(__file__), "loops.rs")], check=True)
        print(f"{'':46} {'parts':>8} {'map':>8} {'Vec':>8}   to map  to Vec")
        for name, call, count, size, objects, along, turns in LOOPS:
            turns = max(turns // 1000, 4) if counts else turns
            stores = ["parts", "vec"] if call == "move" else ["parts", "map", "vec"]
            least = {}
            for _ in range(1 if counts else GOES):
                for store in stores:
                    for some in (turns, 0):
                        given = [call, str(count), str(size), str(objects), str(along), str(some)]
                        took = take([loops, *given], "") if store == "vec" else take([program], f"table timed\n| {store} {' '.join(given)}\n")
                        least[store, some] = min(took, least.get((store, some), took))
            each = turns * (count if call == "place" else size - along if call == "move" else 1)
            a = {store: (least[store, turns] - least[store, 0]) / each for store in stores}
            to_map = f"{a['parts'] / a['map']:8.2f}" if "map" in a else " " * 8
            map_is = f"{a['map']:8.2f}" if "map" in a else " " * 8
            print(f"{name:46} {a['parts']:8.2f} {map_is} {a['vec']:8.2f} {to_map} {a['parts'] / a['vec']:7.2f}", flush=True)


main()
