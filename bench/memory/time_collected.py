#!/usr/bin/env python3
"""Times marking and sliding of the heap in parts beside a plain Vec in Rust, in the same passes.

    (cd crates/cb_collection_cases && rt run < stdin)    # builds out/cb_collection_cases
    python3 bench/memory/time_collected.py crates/cb_collection_cases/out/cb_collection_cases

Both place the same objects, of the forms of the table `timed` of cb_collection_cases, as LLVM builds it, and of collect.rs, which `rustc -O` builds. Each is run up to
where the objects are placed, where they are marked, and where they were slid, in turn over both; of each the least time counts, and marking and sliding are what lies
between. It prints nanoseconds a word of what is marked, or for sliding a word of all objects, and ratios. With the word `count` behind it counts the processor's
instructions by callgrind in place of the time, at a tenth of the objects.
"""
import os
import re
import resource
import subprocess
import sys
import tempfile

FORMS = ["list", "tree", "arrays"]
CALLS = ["plant", "mark", "slide"]
COUNT = 1_000_000
GOES = 15


def in_time(words, text):
    """Nanoseconds of a core that a process takes, and what it prints."""
    before = resource.getrusage(resource.RUSAGE_CHILDREN)
    ran = subprocess.run(words, input=text.encode(), capture_output=True, check=True)
    after = resource.getrusage(resource.RUSAGE_CHILDREN)
    return (after.ru_utime - before.ru_utime + after.ru_stime - before.ru_stime) * 1e9, ran.stdout


def in_instructions(words, text):
    ran = subprocess.run(["valgrind", "--tool=callgrind", "--callgrind-out-file=/dev/null", *words], input=text.encode(), capture_output=True, check=True)
    return int(re.search(rb"Collected : (\d+)", ran.stderr).group(1)), ran.stdout


def main():
    program, counts = sys.argv[1], sys.argv[2:] == ["count"]
    take, count, goes = (in_instructions, COUNT // 10, 1) if counts else (in_time, COUNT, GOES)
    with tempfile.TemporaryDirectory() as folder:
        plain = f"{folder}/collect"
        subprocess.run(["rustc", "-O", "-o", plain, os.path.join(os.path.dirname(__file__), "collect.rs")], check=True)
        print(f"{'':34} {'parts':>8} {'Vec':>8}  ratio")
        for form in FORMS:
            for gaps in (0, 1):
                least, left = {}, {}
                for _ in range(goes):
                    for call in CALLS:
                        row = [form, str(count), str(gaps), call]
                        for way, took in ("parts", take([program], f"table timed\n| {' '.join(row)}\n")), ("vec", take([plain, *row], "")):
                            least[way, call] = min(took[0], least.get((way, call), took[0]))
                            left[way, call] = int(re.findall(rb"\d+", took[1])[-2 if way == "parts" else -1])
                assert all(left["parts", call] == left["vec", call] for call in CALLS), left
                for before, call in zip(CALLS, CALLS[1:]):
                    words = left["vec", "slide" if call == "mark" else "mark"]
                    a, b = ((least[way, call] - least[way, before]) / words for way in ("parts", "vec"))
                    print(f"{call + ', ' + form + (', each second goes' if gaps else ''):34} {a:8.2f} {b:8.2f} {a / b:6.2f}", flush=True)


main()
