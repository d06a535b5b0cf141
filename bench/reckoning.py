"""What a plain `rt ci` is reckoned to need: the gate's own way of choosing which checks run at once, over minutes that were measured.

The memory that a check is taken to need, and which checks wait for which, are asked of the toolchain's own program. That a crate's edits begin
with a check of three fifths of their time, and at most six sevenths of the crate's, is a guess that fitted what was measured.
"""

import importlib.machinery
import importlib.util
import os
import sys

# How much of the memory of a check from nothing one over a seed takes, and each further job of one check.
OVER_SEED, A_JOB = 0.7, 0.6
# How much of the free memory is given out.
GIVEN_OUT = 0.85


def gate_of(kit):
    """The toolchain's program, as a module."""
    sys.dont_write_bytecode = True
    loader = importlib.machinery.SourceFileLoader("rt_program", f"{kit}/bin/rt")
    made = importlib.util.module_from_spec(importlib.util.spec_from_loader("rt_program", loader))
    loader.exec_module(made)
    return made


def crates_of(gate):
    """By name, lowest first: the crates below, the lines, the bytes of memory that a check is taken to need, and how many edits there are."""
    found = {}
    for it in sorted(gate.rtlib.crates_below(os.getcwd()), key=lambda it: len(it.below())):
        edits, _ = gate.edits_of(it)
        found[it.name] = [below.name for below in it.below()], it.count(rb"\n"), gate.need(it), len(edits)
    return found


def tasks_of(crates, minutes):
    """The gate's tasks: what each waits for, its lines, its memory, and its minutes."""
    tasks = {}
    for name, (below, lines, memory, edits) in crates.items():
        proof, tried = minutes.get(name, (0.0, 0.0))
        waits = [(it, "proof") for it in below]
        tasks[name, "proof"] = waits, lines, memory, proof
        seed = min(6 / 7 * proof, 3 / 5 * tried) if edits > 1 else 0.0
        if edits > 1:
            tasks[name, "seed"] = waits, 0, memory, seed
        for number in range(edits):
            after = [*waits, (name, "seed" if edits > 1 else "proof")]
            tasks[name, "edits", number] = after, lines, OVER_SEED * memory if edits > 1 else memory, (tried - seed) / edits
    return tasks


def reckoned(tasks, lanes, fixed, free):
    """The minutes by the clock: `fixed` where the number of checks at a time is said, else memory decides too."""
    behind = dict.fromkeys(tasks, 0)
    for key in reversed([*tasks]):
        behind[key] += tasks[key][1]
        for it in tasks[key][0]:
            behind[it] = max(behind[it], behind[key])
    fills = lambda it: it[1] in ("edits", "seed")
    left = sorted(tasks, key=lambda it: (fills(it), -behind[it]))
    running, ended, now = {}, set(), 0.0
    while left or running:
        ready = [it for it in left if all(below in ended for below in tasks[it][0])]
        proofs, lacks = [it for it in ready if it[1] == "proof"], False
        for at, key in enumerate(ready):
            if lacks and fills(key):
                break
            needs = tasks[key][2]
            room = GIVEN_OUT * free - sum(memory for _, memory, _ in running.values())
            idle = lanes - sum(jobs for _, _, jobs in running.values())
            if idle > 0 and (fixed or not running or needs <= room):
                left.remove(key)
                others = len(proofs) - proofs.index(key) if key in proofs else len(ready) - at
                spare = min(4, idle // others, 1 + int((room / needs - 1) / A_JOB)) if not fixed and (key in proofs or key[1] == "seed") else 1
                jobs = max(1, spare)
                running[key] = now + tasks[key][3], needs * (1 + A_JOB * (jobs - 1)), jobs
            else:
                lacks = lacks or idle > 0 and key in proofs
        first = min(running, key=lambda it: running[it][0])
        now = running.pop(first)[0]
        ended.add(first)
    return now
