#!/usr/bin/env python3
"""Writes behind each case that runs a program to its end the same run in the fewest blocks in which it prints the same.

    fewest.py CB_CASES [--write]

CB_CASES is the program `cb_cases`. The texts are those of crates/cb_cases/data, in the order of crates/cb_cases/stdin. A case counts that runs a
program without `--blocks`, outside of a repetition, and isn't followed by such a case yet. In one block less the heap is full, which is tried too. Without `--write` the numbers are
printed alone; with it the texts get the cases, and `stdout` what those before them print, behind each. What was written before stays.
"""

import pathlib
import re
import subprocess
import sys
import tempfile

CRATE = pathlib.Path(__file__).resolve().parents[2] / "crates" / "cb_cases"
TITLE = "the same in "
ENDED = re.compile(r"status \d+ (Returned|Exited|Uncaught|BudgetSpent|InputFault|OutputFault|ErrFault)")
MOST = 16384


class Run:
    """A case that runs a program: the place behind its command, its lines of words and calls, and the words."""

    def __init__(self, place, number, lines, command):
        self.place, self.number, self.lines, self.command = place, number, lines, command

    def again(self, title, blocks):
        """The lines of the same run in so many blocks."""
        lines, command = list(self.lines), self.command
        first = next((i for i, line in enumerate(lines) if line.split()[0] == "word"), None)
        if first is None:
            command = command.replace("run", f"run --blocks {blocks}", 1)
        else:
            lines[first + 1 : first + 1] = ["word --blocks", f"word {blocks}"]
        return ["", f"again {title}", *lines, f"command {command}".rstrip()]


def texts():
    names = [line for line in (CRATE / "stdin").read_text().splitlines() if line and line[0] != "#"]
    return {name: (CRATE / "data" / name).read_text().splitlines() for name in names}


def runs_of(lines, begun):
    """The runs of a text, and how many cases there are in all then."""
    found, within, given = [], False, []
    for place, line in enumerate(lines):
        keyword, _, rest = line.strip().partition(" ")
        if keyword == "repeat":
            within = True
            first, last = map(int, rest.split())
            repeated = 0
        elif keyword == "end" and within:
            within, begun = False, begun + repeated * (last - first + 1)
        elif keyword in ("case", "again"):
            given = []
            if within:
                repeated += 1
            else:
                begun += 1
        elif keyword == "word" or keyword in ("folder", "input", "out", "err") and rest:
            given.append(line)
        elif keyword == "command" and not within:
            words = [it.partition(" ")[2] for it in given if it.split()[0] == "word"] + rest.split()
            is_there = any(it.startswith(f"again {TITLE}") for it in lines[place + 1 : place + 3])
            if words[:1] == ["run"] and "--blocks" not in words and not is_there:
                found.append(Run(place + 1, begun, given, rest))
    return found, begun


def printed(program, all_lines):
    """What the program prints of texts, by case."""
    with tempfile.TemporaryDirectory() as folder:
        data = pathlib.Path(folder)
        for file in (CRATE / "data").iterdir():
            (data / file.name).symlink_to(file)
        for name, lines in all_lines.items():
            (data / name).unlink()
            (data / name).write_text("\n".join(lines) + "\n")
        done = subprocess.run([program], input="\n".join(all_lines) + "\n", capture_output=True, text=True, cwd=folder, check=False)
    return re.split(r"(?m)^case ", done.stdout)[1:]


def tried(program, wanted):
    """Whether each of some runs prints the same in so many blocks, and whether it is the heap that is full."""
    changed, order = {}, []
    for name, lines in texts().items():
        lines, shift = list(lines), 0
        for run, blocks in (it for it in wanted if it[0].text == name):
            more = run.again("probe", blocks)
            lines[run.place + shift : run.place + shift] = more
            shift += len(more)
            order.append(run)
        changed[name] = lines
    answers, last = [], None
    for case in printed(program, changed):
        title, _, rest = case.partition("\n")
        rest = "\n".join(it for it in rest.strip().splitlines() if not it.startswith("tally") and not re.fullmatch(r"\d+ cases|\d+ lines in trouble|\w+\.txt \d+ .*", it)).strip()
        if title == "probe":
            answers.append((rest == last, "HeapFull" in rest))
        else:
            last = rest
    assert len(answers) == len(order), (len(answers), len(order))
    return answers


def main():
    program = pathlib.Path(sys.argv[1]).resolve()
    told, runs, begun = printed(program, texts()), [], 0
    for name, lines in texts().items():
        found, begun = runs_of(lines, begun)
        for run in found:
            run.text = name
        runs += found
    assert begun == len(told), (begun, len(told))
    runs = [run for run in runs if ENDED.search(told[run.number - 1])]
    low, high = {run: 0 for run in runs}, {run: MOST for run in runs}
    while any(high[run] - low[run] > 1 for run in runs):
        open_runs = [run for run in runs if high[run] - low[run] > 1]
        middles = [(run, min((low[run] + high[run]) // 2, 2 * low[run] + 1)) for run in open_runs]
        for (run, blocks), (same, full) in zip(middles, tried(program, middles)):
            assert same or full, (run.text, run.place, blocks)
            (high if same else low)[run] = blocks
    for run in runs:
        print(run.text, run.place, run.command, high[run])
    if "--write" not in sys.argv:
        return
    by_number = {run.number: run for run in runs}
    out = []
    for number, case in enumerate(told, 1):
        case = "case " + case.rstrip("\n")
        end = re.search(r"\n\n\d+ cases$", case)
        if end:
            case = case[: end.start()]
        out.append(case)
        if number in by_number:
            lines = [it for it in case.split("\n")[1:] if not it.startswith("tally")]
            out.append("\n".join([f"case {title_of(high[by_number[number]])}", *lines]))
    for name, lines in texts().items():
        lines, shift = list(lines), 0
        for run in (it for it in runs if it.text == name):
            more = run.again(title_of(high[run]), high[run])
            lines[run.place + shift : run.place + shift] = more
            shift += len(more)
        (CRATE / "data" / name).write_text("\n".join(lines) + "\n")
    (CRATE / "stdout").write_text("\n\n".join(out) + f"\n\n{len(out)} cases\n")


def title_of(blocks):
    return f"{TITLE}{blocks} blocks" if blocks > 1 else f"{TITLE}one block"


main()
