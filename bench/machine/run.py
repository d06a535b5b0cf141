#!/usr/bin/env python3
"""Runs programs on HotSpot and by the machine's definitions, and compares what they print and how they end.

    run.py --core CORE --built FOLDER.. [--work WORK] [--cbvm CBVM] [--at-once N] [NAME..]

Each NAME is a program under sources/: a Java source with `main`, or an assembly text (`.asm`) for what javac doesn't write. A folder
NAME.with/ has sources that are compiled with the program, and NAME.later/ sources that are compiled after it, one after the other, and take
the place of its classes of the same names. Lines at the front of a
source say more:

    // arguments: a b         the arguments, without spaces in them
    // also: c d              it is run with these arguments too, as a run of its own: the checker takes so many steps a run
    // input: "a\\n"           standard input, as a Python text, in UTF-8
    // frames: 40             the limit of frames in the definitions
    // message                the message of the uncaught exception is compared too
    // ends: exited 0         how it ends, where java's status doesn't say it
    // differs: REASON        HotSpot does otherwise, for a reason that docs/DECISIONS.md names: the next line is what is expected here
    // expected: ".."
    // steps: 20000           how many steps at most

The programs are compiled with `javac --release 8`, run on `java`, and written as terms beside a copy of cb_machine in WORK, where the
checker computes what they print: a law for each program says what `java` printed and how it ended, and its proof is `refl`.

CORE is a file with the library's class files, one a line in the order of the classes' numbers, as decimal bytes. A program over cb_core
and cb_writer prints it: in a copy of the repository, `dump.rt.txt` as crates/cb_dump/src/main.rt, a line `cb_dump: cb_plain cb_text
cb_classfile cb_writer cb_core` in crates.txt, and `rt try cb_dump`. FOLDERs have the proved libraries that cb_machine stands on, as
CRATE.rlib: those under crates/*/out/rlib where the gate has passed.
The checker is `rattle`, at /opt/rattle unless RATTLE says where. CBVM is the built `cbvm`, and only .asm sources need it.
"""
import argparse, ast, os, re, shutil, subprocess, sys, tempfile, time
import term

HERE = os.path.dirname(os.path.abspath(__file__))
ROOT = os.path.dirname(os.path.dirname(HERE))
RATTLE = os.environ.get("RATTLE", "/opt/rattle")

ENDING = '''-- What is compared of a run: what is printed, and behind it how the run has ended.
use Rattle.std.specs.Prelude.{ℤ, pos, ℕ, Bool, true, false, List, [], ◌∷◌, ◌++◌, codes, Option, Some, None, option_map, option_and_then, zero, suc}
use Rattle.std.specs.Int.{int_rem_euclid}
use Rattle.cb_machine.specs.Machine.{Machine}
use Rattle.cb_machine.specs.Performing.{reference_at, text_of}
use Rattle.cb_machine.specs.Runs.{outcome}
use Rattle.cb_machine.specs.Starting.{start}
use Rattle.cb_plain.specs.State.{Object, State}
use Rattle.cb_machine.specs.Steps.{step}
use Rattle.cb_machine.specs.Texts.{class_name, digits}
use Rattle.cb_plain.specs.Updates.{object_at}
use Rattle.cb_machine.specs.declared.outcome.Outcome.{Outcome}
use Rattle.cb_machine.specs.declared.outcome.Outcome.TheVariants.{Returned, Exited, Uncaught, Running}

abbrev or_nothing : Option (List ℕ) → List ℕ
or_nothing None = []
or_nothing (Some units) = units

-- the class of an exception, and its message where it has one and that is asked for
abbrev message : State → ℕ → List ℕ
message state zero = []
message state (suc place) = codes ": " ++ or_nothing (option_and_then (text_of state) (object_at state (suc place)))

abbrev message_of : State → Object → List ℕ
message_of state exception = or_nothing (option_map (message state) (reference_at exception 0))

abbrev if_asked : Bool → List ℕ → List ℕ
if_asked true text = text
if_asked false text = []

abbrev exception_text : Machine → Bool → State → Option Object → List ℕ
exception_text machine asked state None = codes "?"
exception_text machine asked state (Some exception) = class_name machine.program exception.kind ++ if_asked asked (message_of state exception)

abbrev ending : Machine → Bool → State → Outcome → List ℕ
ending machine asked state Returned = codes "=> returned"
ending machine asked state (Exited status) = codes "=> exited " ++ digits (int_rem_euclid status (pos 256))
ending machine asked state (Uncaught serial) = codes "=> uncaught " ++ exception_text machine asked state (object_at state serial)
ending machine asked state Running = codes "=> running"

abbrev or_same : State → Option State → State
or_same state None = state
or_same state (Some next) = next

-- after at most so many steps
abbrev ran : Machine → ℕ → State → State
ran machine zero state = state
ran machine (suc steps) state = or_same state (option_map (ran machine steps) (step machine state))

abbrev told : Machine → Bool → State → List ℕ
told machine asked state = state.printed ++ ending machine asked state (outcome state)

abbrev pub seen : Machine → Bool → List (List ℕ) → List ℕ → ℕ → List ℕ
seen machine asked arguments input steps = told machine asked (ran machine steps (start machine arguments input))
'''

ANSWER = '''use Rattle.std.proofs.Common.{refl}
use Rattle.std.specs.Char.{encode_utf8}
use Rattle.std.specs.Char.Utf16.{utf16_chars}
use Rattle.std.specs.Fmt.{digits}
use Rattle.std.specs.Int.{int_wrap}
use Rattle.cb_machine.proofs.trial.@.Goals as goal

pub returns-clause-tells : goal.returns-clause-tells
unfolding int_wrap digits encode_utf8 utf16_chars
returns-clause-tells c = refl

-- a second clause, so that the first one stands alone
pub returns-clause-stands : goal.returns-clause-stands
returns-clause-stands c = refl
'''


def sh(*command, **more):
    return subprocess.run(command, capture_output=True, **more)


def must(*command, **more):
    done = sh(*command, **more)
    if done.returncode: sys.exit(" ".join(command) + "\n" + done.stdout.decode() + done.stderr.decode())
    return done


def snake(name):
    """The name of a run's law, which is no word of Rattle."""
    return "run_" + re.sub(r"(?<!^)([A-Z])", r"_\1", name).lower()


def module(name):
    return "Trial" + name


class Source:
    """A run of a program under sources/, with what its first lines say. Runs are told apart by a number behind the name."""
    def __init__(self, name, turn=0):
        self.name = name
        self.label = name + (str(turn) if turn else "")
        self.path = next(p for p in (f"{HERE}/sources/{name}.java", f"{HERE}/sources/{name}.asm") if os.path.exists(p))
        self.beside = self.files(f"{HERE}/sources/{name}.with")
        self.later = self.files(f"{HERE}/sources/{name}.later")
        self.says, self.others = {}, []
        with open(self.path) as f:
            for line in f:
                m = re.match(r"// ([a-z]+)(?:: (.*))?$", line.rstrip("\n"))
                if not m: break
                if m[1] == "also": self.others.append(m[2].split())
                else: self.says[m[1]] = m[2] or ""
        self.arguments = self.others[turn - 1] if turn else self.says.get("arguments", "").split()
        self.input = ast.literal_eval(self.says.get("input", '""')).encode()
        self.frames = int(self.says.get("frames", "4096"))
        self.steps = int(self.says.get("steps", "30000"))
        self.message = "message" in self.says

    def files(self, folder):
        return [os.path.join(folder, f) for f in sorted(os.listdir(folder))] if os.path.isdir(folder) else []

    def newest(self):
        return max(os.path.getmtime(f) for f in [self.path] + self.beside + self.later)

    def compile(self, folder, cbvm):
        """Assembles the program, or says with which arguments javac compiles it, where that wasn't done."""
        if os.path.exists(folder + "/done") and os.path.getmtime(folder + "/done") > self.newest(): return []
        shutil.rmtree(folder, ignore_errors=True)
        os.makedirs(folder)
        options = ["--release", "8", "-Xlint:none", "-nowarn", "-encoding", "UTF-8", "-d", folder]
        if self.path.endswith(".java"):
            return [options + [self.path] + self.beside] + [options + ["-cp", folder, one] for one in self.later]
        done = sh(cbvm, "asm", stdin=open(self.path, "rb"))
        if done.returncode: sys.exit(f"{self.path}: {done.stderr.decode()}")
        open(f"{folder}/{self.name}.class", "wb").write(done.stdout)
        return []

    def expected(self, folder):
        """What java prints, and behind it how it ends."""
        kept = f"{folder}/expected-{self.label}"
        if not os.path.exists(kept): open(kept, "wb").write(self.ran(folder))
        said = open(kept, "rb").read()
        if "differs" not in self.says: return said
        here = ast.literal_eval(self.says["expected"]).encode()
        if here == said: print(f"{self.name}: HotSpot doesn't differ")
        return here

    def ran(self, folder):
        done = sh("java", "-XX:TieredStopAtLevel=1", "-Dfile.encoding=UTF-8", "-cp", folder, self.name, *self.arguments, input=self.input)
        error = done.stderr.decode(errors="replace")
        m = re.search(r'Exception in thread "main" ([\w.$]+)(?:: (.*))?', error)
        if m:
            end = "uncaught " + m[1] + (": " + m[2] if self.message and m[2] is not None else "")
        elif done.returncode: end = f"exited {done.returncode}"
        else: end = self.says.get("ends", "returned")
        if error and not m: print(f"{self.name}: java said {error[:300]}")
        return done.stdout + b"=> " + end.encode()

    def classes(self, folder):
        files = [os.path.relpath(os.path.join(at, f), folder) for at, _, some in os.walk(folder) for f in some if f.endswith(".class")]
        names = sorted(f[:-6] for f in files)
        return [term.Class(open(f"{folder}/{n}.class", "rb").read()) for n in [self.name] + [n for n in names if n != self.name]]


def literal(data):
    """Bytes as a term."""
    parts, i = [], 0
    for m in re.finditer(rb"[\n\x20-\x7e]+|[^\n\x20-\x7e]+", data):
        if 32 <= m[0][0] < 127 or m[0][0] == 10:
            s = m[0].decode().replace("\\", "\\\\").replace('"', '\\"').replace("\n", "\\n")
            parts.append(f'codes "{s}"')
        else:
            parts.append(term.lst([str(b) for b in m[0]]))
    return " ++ ".join(parts) or "[]"


def units_of(argument):
    data = argument.encode("utf-16-be")
    return [data[i] << 8 | data[i + 1] for i in range(0, len(data), 2)]


def write_core(core, out):
    with open(out, "w") as f:
        f.write("-- The library's classes as terms: written by bench/machine.\n" + term.HEAD)
        for i, c in enumerate(core): f.write(f"\nabbrev pub class{i} : ClassFile\nclass{i} =\n    {term.class_term(c)}\n")


def write_program(source, core, folder, out):
    own = source.classes(folder)
    program = term.Program(core, own, source.name)
    shared = ", ".join(["insn", "method", "field", "site"] + [f"class{i}" for i in range(len(core))])
    head = term.HEAD[:term.HEAD.index("\nabbrev")]
    with open(out, "w") as f:
        f.write(f"-- {source.label}: written by bench/machine.\n" + head)
        f.write(f"use Rattle.cb_machine.specs.Machine.{{Machine}}\nuse Rattle.cb_machine.specs.TrialCore.{{{shared}}}\nuse Rattle.cb_machine.specs.TrialEnding.{{seen as seen_of}}\n")
        for i, c in enumerate(own): f.write(f"\nabbrev class{len(core) + i} : ClassFile\nclass{len(core) + i} =\n    {term.class_term(c)}\n")
        f.write(f"\nabbrev program : Linked\nprogram =\n  {program.term()}\n")
        f.write(f"\nabbrev machine : Machine\nmachine = record {{ program = program; frames = {source.frames} }}\n")
        arguments = term.lst([term.lst([str(u) for u in units_of(a)]) for a in source.arguments])
        f.write(f"\nabbrev pub seen : List ℕ\nseen = seen_of machine {'true' if source.message else 'false'} {arguments} {term.lst([str(b) for b in source.input])} {source.steps}\n")
    return program


def check(crate, built, names, jobs):
    """Checks the laws of programs in a crate, and says for each whether it holds."""
    deps = [l.split(":")[1].split() for l in open(ROOT + "/crates.txt") if l.startswith("cb_machine:")][0]
    command = [RATTLE + "/bin/rattle", "check", "--crate-name", "cb_machine", "src/lib.rt", "--extern", f"std={RATTLE}/rlibs/std.rlib", "-L", f"dependency={RATTLE}/rlibs"]
    for d in deps:
        command += ["--extern", f"{d}=" + next(f"{b}/{d}.rlib" for b in built + [RATTLE + "/rlibs"] if os.path.exists(f"{b}/{d}.rlib"))]
    for b in built: command += ["-L", "dependency=" + b]
    command += ["--antt-project", RATTLE + "/rattle/logic/antt-project.json", "--logic-built", RATTLE + "/logic_built", "--links", "cb_machine=", "--jobs", str(jobs)]
    for n in names: command += ["--only", f"cb_machine::trial::{snake(n)}"]
    begun = time.time(), os.times()
    done = sh(*command, cwd=crate)
    now = os.times()
    said = done.stdout.decode() + done.stderr.decode()
    good = {n for n in names if f"fn cb_machine::trial::{snake(n)}: proved" in said}
    return good, said, time.time() - begun[0], now.children_user - begun[1].children_user


def stopped(label, said):
    """The checker has not compared what a run prints: it stopped at its limit of steps."""
    return re.search(rf"trial/{snake(label)}/Answers\.antt.*stopped at the step limit", said)


def prepare(crate, core, sources, folders, expected):
    shutil.rmtree(crate, ignore_errors=True)
    shutil.copytree(ROOT + "/crates/cb_machine", crate, ignore=shutil.ignore_patterns("out", "must-fail"))
    write_core(core, crate + "/specs/TrialCore.antt")
    open(crate + "/specs/TrialEnding.antt", "w").write(ENDING)
    for s in sources:
        write_program(s, core, folders[s.name], f"{crate}/specs/{module(s.label)}.antt")
        os.makedirs(f"{crate}/proofs/trial/{snake(s.label)}")
        open(f"{crate}/proofs/trial/{snake(s.label)}/Answers.antt", "w").write(ANSWER.replace("@", snake(s.label)))
    modules = sorted(f[:-5] for f in os.listdir(crate + "/specs") if f.endswith(".antt") and f != "Lib.antt")
    open(crate + "/specs/Lib.antt", "w").write("".join(f"pub mod {m}\n" for m in modules))
    with open(crate + "/src/trial.rt", "w") as f:
        f.write("// What programs print and how they end: written by bench/machine.\nghost use Rattle.std.specs.Prelude.{◌≡◌, ◌++◌, [], ◌∷◌, codes};\n")
        for s in sources: f.write(f"ghost use Rattle.cb_machine.specs.{module(s.label)}.{{seen as {snake(s.label)}_seen}};\n")
        for s in sources:
            law = f"{snake(s.label)}_seen ≡ {literal(expected[s.label])}"
            f.write(f"\n/// {s.label}.\npub fn {snake(s.label)}()\n    ensures tells {{ {law} }}\n    ensures stands {{ [] ≡ codes \"\" }}\n{{}}\n")
    lib = open(crate + "/src/lib.rt").read()
    names = ", ".join(snake(s.label) for s in sources)
    lib = lib.replace("\nmod ", "\nmod trial;\nmod ", 1) + f"pub use trial::{{{names}}};\n"
    open(crate + "/src/lib.rt", "w").write(lib)


def main():
    p = argparse.ArgumentParser()
    p.add_argument("names", nargs="*")
    p.add_argument("--core", required=True)
    p.add_argument("--built", action="append", default=[])
    p.add_argument("--work")
    p.add_argument("--cbvm", default="cbvm")
    p.add_argument("--at-once", type=int, default=14)
    p.add_argument("--jobs", type=int, default=1)
    p.add_argument("--only-java", action="store_true", help="compile and run on java, and print what is expected")
    p.add_argument("--table", help="write the table of what the programs execute to this file, and check nothing")
    p.add_argument("--of-code", action="store_true", help="with --table: by the code of the programs, and not by what ran in a debugger")
    p.add_argument("--wrong", action="store_true", help="expect what isn't so, to see what the checker says")
    o = p.parse_args()
    names = o.names or sorted(re.sub(r"\.(java|asm)$", "", f) for f in os.listdir(HERE + "/sources") if re.search(r"\.(java|asm)$", f))
    work = o.work or tempfile.mkdtemp(prefix="machine-")
    core = [term.Class(bytes(map(int, line.split()))) for line in open(o.core)]
    firsts, folders, expected = [Source(n) for n in names], {}, {}
    sources = [run for s in firsts for run in [s] + [Source(s.name, turn + 1) for turn in range(len(s.others))]]
    for s in sources: folders[s.name] = f"{work}/classes/{s.name}"
    lines = [line for s in firsts for line in s.compile(folders[s.name], o.cbvm)]
    if lines: must("java", HERE + "/Compile.java", input="".join("\t".join(line) + "\n" for line in lines).encode())
    for s in sources:
        open(folders[s.name] + "/done", "w").close()
        expected[s.label] = s.expected(folders[s.name])
        if o.wrong: expected[s.label] = b"wrong"
        if o.only_java: print(f"--- {s.label}\n{expected[s.label].decode(errors='replace')}")
    if o.table:
        import table
        jdi = None if o.of_code else f"{work}/jdi"
        if jdi:
            os.makedirs(jdi, exist_ok=True)
            must("javac", "-d", jdi, HERE + "/Executed.java")
        table.write(sources, folders, core, jdi, o.table)
    if o.only_java or o.table: return
    differing, seconds = [], 0
    for i in range(0, len(sources), o.at_once):
        some = sources[i:i + o.at_once]
        crate = f"{work}/crates/cb_machine"
        prepare(crate, core, some, folders, expected)
        good, said, wall, user = check(crate, o.built, [s.label for s in some], o.jobs)
        open(f"{work}/check{i // o.at_once}.log", "w").write(said)
        for s in some: print(f"{s.label}: {'the same' if s.label in good else 'too long' if stopped(s.label, said) else 'DIFFERS'}")
        differing += [s.label for s in some if s.label not in good]
        seconds += user
        print(f"# {len(some)} programs, {wall:.0f} s, {user:.0f} s of a core", flush=True)
    print(f"# {len(sources)} programs, {len(differing)} differ, {seconds:.0f} s of a core; in {work}")
    sys.exit(1 if differing else 0)


if __name__ == "__main__":
    main()
