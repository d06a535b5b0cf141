#!/usr/bin/env python3
"""Checks that everything the documents name exists, and that every link leads somewhere.

    bench/documents/check.py [--names] [DOCUMENT..]

Without words it reads README.md, CONTRIBUTING.md and docs/*.md. It needs `git` and nothing else, takes a second or two, and is no part of
the gate. It prints a line for each fault, with the document and the line, and ends with status 1 if there is one.

What it checks:

- A link to a file of the repository: the file exists, and so does the heading behind `#`. Links to other hosts are not followed.
- A path in a code span or a code block (`crates/cb_link/src/joined.rt`, `cb_link/specs/Joined.antt`, `joined.rt`): the file exists. A
  name like `Turns..` or `Inner*.antt` stands for all files that begin so, and NAME, FOLDER, PATH and CRATE for any name.
- A crate (`cb_link`): `crates.txt` lists it. docs/ARCHITECTURE.md and docs/PROOFS.md must name every crate that is listed, and
  the first of them in an order in which each crate stands behind those that it stands on.
- A name in a code span (`run_command`, `IsAnswer`, `Store`): some source declares it, or it is a word of Java, of a command or of a format
  (lists below, and the names of docs/LIBRARY.md). `--names` prints where each was found.
- A table with the columns "call" and "clause": the calls are public in the crate of the heading above, and the clauses are theirs.
- A table with a column "file": each name in the first column is declared in that file, where that column has code spans of names.
"""

import fnmatch
import pathlib
import re
import subprocess
import sys

TOP = pathlib.Path(__file__).resolve().parents[2]
SPAN = re.compile(r"(`+)(.+?)\1")
LINK = re.compile(r"(?<!!)\[[^\]]*\]\(([^)\s]+)\)")
NAME = re.compile(r"^[A-Za-z_][A-Za-z0-9_-]*$")
PATH = re.compile(r"^[\w.$*+-]+(/[\w.$*+-]+)*/?$")
ENDINGS = (".rt", ".antt", ".md", ".asm", ".java", ".py", ".txt", ".class", ".edit", ".expected", ".input")

# Words in code spans that no source of the repository declares.
WORDS = set("""
run list asm stdin stdout args status data src specs proofs out must-fail rt cbvm java javac javap git perf nice clang LLVM
requires ensures ghost record data abbrev search grind omega refl law proves no-ensures check use impl Model file old new
main null this top any new interface true false void int long char boolean byte short float double native synchronized finalize
abstract static final public private protected switch try catch throw throws new class enum instanceof assert for if while
invokedynamic wide jsr ret monitorenter monitorexit monitor E1 E2 E3 E4 E5 E6 E7 E8 E9
FOLDER MAIN ARGS PATH NAME MEMBER METHOD PC ITEM MAJOR N LIVE ASKED LIMIT CLASS MESSAGE STATUS CRATE OWN RT_JOBS
class implements field method end limits label catch frame text locals stack f
ArrayList HashMap Thread Appendable Byte Short WeakReference ClassNode finally trim nanoTime printStackTrace countI
expect expect-requires loop-i-preserved FIRST_PROOFS.md SHORTER_PROOFS.md getLocalizedMessage fillInStackTrace initCause nproc autogroup SIGSTOP Display AllocError push-pop
field_info method_info attribute_info ACC_ bit0 u1 u2 u4 u8 s1 s2 s4 inline
Code ConstantValue StackMapTable Class String Utf8 Integer Long Float Double Fieldref Methodref InterfaceMethodref NameAndType
MethodHandle MethodType InvokeDynamic Gap Nothing Number Pool Local Increase Branch Table Lookup Interface ArrayCode Dimensions
now entry exit initial thiserror itoa indexmap bitflags Vec Option Result None Some Ok Err Box bool unreachable
CAFEBABE B C D F I J S Z V L U
""".split())


def tracked():
    """The files of the repository, new ones too, as paths from the top."""
    words = ["git", "-C", str(TOP), "ls-files", "-co", "--exclude-standard"]
    return sorted(set(subprocess.run(words, check=True, capture_output=True, text=True).stdout.splitlines()))


def closing(text, at):
    """The place behind the brace that closes the one at a place."""
    depth = 0
    for place in range(at, len(text)):
        depth += {"{": 1, "}": -1}.get(text[place], 0)
        if depth == 0:
            return place + 1
    return len(text)


CLAUSE = re.compile(r"\s*(?:(requires|ensures)\b[^\S\n]*([a-z_0-9«»]*)|ghost\s+\w+\s*:|decreases\b)\s*(?=\{)")
FUNCTION = re.compile(r"^[ \t]*(pub(?:\([a-z]+\))? )?(?:const )?fn ([a-z_0-9]+)", re.M)


def functions(text):
    """Of each function of a source its name, whether it is public, and the names of its clauses."""
    for found in FUNCTION.finditer(text):
        head = re.compile(r"[^{;]*?(?=\s*\n?\s*(?:requires|ensures|ghost|decreases)\b|\s*[{;])").match(text, found.end())
        at, clauses = head.end(), set()
        while clause := CLAUSE.match(text, at):
            if clause[1]:
                clauses.add(clause[2])
            at = closing(text, clause.end())
        yield found[2], bool(found[1]) and "(" not in found[1], clauses


def declared(path, text):
    """The names that a source declares."""
    names = set()
    if path.endswith(".rt"):
        names.update(re.findall(r"\b(?:fn|struct|enum|trait|type|const|static|mod|macro_rules!)\s+([A-Za-z_]\w*)", text))
        names.update(re.findall(r"\b(?:requires|ensures)[^\S\n]+([a-z_0-9]+)[^\S\n]*\{", text))
        names.update(re.findall(r"\bghost\s+(\w+)\s*[:=]", text))
        names.update(re.findall(r"^\s+(?:pub(?:\(\w+\))? )?([a-z_]\w*): ", text, re.M))
        for body in re.finditer(r"\benum \w+[^{]*\{", text):
            variants = text[body.end() - 1:closing(text, body.end() - 1)]
            names.update(re.findall(r"^\s+([A-Z]\w*)\s*(?:[,({=]|$)", variants, re.M))
    else:
        names.update(re.findall(r"^\s*(?:abbrev|record|data|lemma|theorem|def)?\s*(?:pub\s+)?(?:record|data|abbrev)?\s*(?:pub\s+)?([A-Za-z_][\w-]*)\s*[:({]", text, re.M))
        names.update(re.findall(r"\b(?:abbrev|record|data)\s+(?:pub\s+)?([A-Za-z_][\w-]*)", text))
        names.add(pathlib.PurePath(path).stem)
    return names


class Sources:
    """What the repository has: files, crates, and by crate what each source declares."""

    def __init__(self):
        self.files = tracked()
        self.folders = {str(parent) for file in self.files for parent in pathlib.PurePath(file).parents}
        self.crates = re.findall(r"^(\w+):", (TOP / "crates.txt").read_text(), re.M)
        self.declares, self.calls = {}, {}
        for file in self.files:
            if file.endswith((".rt", ".antt")):
                text = (TOP / file).read_text()
                self.declares[file] = declared(file, text)
                if file.endswith(".rt"):
                    crate = file.split("/")[1]
                    trait = re.search(r"\bpub trait ", text)
                    for name, public, clauses in functions(text):
                        self.calls.setdefault((crate, name), []).append((public or bool(trait), clauses))
        self.where = {}
        for file, names in self.declares.items():
            for name in names:
                self.where.setdefault(name, file)
        opcodes = (TOP / "crates/cb_insn/src/opcode.rt").read_text()
        self.opcodes = {name.lower() for name in re.findall(r"const (\w+)", opcodes)}
        self.java = set(re.findall(r"[A-Za-z_]\w*", (TOP / "docs/LIBRARY.md").read_text()))
        for file in self.files:
            if file.startswith("crates/cb_library/specs/"):
                self.java.update(re.findall(r'"(\w+)"', (TOP / file).read_text()))
        self.plain = set()
        for file in self.files:
            path = pathlib.PurePath(file)
            self.plain.update({path.name, path.stem})

    def path_found(self, path, crate):
        """Whether a path leads to a file or a folder, from the top, from crates/, or as the name of a file of some crate."""
        path = re.sub(r"\b(NAME|FOLDER|PATH|CRATE|[A-Z]+_[A-Z_]+)\b", "*", path.rstrip("/").removeprefix("./"))
        if path in ENDINGS or path.removeprefix("*").removeprefix("/") in ("", *(f"*{ending}" for ending in ENDINGS)):
            return True
        if path.endswith(".."):
            path = path[:-2] + "*"
        if "*" in path:
            return any(fnmatch.fnmatch(one, f"{start}{path}") for one in (*self.files, *self.folders) for start in ("", "*/", "crates/"))
        tries = [path, f"crates/{path}", f"docs/{path}", f"bench/{path}", *(f"crates/{crate}/{part}/{path}" for part in ("", "src", "specs", "proofs"))]
        if any(one.replace("//", "/") in self.files or one in self.folders for one in tries):
            return True
        if path.startswith("cb_"):
            return any(file.startswith(f"crates/{path}.") for file in self.files)
        return any(file.endswith(f"/{path}") or f"/{path}/" in file for file in self.files)

    def name_found(self, name):
        """Where a name is declared, or None."""
        for known, word in ((self.crates, "a crate"), (self.opcodes, "an opcode"), (WORDS, "a word"), (self.java, "Java"), (self.plain, "a file")):
            if name in known:
                return word
        return self.where.get(name)


def slug(heading):
    """The anchor that a heading gets."""
    text = re.sub(r"[`*]", "", heading).strip().lower()
    return re.sub(r"[^\w\- ]", "", text).replace(" ", "-")


def headings(path):
    """The anchors of a document."""
    found = set()
    for line in (TOP / path).read_text().splitlines():
        if heading := re.match(r"#+ (.*)", line):
            base, number = slug(heading[1]), 0
            name = base
            while name in found:
                number += 1
                name = f"{base}-{number}"
            found.add(name)
    return found


class Document:
    """A document, read line by line."""

    def __init__(self, path, sources, tell):
        self.path, self.sources, self.tell = path, sources, tell
        self.crate, self.columns, self.fenced, self.listed = None, None, False, False

    def fault(self, number, text):
        print(f"{self.path}:{number}: {text}")
        self.tell.append(text)

    def read(self):
        for number, line in enumerate((TOP / self.path).read_text().splitlines(), 1):
            if line.startswith("```"):
                self.fenced = not self.fenced
            elif self.fenced or line.startswith("    ") and not self.listed:
                self.block(number, line)
            else:
                if line and not line.startswith(" ") or re.match(r" *(-|\d+\.) ", line):
                    self.listed = bool(re.match(r" *(-|\d+\.) ", line))
                self.prose(number, line)

    def block(self, number, line):
        """The paths in a line of a code block."""
        for word in re.findall(r"(?<![\w/.$])(?:\./)?(?:crates|docs|bench|examples|\.ci)/[\w./$*+-]+", line):
            if not self.sources.path_found(word.rstrip(".,:"), self.crate):
                self.fault(number, f"no file {word}")

    def prose(self, number, line):
        if heading := re.match(r"#+ (.*)", line):
            crates = [name for name in re.findall(r"`(\w+)`", heading[1]) if name in self.sources.crates]
            self.crate = crates[0] if crates else None
            self.columns = None
        for target in LINK.findall(line):
            self.link(number, target)
        for _, span in SPAN.findall(line):
            self.span(number, span.strip())
        self.row(number, line)

    def link(self, number, target):
        if re.match(r"[a-z]+:", target):
            return
        file, _, anchor = target.partition("#")
        where = (TOP / self.path).parent / file if file else TOP / self.path
        if not where.exists():
            self.fault(number, f"the link {target} leads nowhere")
        elif anchor and where.suffix == ".md" and anchor not in headings(where.resolve().relative_to(TOP)):
            self.fault(number, f"{target} has no such heading")

    def span(self, number, span):
        """A code span: a path, a name, or words of which those are looked at that are paths."""
        if " " in span:
            self.block(number, span)
        elif span.endswith(ENDINGS) or span.startswith(("crates/", "docs/", "bench/", "examples/", "cb_")) and "/" in span:
            if PATH.match(span) and span not in WORDS and not self.sources.path_found(span, self.crate):
                self.fault(number, f"no file {span}")
        elif span.endswith("..") and NAME.match(span[:-2]):
            if not any(name.startswith(span[:-2]) for name in self.sources.where):
                self.fault(number, f"nothing begins with {span}")
        else:
            for name in span.removesuffix("()").split("::"):
                if NAME.match(name):
                    self.name(number, name)

    def name(self, number, name):
        where = self.sources.name_found(name)
        if where is None:
            self.fault(number, f"nothing is named {name}")
        elif "--names" in sys.argv:
            print(f"{self.path}:{number}: {name} is in {where}")

    def row(self, number, line):
        """A row of a table: the calls and clauses in it, or the names and their file."""
        if not line.startswith("|"):
            self.columns = None
            return
        cells = [cell.strip() for cell in re.split(r"(?<!\\)\|", line.strip().strip("|"))]
        if self.columns is None:
            self.columns = [cell.lower() for cell in cells]
            return
        if len(cells) != len(self.columns):
            self.fault(number, f"a row of {len(cells)} cells in a table of {len(self.columns)}")
            return
        row = dict(zip(self.columns, cells))
        if "call" in row and "clause" in row and self.crate:
            self.calls(number, names_in(row["call"]), names_in(row["clause"]))
        if "file" in row and self.columns[0] != "file":
            self.declared(number, names_in(cells[0]), re.findall(r"`([^`]+)`", row["file"]))

    def calls(self, number, calls, clauses):
        known = set()
        for call in calls:
            found = self.sources.calls.get((self.crate, call.rpartition("::")[2]), [])
            if not any(public for public, _ in found):
                self.fault(number, f"{self.crate} has no public call {call}")
            for _, own in found:
                known |= own
        for clause in clauses:
            if clause not in known:
                self.fault(number, f"no clause {clause} of {', '.join(calls)}")

    def declared(self, number, names, files):
        paths = [path for file in files for path in self.sources.declares if path.endswith(file.removeprefix("crates/"))]
        for file in files:
            if file.endswith((".rt", ".antt")) and not any(path.endswith(file.removeprefix("crates/")) for path in paths):
                self.fault(number, f"no file {file}")
        for name in names:
            if paths and not any(name in self.sources.declares[path] for path in paths):
                self.fault(number, f"{name} is not declared in {', '.join(files)}")


def names_in(cell):
    """The names in the code spans of a cell."""
    return [name for name in re.findall(r"`([^`]+)`", cell) if NAME.match(name.rpartition("::")[2])]


def out_of_order(crates):
    """The crates that stand in the tables of docs/ARCHITECTURE.md above one on which they stand."""
    text = (TOP / "docs/ARCHITECTURE.md").read_text()
    places = {crate: text.find(f"\n| `{crate}`") for crate in crates}
    places.update({crate: place for crate in crates if places[crate] < 0 and (place := text.find(f"`{crate}`")) >= 0})
    found = []
    for line in (TOP / "crates.txt").read_text().splitlines():
        crate, _, below = line.partition(":")
        found += [(crate, one) for one in below.split() if one in places and places[crate] < places[one]]
    for crate, one in found:
        print(f"docs/ARCHITECTURE.md: {crate} stands on {one}, which stands behind it")
    return found


def main():
    words = [word for word in sys.argv[1:] if word != "--names"]
    documents = words or ["README.md", "CONTRIBUTING.md", *sorted(str(path.relative_to(TOP)) for path in (TOP / "docs").glob("*.md"))]
    sources, faults = Sources(), []
    for document in documents:
        Document(document, sources, faults).read()
    for document in ("docs/ARCHITECTURE.md", "docs/PROOFS.md"):
        if document in documents:
            text = (TOP / document).read_text()
            for crate in sources.crates:
                if f"`{crate}`" not in text:
                    print(f"{document}: says nothing of {crate}")
                    faults.append(crate)
    if "docs/ARCHITECTURE.md" in documents:
        faults += out_of_order(sources.crates)
    print(f"{len(documents)} documents, {len(faults)} faults")
    sys.exit(1 if faults else 0)


if __name__ == "__main__":
    main()
