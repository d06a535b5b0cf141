"""Writes class files, and the linked program of them, as terms of the machine's definitions.

Class files are read by the public standard (JVMS chapter 4), apart from the project's own reader. A program is numbered as the linker numbers
it: the classes of the library first, then those of the program, the one with `main` first.
"""
import struct

# the kinds of what the machine and its natives place themselves, by site, in the order of `cb_machine/specs/Sites.antt`
FIXED = ["[Ljava/lang/String;", "java/lang/String", "[C", "java/io/PrintStream", "java/io/InputStream", "java/lang/String", "[C",
         "java/lang/Class", "java/lang/String", "[C", "[C", "java/lang/Integer", "java/lang/Long", "java/lang/Character",
         "java/lang/Boolean", "[Ljava/lang/Throwable;", "java/lang/NullPointerException", "java/lang/ArithmeticException",
         "java/lang/ArrayIndexOutOfBoundsException", "java/lang/NegativeArraySizeException", "java/lang/ArrayStoreException",
         "java/lang/ClassCastException", "java/lang/StackOverflowError", "java/lang/ExceptionInInitializerError",
         "java/lang/NoClassDefFoundError", "java/lang/IncompatibleClassChangeError", "java/lang/AbstractMethodError",
         "java/lang/StringIndexOutOfBoundsException", "java/lang/NumberFormatException", "java/lang/IllegalArgumentException",
         "java/lang/CloneNotSupportedException", "java/lang/IndexOutOfBoundsException"]


def units(data):
    """UTF-16 units of modified UTF-8."""
    out, i = [], 0
    while i < len(data):
        a = data[i]
        if a < 0x80:
            out.append(a); i += 1
        elif a < 0xE0:
            out.append((a & 31) << 6 | data[i + 1] & 63); i += 2
        else:
            out.append((a & 15) << 12 | (data[i + 1] & 63) << 6 | data[i + 2] & 63); i += 3
    return tuple(out)


def text(us):
    return "".join(map(chr, us))


class Reader:
    def __init__(self, data): self.d, self.i = data, 0
    def take(self, f):
        v = struct.unpack_from(">" + f, self.d, self.i); self.i += struct.calcsize(">" + f); return v[0]
    def u1(self): return self.take("B")
    def u2(self): return self.take("H")
    def u4(self): return self.take("I")


class Class:
    def __init__(self, data):
        r = Reader(data)
        if r.u4() != 0xCAFEBABE: raise ValueError("no class file")
        self.minor, self.major = r.u2(), r.u2()
        n = r.u2(); self.pool = [None]
        while len(self.pool) < n:
            t = r.u1()
            if t == 1:
                k = r.u2(); self.pool.append(("Utf8", units(r.d[r.i:r.i + k]))); r.i += k
            elif t == 3: self.pool.append(("Integer", r.u4()))
            elif t == 4: self.pool.append(("Float", r.u4()))
            elif t == 5: self.pool += [("Long", r.take("Q")), ("Gap",)]
            elif t == 6: self.pool += [("Double", r.take("Q")), ("Gap",)]
            elif t in (7, 8): self.pool.append(({7: "Class", 8: "String"}[t], r.u2()))
            elif t in (9, 10, 11, 12): self.pool.append(({9: "Fieldref", 10: "Methodref", 11: "InterfaceMethodref", 12: "NameAndType"}[t], r.u2(), r.u2()))
            elif t == 15: self.pool.append(("MethodHandle", r.u1(), r.u2()))
            elif t == 16: self.pool.append(("MethodType", r.u2()))
            elif t == 18: self.pool.append(("InvokeDynamic", r.u2(), r.u2()))
            else: raise ValueError(t)
        self.flags, self.this, self.sup = r.u2(), r.u2(), r.u2()
        self.interfaces = [r.u2() for _ in range(r.u2())]
        self.fields = [self.member(r, False) for _ in range(r.u2())]
        self.methods = [self.member(r, True) for _ in range(r.u2())]

    def utf(self, i): return self.pool[i][1]
    def cls(self, i): return text(self.utf(self.pool[i][1]))

    def member(self, r, is_method):
        m = {"flags": r.u2(), "name": r.u2(), "desc": r.u2(), "constant": None, "body": None}
        for _ in range(r.u2()):
            name, k = text(self.utf(r.u2())), r.u4()
            end = r.i + k
            if name == "ConstantValue" and not is_method: m["constant"] = r.u2()
            if name == "Code" and is_method: m["body"] = self.body(r)
            r.i = end
        return m

    def body(self, r):
        b = {"stack": r.u2(), "locals": r.u2()}
        n = r.u4(); code = r.d[r.i:r.i + n]; r.i += n
        b["code"] = decode(code)
        b["handlers"] = [(r.u2(), r.u2(), r.u2(), r.u2()) for _ in range(r.u2())]
        return b


def s1(b): return b - 256 if b > 127 else b
def s2(c, i): return struct.unpack_from(">h", c, i)[0]
def u2(c, i): return struct.unpack_from(">H", c, i)[0]
def s4(c, i): return struct.unpack_from(">i", c, i)[0]


def decode(c):
    """The instructions of a code: place, opcode, whether it is widened, and operand. Branches have their targets as places."""
    out, i = [], 0
    while i < len(c):
        at, op = i, c[i]
        wide = False
        if op == 0xC4:
            wide = True; i += 1; op = c[i]
        if op == 0x10: o, k = ("Number", s1(c[i + 1])), 2
        elif op == 0x11: o, k = ("Number", s2(c, i + 1)), 3
        elif op == 0x12: o, k = ("Pool", c[i + 1]), 2
        elif op in (0x13, 0x14) or 0xB2 <= op <= 0xB8 or op in (0xBB, 0xBD, 0xC0, 0xC1): o, k = ("Pool", u2(c, i + 1)), 3
        elif op in (0x15, 0x16, 0x17, 0x18, 0x19, 0x36, 0x37, 0x38, 0x39, 0x3A, 0xA9):
            o, k = (("Local", u2(c, i + 1)), 3) if wide else (("Local", c[i + 1]), 2)
        elif op == 0x84: o, k = (("Increase", u2(c, i + 1), s2(c, i + 3)), 5) if wide else (("Increase", c[i + 1], s1(c[i + 2])), 3)
        elif 0x99 <= op <= 0xA8 or op in (0xC6, 0xC7): o, k = ("Branch", at + s2(c, i + 1)), 3
        elif op in (0xC8, 0xC9): o, k = ("Branch", at + s4(c, i + 1)), 5
        elif op == 0xAA:
            j = (i + 4) & ~3
            d, lo, hi = s4(c, j), s4(c, j + 4), s4(c, j + 8)
            o, k = ("Table", at + d, lo, [at + s4(c, j + 12 + 4 * t) for t in range(hi - lo + 1)]), j + 12 + 4 * (hi - lo + 1) - i
        elif op == 0xAB:
            j = (i + 4) & ~3
            d, n = s4(c, j), s4(c, j + 4)
            o, k = ("Lookup", at + d, [(s4(c, j + 8 + 8 * t), at + s4(c, j + 12 + 8 * t)) for t in range(n)]), j + 8 + 8 * n - i
        elif op == 0xB9: o, k = ("Interface", u2(c, i + 1), c[i + 3]), 5
        elif op == 0xBC: o, k = ("ArrayCode", c[i + 1]), 2
        elif op == 0xC5: o, k = ("Dimensions", u2(c, i + 1), c[i + 3]), 4
        else: o, k = ("Nothing",), 1
        out.append((at, op, wide, o)); i += k
    return out


def lst(items): return "(" + " ∷ ".join([*items, "[]"]) + ")" if items else "[]"
def words(us):
    if all(32 <= u < 127 and u not in (34, 92) for u in us): return f'codes "{text(us)}"'
    return lst([str(u) for u in us])
def num(n): return f"(pos {n})" if n >= 0 else f"(negsuc {-n - 1})"


def constant(k):
    if k[0] == "Utf8": return f"constants.Utf8 ({words(k[1])})"
    if k[0] == "Gap": return "constants.Gap"
    return f"constants.{k[0]} " + " ".join(map(str, k[1:]))


def operand(o):
    if o[0] == "Nothing": return "operands.Nothing"
    if o[0] == "Number": return f"operands.Number {num(o[1])}"
    if o[0] == "Increase": return f"operands.Increase {o[1]} {num(o[2])}"
    if o[0] == "Table": return f"operands.Table {o[1]} {num(o[2])} {lst([str(t) for t in o[3]])}"
    if o[0] == "Lookup": return f"operands.Lookup {o[1]} " + lst([f"record {{ key = {num(a)}; target = {b} }}" for a, b in o[2]])
    return f"operands.{o[0]} " + " ".join(map(str, o[1:]))


def insn(i): return f"insn {i[0]} {i[1]} {'true' if i[2] else 'false'} ({operand(i[3])})"
def body(b):
    if b is None: return "None"
    code = "\n        ∷ ".join(insn(i) for i in b["code"]) + " ∷ []"
    hs = lst([f"record {{ start = {a}; end = {e}; handler = {h}; catch_type = {t} }}" for a, e, h, t in b["handlers"]])
    return f"Some (record {{ max_stack = {b['stack']}; max_locals = {b['locals']}; handlers = {hs}; frames = []; code =\n        {code} }})"


def class_term(c):
    fields = lst([f"record {{ flags = record {{ 0 = {m['flags']} }}; name = {m['name']}; descriptor = {m['desc']}; constant = {'None' if m['constant'] is None else 'Some ' + str(m['constant'])} }}" for m in c.fields])
    methods = "\n      ".join(f"record {{ flags = record {{ 0 = {m['flags']} }}; name = {m['name']}; descriptor = {m['desc']}; body = {body(m['body'])} }} ∷" for m in c.methods) + " []"
    return (f"record {{ minor = {c.minor}; major = {c.major}; flags = record {{ 0 = {c.flags} }}; this_class = {c.this}; super_class = {c.sup}; interfaces = {lst([str(i) for i in c.interfaces])};\n"
            f"      pool = {lst([constant(k) for k in c.pool[1:]])};\n      fields = {fields};\n      methods = {methods} }}")


def types_of(desc):
    """The parameters and the result of a descriptor."""
    out, i = [], 1
    while desc[i] != ")":
        j = i
        while desc[j] == "[": j += 1
        j = desc.index(";", j) + 1 if desc[j] == "L" else j + 1
        out.append(desc[i:j]); i = j
    return out, desc[i + 1:]


class Program:
    """A linked program: kinds in the order in which they are met, and methods, fields, sites and constant texts in the order of the classes."""
    def __init__(self, core, own, main):
        self.classes = core + own
        self.names = [c.cls(c.this) for c in self.classes]
        self.kinds = list(self.names)
        for c in self.classes: self.kinds_of(c)
        for k in FIXED: self.kind(k)
        self.methods = [(n, p, m, c) for n, c in enumerate(self.classes) for p, m in enumerate(c.methods)]
        self.fields = [(n, p, m, c) for n, c in enumerate(self.classes) for p, m in enumerate(c.fields)]
        self.sites = []
        self.texts = [units(b"/ by zero")]
        for c in self.classes:
            for m in c.fields:
                if m["flags"] & 8 and m["constant"] and c.pool[m["constant"]][0] == "String": self.enter(c.utf(c.pool[m["constant"]][1]))
            for m in c.methods:
                for at, op, w, o in (m["body"] or {"code": []})["code"]:
                    if op in (0x12, 0x13) and c.pool[o[1]][0] == "String": self.enter(c.utf(c.pool[o[1]][1]))
        for number, (n, p, m, c) in enumerate(self.methods):
            for at, op, w, o in (m["body"] or {"code": []})["code"]:
                for d, k in enumerate(self.made(c, op, o)): self.sites.append((number, at, d, self.kind(k)))
        self.main_class = self.names.index(main)
        self.main_method = next(i for i, (n, p, m, c) in enumerate(self.methods) if n == self.main_class and text(c.utf(m["name"])) == "main" and text(c.utf(m["desc"])) == "([Ljava/lang/String;)V")

    def enter(self, t):
        if t not in self.texts: self.texts.append(t)

    def made(self, c, op, o):
        if op == 0xBB: return [c.cls(o[1])]
        if op == 0xBC: return ["[" + {4: "Z", 5: "C", 6: "F", 7: "D", 8: "B", 9: "S", 10: "I", 11: "J"}[o[1]]]
        if op == 0xBD:
            k = c.cls(o[1]); return ["[" + (k if k[0] == "[" else "L" + k + ";")]
        if op == 0xC5:
            k = c.cls(o[1]); return [k[d:] for d in range(o[2])]
        return []

    def kind(self, name):
        if name in self.kinds: return self.kinds.index(name)
        self.kinds.append(name); at = len(self.kinds) - 1
        if name[0] == "[":
            e = name[1:]
            if e[0] == "[": self.kind(e)
            elif e[0] == "L": self.kind(e[1:-1])
        return at

    def of_type(self, t):
        if t[0] == "[": self.kind(t)
        elif t[0] == "L": self.kind(t[1:-1])

    def kinds_of(self, c):
        for i, k in enumerate(c.pool):
            if k and k[0] == "Class": self.kind(c.cls(i))
        for m in c.fields: self.of_type(text(c.utf(m["desc"])))
        for m in c.methods:
            ps, r = types_of(text(c.utf(m["desc"])))
            for t in [*ps, r]: self.of_type(t)
            for at, op, w, o in (m["body"] or {"code": []})["code"]:
                for k in self.made(c, op, o): self.kind(k)

    def basic(self, t):
        if t[0] == "[": return f"(basics.Reference {self.kind(t)})"
        if t[0] == "L": return f"(basics.Reference {self.kind(t[1:-1])})"
        return {"Z": "basics.Boolean", "B": "basics.Byte", "C": "basics.Char", "S": "basics.Short", "J": "basics.Long"}.get(t, "basics.Int")

    def term(self):
        methods = []
        for n, p, m, c in self.methods:
            ps, r = types_of(text(c.utf(m["desc"])))
            methods.append(f"method {n} {p} {lst([self.basic(t) for t in ps])} {'None' if r == 'V' else '(Some ' + self.basic(r) + ')'}")
        fields = [f"field {n} {p} {self.basic(text(c.utf(m['desc'])))}" for n, p, m, c in self.fields]
        sites = [f"site {a} {b} {d} {k}" for a, b, d, k in self.sites]
        j = "\n    ∷ ".join
        return (f"record {{ classes = {lst(['class' + str(i) for i in range(len(self.classes))])};\n  kinds = {j([words(units(k.encode())) for k in self.kinds] + ['[]'])};\n"
                f"  methods = {j(methods + ['[]'])};\n  fields = {j(fields + ['[]'])};\n  fixed = {lst([str(self.kind(k)) for k in FIXED])};\n  sites = {j(sites + ['[]'])};\n"
                f"  constants = {j([words(t) for t in self.texts] + ['[]'])};\n  main_class = {self.main_class}; main_method = {self.main_method} }}")


HEAD = '''use Rattle.std.specs.Prelude.{ℕ, ℤ, pos, negsuc, Bool, true, false, List, [], ◌∷◌, Option, Some, None, codes}
use Rattle.cb_text.specs.declared.constant.Constant.TheVariants as constants
use Rattle.cb_insn.specs.declared.insn.Insn.{Insn}
use Rattle.cb_insn.specs.declared.insn.Operand.{Operand}
use Rattle.cb_insn.specs.declared.insn.Operand.TheVariants as operands
use Rattle.cb_classfile.specs.declared.class.ClassFile.{ClassFile}
use Rattle.cb_kinds.specs.declared.basic.Basic.{Basic}
use Rattle.cb_kinds.specs.declared.basic.Basic.TheVariants as basics
use Rattle.cb_link.specs.Program.{Linked}
use Rattle.cb_link.specs.declared.linked.LinkedMethod.{LinkedMethod}
use Rattle.cb_link.specs.declared.linked.LinkedField.{LinkedField}
use Rattle.cb_link.specs.declared.linked.Site.{Site}

abbrev pub insn : ℕ → ℕ → Bool → Operand → ℕ × Insn
insn place opcode wide operand = (place, record { opcode = opcode; wide = wide; operand = operand })

abbrev pub method : ℕ → ℕ → List Basic → Option Basic → LinkedMethod
method class place parameters result = record { class = class; place = place; parameters = parameters; result = result }

abbrev pub field : ℕ → ℕ → Basic → LinkedField
field class place basic = record { class = class; place = place; basic = basic }

abbrev pub site : ℕ → ℕ → ℕ → ℕ → Site
site method place dimension kind = record { method = method; place = place; dimension = dimension; kind = kind }
'''
