"""Random Java programs of the profile: classes and interfaces with overriding, exceptions, arrays, texts, switches and initialisers.

source(seed) gives the text of one program, whose classes are named after the seed. It compiles with `javac --release 8`, ends by itself, and
prints nothing that a machine may choose: of exceptions the class alone, and no identity hash.
"""
import random

INTS = ["int", "long", "short", "byte", "char"]
CAUGHT = ["ArithmeticException", "ArrayIndexOutOfBoundsException", "NullPointerException", "ClassCastException", "NegativeArraySizeException",
          "ArrayStoreException", "StringIndexOutOfBoundsException", "IndexOutOfBoundsException", "NumberFormatException"]
NUMBERS = ["0", "1", "-1", "2", "3", "7", "-8", "31", "32", "63", "64", "100", "127", "-128", "255", "32767", "65535", "1000000007",
           "Integer.MAX_VALUE", "Integer.MIN_VALUE"]
LONGS = ["0L", "1L", "-1L", "5L", "33L", "4294967296L", "-4294967297L", "1234567890123L", "Long.MAX_VALUE", "Long.MIN_VALUE"]
CHARS = ["'a'", "'Z'", "'0'", "' '", "'\\u00e9'", "'\\u20ac'", "'\\uffff'", "'\\n'"]
TEXTS = ['""', '"a"', '"abc"', '"12"', '"-7"', '"zebra"', '"Aa"', '"BB"', '"x y"', '"\\u00e9t\\u00e9"', '"\\ud83d\\ude00"']


class Method:
    def __init__(self, holder, name, result, parameters, static):
        self.holder, self.name, self.result, self.parameters, self.static = holder, name, result, parameters, static


class Class:
    def __init__(self, name, above, interfaces, abstract):
        self.name, self.above, self.interfaces, self.abstract = name, above, interfaces, abstract
        self.fields, self.statics, self.methods = [], [], []

    def upwards(self):
        return [self] + (self.above.upwards() if self.above else [])


class Interface:
    def __init__(self, name, above):
        self.name, self.above, self.methods, self.defaults = name, above, [], []

    def upwards(self):
        return [self] + [i for a in self.above for i in a.upwards()]


class Scope:
    """What a body may name: its class, whether it has `this`, and its local variables with their types."""

    def __init__(self, holder, static):
        self.holder, self.static, self.locals, self.loops = holder, static, [], 0


class Program:
    def __init__(self, seed):
        self.random = random.Random(seed)
        self.name = f"G{seed}"
        self.lines, self.depth, self.count = [], 0, 0
        self.classes, self.interfaces, self.throwables = [], [], []
        self.make()

    # ---- choices

    def chance(self, percent):
        return self.random.randrange(100) < percent

    def one(self, items):
        return self.random.choice(items)

    def fresh(self, letter):
        self.count += 1
        return f"{letter}{self.count}"

    def type(self):
        kinds = ["int"] * 5 + ["long"] * 2 + ["boolean", "short", "byte", "char", "String", "String", "int[]", "long[]", "char[]", "int[][]", "Object", "StringBuilder", "Integer"]
        kinds += [c.name for c in self.classes] + [i.name for i in self.interfaces]
        return self.one(kinds)

    # ---- lines

    def line(self, text):
        self.lines.append("    " * self.depth + text)

    def open(self, text):
        self.line(text + " {")
        self.depth += 1

    def close(self):
        self.depth -= 1
        self.line("}")

    # ---- expressions, each in brackets or simple

    def named(self, scope, type):
        found = [name for name, kind in scope.locals if kind == type]
        if scope.holder:
            for above in scope.holder.upwards():
                found += [f"{above.name}.{name}" for name, kind in above.statics if kind == type]
                if not scope.static:
                    found += [f"this.{name}" for name, kind in above.fields if kind == type]
        for other in self.classes:
            found += [f"{other.name}.{name}" for name, kind in other.statics if kind == type]
        return found

    def assignable(self, scope, type):
        found = [name for name, kind in scope.locals if kind == type and not name.startswith("k")]
        if scope.holder:
            for above in scope.holder.upwards():
                found += [f"{above.name}.{name}" for name, kind in above.statics if kind == type]
                if not scope.static:
                    found += [f"this.{name}" for name, kind in above.fields if kind == type]
        return found

    def call(self, scope, type, deep):
        """A call whose result is of the type, or None."""
        fitting = []
        for holder in self.classes + self.interfaces:
            for method in holder.methods:
                if method.result == type:
                    fitting.append((holder, method))
        if not fitting or deep <= 0:
            return None
        holder, method = self.one(fitting)
        arguments = ", ".join(self.value(scope, kind, deep - 2) for kind in method.parameters)
        if method.static:
            return f"{holder.name}.{method.name}({arguments})"
        if scope.holder and not scope.static and holder in scope.holder.upwards() and self.chance(50):
            above = scope.holder.above
            if above and not above.abstract and holder in above.upwards() and self.chance(40):
                return f"super.{method.name}({arguments})"
            return f"this.{method.name}({arguments})"
        return f"{self.receiver(scope, holder.name, deep - 2)}.{method.name}({arguments})"

    def receiver(self, scope, type, deep):
        value = self.value(scope, type, deep)
        return f"(({type}) {value})" if value == "null" or value.startswith("new") else value

    def value(self, scope, type, deep=3):
        if deep > 0 and self.chance(18):
            called = self.call(scope, type, deep)
            if called:
                return called
        known = self.named(scope, type)
        if known and (deep <= 0 or self.chance(35)):
            return self.one(known)
        form = {"int": self.int, "long": self.long, "boolean": self.boolean, "String": self.text, "Object": self.object}.get(type)
        if form:
            return form(scope, deep)
        if type in ("short", "byte"):
            return f"(({type}) {self.value(scope, 'int', deep - 1)})"
        if type == "char":
            if deep > 0 and self.chance(30):
                return f"{self.receiver(scope, 'String', deep - 1)}.charAt({self.index(scope, deep - 1)})"
            return self.one(CHARS) if self.chance(50) else f"((char) {self.value(scope, 'int', deep - 1)})"
        if type.endswith("[]"):
            return self.array(scope, type, deep)
        if type == "StringBuilder":
            made = f"new StringBuilder({self.value(scope, 'String', deep - 1) if self.chance(50) else ''})"
            for _ in range(self.random.randrange(3)):
                kind = self.one(["int", "long", "char", "boolean", "String", "Object"])
                made += f".append(({kind}) {self.value(scope, kind, deep - 2)})"
            return made
        if type == "Integer":
            return "null" if self.chance(10) else f"Integer.valueOf({self.value(scope, 'int', deep - 1)})"
        return self.instance(scope, type, deep)

    def array(self, scope, type, deep):
        element = type[:-2]
        if self.chance(6):
            return "null"
        if deep > 0 and self.chance(15):
            return f"{self.receiver(scope, type, deep - 1)}.clone()"
        if element == "char" and self.chance(30):
            return f"{self.receiver(scope, 'String', deep - 1)}.toCharArray()"
        if self.chance(40):
            if element.endswith("[]"):
                return f"new {element[:-2]}[{self.size(scope, deep - 1)}][{self.size(scope, deep - 1)}]"
            return f"new {element}[{self.size(scope, deep - 1)}]"
        parts = ", ".join(self.value(scope, element, deep - 2) for _ in range(self.random.randrange(5)))
        return f"new {type} {{{parts}}}"

    def instance(self, scope, type, deep):
        makes = [c for c in self.classes if not c.abstract and any(u.name == type for u in self.above_all(c))]
        if not makes or self.chance(12):
            return "null"
        if deep > 1 and self.chance(10):
            return f"(({type}) {self.value(scope, 'Object', deep - 1)})"
        made = self.one(makes)
        return f"new {made.name}({self.value(scope, 'int', deep - 1)})"

    def above_all(self, made):
        found = []
        for above in made.upwards():
            found.append(above)
            for interface in above.interfaces:
                found += interface.upwards()
        return found

    def index(self, scope, deep):
        return str(self.random.randrange(4)) if self.chance(60) else f"({self.value(scope, 'int', deep)} & 3)" if self.chance(75) else self.value(scope, "int", deep)

    def size(self, scope, deep):
        return str(self.random.randrange(1, 6)) if self.chance(70) else f"({self.value(scope, 'int', deep)} & 7)" if self.chance(80) else f"({self.value(scope, 'int', deep)} % 9)"

    def int(self, scope, deep):
        if deep <= 0:
            return self.one(NUMBERS)
        a = lambda kind="int": self.value(scope, kind, deep - 1)
        choice = self.random.randrange(22)
        if choice < 6:
            return f"({a()} {self.one(['+', '-', '*', '&', '|', '^'])} {a()})"
        if choice < 8:
            return f"({a()} {self.one(['/', '%'])} {a()})"
        if choice < 10:
            return f"({a()} {self.one(['<<', '>>', '>>>'])} {a(self.one(['int', 'long']))})"
        if choice == 10:
            return f"((int) {a('long')})"
        if choice == 11:
            return f"({self.one(['-', '~', '+'])} {a(self.one(['int', 'short', 'byte', 'char']))})"
        if choice == 12:
            return f"({a('boolean')} ? {a()} : {a()})"
        if choice == 13:
            kind = self.one(["int", "char"])
            return f"{self.receiver(scope, kind + '[]', deep - 1)}[{self.index(scope, deep - 1)}]"
        if choice == 14:
            return f"{self.receiver(scope, self.one(['int[]', 'long[]', 'char[]', 'int[][]']), deep - 1)}.length"
        if choice == 15:
            text = self.receiver(scope, "String", deep - 1)
            return self.one([f"{text}.length()", f"{text}.hashCode()", f"{text}.indexOf({a('char')})", f"{text}.indexOf({a('String')})", f"{text}.compareTo({a('String')})"])
        if choice == 16:
            names = self.assignable(scope, "int")
            if names:
                name = self.one(names)
                return self.one([f"({name}++)", f"(++{name})", f"({name}--)", f"({name} {self.one(['+', '-', '*', '^', '>>', '<<'])}= {a()})"])
        if choice == 17:
            return self.one([f"Math.max({a()}, {a()})", f"Math.min({a()}, {a()})", f"Math.abs({a()})", f"Integer.compare({a()}, {a()})", f"Math.floorMod({a()}, {a()})"])
        if choice == 18:
            return f"{self.receiver(scope, 'Integer', deep - 1)}.intValue()" if self.chance(70) else f"Integer.parseInt({a('String')})"
        if choice == 19:
            return f"{self.receiver(scope, 'int[][]', deep - 1)}[{self.index(scope, deep - 1)}][{self.index(scope, deep - 1)}]"
        if choice == 20:
            return f"({a('short')} {self.one(['+', '-', '*'])} {a('byte')})"
        return self.one(NUMBERS)

    def long(self, scope, deep):
        if deep <= 0:
            return self.one(LONGS)
        a = lambda kind="long": self.value(scope, kind, deep - 1)
        choice = self.random.randrange(12)
        if choice < 4:
            return f"({a()} {self.one(['+', '-', '*', '&', '|', '^'])} {a()})"
        if choice == 4:
            return f"({a()} {self.one(['/', '%'])} {a()})"
        if choice == 5:
            return f"({a()} {self.one(['<<', '>>', '>>>'])} {a(self.one(['int', 'long']))})"
        if choice == 6:
            return f"((long) {a('int')})"
        if choice == 7:
            return f"(- {a()})"
        if choice == 8:
            return f"{self.receiver(scope, 'long[]', deep - 1)}[{self.index(scope, deep - 1)}]"
        if choice == 9:
            names = self.assignable(scope, "long")
            if names:
                return self.one([f"({self.one(names)}++)", f"({self.one(names)} += {a(self.one(['int', 'long']))})"])
        if choice == 10:
            return f"Math.max({a()}, {a()})"
        return self.one(LONGS)

    def boolean(self, scope, deep):
        if deep <= 0:
            return self.one(["true", "false"])
        a = lambda kind: self.value(scope, kind, deep - 1)
        choice = self.random.randrange(10)
        if choice < 3:
            kind = self.one(["int", "int", "long", "char"])
            return f"({a(kind)} {self.one(['<', '<=', '>', '>=', '==', '!='])} {a(kind)})"
        if choice < 5:
            return f"({a('boolean')} {self.one(['&&', '||', '&', '|', '^', '=='])} {a('boolean')})"
        if choice == 5:
            return f"(!{a('boolean')})"
        if choice == 6:
            kinds = ["String", "int[]", "Object[]", "Integer", "CharSequence", "Cloneable"] + [c.name for c in self.classes + self.interfaces]
            return f"({a('Object')} instanceof {self.one(kinds)})"
        if choice == 7:
            text = self.receiver(scope, "String", deep - 1)
            return self.one([f"{text}.equals({a('Object')})", f"{text}.startsWith({a('String')})", f"{text}.isEmpty()", f"{text}.endsWith({a('String')})"])
        if choice == 8:
            return f"({a('Object')} {self.one(['==', '!='])} {self.one(['null', a('Object')])})"
        return f"({a('Integer')} == null)"

    def text(self, scope, deep):
        if deep <= 0:
            return self.one(TEXTS)
        a = lambda kind="String": self.value(scope, kind, deep - 1)
        choice = self.random.randrange(10)
        if choice < 3:
            kinds = ["int", "long", "char", "boolean", "String", "Integer", "byte", "short"]
            return f"({a()} + {a(self.one(kinds))})" if self.chance(60) else f"(\"\" + {a(self.one(kinds))} + {a(self.one(kinds))})"
        if choice == 3:
            return f"{self.receiver(scope, 'String', deep - 1)}.substring({self.index(scope, deep - 1)})"
        if choice == 4:
            return f"{self.receiver(scope, 'StringBuilder', deep - 1)}.toString()"
        if choice == 5:
            kind = self.one(["int", "long", "char", "boolean"])
            return f"String.valueOf({a(kind)})"
        if choice == 6:
            return f"{self.receiver(scope, 'String', deep - 1)}.replace({a('char')}, {a('char')})"
        if choice == 7:
            return f"({a('boolean')} ? {a()} : {a()})"
        if choice == 8:
            return self.one([f"Integer.toHexString({a('int')})", f"Long.toString({a('long')})", f"new String({self.receiver(scope, 'char[]', deep - 1)})"])
        return "((String) null)" if self.chance(15) else self.one(TEXTS)

    def object(self, scope, deep):
        if deep <= 0:
            return self.one(["null", '((Object) "o")', "((Object) Integer.valueOf(5))"])
        kinds = ["String", "Integer", "int[]", "StringBuilder"] + [c.name for c in self.classes if not c.abstract]
        return f"((Object) {self.value(scope, self.one(kinds), deep - 1)})"

    # ---- statements

    def print(self, scope, type, value):
        """What may be seen of a value."""
        if type in INTS or type in ("boolean", "String", "Integer"):
            self.line(f"System.out.println(({type}) {value});")
        elif type in ("int[]", "long[]", "char[]"):
            self.line(f"{self.name}.show(({type}) {value});")
        else:
            self.line(f"{self.name}.show((Object) {value});")

    def block(self, scope, size, nesting):
        before = len(scope.locals)
        for _ in range(size):
            self.statement(scope, nesting)
        del scope.locals[before:]

    def statement(self, scope, nesting):
        choice = self.random.randrange(20)
        if choice < 5:
            type = self.type()
            value = self.value(scope, type)
            name = self.fresh("v")
            self.line(f"{type} {name} = {value};")
            scope.locals.append((name, type))
        elif choice < 8:
            type = self.type()
            names = self.assignable(scope, type)
            if names:
                self.line(f"{self.one(names)} = {self.value(scope, type)};")
            else:
                self.line(f"{self.name}.note({self.value(scope, 'int')});")
        elif choice == 8:
            type = self.one(["int", "long", "char"])
            self.line(f"{self.receiver(scope, type + '[]', 2)}[{self.index(scope, 2)}] {'' if type == 'char' else self.one(['', '+', '^'])}= {self.value(scope, type)};")
        elif choice == 9 or nesting <= 0:
            type = self.one(["int", "long", "String", "boolean", "Object", "char", "int[]"])
            self.print(scope, type, self.value(scope, type))
        elif choice < 12:
            self.open(f"if ({self.value(scope, 'boolean')})")
            self.block(scope, self.random.randrange(1, 4), nesting - 1)
            if self.chance(40):
                self.depth -= 1
                self.open("} else")
                self.block(scope, self.random.randrange(1, 3), nesting - 1)
            self.close()
        elif choice == 12:
            name = self.fresh("k")
            self.open(f"for (int {name} = 0; {name} < {self.random.randrange(1, 6)}; {name}++)")
            scope.locals.append((name, "int"))
            scope.loops += 1
            self.block(scope, self.random.randrange(1, 4), nesting - 1)
            if self.chance(40):
                self.line(f"if ({self.value(scope, 'boolean')}) {self.one(['break', 'continue'])};")
            self.block(scope, self.random.randrange(0, 2), nesting - 1)
            scope.loops -= 1
            scope.locals.pop()
            self.close()
        elif choice == 13:
            name = self.fresh("k")
            self.line(f"int {name} = {self.random.randrange(1, 6)};")
            self.open(f"while (--{name} >= 0 && {self.value(scope, 'boolean')})")
            scope.loops += 1
            self.block(scope, self.random.randrange(1, 4), nesting - 1)
            scope.loops -= 1
            self.close()
        elif choice == 14:
            texts = self.chance(40)
            self.open(f"switch ({self.value(scope, 'String') if texts else self.value(scope, 'int') + ' & 7'})")
            cases = self.random.sample([t for t in TEXTS] if texts else [str(n) for n in range(8)] + ["-5", "100000"], self.random.randrange(1, 5))
            loops, scope.loops = scope.loops, 0
            for case in cases:
                self.line(f"case {case}:")
                self.open("")
                self.block(scope, self.random.randrange(1, 3), nesting - 1)
                self.close()
                if self.chance(60):
                    self.line("break;")
            if self.chance(60):
                self.line("default:")
                self.open("")
                self.block(scope, 1, nesting - 1)
                self.close()
            scope.loops = loops
            self.close()
        elif choice < 17:
            self.open("try")
            self.block(scope, self.random.randrange(1, 4), nesting - 1)
            caught = [c for c in CAUGHT + self.throwables + ["RuntimeException", "Throwable"] if self.chance(25)]
            ends = self.chance(35) or not caught
            if "IndexOutOfBoundsException" in caught:
                caught = [c for c in caught if c in CAUGHT[:CAUGHT.index("IndexOutOfBoundsException") + 1]] + [c for c in caught if c not in CAUGHT[:CAUGHT.index("IndexOutOfBoundsException") + 1]]
            if "RuntimeException" in caught and "Throwable" in caught:
                caught.remove(self.one(["RuntimeException", "Throwable"]))
            for kind in caught:
                self.depth -= 1
                name = self.fresh("e")
                self.open(f"}} catch ({kind} {name})")
                self.line(f"System.out.println({name}.getClass().getName());")
                self.block(scope, self.random.randrange(0, 2), nesting - 1)
                if self.chance(15):
                    self.line(f"if ({self.value(scope, 'boolean')}) throw {name};" if kind != "Throwable" else f"{self.name}.note(17);")
            if ends:
                self.depth -= 1
                self.open("} finally")
                self.block(scope, self.random.randrange(1, 3), nesting - 1)
            self.close()
        elif choice == 17:
            kind = self.one(self.throwables)
            self.line(f"if ({self.value(scope, 'boolean')}) throw new {kind}({self.value(scope, 'int')});")
        elif choice == 18:
            name = self.fresh("v")
            kind = self.one(["int", "long", "char"])
            self.open(f"for ({kind} {name} : {self.receiver(scope, kind + '[]', 2)})")
            scope.locals.append((name, kind))
            self.block(scope, self.random.randrange(1, 3), nesting - 1)
            scope.locals.pop()
            self.close()
        else:
            self.line(f"{self.name}.note({self.value(scope, self.one(['int', 'long']))});")

    # ---- classes

    def parameters(self, method, scope):
        names = [(self.fresh("p"), kind) for kind in method.parameters]
        scope.locals += names
        return ", ".join(f"{kind} {name}" for name, kind in names)

    def body(self, method, holder, modifiers):
        scope = Scope(holder, method.static)
        self.open(f"{modifiers}{method.result} {method.name}({self.parameters(method, scope)})")
        self.line(f"{self.name}.burn();")
        self.block_of(scope, self.random.randrange(2, 6), method.result)
        self.close()

    def block_of(self, scope, size, result):
        for _ in range(size):
            self.statement(scope, 2)
            if self.chance(10):
                self.line(f"if ({self.value(scope, 'boolean')}) return {self.value(scope, result)};")
        self.line(f"return {self.value(scope, result)};")

    def signature(self, holder, static):
        return Method(holder, self.fresh("m"), self.type(), [self.type() for _ in range(self.random.randrange(3))], static)

    def make(self):
        for n in range(self.random.randrange(1, 3)):
            self.throwables.append(f"{self.name}E{n}")
        for n in range(self.random.randrange(1, 4)):
            above = [i for i in self.interfaces if self.chance(30)]
            self.interfaces.append(Interface(f"{self.name}I{n}", above))
        for n in range(self.random.randrange(2, 6)):
            above = self.one(self.classes + [None]) if self.classes else None
            interfaces = [i for i in self.interfaces if self.chance(35)]
            self.classes.append(Class(f"{self.name}C{n}", above, interfaces, n > 0 and self.chance(15)))
        for interface in self.interfaces:
            for _ in range(self.random.randrange(1, 3)):
                interface.methods.append(self.signature(interface, False))
            interface.defaults = [m for m in interface.methods if self.chance(50)]
        for made in self.classes:
            for _ in range(self.random.randrange(1, 4)):
                made.fields.append((self.fresh("f"), self.type()))
            for _ in range(self.random.randrange(0, 3)):
                made.statics.append((self.fresh("s"), self.type()))
            for _ in range(self.random.randrange(1, 4)):
                made.methods.append(self.signature(made, self.chance(50)))
        self.main()
        for interface in self.interfaces:
            self.interface(interface)
        for made in self.classes:
            self.class_of(made)
        for name in self.throwables:
            self.open(f"class {name} extends RuntimeException")
            self.line("final int number;")
            self.open(f"{name}(int number)")
            self.line("super(\"thrown \" + number);")
            self.line("this.number = number;")
            self.close()
            self.close()

    def interface(self, made):
        above = " extends " + ", ".join(i.name for i in made.above) if made.above else ""
        self.open(f"interface {made.name}{above}")
        for method in made.methods:
            if method in made.defaults:
                self.body(method, None, "default ")
            else:
                self.line(f"{method.result} {method.name}({', '.join(f'{k} {self.fresh(chr(112))}' for k in method.parameters)});")
        self.close()

    def class_of(self, made):
        above = f" extends {made.above.name}" if made.above else ""
        interfaces = " implements " + ", ".join(i.name for i in made.interfaces) if made.interfaces else ""
        self.open(f"{'abstract ' if made.abstract else ''}class {made.name}{above}{interfaces}")
        scope = Scope(None, True)
        for name, kind in made.statics:
            self.line(f"static {kind} {name}{' = ' + self.value(scope, kind, 2 if self.chance(10) else 0) if self.chance(75) else ''};")
        if self.chance(40):
            self.open("static")
            self.line(f"System.out.println(\"{made.name} begins\");")
            fails = self.chance(15)
            if not fails:
                self.open("try")
            self.block(Scope(made, True), self.random.randrange(1, 3), 1)
            if fails:
                self.line(f"if ({self.value(Scope(made, True), 'boolean')}) throw new {self.one(self.throwables)}({self.random.randrange(100)});")
            else:
                self.depth -= 1
                self.open("} catch (RuntimeException thrown)")
                self.line("System.out.println(thrown.getClass().getName());")
                self.close()
            self.close()
        for name, kind in made.fields:
            self.line(f"{kind} {name}{' = ' + self.value(scope, kind, 2) if self.chance(50) else ''};")
        self.open(f"{made.name}(int number)")
        if made.above:
            self.line(f"super(number {self.one(['+', '-', '^'])} {self.random.randrange(50)});")
        self.line(f"{self.name}.burn();")
        inner = Scope(made, False)
        inner.locals.append(("number", "int"))
        self.block(inner, self.random.randrange(1, 3), 1)
        self.close()
        for method in made.methods:
            self.body(method, made, "static " if method.static else "")
        for above in made.upwards()[1:]:
            for method in above.methods:
                if not method.static and self.chance(40):
                    self.body(method, made, "")
        have = set()
        for below in made.upwards():
            if below is not made and not below.abstract:
                have |= {m.name for u in self.above_all(below) if isinstance(u, Interface) for m in u.methods}
        for interface in {i.name: i for i in self.above_all(made) if isinstance(i, Interface)}.values():
            for method in interface.methods:
                wanted = method not in interface.defaults and method.name not in have and not made.abstract
                if wanted or self.chance(15):
                    self.body(method, made, "public ")
        if self.chance(30):
            self.open("public String toString()")
            self.line(f"{self.name}.burn();")
            self.line(f"return \"{made.name}:\" + {self.value(Scope(made, False), 'int', 2)};")
            self.close()
        elif not made.above:
            self.open("public String toString()")
            self.line(f"return \"{made.name}\";")
            self.close()
        if self.chance(20):
            self.open("public int hashCode()")
            self.line(f"return {self.random.randrange(1000)};")
            self.close()
        self.close()

    def main(self):
        self.open(f"public class {self.name}")
        self.line("static int fuel = 600;")
        self.line("static long sum;")
        self.open("static void burn()")
        self.open("if (--fuel < 0)")
        self.line(f"throw new {self.throwables[0]}(fuel);")
        self.close()
        self.close()
        self.open("static void note(long value)")
        self.line("sum = sum * 31 + value;")
        self.close()
        for kind in ("int", "long"):
            self.open(f"static void show({kind}[] values)")
            self.open(f"for ({kind} value : values)")
            self.line("System.out.print(value);")
            self.line("System.out.print(' ');")
            self.close()
            self.line("System.out.println();")
            self.close()
        self.open("static void show(char[] values)")
        self.line("System.out.println(String.valueOf(values));")
        self.close()
        self.open("static void show(Object value)")
        shown = " || ".join(["value instanceof String", "value instanceof Integer", "value instanceof StringBuilder"] + [f"value instanceof {c.name}" for c in self.classes])
        self.line(f"System.out.println({shown} ? value.toString() : value == null ? \"null\" : value.getClass().getName());")
        self.close()
        self.open("public static void main(String[] arguments)")
        scope = Scope(None, True)
        calls = [(c, m) for c in self.classes for m in c.methods]
        for _ in range(self.random.randrange(6, 14)):
            self.line("fuel = 600;")
            self.open("try")
            if calls and self.chance(75):
                holder, method = self.one(calls)
                arguments = ", ".join(self.value(scope, kind, 2) for kind in method.parameters)
                receiver = holder.name if method.static else self.receiver(scope, holder.name, 2)
                self.print(scope, method.result, f"{receiver}.{method.name}({arguments})")
            else:
                self.block(scope, self.random.randrange(1, 4), 2)
            self.depth -= 1
            self.open("} catch (Throwable thrown)")
            self.line("System.out.println(thrown.getClass().getName());")
            self.close()
        self.line("System.out.println(sum);")
        if self.chance(10):
            self.line(f"throw new {self.throwables[-1]}((int) sum);")
        self.close()
        self.close()


def source(seed):
    return "\n".join(Program(seed).lines) + "\n"


if __name__ == "__main__":
    import sys
    print(source(int(sys.argv[1])), end="")
