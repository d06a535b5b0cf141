"""The table of what the programs execute: shapes, opcodes and natives, by the instructions that HotSpot ran one by one."""
import os, re, signal, subprocess
import term

NAMES = """nop aconst_null iconst_m1 iconst_0 iconst_1 iconst_2 iconst_3 iconst_4 iconst_5 lconst_0 lconst_1 fconst_0 fconst_1 fconst_2 dconst_0 dconst_1
bipush sipush ldc ldc_w ldc2_w iload lload fload dload aload iload_0 iload_1 iload_2 iload_3 lload_0 lload_1 lload_2 lload_3 fload_0 fload_1 fload_2 fload_3
dload_0 dload_1 dload_2 dload_3 aload_0 aload_1 aload_2 aload_3 iaload laload faload daload aaload baload caload saload istore lstore fstore dstore astore
istore_0 istore_1 istore_2 istore_3 lstore_0 lstore_1 lstore_2 lstore_3 fstore_0 fstore_1 fstore_2 fstore_3 dstore_0 dstore_1 dstore_2 dstore_3 astore_0
astore_1 astore_2 astore_3 iastore lastore fastore dastore aastore bastore castore sastore pop pop2 dup dup_x1 dup_x2 dup2 dup2_x1 dup2_x2 swap iadd ladd
fadd dadd isub lsub fsub dsub imul lmul fmul dmul idiv ldiv fdiv ddiv irem lrem frem drem ineg lneg fneg dneg ishl lshl ishr lshr iushr lushr iand land ior
lor ixor lxor iinc i2l i2f i2d l2i l2f l2d f2i f2l f2d d2i d2l d2f i2b i2c i2s lcmp fcmpl fcmpg dcmpl dcmpg ifeq ifne iflt ifge ifgt ifle if_icmpeq
if_icmpne if_icmplt if_icmpge if_icmpgt if_icmple if_acmpeq if_acmpne goto jsr ret tableswitch lookupswitch ireturn lreturn freturn dreturn areturn return
getstatic putstatic getfield putfield invokevirtual invokespecial invokestatic invokeinterface invokedynamic new newarray anewarray arraylength athrow
checkcast instanceof monitorenter monitorexit wide multianewarray ifnull ifnonnull goto_w jsr_w""".split()
OUTSIDE = {"invokedynamic", "jsr", "ret", "jsr_w", "monitorenter", "monitorexit"}


def in_profile(name):
    return name not in OUTSIDE and not re.match(r"[fd](const|load|store|aload|astore|add|sub|mul|div|rem|neg|return|cmp|2)", name) and not re.search(r"2[fd]$", name)


def shape(name):
    """The shape of an instruction, as `cb_shapes/src/action.rt` has them."""
    def among(*words): return name in words
    if among("aconst_null"): return "Null"
    if among("ldc", "ldc_w", "ldc2_w"): return "Constant"
    if re.match(r"[ila]load", name): return "Load"
    if re.match(r"[ila]store", name): return "Store"
    if among("iinc"): return "Increase"
    if among("pop", "pop2", "swap") or name.startswith("dup"): return "Shuffle"
    if re.match(r"if|goto", name): return "Branch"
    if name.endswith("switch"): return "Switch"
    if among("aaload"): return "LoadReference"
    if among("aastore"): return "StoreReference"
    if re.match(r"[bcsil]aload", name): return "LoadNumber"
    if re.match(r"[bcsil]astore", name): return "StoreNumber"
    single = {"arraylength": "Length", "getfield": "GetField", "putfield": "PutField", "getstatic": "GetStatic", "putstatic": "PutStatic", "new": "New", "newarray": "NewNumbers",
              "anewarray": "NewReferences", "multianewarray": "NewArrays", "checkcast": "Cast", "instanceof": "IsInstance", "athrow": "Throw", "invokestatic": "InvokeStatic",
              "invokespecial": "InvokeSpecial", "invokevirtual": "InvokeVirtual", "invokeinterface": "InvokeInterface"}
    if name in single: return single[name]
    return "Return" if name.endswith("return") else "Compute"


# array instructions begin as loads and stores do, so that they are looked for first
def shape_of(name):
    return {"iaload": "LoadNumber", "laload": "LoadNumber", "aaload": "LoadReference", "iastore": "StoreNumber", "lastore": "StoreNumber", "aastore": "StoreReference"}.get(name) or shape(name)


def executed(source, folder, jdi):
    """Which instructions ran, by class, method, descriptor and place, with how often, and none where the debugger hung; without a debugger, all
    of its code."""
    if jdi is None: return [line.split(" ") for line in all_of(source, folder).decode().splitlines()]
    kept = f"{folder}/executed-{source.label}"
    if not os.path.exists(kept):
        given = f"{folder}/input"
        open(given, "wb").write(source.input)
        command = ["java", "-XX:TieredStopAtLevel=1", "-cp", jdi, "Executed", folder, source.name, given, *source.arguments]
        runs = subprocess.Popen(command, stdout=subprocess.PIPE, stderr=subprocess.DEVNULL, start_new_session=True)
        try:
            said = runs.communicate(timeout=90)[0]
        except subprocess.TimeoutExpired:
            os.killpg(runs.pid, signal.SIGKILL)
            said = b""
            print(f"{source.label}: the debugger hung, so nothing of it is counted")
        open(kept, "wb").write(said)
    return [line.split(" ") for line in open(kept).read().splitlines()]


def all_of(source, folder):
    lines = []
    for c in source.classes(folder):
        for m in c.methods:
            for i in (m["body"] or {"code": []})["code"]:
                lines.append(f"{c.cls(c.this).replace('/', '.')} {term.text(c.utf(m['name']))} {term.text(c.utf(m['desc']))} {i[0]} 0\n")
    return "".join(lines).encode()


def natives_of(core):
    """The native members, by class, name and descriptor."""
    return {(c.cls(c.this), term.text(c.utf(m["name"])), term.text(c.utf(m["desc"]))) for c in core for m in c.methods if m["flags"] & 0x100}


def gather(source, folder, core, jdi, opcodes, natives, steps):
    classes = {c.cls(c.this): c for c in core}
    for c in source.classes(folder): classes[c.cls(c.this)] = c
    have = natives_of(core)
    for name, method, descriptor, place, count in executed(source, folder, jdi):
        c = classes[name.replace(".", "/")]
        m = next(m for m in c.methods if term.text(c.utf(m["name"])) == method and term.text(c.utf(m["desc"])) == descriptor)
        at, op, wide, operand = next(i for i in m["body"]["code"] if i[0] == int(place))
        steps[source.name] = steps.get(source.name, 0) + int(count)
        opcodes.setdefault(("wide " if wide else "") + NAMES[op], set()).add(source.name)
        if 0xB6 <= op <= 0xB9:
            ref = c.pool[operand[1]]
            holder, pair = c.cls(ref[1]), c.pool[ref[2]]
            member = (term.text(c.utf(pair[1])), term.text(c.utf(pair[2])))
            if holder[0] == "[": holder = "java/lang/Object"
            while holder and (holder, *member) not in have:
                k = classes.get(holder)
                if k is None or any((term.text(k.utf(m["name"])), term.text(k.utf(m["desc"]))) == member for m in k.methods): break
                holder = k.cls(k.sup) if k.sup else None
            if holder and (holder, *member) in have: natives.setdefault((holder, *member), set()).add(source.name)


def few(names):
    names = sorted(names)
    return ", ".join(names[:4]) + (f" and {len(names) - 4} more" if len(names) > 4 else "")


def write(sources, folders, core, jdi, out):
    opcodes, natives, steps = {}, {}, {}
    for s in sources: gather(s, folders[s.name], core, jdi, opcodes, natives, steps)
    shapes = {}
    for name, who in opcodes.items(): shapes.setdefault(shape_of(name.replace("wide ", "")), set()).update(who)
    everything = [n for n in NAMES if in_profile(n) and n != "wide"]
    with open(out, "w") as f:
        f.write("| shape | opcodes | programs |\n|---|---|---|\n")
        for sh in sorted(set(map(shape_of, everything))):
            f.write(f"| {sh} | {sum(1 for n in everything if shape_of(n) == sh and n in opcodes)} of {sum(1 for n in everything if shape_of(n) == sh)} | {few(shapes.get(sh, []))} |\n")
        f.write("\n| opcode | programs |\n|---|---|\n")
        for n in everything + sorted(n for n in opcodes if n.startswith("wide ")): f.write(f"| {n} | {few(opcodes.get(n, [])) or '**none**'} |\n")
        f.write("\n| native | programs |\n|---|---|\n")
        for n in sorted(natives_of(core)): f.write(f"| {n[0]}.{n[1]}{n[2]} | {few(natives.get(n, [])) or '**none**'} |\n")
        if jdi is None: return
        f.write(f"\n{len(steps)} programs, {sum(steps.values())} instructions of their own classes.\n")
        f.write("\n| program | instructions |\n|---|---|\n" + "".join(f"| {n} | {k} |\n" for n, k in sorted(steps.items())))
