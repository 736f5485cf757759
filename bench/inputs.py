#!/usr/bin/env python3
"""Sources, finitizations and shards of many shapes, at two sizes: whether time and memory grow by more than the size does.

    bench/inputs.py measure [KIND..]      each kind at 256 KB and at 1 MiB, or at its longest: time, peak memory and status of each call
    bench/inputs.py write KIND BYTES      writes the kind's files of about so many bytes to the folder that it is called in
    bench/inputs.py kinds                 the names of the kinds

KORAT names the program; GNU time has to be there as /usr/bin/time. A kind is reported as failed where time or memory at 1 MiB is more than five times what it is at 256 KB
(and more than 0.5 s, or 20 MB), or where a call passes 2 s and 100 MB (`check`), or 3 s and 150 MB (`list`, `merge`).
"""
import os, subprocess, sys, tempfile

TOP = os.path.dirname(os.path.dirname(os.path.abspath(__file__)))
KORAT = os.path.abspath(os.environ.get("KORAT", os.path.join(TOP, "crates/korat/out/korat")))
SMALL, LARGE = 1 << 18, 1 << 20
FIN = 'root = "A"\nfuel = 1000\n[objects]\nA = 1\n'
HEAD, TAIL = "class A { boolean repOk() { ", " return true; } }\n"
PLAIN = "class A { boolean repOk() { return true; } }"
CLASS, END = "class A { boolean repOk() { return true; } ", "}"

# ---- sources: a head, a unit as often as it fits (with its number where it has a `%`), and a tail

UNITS = {
    "statements-empty": (HEAD, ";", TAIL),
    "statements-blocks": (HEAD, "{}", TAIL),
    "statements-assignments": (HEAD + "int x = 0; ", "x=x+1;", TAIL),
    "statements-if": (HEAD + "int x = 0; ", "if(x>0)x++;", TAIL),
    "statements-new": (HEAD + "A a = null; ", "a=new A();", TAIL),
    "statements-instanceof": (HEAD + "boolean b = true; ", "b=this instanceof A;", TAIL),
    "statements-return": (HEAD, "return true;", TAIL),
    "statements-break": (HEAD + "while (true) { ", "break;", "}" + TAIL),
    "statements-numbers": (HEAD + "int x = 0; ", "x=2147483647;", TAIL),
    "statements-brackets": (HEAD + "int x = 0; ", "x=" + "(" * 60 + "1" + ")" * 60 + ";", TAIL),
    "statements-fields": ("class A { A a; int v; boolean repOk() { int x = 0; ", "x=a.a.a.v;", TAIL),
    "statements-comparisons": (HEAD + "int a = 0; boolean b = true; ", "b=a<a;", TAIL),
    "locals": (HEAD, "int l%d;", TAIL),
    "locals-in-one-declaration": (HEAD + "int z", ",l%d", ";" + TAIL),
    "locals-with-values": (HEAD, "int l%d=0;", TAIL),
    "chain-plus": (HEAD + "int x = 0", "+1", ";" + TAIL),
    "chain-minus": (HEAD + "int x = ", "- ", "1;" + TAIL),
    "chain-not": (HEAD + "boolean x = ", "!", "true;" + TAIL),
    "chain-tilde": (HEAD + "int x = ", "~", "1;" + TAIL),
    "chain-assignment": (HEAD + "int x = 0; ", "x=", "1;" + TAIL),
    "chain-conditional": (HEAD + "int x = ", "true?1:", "1;" + TAIL),
    "chain-and": (HEAD + "boolean x = true", "&&true", ";" + TAIL),
    "chain-cast": (HEAD + "int x = ", "(int)", "1;" + TAIL),
    "chain-cast-class": (HEAD + "A x = ", "(A)", "this;" + TAIL),
    "chain-field": ("class A { A a; boolean repOk() { A x = this", ".a", ";" + TAIL),
    "chain-call": ("class A { A m() { return this; } boolean repOk() { A x = this", ".m()", ";" + TAIL),
    "chain-index": ("class A { boolean repOk() { int[] a = null; int x = a", "[0]", ";" + TAIL),
    "chain-less": (HEAD + "int a = 0; boolean b = a", "<a", ";" + TAIL),
    "chain-mixed": (HEAD + "int x = 0", "+1*2-3/4%%5<<1>>2>>>3&4^5|6", ";" + TAIL),
    "chain-precedences": (HEAD + "boolean x = true", "||true&&1|1==1", ";" + TAIL),
    "chain-casts-or-brackets": (HEAD + "int a = 0; int b = 0", "+(a)-a", ";" + TAIL),
    "chain-dots": (HEAD, "A.", "x=1;" + TAIL),
    "chain-types": (HEAD, "A<", TAIL),
    "dimensions": (HEAD + "int", "[]", " x = null;" + TAIL),
    "nested-if": (HEAD + "int x = 0; ", "if(x>0)", ";" + TAIL),
    "nested-else": (HEAD + "int x = 0; ", "if(x>0);else ", ";" + TAIL),
    "nested-while": (HEAD, "while(false)", ";" + TAIL),
    "nested-for": (HEAD, "for(;false;)", ";" + TAIL),
    "nested-for-locals": (HEAD, "for(int i%d=0;false;)", ";" + TAIL),
    "open-brackets": (HEAD, "(", TAIL),
    "open-blocks": (HEAD, "{", TAIL),
    "package": ("package a", ".a", "; " + PLAIN),
    "imports": ("", "import java.util.*;", PLAIN),
    "imports-distinct": ("", "import java.util.X%d;", PLAIN),
    "semicolons-before-a-class": ("", ";", PLAIN),
    "semicolons-in-a-class": ("class A { ", ";", " boolean repOk() { return true; } }"),
    "modifiers": ("class A { ", "public ", " boolean repOk() { return true; } }"),
    "modifiers-final": ("class A { ", "final ", " int x; boolean repOk() { return true; } }"),
    "methods": (CLASS, "void m%d(){}", END),
    "methods-of-one-name": (CLASS, "void m(){}", END),
    "parameters": (CLASS + "void m(int z", ",int p%d", "){} }"),
    "arguments": (CLASS + "void m(int a) { m(1", ",1", "); } }"),
    "fields": ("class A { ", "int f%d;", " boolean repOk() { return true; } }"),
    "fields-of-one-name": ("class A { ", "int f;", " boolean repOk() { return true; } }"),
    "constants-in-one-declaration": ("class A { static final int Z=1", ",C%d=1", "; boolean repOk() { return true; } }"),
    "constant-sum": ("class A { static final int C=1", "+1", "; boolean repOk() { return true; } }"),
    "classes": ("", "class X%d{}", PLAIN),
    "classes-nested": (CLASS, "static class N%d{}", END),
    "comment-line": ("//", "x", "\n" + PLAIN),
    "comment-lines": ("", "//\n", PLAIN),
    "comment-block": ("/*", "*", "/" + PLAIN),
    "comment-never-ends": ("", "/*", ""),
    "spaces": ("", " ", PLAIN),
    "returns": ("", "\r", PLAIN),
    "lines": ("", "\r\n", PLAIN),
    "name": ("class A { int ", "x", "; boolean repOk() { return true; } }"),
    "name-of-letters": ("class A { void ", "\u00e9", "() {} boolean repOk() { return true; } }"),
    "number": ("class A { int x = ", "1", "; boolean repOk() { return true; } }"),
    "contracts": ("class A { boolean repOk() { return true; }\n", "//@ requires true;\n", "void m(){} }"),
    "contract-of-olds": ("class A { int v; boolean repOk() { return true; }\n//@ ensures true", "&\\old(v)==v", ";\nvoid m(){} }"),
    "backslashes": (HEAD, "\\", TAIL),
    "zeros": (HEAD, "\0", TAIL),
    "creations-in-a-constructor": ("class A { A() { ", "new A();", "} boolean repOk() { return true; } }"),
}


def filled(head, unit, tail, size):
    """A head, a unit as often as it fits, and a tail."""
    if "%d" not in unit:
        unit = unit.replace("%%", "%")
        return head + unit * max(1, (size - len(head) - len(tail)) // len(unit.encode())) + tail
    text, left, number = [head], size - len(head) - len(tail), 0
    while left > 0:
        text.append(unit.replace("%d", str(number)).replace("%%", "%"))
        left -= len(text[-1])
        number += 1
    return "".join(text[:-1]) + tail


# ---- sources of other shapes, each from a count that their size gives


def locals_used(n):
    return HEAD + "int l0=0;" + "".join(f"int l{i}=l{i - 1};" for i in range(1, n)) + TAIL, 15


def first_local_used(n):
    return HEAD + "".join(f"int l{i}=0;" for i in range(n)) + "l0=l0;" * n + TAIL, 21


def blocks_with_locals(n):
    return HEAD + "{int a;{int b;}}" * n + TAIL, 16


def conditionals_inside(n):
    return HEAD + "int x = " + "true?" * n + "1" + ":1" * n + ";" + TAIL, 7


def nested_do(n):
    return HEAD + "do " * n + ";" + "while(false);" * n + TAIL, 16


def nested_generics(n):
    return HEAD + "HashSet<" * n + "A" + " >" * n + " x = null;" + TAIL, 10


def dimensions_used(n):
    return "class A { boolean repOk() { int" + "[]" * n + " x = null; int y = x" + "[0]" * (n // 2) + ";" + TAIL, 4


def dimensions_of_each_count(n):
    n = int((2 * n) ** 0.5) // 2
    return HEAD + "".join("int" + "[]" * i + f" v{i}=null;" for i in range(1, n)) + TAIL, 1


def methods_that_call(n):
    return CLASS + "void m0(){}" + "".join(f"void m{i}(){{m{i - 1}();}}" for i in range(1, n)) + END, 24


def methods_reached(n):
    return "class A { boolean repOk() { m0(); return true; } " + "".join(f"void m{i}(){{m{i + 1}();}}" for i in range(n)) + f"void m{n}(){{}} }}", 24


def arguments_of_parameters(n):
    return CLASS + "void m(" + ",".join(f"int p{i}" for i in range(n)) + "){ m(" + ",".join(["1"] * n) + "); } }", 13


def constants(n):
    return "class A { static final int C0=1;" + "".join(f"static final int C{i}=C{i - 1};" for i in range(1, n)) + " boolean repOk() { return true; } }", 32


def constants_summed(n):
    return "class A { " + "".join(f"static final int C{i}=1;" for i in range(n)) + "static final int D=0" + "".join(f"+C{i}" for i in range(n)) + "; boolean repOk() { return D>0; } }", 34


def methods_overridden(n):
    n = max(1, n // 64)
    own = "".join(f"void m{i}(){{}}" for i in range(n))
    return "class A { boolean repOk() { return true; } " + own + "}" + "".join(f"class X{i} extends {'X%d' % (i - 1) if i else 'A'} {{{own}}}" for i in range(63)), 13


def long_names(n):
    return HEAD + "".join("int " + "x" * (n // 7) + f"{i}=0;" for i in range(7)) + TAIL, 1


def each_statement(n):
    return HEAD + "int x=0;" + "if(x>0){x++;}else{x--;}while(x<0){x+=2;}do{x=-x;}while(x>9);for(int i=0;i<3;i++){x=x*i;continue;}" * n + TAIL, 96


COUNTED = [locals_used, first_local_used, blocks_with_locals, conditionals_inside, nested_do, nested_generics, dimensions_used, dimensions_of_each_count,
           methods_that_call, methods_reached, arguments_of_parameters, constants, constants_summed, methods_overridden, long_names, each_statement]

# ---- finitizations and shards

ONE = 'version = 2\nroot = "A"\nfuel = 9\n'
FINS = {
    "fin-integers": ('root = "A"\nfuel = 9\n[objects]\nA = 1\n[fields]\n"A.v" = [0', ", 1", "]\n"),
    "fin-distinct-integers": ('root = "A"\nfuel = 9\n[objects]\nA = 1\n[fields]\n"A.v" = [0', ", %d", "]\n"),
    "fin-ranges": ('root = "A"\nfuel = 9\n[objects]\nA = 1\n[fields]\n"A.v" = [0', ", { from = 1, to = 0 }", "]\n"),
    "fin-long-ranges": ('root = "A"\nfuel = 9\n[objects]\nA = 1\n[fields]\n"A.v" = [0', ", { from = 0, to = 9 }", "]\n"),
    "fin-texts": ('root = "A"\nfuel = 9\n[objects]\nA = 1\n[fields]\n"A.v" = [0', ', "null"', "]\n"),
    "fin-unknown-names": ('root = "A"\nfuel = 9\n[objects]\nA = 1\n[fields]\n"A.v" = [0', ', "X%d"', "]\n"),
    "fin-truths": ('root = "A"\nfuel = 9\n[objects]\nA = 1\n[fields]\n"A.v" = [0', ", true", "]\n"),
    "fin-objects": ('root = "A"\nfuel = 9\n[objects]\nA = 1\n', "X%d = 1\n", ""),
    "fin-arrays": ('root = "A"\nfuel = 9\n[objects]\nA = 1\n[arrays]\n', '"X%d[]" = { count = 1, lengths = [0] }\n', ""),
    "fin-lengths": ('root = "A"\nfuel = 9\n[objects]\nA = 1\n[arrays]\n"int[]" = { count = 1, lengths = [0', ", 1", "] }\n"),
    "fin-fields": ('root = "A"\nfuel = 9\n[objects]\nA = 1\n[fields]\n', '"A.f%d" = [0]\n', ""),
    "fin-parameters": ('root = "A"\nfuel = 9\n[objects]\nA = 1\n[params]\n', '"m.p%d" = [0]\n', ""),
    "fin-unknown-keys": ('root = "A"\nfuel = 9\n', "k%d = 1\n", ""),
    "fin-dotted-key": ('root = "A"\nfuel = 9\na', ".a", " = 1\n"),
    "fin-header": ('root = "A"\nfuel = 9\n[a', ".a", "]\n"),
    "fin-headers": ('root = "A"\nfuel = 9\n', "[t%d]\n", ""),
    "fin-array-tables": ('root = "A"\nfuel = 9\n', "[[t]]\n", ""),
    "fin-nested-arrays": ('root = "A"\nfuel = 9\nx = ', "[", "\n"),
    "fin-nested-tables": ('root = "A"\nfuel = 9\nx = ', "{a=", "\n"),
    "fin-comment": ('root = "A"\nfuel = 9\n#', "x", "\n"),
    "fin-comments": ('root = "A"\nfuel = 9\n', "#\n", ""),
    "fin-lines": ('root = "A"\nfuel = 9\n', "\n", ""),
    "fin-text": ('root = "', "x", '"\nfuel = 9\n'),
    "fin-escapes": ('root = "', "\\n", '"\nfuel = 9\n'),
    "fin-digits": ('root = "A"\nfuel = 1', "0", "\n"),
    "fin-underscores": ('root = "A"\nfuel = 1', "_1", "\n"),
    "fin-key": ('root = "A"\nfuel = 9\n', "k", " = 1\n"),
    "fin-one-key-twice": ('root = "A"\nfuel = 9\n', "k = 1\n", ""),
    "fin-zeros": ("", "\0", ""),
    "fin-object-domains": (ONE + '[objects]\nA = { class = "A", count = 1 }\n', 'X%d = { class = "A", count = 1 }\n', ""),
    "fin-empty-object-domains": (ONE + '[objects]\nA = { class = "A", count = 1 }\n', 'X%d = { class = "A", count = 0 }\n', ""),
    "fin-object-domains-by-headers": (ONE + '[objects]\nA = { class = "A", count = 1 }\n', '[objects.X%d]\nclass = "A"\ncount = 1\n', ""),
    "fin-object-domains-of-unknown-classes": (ONE + '[objects]\nA = { class = "A", count = 1 }\n', 'X%d = { class = "Y%d", count = 1 }\n', ""),
    "fin-object-domain-of-long-name": (ONE + '[objects]\nA = { class = "A", count = 1 }\n', "X", ' = { class = "A", count = 1 }\n'),
    "fin-object-domain-of-long-class": (ONE + '[objects]\nA = { class = "', "A", '", count = 1 }\n'),
    "fin-own-name-in-a-domain": ('root = "A"\nfuel = 9\n[objects]\nA = 1\n[fields]\n"A.a" = ["A"', ', "A"', "]\n"),
    "fin-truths-in-turns": ('root = "A"\nfuel = 9\n[objects]\nA = 1\n[fields]\n"A.b" = [true', ", false, true", "]\n"),
    "fin-integers-falling": ('root = "A"\nfuel = 9\n[objects]\nA = 1\n[fields]\n"A.v" = [0', ", -%d", "]\n"),
    "fin-integers-in-hexadecimal": ('root = "A"\nfuel = 9\n[objects]\nA = 1\n[fields]\n"A.v" = [0', ", 0xf", "]\n"),
    "fin-integers-on-lines": ('root = "A"\nfuel = 9\n[objects]\nA = 1\n[fields]\n"A.v" = [0', ",\n1", "]\n"),
    "fin-integer-of-a-whole-range": ('root = "A"\nfuel = 9\n[objects]\nA = 1\n[fields]\n"A.v" = [0', ", { from = -2147483648, to = 2147483647 }", "]\n"),
    "fin-elements": ('root = "A"\nfuel = 9\n[objects]\nA = 1\n[arrays]\n"int[]" = { count = 1, lengths = [1] }\n[fields]\n"int[].*" = [0', ", 1", "]\n"),
    "fin-array-names": ('root = "A"\nfuel = 9\n[objects]\nA = 1\n[arrays]\n"int', "[]", '" = { count = 1, lengths = [0] }\n'),
    "fin-fields-of-classes": ('root = "A"\nfuel = 9\n[objects]\nA = 1\n[fields]\n', '"X%d.v" = [0]\n', ""),
    "fin-fields-by-headers": ('root = "A"\nfuel = 9\n[objects]\nA = 1\n', "[fields.X%d]\nv = 1\n", ""),
    "fin-parameters-of-methods": ('root = "A"\nfuel = 9\n[objects]\nA = 1\n[params]\n', '"m%d.p" = [0]\n', ""),
    "fin-domains-with-commas": ('root = "A"\nfuel = 9\n[objects]\nA = 1\n[fields]\n', '"A.f%d" = [0,]\n', ""),
    "fin-empty-domains": ('root = "A"\nfuel = 9\n[objects]\nA = 1\n[fields]\n', '"A.f%d" = []\n', ""),
    "fin-literal-text": ("root = '", "x", "'\nfuel = 9\n"),
    "fin-text-of-lines": ('root = """', "x\n", '"""\nfuel = 9\n'),
    "fin-letters": ('root = "', "\u00e9", '"\nfuel = 9\n'),
    "fin-escapes-of-letters": ('root = "', "\\u00e9", '"\nfuel = 9\n'),
    "fin-spaces": ('root = "A"', " ", "\nfuel = 9\n"),
    "fin-floats": ('root = "A"\nfuel = 9\nx = [0.5', ", 0.5", "]\n"),
    "fin-dates": ('root = "A"\nfuel = 9\nx = [1979-05-27', ", 1979-05-27", "]\n"),
}
SHARDS = {
    "shard-rows": ("shard start end\n", "%d A#0{}\n", None),
    "shard-long-row": ("shard start end\n0 A#0{", "x", "}\nvalid 1 tried 1\n"),
    "shard-long-key": ("shard start end\n0", ".0", " A#0{}\nvalid 1 tried 1\n"),
    "shard-no-line": ("", "x", ""),
    "shard-lines": ("shard start end\n", "\n", ""),
    "shard-long-head": ("shard ", "1.", "end\nvalid 0 tried 0\n"),
}


def files_of(kind, size):
    """The files of a kind, by their names, and the calls that are made on them."""
    source_calls = [["check", "fin.toml", "A.java"], ["list", "--limit", "1", "fin.toml", "A.java"]]
    if kind in UNITS:
        return {"fin.toml": FIN, "A.java": filled(*UNITS[kind], size)}, source_calls
    if kind in FINS:
        source = "class A { int v; boolean b; A a; boolean repOk() { return true; } }"
        return {"fin.toml": filled(*FINS[kind], size), "A.java": source}, source_calls
    if kind in SHARDS:
        head, unit, tail = SHARDS[kind]
        text = filled(head, unit, "" if tail is None else tail, size)
        if tail is None:
            rows = text.count("\n") - 1
            text += f"valid {rows} tried {rows}\n"
        return {"shard": text}, [["merge", "shard"]]
    make = next(f for f in COUNTED if f.__name__.replace("_", "-") == kind)
    count = max(2, size // make(2)[1])
    return {"fin.toml": FIN, "A.java": make(count)[0]}, source_calls


KINDS = [*UNITS, *(f.__name__.replace("_", "-") for f in COUNTED), *FINS, *SHARDS]


def call(words, folder):
    """Seconds of processor time, peak memory in KB and status of a call."""
    figures = os.path.join(folder, "figures")
    timed = ["/usr/bin/time", "-q", "-f", "%U %S %M", "-o", figures, KORAT, *words]
    ended = subprocess.run(timed, cwd=folder, stdin=subprocess.DEVNULL, stdout=subprocess.DEVNULL, stderr=subprocess.DEVNULL, timeout=120)
    user, system, memory = open(figures).read().split()[-3:]
    return float(user) + float(system), int(memory), ended.returncode


def measured(kind, size):
    """What each call on a kind's files takes."""
    with tempfile.TemporaryDirectory() as folder:
        files, calls = files_of(kind, size)
        for name, text in files.items():
            with open(os.path.join(folder, name), "w", newline="") as out:
                out.write(text)
        return {words[0]: call(words, folder) for words in calls}


def judged(command, small, large):
    """Which limits a kind breaks."""
    seconds, memory = (2, 100) if command == "check" else (3, 150)
    broken = []
    if large[0] > 0.5 and large[0] > 5 * small[0]:
        broken.append("time grows")
    if large[1] > 20480 and large[1] > 5 * small[1]:
        broken.append("memory grows")
    if large[0] > seconds:
        broken.append(f"over {seconds} s")
    if large[1] > memory * 1024:
        broken.append(f"over {memory} MB")
    return broken


def measure(kinds):
    failed = 0
    for kind in kinds:
        small, large = measured(kind, SMALL), measured(kind, LARGE)
        for command in large:
            a, b = small[command], large[command]
            broken = judged(command, a, b)
            failed += bool(broken)
            print(f"{kind:30} {command:6} {a[0]:6.2f} s {a[1] / 1024:6.0f} MB {b[0]:6.2f} s {b[1] / 1024:6.0f} MB  status {b[2]:3}  {', '.join(broken)}", flush=True)
    print(f"{len(kinds)} kinds, {failed} calls failed")
    return failed > 0


if __name__ == "__main__":
    words = sys.argv[1:] or ["measure"]
    if words[0] == "kinds":
        print("\n".join(KINDS))
    elif words[0] == "write":
        for name, text in files_of(words[1], int(words[2]))[0].items():
            with open(name, "w", newline="") as out:
                out.write(text)
    else:
        sys.exit(measure(words[1:] or KINDS))
