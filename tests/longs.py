#!/usr/bin/env python3
"""Tries the operators on the edge values of `int` and `long`, 15 of each, in all four pairs of types.

    tests/longs.py

For each operator and each pair of values a row says what comes out: in a run (operators, compound assignments to a local, a field
and an element, shifts, signs, steps, casts, `?:`, and the type of each by a shift of the result by 33), as the initial value of a
constant, and in an `ensures`. The values are those of a Java virtual machine, where there is one; their digest is in this file.
With each value made wrong no row may be left. KORAT names the program. The last line is `N passed, M failed`, and the status is
0 where none failed.
"""
import hashlib, os, re, shutil, subprocess, sys, tempfile

TOP = os.path.dirname(os.path.dirname(os.path.abspath(__file__)))
KORAT = os.path.abspath(os.environ.get("KORAT", os.path.join(TOP, "crates/korat/out/korat")))
EDGES = {
    "int": [-2**31, 1 - 2**31, -65537, -33, -2, -1, 0, 1, 2, 5, 31, 32, 65536, 2**31 - 2, 2**31 - 1],
    "long": [-2**63, 1 - 2**63, -2**32 - 1, -2**31 - 1, -2**31, -1, 0, 1, 33, 63, 64, 2**31, 2**32, 2**63 - 2, 2**63 - 1],
}
BITS = {"int": 32, "long": 64}
PAIRS = [(left, right) for left in EDGES for right in EDGES]
# The values below as a Java virtual machine (17) writes them: the SHA-256 of `table`.
DIGEST = "656f38391ce12952694f92ed202536a85199f3d874b1aa04eb681c2faf1efcad"
passed = failed = 0


def count(well, name):
    global passed, failed
    passed += bool(well)
    failed += not well
    if not well:
        print("failed:", name)


def wrapped(number, of):
    half = 1 << (BITS[of] - 1)
    return (number + half) % (2 * half) - half


def wider(left, right):
    return "long" if "long" in (left, right) else "int"


def quotient(x, y):
    return abs(x) // abs(y) * (1 if (x < 0) == (y < 0) else -1)


ARITHMETIC = {
    "+": lambda x, y: x + y, "-": lambda x, y: x - y, "*": lambda x, y: x * y, "/": quotient,
    "%": lambda x, y: x - y * quotient(x, y), "&": lambda x, y: x & y, "|": lambda x, y: x | y, "^": lambda x, y: x ^ y,
}
SHIFTS = {
    "<<": lambda x, n, bits: x << n, ">>": lambda x, n, bits: x >> n, ">>>": lambda x, n, bits: (x % (1 << bits)) >> n,
}
ORDERS = {
    "<": lambda x, y: x < y, "<=": lambda x, y: x <= y, ">": lambda x, y: x > y, ">=": lambda x, y: x >= y,
    "==": lambda x, y: x == y, "!=": lambda x, y: x != y,
}


def binary(operator, left, right, x, y):
    """The type and the value, None for a trap, of `x operator y`."""
    if operator in SHIFTS:
        return left, wrapped(SHIFTS[operator](x, y % BITS[left], BITS[left]), left)
    of = wider(left, right)
    return of, None if operator in "/%" and y == 0 else wrapped(ARITHMETIC[operator](x, y), of)


class Sheet:
    """An expression over `a` and `b`, with its type and the values for all pairs of edges. `x` is a local with a's value, `wide`
    a `long`; where `writes` one of them is written."""

    def __init__(self, text, left, right, meaning, is_shifted=False):
        self.plain, self.text = text, f"({text}) << 33" if is_shifted else text
        self.writes = "x" in text or "=" in text.replace("==", "").replace("!=", "").replace("<=", "").replace(">=", "")
        rows = [[meaning(x, y) for y in EDGES[right]] for x in EDGES[left]]
        self.type = rows[0][0][0]
        self.values = [[value for _, value in row] for row in rows]


def shifted(meaning):
    """The meaning of `(..) << 33`, which shifts an int by one."""
    def of(x, y):
        kind, value = meaning(x, y)
        return kind, None if value is None else binary("<<", kind, "int", value, 33)[1]
    return of


def sheets(left, right):
    """The sheets of a pair of types."""
    def add(text, meaning):
        made.append(Sheet(text, left, right, meaning))
        made.append(Sheet(text, left, right, shifted(meaning), True))

    made = []
    for operator in [*ARITHMETIC, *SHIFTS]:
        add(f"a {operator} b", lambda x, y, o=operator: binary(o, left, right, x, y))
        def compound(x, y, o=operator):
            _, value = binary(o, left, right, x, y)
            return left, None if value is None else wrapped(value, left)
        add(f"x {operator}= b", compound)
    for operator in ORDERS:
        made.append(Sheet(f"a {operator} b", left, right, lambda x, y, o=operator: ("boolean", ORDERS[o](x, y))))
    add("a < b ? a : b", lambda x, y: (wider(left, right), x if x < y else y))
    add("a < b ? b : a", lambda x, y: (wider(left, right), y if x < y else x))
    if left == right:
        add("-a", lambda x, y: (left, wrapped(-x, left)))
        add("+a", lambda x, y: (left, x))
        add("~a", lambda x, y: (left, ~x))
        add("(int) a", lambda x, y: ("int", wrapped(x, "int")))
        add("(long) a", lambda x, y: ("long", x))
        add("- (int) b", lambda x, y: ("int", wrapped(-wrapped(y, "int"), "int")))
        for step, change in ("++", 1), ("--", -1):
            add(f"x{step}", lambda x, y: (left, x))
            add(f"{step}x", lambda x, y, c=change: (left, wrapped(x + c, left)))
    if left == "int":
        add("wide = a", lambda x, y: ("long", x))
    return made


ALL = {pair: sheets(*pair) for pair in PAIRS}


def shown(value):
    return "trap" if value is None else str(value).lower() if isinstance(value, bool) else str(value)


def table():
    """All values, a line for each sheet."""
    return "".join(f"{left} {right} {sheet.text}: {' '.join(shown(v) for row in sheet.values for v in row)}\n"
                   for (left, right), made in ALL.items() for sheet in made)


def literal(value):
    if isinstance(value, bool):
        return shown(value)
    return f"{value}L" if not -2**31 <= value < 2**31 else str(value)


def java_table():
    """The table as a Java virtual machine computes it, or None where there is none."""
    if not shutil.which("javac"):
        return None
    lines = ["public class Sheets {", "static StringBuilder out = new StringBuilder();"]
    for of, edges in EDGES.items():
        lines.append(f"static {of}[] {of}s = {{ {', '.join(literal(edge) for edge in edges)} }};")
    calls = []
    for (left, right), made in ALL.items():
        for sheet in made:
            name = f"s{len(calls)}"
            lines += [f"static void {name}() {{", f'out.append("{left} {right} {sheet.text}:");',
                      f"for ({left} a : {left}s) for ({right} b : {right}s)",
                      f"try {{ {left} x = a; long wide = 0; {sheet.type} is = {sheet.text}; out.append(' ').append(is); }}",
                      "catch (ArithmeticException e) { out.append(\" trap\"); }", "out.append('\\n'); }"]
            calls.append(f"{name}();")
    lines += ["public static void main(String[] words) {", *calls, "System.out.print(out); } }"]
    write("Sheets.java", "\n".join(lines))
    return subprocess.run(["java", "-XX:TieredStopAtLevel=1", "Sheets.java"], capture_output=True, text=True).stdout


def write(name, text):
    with open(name, "w") as file:
        file.write(text)


def by_place(texts):
    """`?:` over `j`."""
    return "".join(f"j == {j} ? {text} : " for j, text in enumerate(texts[:-1])) + texts[-1]


def chosen(values, are_right):
    """The values of a row by their places, made wrong where they aren't to be right; a trap's place has any."""
    texts = []
    for value in values:
        if value is None:
            value = 0
        elif not are_right:
            value = not value if isinstance(value, bool) else value ^ 1
        texts.append(literal(value))
    return by_place(texts)


def wanted(number, sheet, are_right):
    """A method with the values of a sheet."""
    of = "boolean" if sheet.type == "boolean" else "long"
    rows = "".join(f"    if (i == {i}) return {chosen(values, are_right)};\n" for i, values in enumerate(sheet.values))
    return f"  {of} w{number}(int i, int j) {{\n{rows}    return {'false' if of == 'boolean' else '0'};\n  }}\n"


def place(of, name):
    """A method that finds the place of an edge."""
    tests = " ".join(f"if (v == {literal(edge)}) return {i};" for i, edge in enumerate(EDGES[of]))
    return f"  int {name}({of} v) {{ {tests} return 15; }}\n"


def finitization(fields, params=""):
    return f'root = "Row"\nfuel = 5000\n[objects]\nRow = 1\n[fields]\n{fields}[params]\n{params}'


def upto(length):
    return f"[{{ from = 0, to = {length - 1} }}]"


def rows_of(left, right, made, row):
    """The rows of a report: `row` for the numbers of the sheet and the edges, the edges, and the value, where it isn't None."""
    lines = []
    for k, sheet in enumerate(made):
        for i, x in enumerate(EDGES[left]):
            for j, y in enumerate(EDGES[right]):
                line = row(k, i, j, x, y, sheet.values[i][j])
                if line:
                    lines.append(line)
    return lines


def compare(name, words, status, lines):
    """The program, called with these words, has to end with a status, and with these lines."""
    done = subprocess.run([KORAT, *words], capture_output=True, text=True)
    got = done.stdout.splitlines()
    differ = "" if got == lines else next(f"line {n + 1} is {a}, and not {b}" for n, (a, b) in
                                          enumerate(zip(got + ["-"] * len(lines), lines + ["-"] * len(got))) if a != b)
    count(done.returncode == status and not differ and not done.stderr, f"{name}: status {done.returncode}, {differ} {done.stderr[:200]}")


def runs(left, right, made, are_right):
    """A run for each row: the predicate is true where the expression has the value."""
    text = [f"class Box {{ {left} v; }}\nclass Row {{\n  int k;\n  {left} a;\n  {right} b;\n"]
    for number, sheet in enumerate(made):
        of = "boolean" if sheet.type == "boolean" else "long"
        text.append(wanted(number, sheet, are_right) + f"  boolean t{number}({of} e) {{\n")
        if not sheet.writes:
            text.append(f"    return ({sheet.text}) == e;\n  }}\n")
        elif "x" not in sheet.plain:
            text.append(f"    long wide = 0; return ({sheet.text}) == e && wide == a;\n  }}\n")
        else:
            # The same of a local, a field and an element, which have the same value after it.
            tests = " && ".join(f"({sheet.text.replace('x', target)}) == e && {target} == z" for target in ("x", "box.v", "array[0]"))
            text.append(f"    {left} x = a; Box box = new Box(); box.v = a; {left}[] array = new {left}[1]; array[0] = a;\n"
                        f"    {left} z = a; {sheet.plain.replace('x', 'z')};\n    return {tests};\n  }}\n")
    text += [place(left, "i"), place(right, "j"), "  boolean repOk() {\n"]
    text += [f"    if (k == {n}) return t{n}(w{n}(i(a), j(b)));\n" for n in range(len(made))] + ["    return false;\n  }\n}\n"]
    write("Row.java", "".join(text))
    write("row.toml", finitization(f'"Row.k" = {upto(len(made))}\n"Row.a" = {EDGES[left]}\n"Row.b" = {EDGES[right]}\n'))
    lines = rows_of(left, right, made, lambda k, i, j, x, y, value:
                    None if value is None or not are_right else f"0.{k}.{i}.{j} Row#0{{k={k},a={x},b={y}}}")
    compare(f"runs of {left} and {right}{'' if are_right else ', made wrong'}", ["list", "row.toml", "Row.java"], 0,
            lines + [f"valid {len(lines)} tried {len(made) * 225}"])


def operand(of, place, is_constant):
    """An edge as a part of a constant's value: a constant, or a literal of its type."""
    return f"{of[0].upper()}{place}" if is_constant else f"({EDGES[of][place]}{'L' if of == 'long' else ''})"


def constants(left, right, made, are_right):
    """A constant for each row: the predicate is true where it has the value. Its operands are literals and constants in turn."""
    text = ["class Row {\n  int k;\n  int i;\n  int j;\n"]
    for of in EDGES:
        text += [f"  static final {of} {of[0].upper()}{n} = {literal(edge)};\n" for n, edge in enumerate(EDGES[of])]
    for number, sheet in enumerate(made):
        text.append(wanted(number, sheet, are_right))
        of = "boolean" if sheet.type == "boolean" else "long"
        for i, values in enumerate(sheet.values):
            for j, value in enumerate(values):
                operands = {"a": operand(left, i, (i + j) % 2), "b": operand(right, j, (i + j + 1) % 2)}
                if value is not None:
                    initial = re.sub("[ab]", lambda found: operands[found[0]], sheet.text)
                    text.append(f"  static final {sheet.type} C{number}_{i}_{j} = {initial};\n")
            names = [f"C{number}_{i}_{j} == e" if value is not None else "false" for j, value in enumerate(values)]
            text.append(f"  boolean t{number}_{i}({of} e) {{\n    return {by_place(names)};\n  }}\n")
        tests = "".join(f"    if (i == {i}) return t{number}_{i}(e);\n" for i in range(15))
        text.append(f"  boolean t{number}({of} e) {{\n{tests}    return false;\n  }}\n")
    tests = "".join(f"    if (k == {n}) return t{n}(w{n}(i, j));\n" for n in range(len(made)))
    text.append(f"  boolean repOk() {{\n{tests}    return false;\n  }}\n}}\n")
    write("Row.java", "".join(text))
    write("row.toml", finitization(f'"Row.k" = {upto(len(made))}\n"Row.i" = {upto(15)}\n"Row.j" = {upto(15)}\n'))
    lines = rows_of(left, right, made, lambda k, i, j, x, y, value:
                    None if value is None or not are_right else f"0.{k}.{i}.{j} Row#0{{k={k},i={i},j={j}}}")
    compare(f"constants of {left} and {right}{'' if are_right else ', made wrong'}", ["list", "row.toml", "Row.java"], 0,
            lines + [f"valid {len(lines)} tried {len(made) * 225}"])


def conditions(left, right, made, are_right):
    """A row of a test for each row: the method's result is the value, and an `ensures` has the expression."""
    text = ["class Row {\n  boolean repOk() { return true; }\n"]
    text += [wanted(number, sheet, are_right) for number, sheet in enumerate(made)] + [place(left, "i"), place(right, "j")]
    for number, sheet in enumerate(made):
        result = "(\\result == 1)" if sheet.type == "boolean" else "\\result"
        text.append(f"  //@ ensures k != {number} || ({sheet.text}) == {result};\n")
    text.append(f"  long m(int k, {left} a, {right} b) {{\n    int i = i(a);\n    int j = j(b);\n")
    for number, sheet in enumerate(made):
        value = f"w{number}(i, j)"
        text.append(f"    if (k == {number}) return {value + ' ? 1 : 0' if sheet.type == 'boolean' else value};\n")
    text.append("    return 0;\n  }\n}\n")
    write("Row.java", "".join(text))
    write("row.toml", finitization("", f'"m.k" = {upto(len(made))}\n"m.a" = {EDGES[left]}\n"m.b" = {EDGES[right]}\n'))
    traps = sum(value is None for sheet in made for values in sheet.values for value in values)
    rows = len(made) * 225

    def verdict(k, value):
        return "check-trap ArithmeticException" if value is None else "pass" if are_right else f"ensures {k + 1}"

    lines = rows_of(left, right, made, lambda k, i, j, x, y, value: f"0.{k}.{i}.{j} {verdict(k, value)} (k={k},a={x},b={y}) Row#0{{}}")
    failing = traps if are_right else rows
    compare(f"ensures of {left} and {right}{'' if are_right else ', made wrong'}", ["test", "row.toml", "m", "Row.java"], 1 if failing else 0,
            lines + [f"valid {rows} failing {failing} tried {rows}"])


def main():
    if not os.access(KORAT, os.X_OK):
        sys.exit("tests/longs.py: there is no program to try")
    mine = table()
    digest = hashlib.sha256(mine.encode()).hexdigest()
    count(digest == DIGEST, f"the values have another digest, {digest}")
    theirs = java_table()
    if theirs is None:
        print("1 not tried, for want of a JDK")
    else:
        lines = zip(theirs.splitlines() + [""] * 999, mine.splitlines())
        count(mine == theirs, f"this Java virtual machine has other values: {next((a[:200] for a, b in lines if a != b), '')}")
    for (left, right), made in ALL.items():
        for are_right in True, False:
            runs(left, right, made, are_right)
            pure = [sheet for sheet in made if not sheet.writes]
            for start in range(0, len(pure), 12):
                constants(left, right, pure[start:start + 12], are_right)
            conditions(left, right, pure, are_right)


with tempfile.TemporaryDirectory() as work:
    os.chdir(work)
    main()
    os.chdir(TOP)
print(f"{passed} passed, {failed} failed")
sys.exit(failed > 0)
