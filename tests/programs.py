#!/usr/bin/env python3
"""Tries random programs over `int` and `long` against a Java virtual machine: values, traps, verdicts, and fuel to the unit.

    tests/programs.py [COUNT [SEED]]        20 programs and seed 1 where it isn't said

Each program is a class with a predicate, other methods, constants, and a method under test with a contract; it throws and catches. A copy of it, in which
each node adds its unit to a counter when it is entered, runs on the virtual machine, on each structure and arguments within the
bounds. `list` and `test` have to end as that says: with the method's results, which are written into one `ensures` more; and with
the very rows where the fuel is just enough for all, and where it is just too little for some. KORAT names the program; KEEP
a folder for the programs. The last line is `N passed, M failed`, and the status is 0 where none failed.
"""
import collections, itertools, os, random, shutil, string, subprocess, sys, tempfile

TOP = os.path.dirname(os.path.dirname(os.path.abspath(__file__)))
KORAT = os.path.abspath(os.environ.get("KORAT", os.path.join(TOP, "crates/korat/out/korat")))
BATCH = 50
INTS = [0, 1, 2, 3, 7, 31, 32, 33, -1, -2, 2**31 - 1, -2**31, 65536]
LONGS = [0, 1, 2, 33, 63, 64, -1, -33, 2**31 - 1, 2**31, -2**31 - 1, 2**32, 2**32 + 5, 2**63 - 1, -2**63]
OPERATORS = ["+", "-", "*", "/", "%", "&", "|", "^", "<<", ">>", ">>>"]
SHIFTS = ("<<", ">>", ">>>")
STEPS = ["{}++", "{}--", "++{}", "--{}"]
NUMBERS = ("int", "long")
# The classes of exceptions, each with the one above it. A constructor of `Odd` and `Low` takes an int.
ABOVE = {"Exception": None, "RuntimeException": "Exception", "NullPointerException": "RuntimeException", "ArithmeticException": "RuntimeException",
         "IndexOutOfBoundsException": "RuntimeException", "ArrayIndexOutOfBoundsException": "IndexOutOfBoundsException",
         "NegativeArraySizeException": "RuntimeException", "IllegalStateException": "RuntimeException", "Odd": "IllegalStateException", "Low": "Odd"}
passed = failed = 0
verdicts = collections.Counter()

# The copy for the virtual machine. It writes a line for each run: C, the key, the structure, how it ended, its units; for each pair
# of arguments R, whether the conditions are met, and the units up to there; and for each test T, the key, the arguments and the
# structure, the verdict, the units, the result.
COPY = string.Template(r"""package $package;
class U {
    static int units;
    static final class Spent extends Error { }
    static boolean u() { if (++units > 20000) throw new Spent(); return true; }
    static boolean u2() { u(); return u(); }
    static int n(boolean u, int v) { return v; }
    static long n(boolean u, long v) { return v; }
    static boolean n(boolean u, boolean v) { return v; }
    static <T> T n(boolean u, T v) { return v; }
}
class Box {
    int w;
    long u = U.n(U.u(), 3);
    Box(int a, long b) { U.u(); U.u(); w = U.n(U.u(), a); U.u(); U.u(); u += U.n(U.u(), b); }
}
class Odd extends IllegalStateException {
    int n;
    Odd(int a) { U.u(); U.u(); n = U.n(U.u(), a); }
}
class Low extends Odd {
    Low(int a) { super(U.n(U.u2(), a)); }
}
public class A {
    static final int[] V = { $v };
    static final long[] W = { $w };
    static final $x_kind[] X = { $x };
    static final $y_kind[] Y = { $y };
    static final $element[] D = { $elements };
    int v;
    long w;
    $element[] d;
$members
    $kind m($x_kind x, $y_kind y) {
$tested
    }
$conditions
    String test($x_kind x, $y_kind y, StringBuilder value) {
        String at = "check-trap ";
$old_names
        try {
$olds
            at = "trap ";
            $kind result = m(x, y);
            at = "check-trap ";
            value.append(result);
            U.u2();
            if (!repOk()) return "repOk";
$checks
            return "pass";
        } catch (RuntimeException e) {
            if (!at.equals("trap ") || !($fits)) return at + e.getClass().getSimpleName();
            try {
                U.u2();
                if (!repOk()) return "repOk";
$signals
                return "pass";
            } catch (RuntimeException f) {
                return "check-trap " + f.getClass().getSimpleName();
            }
        }
    }
    static A of(int i, int j, int[] key) {
        A a = new A();
        a.v = V[i];
        a.w = W[j];
        if (key.length > 0) a.d = new $element[key.length - 1];
        for (int n = 1; n < key.length; n++) a.d[n - 1] = D[key[n]];
        return a;
    }
    public String toString() {
        String array = java.util.Arrays.toString(d).replace(" ", "");
        return "A#0{v=" + v + ",w=" + w + ",d=" + (d == null ? "null}" : "$element[]#0} $element[]#0" + array);
    }
    static void all(StringBuilder out) {
        int[][] keys = { $keys };
        for (int i = 0; i < 2; i++) for (int j = 0; j < 2; j++) for (int[] key : keys) {
            A a = of(i, j, key);
            String s = a.toString(), end;
            U.units = 0;
            try { U.u2(); end = String.valueOf(a.repOk()); } catch (RuntimeException e) { end = "false"; }
            String k = "0." + i + "." + j + (key.length == 0 ? ".0" : ".1");
            for (int n : key) k += "." + n;
            int before = U.units;
            out.append("C;" + k + ";" + s + ";" + end + ";" + before + "\n");
            if (!end.equals("true")) continue;
            for (int x = 0; x < 2; x++) for (int y = 0; y < 2; y++) {
                U.units = before;
                boolean met = true;
                try { a = of(i, j, key); met = $requires; } catch (RuntimeException e) { met = false; }
                out.append("R;" + met + ";" + U.units + "\n");
                if (!met) continue;
                a = of(i, j, key);
                U.units = 0;
                StringBuilder value = new StringBuilder();
                String verdict = a.test(X[x], Y[y], value);
                out.append("T;" + k + "." + x + "." + y + ";(x=" + X[x] + ",y=" + Y[y] + ") " + s);
                out.append(";" + verdict + ";" + U.units + ";" + value + "\n");
            }
        }
    }
    public static void main(StringBuilder out) {
        StringBuilder mine = new StringBuilder();
        try { all(mine); out.append(mine); } catch (U.Spent e) { out.append("long\n"); }
    }
}
""")


def is_below(name, above):
    while name and name != above:
        name = ABOVE[name]
    return name == above


def related(name):
    """The classes that an object of this one may be of."""
    return [other for other in ABOVE if is_below(name, other) or is_below(other, name)]


def count(well, name):
    global passed, failed
    passed += bool(well)
    failed += not well
    if not well:
        print("failed:", name, flush=True)


class Text:
    """A part of a program, as it is and with its units counted."""

    def __init__(self, plain, counted=None):
        self.plain, self.counted = plain, plain if counted is None else counted


def join(form, *parts):
    """A text made of parts, without a unit of its own."""
    return Text(form.format(*[part.plain for part in parts]), form.format(*[part.counted for part in parts]))


def with_unit(text):
    return Text(text.plain, f"U.n(U.u(), {text.counted})")


def node(form, *parts):
    """An expression of parts, which takes a unit."""
    return with_unit(join(form, *parts))


def statement(form, *parts):
    """A statement of parts, which takes a unit."""
    made = join(form, *parts)
    return Text("    " + made.plain, "    U.u(); " + made.counted)


def literal(value, of):
    """A number of a type; a negative one is a sign and a number."""
    text = f"{abs(value)}{'L' if of == 'long' else ''}"
    return Text(f"(-{text})", f"U.n(U.u2(), -{text})") if value < 0 else node(text)


class Method:
    def __init__(self, name, kind, kinds, is_static, is_pure):
        self.name, self.kind, self.kinds, self.is_static, self.is_pure = name, kind, kinds, is_static, is_pure


class Scope:
    """The names that are visible, each with its type and whether it may be written, and the methods that may be called. Pure code
    leaves the structure as it is; a contract's writes and makes nothing at all."""

    def __init__(self, names, methods, is_static=False, is_pure=False, in_contract=False):
        self.names, self.is_static, self.is_pure, self.in_contract = list(names), is_static, is_pure, in_contract
        self.methods = [method for method in methods if (method.is_pure or not is_pure) and (method.is_static or not is_static)]

    def inner(self):
        return Scope(self.names, self.methods, self.is_static, self.is_pure, self.in_contract)

    def of(self, kind, is_written=False):
        return [name for name, of, may in self.names if of == kind and (may or not is_written)]


class Program:
    def __init__(self, chance):
        self.chance, self.made = chance, 0
        self.generate()

    def fresh(self):
        self.made += 1
        return f"n{self.made}"

    def pick(self, values):
        return self.chance.choice(values)

    def often(self, share):
        return self.chance.random() < share

    def pair(self, kind):
        """The types of two operands whose joint type is this one."""
        return ("int", "int") if kind == "int" else self.pick([("int", "long"), ("long", "int"), ("long", "long")])

    # ---- expressions

    def small(self, kind):
        """A number, an edge more often than not."""
        return literal(self.pick(INTS if kind == "int" else LONGS) if self.often(0.6) else self.chance.randint(-3, 5), kind)

    def leaf(self, scope, kind):
        names = scope.of(kind)
        if kind == "boolean":
            return node(self.pick(names) if names and self.often(0.6) else self.pick(["true", "false"]))
        if names and self.often(0.65):
            return node(self.pick(names))
        return node(self.pick({"int": ["I", "J", "A.I"], "long": ["L", "M", "A.L"]}[kind])) if self.often(0.2) else self.small(kind)

    def number(self, scope, depth):
        return self.value(scope, self.pick(NUMBERS), depth)

    def into(self, scope, kind, depth):
        """What may go where this type is asked for."""
        return self.value(scope, self.pick(["int", "long", "long"]) if kind == "long" else kind, depth)

    def array(self, scope, kind, depth):
        """An array of such elements, if there is one."""
        names = scope.of(kind + "[]")
        if names and self.often(0.9):
            return node(self.pick(names))
        return self.new_array(scope, kind, depth) if self.may_make(scope, kind) else None

    def may_make(self, scope, kind):
        return not scope.in_contract and not (scope.is_pure and kind == self.element)

    def new_array(self, scope, kind, depth):
        """A new array: a short one, at times of a negative length."""
        bits = node("({} & {})", self.value(scope, "int", depth - 1), literal(3, "int"))
        length = node("({} - {})" if self.often(0.15) else "({} + {})", bits, literal(1, "int"))
        return node("(new " + kind + "[{}])", length)

    def index(self, scope, depth):
        choice = self.chance.randint(0, 9)
        if choice < 5:
            return literal(self.pick([0, 0, 0, 1]), "int")
        value = self.value(scope, "int", depth - 1)
        return node("({} & {})", value, literal(self.pick([0, 1, 1, 3]), "int")) if choice < 9 else value

    def box(self, scope, depth):
        names = scope.of("Box")
        return node(self.pick(names)) if names and self.often(0.8) else None if scope.in_contract else self.new_box(scope, depth)

    def new_box(self, scope, depth):
        return node("new Box({}, {})", self.value(scope, "int", depth - 1), self.into(scope, "long", depth - 1))

    def target(self, scope, kind, depth):
        """A place that may be written, if there is one."""
        choice = self.chance.randint(0, 9)
        if choice < 2 and self.may_make(scope, kind):
            array = self.array(scope, kind, depth - 1)
            return join("{}[{}]", array, self.index(scope, depth - 1))
        if choice == 2:
            return join("{}." + ("w" if kind == "int" else "u"), self.box(scope, depth - 1))
        if choice == 3 and not scope.is_static and not scope.is_pure:
            return join("{}." + ("v" if kind == "int" else "w"), node("this"))
        names = scope.of(kind, True)
        return Text(self.pick(names)) if names else None

    def divisor(self, operator, right):
        """A divisor is odd more often than not."""
        return node("({} | {})", right, literal(1, "int")) if operator in "/%" and self.often(0.7) else right

    def call(self, scope, method, depth):
        arguments = [self.into(scope, kind, depth - 1) for kind in method.kinds]
        text = f"{method.name}({', '.join(['{}'] * len(arguments))})"
        if method.is_static:
            return join(("A." if self.often(0.5) else "") + text, *arguments)
        return join("{}." + text, node("this"), *arguments) if self.often(0.3) else join(text, *arguments)

    def assignment(self, scope, kind, depth):
        """An assignment, without its unit, if there is something to assign to."""
        target = self.target(scope, kind, depth)
        if not target:
            return None
        if self.often(0.35):
            return join("{} = {}", target, self.into(scope, kind, depth - 1))
        operator = self.pick(OPERATORS)
        return join("{} " + operator + "= {}", target, self.divisor(operator, self.number(scope, depth - 1)))

    def value(self, scope, kind, depth):
        """An expression of exactly this type."""
        if kind == "boolean":
            return self.truth(scope, depth)
        choice = self.chance.randint(0, 16)
        if depth <= 0 or self.often(0.12):
            return self.leaf(scope, kind)
        if choice <= 4:
            operator = self.pick(OPERATORS)
            left, right = (kind, self.pick(NUMBERS)) if operator in SHIFTS else self.pair(kind)
            left, right = self.value(scope, left, depth - 1), self.value(scope, right, depth - 1)
            return node("({} " + operator + " {})", left, self.divisor(operator, right))
        if choice == 5:
            return node("(" + self.pick("-~+") + " {})", self.value(scope, kind, depth - 1))
        if choice in (6, 7):
            return node("((" + kind + ") {})", self.number(scope, depth - 1))
        if choice == 8:
            condition, (one, other) = self.truth(scope, depth - 1), self.pair(kind)
            return node("({} ? {} : {})", condition, self.value(scope, one, depth - 1), self.value(scope, other, depth - 1))
        if choice == 9:
            array = self.array(scope, kind, depth - 1)
            if array:
                return node("{}[{}]", array, self.index(scope, depth - 1))
        caught = scope.of("Odd") + scope.of("Low")
        if choice == 10 and kind == "int" and caught and self.often(0.6):
            return node("{}.n", node(self.pick(caught)))
        if choice == 10:
            part = self.array(scope, self.pick(NUMBERS), depth - 1) if kind == "int" and self.often(0.5) else None
            if part:
                return node("{}.length", part)
            part = self.box(scope, depth - 1)
            if part:
                return node("{}." + ("w" if kind == "int" else "u"), part)
        if choice in (11, 12):
            methods = [method for method in scope.methods if method.kind == kind]
            if methods:
                return with_unit(self.call(scope, self.pick(methods), depth))
        if choice in (13, 14) and not scope.in_contract:
            target = self.target(scope, kind, depth)
            if target:
                return node("(" + self.pick(STEPS) + ")", target)
        if choice in (15, 16) and not scope.in_contract:
            made = self.assignment(scope, kind, depth)
            if made:
                return node("({})", made)
        return self.leaf(scope, kind)

    def truth(self, scope, depth):
        choice = self.chance.randint(0, 9)
        if depth <= 0 or self.often(0.08):
            return self.leaf(scope, "boolean")
        if choice <= 4:
            operator = self.pick(["<", "<=", ">", ">=", "==", "!="])
            return node("({} " + operator + " {})", self.number(scope, depth - 1), self.number(scope, depth - 1))
        if choice <= 6:
            operator = self.pick(["&&", "||", "&", "|", "^", "==", "!="])
            return node("({} " + operator + " {})", self.truth(scope, depth - 1), self.truth(scope, depth - 1))
        if choice == 7:
            return node("(!{})", self.truth(scope, depth - 1))
        caught = [(name, of) for name, of, _ in scope.names if of in ABOVE]
        if choice >= 8 and caught and self.often(0.6):
            name, of = self.pick(caught)
            return node("({} instanceof " + self.pick(related(of)) + ")", node(name))
        names = scope.of("long[]") + scope.of("int[]")
        if choice == 8 and names:
            return node("({} " + self.pick(["==", "!="]) + " {})", node(self.pick(names)), node("null"))
        return node("({} ? {} : {})", *[self.truth(scope, depth - 1) for _ in range(3)])

    # ---- statements: lists of texts

    def statements(self, scope, many, depth, result, in_loop=False):
        made = []
        for _ in range(many):
            made += self.statement(scope, depth, result, in_loop)
        return made

    def block(self, scope, depth, result, in_loop):
        """A block in braces, which takes a unit."""
        inner = self.statements(scope.inner(), self.chance.randint(0, 2), depth - 1, result, in_loop)
        return [Text("    {", "    { U.u();"), *inner, Text("    }")]

    def local(self, scope, kind, value, may_write=True):
        """A declaration, and its name."""
        name = self.fresh()
        scope.names.append((name, kind, may_write))
        return name, join("    " + kind + " " + name + " = {};", with_unit(value))

    def statement(self, scope, depth, result, in_loop):
        choice = self.chance.randint(0, 21)
        if choice == 18 or choice == 19 and depth <= 0:
            return [self.guarded(scope, join("throw {};", self.thrown(scope)))]
        if choice >= 19 and depth > 0:
            return self.attempt(scope, depth, result, in_loop)
        if choice <= 3:
            kind = self.pick(["int", "long", "long", "boolean"])
            return [self.local(scope, kind, self.into(scope, kind, 3))[1]]
        if choice == 4:
            kind = self.pick([kind for kind in NUMBERS if self.may_make(scope, kind)])
            return [self.local(scope, kind + "[]", self.new_array(scope, kind, 2))[1]]
        if choice == 5:
            return [self.local(scope, "Box", self.new_box(scope, 2))[1]]
        if choice <= 9:
            made = self.assignment(scope, self.pick(NUMBERS), 3)
            if made:
                return [statement("{}", Text(made.plain + ";", "U.u(); " + made.counted + ";"))]
        if choice == 10:
            target = self.target(scope, self.pick(NUMBERS), 2)
            if target:
                made = join(self.pick(STEPS), target)
                return [statement("{}", Text(made.plain + ";", "U.u(); " + made.counted + ";"))]
        if choice <= 12 and depth > 0:
            made = [statement("if ({})", self.truth(scope, 3)), *self.block(scope, depth, result, in_loop)]
            return made + ([Text("    else"), *self.block(scope, depth, result, in_loop)] if self.often(0.4) else [])
        if choice == 13 and depth > 0:
            kind, name = self.pick(NUMBERS), self.fresh()
            inner = scope.inner()
            inner.names.append((name, kind, False))
            start = literal(self.chance.randint(0, 1), "int" if kind == "int" else self.pick(NUMBERS))
            test = node("{} < {}", node(name), literal(self.chance.randint(1, 3), self.pick(NUMBERS)))
            head = statement("for (" + kind + " " + name + " = {}; {}; {})", with_unit(start), with_unit(test), node(name + "++"))
            return [head, *self.block(inner, depth, result, True)]
        if choice == 14 and depth > 0:
            name, first = self.local(scope, self.pick(NUMBERS), literal(0, "int"), False)
            test = with_unit(node("({} && {})", node("({} < {})", node(name + "++"), literal(3, "int")), self.truth(scope, 2)))
            block = self.block(scope, depth, result, True)
            if self.often(0.5):
                return [first, statement("while ({})", test), *block]
            return [first, statement("do"), *block, join("    while ({});", test)]
        if choice == 15 and in_loop:
            return [self.guarded(scope, Text(self.pick(["break;", "continue;"])))]
        if choice == 16:
            return [self.guarded(scope, self.returned(scope, result))]
        if choice == 17 and scope.methods:
            made = self.call(scope, self.pick(scope.methods), 3)
            return [statement("{}", Text(made.plain + ";", "U.u(); " + made.counted + ";"))]
        return [statement(";")]

    def thrown(self, scope, kinds=None):
        """What is thrown: a new object, of such a class, a caught one, or null."""
        caught = [name for name, of, _ in scope.names if of in ABOVE and of != "Exception"]
        if caught and self.often(0.5):
            return node(self.pick(caught))
        if self.often(0.1):
            return Text("null", "U.n(U.u(), (RuntimeException) null)")
        name = self.pick(kinds or [name for name in ABOVE if name != "Exception"] + ["Odd", "Low"])
        return node(f"new {name}({{}})", self.value(scope, "int", 1)) if name in ("Odd", "Low") else node(f"new {name}()")

    def attempt(self, scope, depth, result, in_loop):
        """A `try` with one to three of `catch`, none of which is below one before it."""
        kinds = []
        for kind in self.chance.choices(list(ABOVE), k=self.pick([1, 1, 2, 3])):
            if not any(is_below(kind, one) for one in kinds):
                kinds.append(kind)
        made = [Text("    try {", "    U.u(); try { U.u();"), *self.statements(scope.inner(), self.chance.randint(0, 2), depth - 1, result, in_loop)]
        if self.often(0.6):
            fitting = [name for name in ABOVE if name != "Exception" and any(is_below(name, kind) for kind in kinds)]
            made.append(self.guarded(scope, join("throw {};", self.thrown(scope, fitting))))
        for kind in kinds:
            inner, name = scope.inner(), self.fresh()
            inner.names.append((name, kind, False))
            head = f"    }} catch ({kind} {name}) {{"
            made += [Text(head, head + " U.u2();"), *self.statements(inner, self.chance.randint(0, 2), depth - 1, result, in_loop)]
        return made + [Text("    }")]

    def guarded(self, scope, last):
        """A statement under a condition, so that what follows is reached."""
        return statement("if ({}) {}", self.truth(scope, 2), Text(last.plain, "{ U.u(); " + last.counted + " }"))

    def returned(self, scope, result):
        return join("return {};", self.into(scope, result, 3))

    def body(self, scope, many, result):
        made = self.statements(scope, many, 2, result)
        return made + [statement("{}", self.returned(scope, result))]

    # ---- the class

    def constant(self, kind, depth=2):
        """A constant expression without a divisor."""
        if depth == 0 or self.often(0.2):
            return self.small(kind).plain
        choice = self.chance.randint(0, 5)
        if choice <= 2:
            operator = self.pick([operator for operator in OPERATORS if operator not in "/%"])
            left, right = (kind, self.pick(NUMBERS)) if operator in SHIFTS else self.pair(kind)
            return f"({self.constant(left, depth - 1)} {operator} {self.constant(right, depth - 1)})"
        if choice == 3:
            return f"({self.pick('-~')}{self.constant(kind, depth - 1)})"
        if choice == 4:
            return f"(({kind}) {self.constant(self.pick(NUMBERS), depth - 1)})"
        (one, other), (left, right) = self.pair(kind), (self.pick(NUMBERS), self.pick(NUMBERS))
        return (f"({self.constant(left, depth - 1)} < {self.constant(right, depth - 1)} ? {self.constant(one, depth - 1)} : "
                f"{self.constant(other, depth - 1)})")

    def method(self, number, earlier, fields):
        """A method, with a body; those of the predicate and of contracts are pure."""
        is_static, is_pure = self.often(0.4), self.often(0.6)
        method = Method(f"h{number}", self.pick(NUMBERS), [self.pick(NUMBERS) for _ in range(self.chance.randint(1, 2))], is_static, is_pure or is_static)
        names = [(f"p{place}", kind, True) for place, kind in enumerate(method.kinds)]
        scope = Scope(names + ([] if is_static else [(name, kind, may and not is_pure) for name, kind, may in fields]), earlier, is_static, method.is_pure)
        head = f"  {'static ' if is_static else ''}{method.kind} {method.name}({', '.join(f'{kind} {name}' for name, kind, _ in names)}) {{"
        self.lines += [Text(head), *self.body(scope, self.chance.randint(0, 2), method.kind), Text("  }")]
        return method

    def predicate(self, pure, methods):
        """It reads all slots first, in their order."""
        unread = with_unit(node("({} != {})", node("({} + {})", node("v"), node("w")), literal(12345678912345, "long")))
        i, d = node("i"), node("d")
        test = with_unit(node("{} < {}", i, node("{}.length", d)))
        value = node("{} ^ {}", node("z"), node("({} == {})", node("{}[{}]", d, i), node("7")))
        change = Text(f"z = {value.plain};", f"{{ U.u(); U.u(); z = {value.counted}; }}")
        loop = join("for (int i = {}; {}; {}) {}", with_unit(node("0")), test, node("i++"), change)
        guard = statement("if ({}) {}", node("{} != {}", d, node("null")), Text(loop.plain, "{ U.u(); " + loop.counted + " }"))
        scope = Scope(pure + [("z", "boolean", False)], methods, is_pure=True)
        body = self.body(scope, self.chance.randint(0, 3), "boolean")
        if self.often(0.5):
            # True more often than not.
            last = node("({} | {})", node("({} != {})", node("v"), literal(self.v[0], "int")), self.truth(scope, 2))
            body[-1] = statement("return {};", last)
        self.lines += [Text("  boolean repOk() {"), join("    boolean z = {};", unread), guard, *body, Text("  }")]

    def postcondition(self, scope):
        """Comparisons with the result and with old values, and another condition. The old values are kept apart, in their order."""
        made = []
        if self.often(0.6):
            made.append((Text("\\result", "U.n(U.u(), result)"), self.pick(["<", "!=", ">="])))
        for _ in range(self.chance.randint(0, 2)):
            kind = self.pick(NUMBERS)
            old = self.value(scope, kind, 2)
            made.append((Text(f"\\old({old.plain})", f"U.n(U.u(), old{len(self.olds)})"), self.pick(["<=", "!=", ">"])))
            self.olds.append((kind, old))
        whole = self.truth(scope, 2)
        for part, order in reversed(made):
            whole = node("({} " + self.pick(["|", "||", "&"]) + " {})", node("({} " + order + " {})", part, self.number(scope, 1)), whole)
        return whole

    def generate(self):
        chance = self.chance
        self.v, self.w = chance.sample(INTS, 2), chance.sample(LONGS, 2)
        self.x_kind, self.y_kind, self.element = [self.pick(NUMBERS) for _ in range(3)]
        self.x, self.y, self.elements = [chance.sample(INTS if kind == "int" else LONGS, 2)
                                         for kind in (self.x_kind, self.y_kind, self.element)]
        self.lengths = self.pick([[1], [0, 1], [2], [1, 2]])
        fields = [("v", "int", True), ("w", "long", True), ("d", self.element + "[]", False)]
        pure = [(name, kind, False) for name, kind, _ in fields]
        self.lines = [Text(f"  static final int I = {self.constant('int')};"), Text(f"  static final long L = {self.constant('long')};"),
                      Text(f"  static final int J = {self.constant('int')} + I;"), Text(f"  static final long M = {self.constant('long')} ^ (I + L);")]
        methods = []
        for number in range(chance.randint(1, 3)):
            methods.append(self.method(number, methods, fields))
        self.predicate(pure, methods)
        parameters = [("x", self.x_kind, True), ("y", self.y_kind, True)]
        scope = Scope(pure + [(name, kind, False) for name, kind, _ in parameters], methods, is_pure=True, in_contract=True)
        self.requires = [node("({} | {})", node("({} < {})", node("x"), node("y")), self.truth(scope, 2))] if self.often(0.3) else []
        self.kind, self.olds = self.pick(NUMBERS), []
        self.ensures = [self.postcondition(scope) for _ in range(chance.randint(0, 2))]
        self.signals = []
        for _ in range(self.pick([0, 0, 1, 2])):
            kind, name = self.pick(list(ABOVE) + ["Exception", "RuntimeException"]), self.fresh() if self.often(0.7) else None
            inner = scope.inner()
            if name:
                inner.names.append((name, kind, False))
            condition = self.truth(inner, 3)
            if self.often(0.3):
                of = self.pick(NUMBERS)
                old = self.value(scope, of, 2)
                part = Text(f"\\old({old.plain})", f"U.n(U.u(), old{len(self.olds)})")
                self.olds.append((of, old))
                condition = node("({} " + self.pick(["|", "&"]) + " {})", node("({} <= {})", part, self.number(scope, 1)), condition)
            self.signals.append((kind, name, condition))
        self.tested = self.body(Scope(parameters + fields, methods), chance.randint(1, 4), self.kind)

    # ---- files

    def source(self, value_condition=None):
        text = ["class Box {", "  int w;", "  long u = 3;", "  Box(int a, long b) { w = a; u += b; }", "}"]
        text += ["class Odd extends IllegalStateException {", "  int n;", "  Odd(int a) { n = a; }", "}"]
        text += ["class Low extends Odd {", "  Low(int a) { super(a); }", "}"]
        text += ["class A {", "  int v;", "  long w;", f"  {self.element}[] d;"]
        text += [line.plain for line in self.lines]
        text += [f"  //@ requires {one.plain};" for one in self.requires] + [f"  //@ ensures {one.plain};" for one in self.ensures]
        text += [f"  //@ signals ({kind}{' ' + name if name else ''}) {one.plain};" for kind, name, one in self.signals]
        if value_condition:
            text += value_condition[0]
        text += [f"  {self.kind} m({self.x_kind} x, {self.y_kind} y) {{"] + [line.plain for line in self.tested] + ["  }"]
        return "\n".join(text + (value_condition[1] if value_condition else []) + ["}"]) + "\n"

    def finitization(self, fuel):
        return (f'root = "A"\nfuel = {fuel}\n[objects]\nA = 1\n'
                f'[arrays]\n"{self.element}[]" = {{ count = 1, lengths = {self.lengths} }}\n[fields]\n'
                f'"A.v" = {self.v}\n"A.w" = {self.w}\n"A.d" = ["null", "{self.element}[]"]\n"{self.element}[].*" = {self.elements}\n'
                f'[params]\n"m.x" = {self.x}\n"m.y" = {self.y}\n')

    def counted(self, package):
        """The copy for the virtual machine."""
        def many(values, of):
            return ", ".join(f"{value}{'L' if of == 'long' else ''}" for value in values)

        def lines(texts):
            return "\n".join(texts)

        parameters, kinds = f"{self.x_kind} x, {self.y_kind} y", [kind for kind, _ in self.olds]
        olds = "".join(f", {kind} old{n}" for n, kind in enumerate(kinds))
        names = "".join(f", old{n}" for n in range(len(kinds)))
        conditions = [f"    {kind} o{n}({parameters}) {{ return {old.counted}; }}" for n, (kind, old) in enumerate(self.olds)]
        conditions += [f"    boolean r{n}({parameters}) {{ return {one.counted}; }}" for n, one in enumerate(self.requires)]
        conditions += [f"    boolean e{n}({parameters}, {self.kind} result{olds}) {{ return {one.counted}; }}"
                       for n, one in enumerate(self.ensures)]
        conditions += [f"    boolean s{n}({parameters}, {kind} {name or 'thrown'}{olds}) {{ return {one.counted}; }}"
                       for n, (kind, name, one) in enumerate(self.signals)]
        keys = [[]] + [[place, *chosen] for place, length in enumerate(self.lengths) for chosen in itertools.product(range(2), repeat=length)]
        return COPY.substitute(
            package=package, x_kind=self.x_kind, y_kind=self.y_kind, kind=self.kind, element=self.element, v=many(self.v, "int"),
            w=many(self.w, "long"), x=many(self.x, self.x_kind), y=many(self.y, self.y_kind), elements=many(self.elements, self.element),
            members=lines(line.counted for line in self.lines), tested=lines(line.counted for line in self.tested), conditions=lines(conditions),
            old_names=lines(f"        {kind} old{n} = 0;" for n, kind in enumerate(kinds)),
            olds=lines(f"            old{n} = o{n}(x, y);" for n in range(len(kinds))),
            checks=lines(f'            if (!e{n}(x, y, result{names})) return "ensures {n + 1}";' for n in range(len(self.ensures))),
            fits=" || ".join(f"(Object) e instanceof {kind}" for kind, _, _ in self.signals) or "false",
            signals=lines(f'                if ((Object) e instanceof {kind} && !s{n}(x, y, ({kind}) (Object) e{names})) return "signals {n + 1}";'
                          for n, (kind, _, _) in enumerate(self.signals)),
            keys=", ".join(f"{{ {', '.join(map(str, key))} }}" for key in keys),
            requires=" && ".join(f"a.r{n}(X[x], Y[y])" for n in range(len(self.requires))) or "true")

    def value_condition(self, results):
        """An `ensures` that holds the method's results against those of the virtual machine, and the methods that it calls."""
        fronts = list(dict.fromkeys(key.rsplit(".", 2)[0] for key, _ in results))
        places, tests = [], []
        for number, front in enumerate(fronts):
            _, i, j, there, *rest = front.split(".")
            parts = [f"v == {literal(self.v[int(i)], 'int').plain}", f"w == {literal(self.w[int(j)], 'long').plain}"]
            parts += ["d == null"] if there == "0" else ["d != null", f"d.length == {self.lengths[int(rest[0])]}"]
            parts += [f"d[{k}] == {literal(self.elements[int(e)], self.element).plain}" for k, e in enumerate(rest[1:])]
            places.append(f"    if ({' && '.join(parts)}) return {number};")
        for key, value in results:
            front, x, y = key.rsplit(".", 2)
            x, y = literal(self.x[int(x)], self.x_kind).plain, literal(self.y[int(y)], self.y_kind).plain
            tests.append(f"    if (c == {fronts.index(front)} && x == {x} && y == {y}) return r == {literal(int(value), self.kind).plain};")
        return ["  //@ ensures was(\\old(code()), x, y, \\result);"], [
            "  int code() {", *places, "    return -1;", "  }",
            f"  boolean was(int c, {self.x_kind} x, {self.y_kind} y, {self.kind} r) {{", *tests, "    return false;", "  }"]


def call(words, folder):
    done = subprocess.run([KORAT, *words], cwd=folder, capture_output=True, text=True)
    return done.returncode, done.stdout + done.stderr


def write(name, text):
    with open(name, "w") as file:
        file.write(text)


class Truth:
    """What the virtual machine says of a program."""

    def __init__(self, lines):
        self.runs, self.tests, self.met = [], [], []
        for line in lines:
            kind, *rest = line.split(";")
            if kind == "C":
                self.runs.append((*rest[:3], int(rest[3])))
            elif kind == "R":
                self.met.append((self.runs[-1][0], rest[0] == "true", int(rest[1])))
            else:
                self.tests.append((*rest[:3], int(rest[3]), rest[4]))

    def listing(self, fuel):
        lines = []
        for key, structure, end, units in self.runs:
            if units > fuel:
                return 5, lines + [f"spent {key}"]
            if end == "true":
                lines.append(f"{key} {structure}")
        return 0, lines + [f"valid {len(lines)} tried {len(self.runs)}"]

    def testing(self, fuel):
        """The report of `test`: each pair of arguments is a candidate, with those conditions that have to be met."""
        lines, failing, tried, at = [], 0, 0, 0
        for key, structure, end, units in self.runs:
            if units > fuel:
                return 5, lines + [f"spent {key}"]
            if end != "true":
                tried += 1
                continue
            for x in range(2):
                for y in range(2):
                    _, met, units = self.met[at]
                    at += 1
                    if units > fuel:
                        return 5, lines + [f"spent {key}.{x}.{y}"]
                    tried += 1
                    if not met:
                        continue
                    row, rest, verdict, units, _ = self.tests[len(lines)]
                    said = "spent" if units > fuel else verdict
                    failing += said != "pass"
                    lines.append(f"{row} {said} {rest}")
        return (1 if failing else 0), lines + [f"valid {len(lines)} failing {failing} tried {tried}"]


def compare(name, words, folder, wanted):
    status, lines = wanted
    ended, out = call(words, folder)
    got = out.splitlines()
    # A run that is spent before it has read all slots ends the report with a front of the key.
    if got and got[-1].startswith("spent ") and (lines[-1] + ".").startswith(got[-1] + "."):
        lines = lines[:-1] + [got[-1]]
    differ = "" if got == lines else next(f"line {n + 1} is {a}, and not {b}" for n, (a, b) in
                                          enumerate(zip(got + ["-"] * len(lines), lines + ["-"] * len(got))) if a != b)
    count(ended == status and not differ, f"{name}: {' '.join(words)}: status {ended}, and not {status}, {differ}")


def judge(number, program, truth, folder, chance):
    """The calls of a program, all against what the virtual machine says."""
    name = f"program {number}"
    os.makedirs(folder)
    much = 100000
    values = [(key, value) for key, _, _, _, value in truth.tests if value]
    verdicts.update(verdict.split(" ")[0] if verdict.startswith(("ensures", "signals")) else verdict for _, _, verdict, _, _ in truth.tests)
    write(f"{folder}/A.java", program.source())
    write(f"{folder}/fin.toml", program.finitization(much))
    compare(name, ["list", "fin.toml", "A.java"], folder, truth.listing(much))
    compare(name, ["test", "fin.toml", "m", "A.java"], folder, truth.testing(much))
    if values:
        write(f"{folder}/Values.java", program.source(program.value_condition(values)))
        compare(name, ["test", "fin.toml", "m", "Values.java"], folder, truth.testing(much))
    # Fuel: enough for all, one less, and one less than others need.
    of_runs = [units for *_, units in truth.runs]
    of_tests = [units for *_, units, _ in truth.tests]
    all_of_them = of_runs + of_tests + [units for *_, units in truth.met]
    for fuel in {max(of_runs), max(of_runs) - 1, *[chance.choice(of_runs) - 1 for _ in range(2)]}:
        write(f"{folder}/fin{fuel}.toml", program.finitization(fuel))
        compare(name, ["list", f"fin{fuel}.toml", "A.java"], folder, truth.listing(fuel))
    some = [chance.choice(all_of_them) - less for less in (0, 1, 1)] + [units - 1 for units in of_tests[-2:]]
    for fuel in {max(all_of_them), max(all_of_them) - 1, *some}:
        write(f"{folder}/fin{fuel}.toml", program.finitization(fuel))
        compare(name, ["test", f"fin{fuel}.toml", "m", "A.java"], folder, truth.testing(fuel))


def batch(first, many, chance, work):
    """Makes, compiles, runs and compares some programs."""
    programs, sources = [], []
    for number in range(first, first + many):
        programs.append(Program(chance))
        os.makedirs(f"{work}/p{number}")
        write(f"{work}/p{number}/A.java", programs[-1].counted(f"p{number}"))
        sources.append(f"{work}/p{number}/A.java")
    calls = "".join(f'out.append("= {number}\\n"); p{number}.A.main(out);' for number in range(first, first + many))
    write(f"{work}/All.java", "public class All { public static void main(String[] words) { StringBuilder out = new StringBuilder(); "
          + calls + " System.out.print(out); } }")
    options = ["-nowarn", "-proc:none", "-Xlint:none", "-J-XX:TieredStopAtLevel=1", "-d", f"{work}/classes"]
    done = subprocess.run(["javac", *options, f"{work}/All.java", *sources], capture_output=True, text=True)
    if done.returncode:
        sys.exit("tests/programs.py: javac refuses a copy: " + done.stderr[:2000])
    done = subprocess.run(["java", "-XX:TieredStopAtLevel=1", "-cp", f"{work}/classes", "All"], capture_output=True, text=True)
    if done.returncode:
        sys.exit("tests/programs.py: " + done.stderr[:2000])
    skipped = 0
    for part in done.stdout.split("= ")[1:]:
        number, *lines = part.splitlines()
        if lines == ["long"]:
            skipped += 1
            continue
        judge(int(number), programs[int(number) - first], Truth(lines), f"{work}/k{number}", chance)
    return skipped


def main():
    words = sys.argv[1:]
    if len(words) > 2 or not all(word.isdigit() for word in words):
        sys.exit("usage: tests/programs.py [COUNT [SEED]]")
    many, seed = (list(map(int, words)) + [20, 1][len(words):])
    if not shutil.which("javac") or not os.access(KORAT, os.X_OK):
        print(f"{many} not tried, for want of a JDK or of the program")
    else:
        chance = random.Random(seed)
        work = os.environ.get("KEEP") or tempfile.mkdtemp()
        skipped = 0
        for first in range(0, many, BATCH):
            skipped += batch(first, min(BATCH, many - first), chance, work)
        if not os.environ.get("KEEP"):
            shutil.rmtree(work)
        print("ends of the tests: " + ", ".join(f"{count} {verdict}" for verdict, count in verdicts.most_common()))
        if skipped:
            print(f"{skipped} took more than 20,000 units")
    print(f"{passed} passed, {failed} failed")
    sys.exit(failed > 0)


main()
