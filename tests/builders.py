#!/usr/bin/env python3
"""Tries `emit`: the builders that it writes have to be those that the rows of `list` say, by a plain program here; and, where
there is a JDK, to compile and to build those rows' structures on a JVM.

    tests/builders.py [PART..]     the parts that are tried, all where none is said

    examples   each folder of examples/: all rows, the rows after a key, the first rows, and none
    chosen     classes at random, with arrays, a nested class, an heir and a `long`: 300 that are accepted and have at most 2,000 rows
    back       each text is read back by `check`, beside the sources
    own        `test` runs the first methods of each text, and a method of a class made here finds each field and element of the row
    java       each text compiles; each method's structure is its row's, up to the numbers of objects
    lacking    methods that grow, with little memory: the whole, or 8, whole methods from the first on and `out of memory`; a
               reader that leaves and a full disk: 7, and a front of the text

KORAT names the program; SEED another start of what is at random. The last line is `N passed, M failed`, and the status is 0
where none failed.
"""
import os, random, re, resource, shutil, subprocess, sys, tempfile
import hostile
from hostile import KORAT, count, examples, run

HERE = os.path.dirname(os.path.abspath(__file__))
SEED = int(os.environ.get("SEED", "1"))


# ---- sources, as far as builders need them

def bare(text):
    """A source without comments."""
    return re.sub(r"/\*.*?\*/|//[^\n]*", " ", text, flags=re.S)


def classes_of(text, outer=None):
    """The classes of a text: name, outer class, superclass, and fields with their types."""
    found = {}
    text, at = bare(text) if outer is None else text, 0
    while True:
        head = re.compile(r"\bclass\s+(\w+)(?:\s+extends\s+([\w.]+))?\s*\{").search(text, at)
        if not head:
            return found
        depth, end = 1, head.end()
        while depth:
            depth += {"{": 1, "}": -1}.get(text[end], 0)
            end += 1
        body = text[head.end():end - 1]
        nested = classes_of(body, head.group(1))
        found[head.group(1)] = (outer, head.group(2).split(".")[-1] if head.group(2) else None, fields_of(body))
        found.update(nested)
        at = end


def fields_of(body):
    """The instance fields of a class's body: what is at its top level and ends in a semicolon."""
    fields, level, part = {}, 0, ""
    for letter in body:
        if letter == "{":
            level += 1
            part = "" if level == 1 else part
        elif letter == "}":
            level -= 1
            part = ""
        elif level == 0:
            if letter == ";":
                declared = re.match(r"\s*((?:(?:public|protected|private|static|final|transient|volatile)\s+)*)([\w.]+(?:\s*<[^>]*>)?(?:\s*\[\s*\])*)\s+(.*)$", part, re.S)
                if declared and "static" not in declared.group(1).split() and "(" not in declared.group(3).split("=")[0]:
                    for name in re.split(r",(?![^(]*\))", declared.group(3)):
                        fields[name.split("=")[0].strip()] = re.sub(r"\s", "", declared.group(2))
                part = ""
            else:
                part += letter
    return fields


def field_type(classes, name, field):
    while name:
        if field in classes[name][2]:
            return classes[name][2][field]
        name = classes[name][1]
    raise KeyError(field)


def domains_of(fin):
    """The class of each object domain that has a name of its own."""
    return dict(re.findall(r'^\s*"?(\w+)"?\s*=\s*\{\s*class\s*=\s*"([\w.]+)"', fin, re.M))


# ---- rows to builders

def objects_of(row):
    """The objects of a row's line: name, brackets, and what each has."""
    found = re.findall(r"(\S+?)#(\d+)(?:\{([^}]*)\}|\[((?:[^\]\[]|\[\])*)\])(?= |$)", row)
    return [(name, at, "[" if name.endswith("[]") else "{", fields or elements) for name, at, fields, elements in found]


def written(name, classes, domains):
    """The type of the objects of a name, and its brackets."""
    base, brackets = re.match(r"(\w+)((?:\[\])*)$", name).groups()
    base = domains.get(base, base)
    outer = classes[base][0] if base in classes else None
    return (f"{outer}." if outer else "") + base, brackets


def expression(classes, domains, name, field, value):
    """A value of a field or an element, which has a letter where it is a `long`."""
    kind = field_type(classes, domains.get(name, name), field) if field else name[:-2]
    return value + ("L" if kind == "long" and re.match(r"-?\d+$", value) else "")


def builder(key, row, number, classes, domains, root):
    """The builder of a row."""
    objects = objects_of(row)
    local = {f"{name}#{at}": f"o{k}" for k, (name, at, _, _) in enumerate(objects)}
    lines = [f"  // {key}", f"  static {''.join(written(root, classes, domains))} b{number}() {{"]
    for name, at, bracket, parts in objects:
        base, brackets = written(name, classes, domains)
        created = "()" if bracket == "{" else f"[{len(parts.split(',')) if parts else 0}]"
        lines.append(f"    {base}{brackets} {local[f'{name}#{at}']} = new {base}{created};")
    for name, at, bracket, parts in objects:
        own = local[f"{name}#{at}"]
        for k, part in enumerate(parts.split(",") if parts else []):
            field, value = part.split("=") if bracket == "{" else (None, part)
            value = local[value] if value in local else expression(classes, domains, name, field, value)
            lines.append(f"    {own}{'.' + field if field else f'[{k}]'} = {value};")
    return "\n".join(lines + ["    return o0;", "  }", ""])


def wanted(listing, classes, domains, root):
    """What `emit` has to write for what `list` writes."""
    *rows, last = listing.decode().splitlines()
    parted = [row.split(" ", 1) for row in rows]
    built = "".join(builder(key, row, n, classes, domains, root) for n, (key, row) in enumerate(parted))
    return ("class KoratBuild {\n" + built + "}\n// " + last + "\n").encode()


def refused(place, sources, fin):
    ended, out, _ = run(["emit", fin, *sources], place)
    return ended in (3, 4) and re.search(rb": E[123]", out) is not None


def texts(place, fin, sources, parts, name):
    """Tries one problem: its text by the rows, then as asked."""
    classes = {}
    for source in sources:
        classes.update(classes_of(open(f"{place}/{source}").read()))
    document = open(f"{place}/{fin}").read()
    root = re.search(r'^root\s*=\s*"([^"]+)"', document, re.M).group(1)
    if refused(place, sources, fin):
        print(f"{name}: {run(['emit', fin, *sources], place)[1].decode().strip()}")
        return
    ended, listing, _ = run(["list", fin, *sources], place)
    keys = [line.split()[0].decode() for line in listing.splitlines()[:-1]]
    asked = [[], ["--limit", "1"], ["--limit", "3"], ["--from", "9"]]
    if keys:
        asked += [["--from", keys[len(keys) // 2]], ["--to", keys[len(keys) // 3]]]
    for words in asked:
        listed = run(["list", fin, *sources, *words], place)
        built = run(["emit", fin, *sources, *words], place)
        want = (listed[0], wanted(listed[1], classes, domains_of(document), root), b"")
        count(built == want, f"{name} {' '.join(words)}: {built[0]} {first_difference(built[1], want[1])}")
    text = run(["emit", fin, *sources], place)[1]
    if "back" in parts and len(text) <= 1048576:  # what a source may have
        with open(f"{place}/KoratBuild.java", "wb") as file:
            file.write(text)
        back = run(["check", fin, *sources, "KoratBuild.java"], place)
        plain = run(["check", fin, *sources], place)
        more = re.sub(rb"classes (\d+)", lambda found: b"classes %d" % (int(found.group(1)) + 1), plain[1])
        count(back == (0, more, b""), f"{name}, read back: {back[:2]}")
        os.remove(f"{place}/KoratBuild.java")
    if "own" in parts:
        by_test(place, sources, classes, domains_of(document), name)
    if "java" in parts and shutil.which("javac"):
        on_a_jvm(place, sources, text, listing, domains_of(document), name)


# ---- builders run by `test`

MOST_RUN = 30


def probe(row, number, classes, domains):
    """A method's body that says whether a builder's structure is the row's."""
    objects = objects_of(row)
    local = {f"{name}#{at}": f"o{k}" for k, (name, at, _, _) in enumerate(objects)}
    kind = {f"{name}#{at}": "".join(written(name, classes, domains)) for name, at, _, _ in objects}
    places = [(f"{name}#{at}", name, part.split("=") if bracket == "{" else (None, part), k)
              for name, at, bracket, parts in objects for k, part in enumerate(parts.split(",") if parts else [])]
    first = f"{objects[0][0]}#{objects[0][1]}"
    lines, bound = [f"{kind[first]} o0 = KoratBuild.b{number}();", "if (o0 == null) return false;"], [first]
    for owner, name, (field, value), k in places:
        place = f"{local[owner]}.{field}" if field else f"{local[owner]}[{k}]"
        if value in local and value not in bound:
            bound.append(value)
            lines += [f"if (!({place} instanceof {kind[value]})) return false;", f"{kind[value]} {local[value]} = ({kind[value]}) {place};"]
            below = [other for other, (_, above, _) in classes.items() if above and written(above, classes, {})[0] == kind[value]]
            lines += [f"if ({local[value]} instanceof {written(other, classes, {})[0]}) return false;" for other in below]
            lines += [f"if ({local[value]} == {local[other]}) return false;" for other in bound if other != value and kind[other] == kind[value]]
            if kind[value].endswith("]"):
                length = next(len(parts.split(",")) if parts else 0 for other, at, _, parts in objects if f"{other}#{at}" == value)
                lines.append(f"if ({local[value]}.length != {length}) return false;")
        lines.append(f"if ({place} != {local[value] if value in local else expression(classes, domains, name, field, value)}) return false;")
    return "\n        ".join(lines + ["return true;"])


def by_test(place, sources, classes, domains, name):
    """Runs the first builders by `test`."""
    listing = run(["list", "fin.toml", *sources, "--limit", str(MOST_RUN)], place)[1].decode()
    rows = [line.split(" ", 1)[1] for line in listing.splitlines()[:-1]]
    if not rows:
        return
    with open(f"{place}/KoratBuild.java", "wb") as file:
        file.write(run(["emit", "fin.toml", *sources, "--limit", str(MOST_RUN)], place)[1])
    methods = "".join(f"    boolean p{n}() {{\n        {probe(row, n, classes, domains)}\n    }}\n" for n, row in enumerate(rows))
    chosen_by = "".join(f"        if (n == {n}) return p{n}();\n" for n in range(len(rows)))
    with open(f"{place}/KoratProbe.java", "w") as file:
        file.write(f"class KoratProbe {{\n    int n;\n    boolean repOk() {{ return n >= 0; }}\n{methods}    //@ ensures \\result;\n    boolean built() {{\n{chosen_by}        return false;\n    }}\n}}\n")
    with open(f"{place}/probe.toml", "w") as file:
        file.write(f'root = "KoratProbe"\nfuel = 1000000\n[objects]\nKoratProbe = 1\n[fields]\n"KoratProbe.n" = [{{ from = 0, to = {len(rows) - 1} }}]\n')
    ended, out, _ = run(["test", "probe.toml", "built", *sources, "KoratBuild.java", "KoratProbe.java"], place)
    count(ended == 0 and out.endswith(b"valid %d failing 0 tried %d\n" % (len(rows), len(rows))), f"{name}, run by test: {ended} {out[:200]}")
    for file in ("KoratBuild.java", "KoratProbe.java", "probe.toml"):
        os.remove(f"{place}/{file}")


def first_difference(one, other):
    for a, b in zip(one.splitlines(), other.splitlines()):
        if a != b:
            return f"{a[:80]}, and not {b[:80]}"
    return f"{len(one)} bytes, and not {len(other)}"


def renamed(row, domains):
    """A row whose objects have numbers by class, in the order in which the row has them."""
    count_of, names = {}, {}
    for name, at, _, _ in objects_of(row):
        kind = domains.get(name, name)
        names[f"{name}#{at}"] = f"{kind}#{count_of.get(kind, 0)}"
        count_of[kind] = count_of.get(kind, 0) + 1
    return re.sub(r"\w+(?:\[\])*#\d+", lambda found: names[found.group(0)], row)


def on_a_jvm(place, sources, text, listing, domains, name):
    folder = tempfile.mkdtemp()
    for source in sources:
        shutil.copy(f"{place}/{source}", folder)
    with open(f"{folder}/KoratBuild.java", "wb") as file:
        file.write(text)
    compiled = subprocess.run(["javac", "-nowarn", "-Xlint:none", "-proc:none", "-d", "classes", f"{HERE}/Built.java", "KoratBuild.java", *map(os.path.basename, sources)], cwd=folder, capture_output=True, text=True)
    count(compiled.returncode == 0, f"{name}: javac: {compiled.stderr[:200]}")
    if compiled.returncode == 0:
        rows = [line.split(" ", 1)[1] for line in listing.decode().splitlines()[:-1]]
        shown = subprocess.run(["java", "-XX:TieredStopAtLevel=1", "-cp", "classes", "Built", str(len(rows))], cwd=folder, capture_output=True, text=True)
        want = "".join(renamed(row, domains) + "\n" for row in rows)
        count(shown.stdout == want and shown.returncode == 0, f"{name}, on a JVM: {first_difference(shown.stdout.encode(), want.encode())} {shown.stderr[:200]}")
    shutil.rmtree(folder)


# ---- problems at random

PROBLEMS, MOST_ROWS = 300, 2000


def is_short(listed):
    """Accepted, and all rows are listed."""
    return listed[0] == 0 and listed[1].splitlines()[-1].startswith(b"valid")


def chosen(parts):
    chance = random.Random(SEED)
    accepted = 0
    while accepted < PROBLEMS:
        folder = tempfile.mkdtemp()
        source, fin = problem(chance)
        with open(f"{folder}/Whole.java", "w") as file:
            file.write(source)
        with open(f"{folder}/fin.toml", "w") as file:
            file.write(fin)
        if is_short(run(["list", "fin.toml", "Whole.java", "--limit", str(MOST_ROWS)], folder)):
            accepted += 1
            texts(folder, "fin.toml", ["Whole.java"], parts - ({"java"} if accepted % 10 else set()), f"chosen {accepted} of SEED={SEED}")
        shutil.rmtree(folder)


def problem(chance):
    some = lambda: chance.random() < 0.5
    kinds = {"part": ("Part", "Part"), "up": ("Whole", "Whole"), "size": ("int", "int"), "far": ("long", "long"), "full": ("boolean", "boolean"),
             "parts": ("Part[]", "Part[]"), "marks": ("int[]", "int[]"), "spans": ("long[]", "long[]"), "flags": ("boolean[]", "boolean[]"), "heir": ("Heir", "Heir")}
    names = [name for name in kinds if some()] or ["size"]
    fields = " ".join(f"{kinds[name][0]} {name}{chance.choice(['', '', ' = ' + {'int': '-3', 'long': '-5L', 'boolean': 'true'}.get(kinds[name][0], 'null')])};" for name in names)
    nested = some()
    part = "static class Part { Part next; long span; }" if nested else ""
    tests = [f"if ({name} == null) return true;" for name in names if kinds[name][0] not in ("int", "long", "boolean")]
    source = f"class Whole {{ {part} {fields} boolean repOk() {{ {chance.choice(tests) if tests and some() else ''} return {chance.choice(['true', 'true', 'size >= 0' if 'size' in names else 'true'])}; }} }}\n"
    source += "" if nested else "class Part { Part next; long span; }\n"
    source += f"class Heir extends {'Whole.' if nested else ''}Part {{ boolean mark; }}\n"
    values = {"int": ['-2147483648', '0', '7'], "long": ['-9223372036854775808', '9223372036854775807', '3'], "boolean": ['false', 'true']}
    def domain(kind):
        if kind in values:
            return "[" + ", ".join(sorted(chance.sample(values[kind], chance.randint(1, len(values[kind]))))) + "]"
        return chance.choice(['["null", "%s"]' % kind, '["%s"]' % kind] + (['["null", "Heir", "Part"]'] if kind == "Part" else []))
    fin = ['root = "Whole"', "fuel = 1000", "objects = { Whole = %d, Part = %d, Heir = %d }" % (chance.randint(1, 2), chance.randint(1, 2), chance.randint(1, 2))]
    fin += ["[arrays]"] + ['"%s" = { count = %d, lengths = [%s] }' % (kind, chance.randint(1, 2), chance.choice(["0, 1, 2", "1", "2"])) for kind in ("Part[]", "int[]", "long[]", "boolean[]")]
    fin += ["[fields]"] + [f'"Whole.{name}" = {domain(kinds[name][0])}' for name in names]
    fin += [f'"Part.next" = {domain("Part")}', f'"Part.span" = {domain("long")}', '"Heir.mark" = [false, true]']
    fin += [f'"{kind}[].*" = {domain(kind)}' for kind in ("Part", "int", "long", "boolean")]
    return source, "\n".join(fin) + "\n"


PARTS = ["examples", "chosen", "back", "own", "java", "lacking"]


def all_examples(parts):
    for place, sources, _ in examples():
        copy = tempfile.mkdtemp()
        for file in [*sources, "fin.toml"]:
            shutil.copy(f"{place}/{file}", copy)
        texts(copy, "fin.toml", sources, parts, os.path.basename(place.rstrip("/")))
        shutil.rmtree(copy)


def lacking():
    place = tempfile.mkdtemp()
    fields = [f"v{k}" for k in range(30)]
    with open(f"{place}/N.java", "w") as file:
        file.write(f"class N {{ N next; int {', '.join(fields)}; boolean repOk() {{ int count = 0; for (N n = this; n != null; n = n.next) {{ if (count == 64) return false; count++; }} return true; }} }}")
    with open(f"{place}/fin.toml", "w") as file:
        file.write('root = "N"\nfuel = 10000\n[objects]\nN = 64\n[fields]\n"N.next" = ["null", "N"]\n' + "".join(f'"N.{field}" = [7]\n' for field in fields))
    words = ["emit", "fin.toml", "N.java"]
    whole = run(words, place)
    methods = re.split(rb"(?<=\n  }\n)", whole[1])
    count(whole[0] == 0 and len(methods) == 65 and whole[2] == b"", f"longer and longer: {whole[0]}, {len(methods)} methods")

    def is_front(out):
        """Whole builders and the last line; or nothing, with no memory for the words, as by each command."""
        front = out.removesuffix(b"out of memory\n")
        return out == b"" or front != out and whole[1].startswith(front) and (front in (b"", b"class KoratBuild {\n") or front.endswith(b"\n  }\n"))

    ends, fronts = {}, set()
    for size in [*range(2600, 8000, 50), 30000, 400000]:
        def little(size=size):
            resource.setrlimit(resource.RLIMIT_AS, (size * 1024, size * 1024))

        status, out, error = run(words, place, preexec_fn=little)
        if status != 127 and b"error while loading" not in error:
            ends[status] = ends.get(status, 0) + 1
            fronts.add(out.count(b"\n  }\n"))
            count((status, out, error) == whole or (status == 8 and is_front(out) and error == b""), f"{size} KB: {status}, {len(out)} bytes, {error[:80]}")
    count(0 in ends and 8 in ends and any(0 < methods < 64 for methods in fronts), f"ends with little memory: {ends} {fronts}")
    for lines in (0, 1, 5, 1000):
        call = subprocess.Popen([KORAT, *words], cwd=place, stdin=subprocess.DEVNULL, stdout=subprocess.PIPE, stderr=subprocess.PIPE)
        front = b"".join(call.stdout.readline() for _ in range(lines))
        call.stdout.close()
        status = call.wait(hostile.SECONDS)
        count(status == 7 and whole[1].startswith(front) and call.stderr.read() == b"", f"a reader that leaves after {lines} lines: {status}")
    with open("/dev/full", "wb") as out:
        status, _, error = run(words, place, stdout=out)
    count(status == 7 and error == b"", f"/dev/full: {status}")
    shutil.rmtree(place)


if __name__ == "__main__":
    asked = set(sys.argv[1:] or PARTS)
    if any(name not in PARTS for name in asked) or not os.access(KORAT, os.X_OK):
        print("unknown part, or no program", *asked, KORAT)
        sys.exit(2)
    if "examples" in asked:
        all_examples(asked)
    if "chosen" in asked:
        chosen(asked)
    if "lacking" in asked:
        lacking()
    print(f"{hostile.passed} passed, {hostile.failed} failed")
    sys.exit(hostile.failed > 0)
