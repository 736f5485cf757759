#!/usr/bin/env python3
"""Tries `upgrade`: what it writes has to list, test and check as the finitization of version 1 does, byte for byte.

    tests/upgrade.py [PART..]      the parts that are tried, all where none is said

    examples   each folder of examples/: its listing and the tests of its methods
    cases      each call in tests/cases that reads a finitization, with the upgraded one in its place
    chosen     finitizations at random over three classes, arrays and a method: 500 that are accepted
    lacking    a long finitization with little memory: the whole text, or 8 and `out of memory`; a reader that leaves and a full
               disk: 7, and a front of the text

Of a finitization that is refused `upgrade` answers what breaks a rule of its own, or a text; of one of version 2, `F7 version`.
KORAT names the program; SEED another start of what is at random. The last line is `N passed, M failed`, and the status is 0
where none failed.
"""
import glob, os, resource, shutil, subprocess, sys, tempfile
import hostile
from hostile import CHANCE, KORAT, TOP, count, examples, run

SOURCE = """class Whole { Part first; Part[] parts; int size; boolean full; Whole up;
    boolean repOk() { if (first == null) return size == 0; if (parts == null) return first.next == null; return size < 3; }
    //@ ensures size >= 0;
    void put(Part part, int place, boolean whole) { if (whole && part != null) { size = place; first = part; } }
}
class Part { Part next; Other other; int[] marks; }
class Other extends Part { boolean mark; }
class Aside { Aside aside; }
"""
NAMES = ["Whole", "Part", "Other", "Aside", "null", "Part[]", "int[]", "Other[]"]


def upgraded(fin, place, folder):
    """Writes the upgraded finitization of a file into a folder, where it is of version 1 and breaks no rule of its own."""
    ended, out, err = run(["upgrade", fin], place)
    text = open(f"{place}/{fin}", "rb").read()
    if ended == 0:
        count(err == b"" and b"\nversion = 2\n" in out, f"{place}/{fin}: {out[:80]}")
        with open(f"{folder}/upgraded.toml", "wb") as file:
            file.write(out)
        again = run(["upgrade", "upgraded.toml"], folder)
        broken = again[0] == 4 and again[1].startswith(b"upgraded.toml: F3 objects.")
        count(again == (4, b"upgraded.toml: F7 version\n", b"") or broken, f"{place}/{fin} twice: {again[1][:80]}")
        return not broken
    count(ended in (3, 4) and err == b"" and out.startswith(f"{fin}: ".encode()), f"{place}/{fin}: {ended} {out[:80]} {text[:40]}")
    return False


def same(words, fin, place, folder, name):
    """The same bytes and status with the upgraded finitization; where the first is refused, nothing is asked."""
    one = run(words, place)
    if one[0] == 4:
        return False
    other = run([f"{folder}/upgraded.toml" if word == fin else word for word in words], place)
    count(one == other, f"{name}: {' '.join(words)}: {other[0]} {other[1][:80]}, and not {one[0]} {one[1][:80]}")
    return True


def example_files():
    folder = tempfile.mkdtemp()
    for place, sources, methods in examples():
        for fin in sorted(file for file in os.listdir(place) if file.endswith(".toml")):
            if b"version = 2" in open(place + fin, "rb").read():
                count(run(["upgrade", fin], place) == (4, f"{fin}: F7 version\n".encode(), b""), f"{place}{fin} is of version 2")
                continue
            count(upgraded(fin, place, folder), f"{place}{fin} isn't upgraded")
            for words in [["list", fin], ["check", fin], *[["test", fin, method] for method in methods]]:
                same([*words, *sources], fin, place, folder, place)
    shutil.rmtree(folder)


def case_files():
    folder = tempfile.mkdtemp()
    places = sorted(os.path.dirname(file) for file in glob.glob(TOP + "/tests/cases/*/args"))
    for place in places:
        words = open(place + "/args").read().split("\n")
        words = words[:-1] if words[-1] == "" else words
        plain = not os.path.exists(place + "/make") and len(words) > 2 and words[0] in ("list", "test", "check")
        fin = next((word for word in words[1:] if word.endswith(".toml")), None)
        if plain and fin and os.path.isfile(f"{place}/{fin}") and upgraded(fin, place, folder):
            same(words, fin, place, folder, place)
    shutil.rmtree(folder)


def some_names(names):
    chosen = CHANCE.sample(names, CHANCE.randint(1, len(names)))
    if "null" in names and "null" not in chosen and CHANCE.random() < 0.9:
        chosen.append("null")
    return "[" + ", ".join(f'"{name}"' for name in chosen) + "]"


def some_numbers():
    numbers = [str(CHANCE.choice([-1, 3])), "{ from = 0, to = %d }" % CHANCE.randint(0, 1)]
    CHANCE.shuffle(numbers)
    return "[" + ", ".join(numbers[: CHANCE.randint(1, 2)]) + "]"


def some_text():
    """A finitization of version 1 over the classes of the source, which is mostly accepted."""
    wild = CHANCE.random() < 0.1
    objects = {name: CHANCE.choice([0, 1, 1, 2]) for name in ["Whole", "Part", "Other", "Aside"] if CHANCE.random() < 0.8}
    objects["Whole"] = 1
    arrays = {name: CHANCE.choice([0, 1]) for name in ["Part[]", "int[]", "Other[]"] if CHANCE.random() < 0.7}

    def among(*names):
        return NAMES if wild else list(names)

    lines = ['root = "%s"' % ("Whole" if CHANCE.random() < 0.95 else CHANCE.choice(NAMES)), "fuel = %d" % CHANCE.choice([20, 1000, 100000])]
    if CHANCE.random() < 0.3:
        lines.append("version = 1")
    CHANCE.shuffle(lines)
    shown = list(objects.items())
    CHANCE.shuffle(shown)
    lines += ["[objects]", *[f"{name} = {number}" for name, number in shown], "[arrays]"]
    lines += [f'"{name}" = {{ count = {number}, lengths = [{CHANCE.choice(["0", "1", "0, 1", "{ from = 0, to = 2 }"])}] }}' for name, number in arrays.items()]
    fields = {
        "Whole.first": some_names(among("null", "Part", "Other")),
        "Whole.parts": some_names(among("null", "Part[]", "Other[]")),
        "Whole.size": some_numbers(),
        "Whole.full": "[false]",
        "Whole.up": some_names(among("null", "Whole")),
        "Part.next": some_names(among("null", "Part", "Other")),
        "Part.other": some_names(among("null", "Other")),
        "Part.marks": some_names(among("null", "int[]")),
        "Other.mark": "[true]",
        "Aside.aside": some_names(among("null", "Aside")),
        "Part[].*": some_names(among("null", "Part", "Other")),
        "Other[].*": some_names(among("null", "Other")),
        "int[].*": some_numbers(),
    }
    shown = list(fields.items())
    CHANCE.shuffle(shown)
    lines += ["[fields]", *[f'"{key}" = {items}' for key, items in shown]]
    lines += ["[params]", '"put.part" = ' + some_names(among("null", "Part", "Other")), '"put.place" = ' + some_numbers(), '"put.whole" = [true, false]']
    return "\n".join(lines) + "\n"


def chosen():
    place, folder = tempfile.mkdtemp(), tempfile.mkdtemp()
    with open(place + "/S.java", "w") as file:
        file.write(SOURCE)
    accepted = tried = 0
    while accepted < 500 and tried < 20000:
        tried += 1
        with open(place + "/fin.toml", "w") as file:
            file.write(some_text())
        if not upgraded("fin.toml", place, folder) or not same(["check", "fin.toml", "S.java"], "fin.toml", place, folder, "chosen"):
            continue
        accepted += 1
        for words in (["list", "--limit", "40", "fin.toml", "S.java"], ["test", "--limit", "40", "fin.toml", "put", "S.java"]):
            if not same(words, "fin.toml", place, folder, f"chosen {tried}"):
                count(False, f"chosen {tried}: {words} is refused, and check isn't")
    count(accepted == 500, f"{accepted} of {tried} are accepted")
    print(f"{accepted} of {tried} finitizations are accepted")
    shutil.rmtree(place)
    shutil.rmtree(folder)


def lacking():
    place = tempfile.mkdtemp()
    with open(place + "/long.toml", "w") as file:
        file.write('root = "N"\nfuel = 9\n[objects]\nN = 1\n[fields]\n')
        file.writelines(f'"N.field{number}" = ["null", "N", "Other{number % 50}"]\n' for number in range(20000))
    whole = run(["upgrade", "long.toml"], place)
    count(whole[0] == 0 and whole[1].count(b"\n") > 20000 and whole[2] == b"", f"a long one: {whole[0]} {whole[1][:80]}")
    ends = {}
    for size in [2600 + 400 * step for step in range(20)] + [12000 + 4000 * step for step in range(40)] + [400000]:
        def little(size=size):
            resource.setrlimit(resource.RLIMIT_AS, (size * 1024, size * 1024))

        status, out, error = run(["upgrade", "long.toml"], place, preexec_fn=little)
        if status != 127 and b"error while loading" not in error:
            ends[status] = ends.get(status, 0) + 1
            # Where there is no memory for the words either, nothing is written.
            ended = (status, out, error) in (whole, (8, b"out of memory\n", b""), (8, b"", b""))
            count(ended, f"{size} KB: {status}, {len(out)} bytes, {error[:80]}")
    count(0 in ends and 8 in ends, f"ends with little memory: {ends}")
    for lines in (0, 1, 5, 100):
        call = subprocess.Popen([KORAT, "upgrade", "long.toml"], cwd=place, stdin=subprocess.DEVNULL, stdout=subprocess.PIPE, stderr=subprocess.PIPE)
        front = b"".join(call.stdout.readline() for _ in range(lines))
        call.stdout.close()
        status = call.wait(hostile.SECONDS)
        count(status == 7 and whole[1].startswith(front) and call.stderr.read() == b"", f"a reader that leaves after {lines} lines: {status}")
    with open("/dev/full", "wb") as out:
        status, _, error = run(["upgrade", "long.toml"], place, stdout=out)
    count(status == 7 and error == b"", f"/dev/full: {status}")
    shutil.rmtree(place)


PARTS = {"examples": example_files, "cases": case_files, "chosen": chosen, "lacking": lacking}

if __name__ == "__main__":
    asked = sys.argv[1:] or list(PARTS)
    if any(name not in PARTS for name in asked) or not os.access(KORAT, os.X_OK):
        print("unknown part, or no program", *asked, KORAT)
        sys.exit(2)
    for name in asked:
        PARTS[name]()
    print(f"{hostile.passed} passed, {hostile.failed} failed")
    sys.exit(hostile.failed > 0)
