#!/usr/bin/env python3
"""Tries listings, tests and builders where little goes well; listings and tests by several workers against one worker's.

    tests/hostile.py [PART..]      the parts that are tried, all where none is said

    equal      every folder of examples/, listed and its methods tested: the same bytes and status, however it is shared
    cases      every call in tests/cases, shared in five ways at random
    domains    two to four object domains of one class at random, against all renamings that keep each domain
    limits     from, to and limit at random: inside segments, at a window's end, at the last row and beside it
    windows    windows of 1 to 5 rows, 3 to 9 workers, from, to and limit at random: each of 160 calls ends within 20 seconds
    mutated    finitizations of examples/ with characters or lines changed at random
    cut        a source cut at each byte, one that never ends, a long one, and a spent entry at many places of a listing
    checked    a trace checked in little memory, and into a full device
    pipes      a reader that leaves after some rows: 7, and a front of the bytes
    full       a disk that is full after so many bytes: 7, and exactly so many bytes; it mounts a tmpfs, so it needs root
    memory     an address space of 22 sizes: the whole; or 8, rows from the first one on, and `out of memory`
    stack      a stack of 64 KB and more: the whole
    size       a file that may grow by so many blocks only: 7, and exactly so many bytes
    signals    reads and writes that a signal interrupts, by strace: 64 times each, and the whole; once more, and 6 or 7
    waiting    a pipe that doesn't block and has no room: 7, and a front of the bytes
    idle       64 workers on four candidates that each recur deeply: 1.2 times one worker's processor time, 4 times its memory

KORAT names the program; SEED another start of what is at random. A call that takes two minutes is one that hangs. The last
line is `N passed, M failed`, and the status is 0 where none failed. It proves nothing, and no gate runs it.
"""
import fcntl, glob, itertools, os, random, re, resource, shutil, signal, subprocess, sys, tempfile

TOP = os.path.dirname(os.path.dirname(os.path.abspath(__file__)))
KORAT = os.path.abspath(os.environ.get("KORAT", os.path.join(TOP, "crates/korat/out/korat")))
CHANCE = random.Random(int(os.environ.get("SEED", "1")))
SECONDS = 120
WAYS = [["--workers", str(workers), "--window", str(window)] for workers in range(1, 9) for window in (1, 2, 100, 4096)]
WAYS += [["--workers", str(workers), "--pool", "deque"] for workers in range(1, 9)]
passed = failed = 0


def count(good, what):
    """Counts a call that went well or didn't."""
    global passed, failed
    if good:
        passed += 1
    else:
        failed += 1
        print("failed:", what, flush=True)


def run(words, folder, seconds=SECONDS, **more):
    """Status, output and error output of a call; the status is `hangs` where it doesn't end."""
    more.setdefault("stdout", subprocess.PIPE)
    try:
        ended = subprocess.run([KORAT, *words], cwd=folder, stdin=subprocess.DEVNULL, stderr=subprocess.PIPE, timeout=seconds, **more)
    except subprocess.TimeoutExpired:
        return "hangs", b"", b""
    return ended.returncode, ended.stdout, ended.stderr


def compare(words, folder, ways, name, seconds=SECONDS):
    """One worker's call, and the same shared in each of the ways: the same bytes and status."""
    one = run(words, folder)
    for way in ways:
        many = run([words[0], *way, *words[1:]], folder, seconds)
        shown = " ".join([words[0], *way, *words[1:]])[:200]
        count(many == one, f"{name}: {shown}: {many[0]}, and not {one[0]}; {len(many[1])} bytes of {len(one[1])}; {many[2][:80]}")
    return one


def examples():
    """Folder, sources and tested methods of each example."""
    for folder in sorted(glob.glob(TOP + "/examples/*/")):
        sources = sorted(os.path.basename(name) for name in glob.glob(folder + "*.java"))
        methods = [os.path.basename(name)[5:] for name in sorted(glob.glob(folder + "test.*"))]
        yield folder, sources, methods


def calls_of(sources, methods):
    return [["list", "fin.toml", *sources]] + [["test", "fin.toml", method, *sources] for method in methods]


def equal():
    for folder, sources, methods in examples():
        for words in calls_of(sources, methods):
            ways = WAYS if words[0] == "list" else CHANCE.sample(WAYS, 8)
            compare(words, folder, ways, os.path.basename(folder[:-1]))


def cases():
    for folder in sorted(glob.glob(TOP + "/tests/cases/*/")):
        words = open(folder + "args").read().split("\n")
        words = words[:-1] if words[-1] == "" else words
        shared = any(re.match("--(workers|window|pool|trace)", word) for word in words)
        if os.path.exists(folder + "make") or not words or words[0] not in ("list", "test") or shared:
            continue
        wanted = int(open(folder + "status").read()), open(folder + "stdout", "rb").read(), b""
        for way in CHANCE.sample(WAYS, 5):
            got = run([words[0], *way, *words[1:]], folder)
            count(got == wanted, f"case {os.path.basename(folder[:-1])}, {way}: {got[0]}, and not {wanted[0]}")


def listed_by_renaming(counts, root, items):
    """The listing of all nodes with one field, by its definition: of each candidate the least renamed one."""
    objects = [(name, number) for name in sorted(counts, key=str.encode) for number in range(counts[name])]
    values = [value for item in items for value in ([None] if item == "null" else [(item, number) for number in range(counts[item])])]
    index = {value: at for at, value in enumerate(values)}
    ways = [itertools.permutations(range(counts[name])) for name in counts]
    renamings = [{(name, number): (name, way[number]) for name, way in zip(counts, both) for number in range(counts[name])}
                 for both in itertools.product(*ways)]

    def walked(this, field):
        seen, key, at = [this], [this[1]], 0
        while at < len(seen):
            key.append(index[field[seen[at]]])
            if field[seen[at]] is not None and field[seen[at]] not in seen:
                seen.append(field[seen[at]])
            at += 1
        return tuple(key), seen

    def shown(value):
        return "null" if value is None else f"{value[0]}#{value[1]}"

    rows = {}
    for number in range(counts[root]):
        for chosen in itertools.product(values, repeat=len(objects)):
            field, best = dict(zip(objects, chosen)), None
            for renaming in renamings:
                renamed = {renaming[o]: v and renaming[v] for o, v in field.items()}
                key, seen = walked(renaming[root, number], renamed)
                if best is None or key < best[0]:
                    best = key, " ".join(f"{shown(o)}{{next={shown(renamed[o])}}}" for o in seen)
            rows[best[0]] = best[1]
    lines = [".".join(map(str, key)) + " " + rows[key] + "\n" for key in sorted(rows)]
    return "".join(lines) + f"valid {len(rows)} tried {len(rows)}\n"


def domains():
    folder = tempfile.mkdtemp()
    with open(folder + "/N.java", "w") as file:
        file.write("class N { N next; boolean repOk() { return true; } }\n")
    for _ in range(60):
        names = CHANCE.sample(["A", "B", "Rest", "_x", "int", "größe", "数", "N", "Null", "$"], CHANCE.randint(2, 4))
        while True:
            counts = {name: CHANCE.choice([0, 1, 1, 2, 2]) for name in names}
            if sum(counts.values()) <= 4 and any(counts.values()):
                break
        root = CHANCE.choice([name for name in names if counts[name]])
        items = CHANCE.sample(names, CHANCE.randint(1, len(names))) + ["null"] * CHANCE.randint(0, 1)
        CHANCE.shuffle(items)
        if not any(item == "null" or counts[item] for item in items):
            continue
        lines = [f'"{name}" = {{ class = "N", count = {counts[name]} }}\n' for name in names]
        CHANCE.shuffle(lines)
        with open(folder + "/fin.toml", "w") as file:
            named = ", ".join(f'"{item}"' for item in items)
            file.write(f'version = 2\nroot = "{root}"\nfuel = 1000\n[objects]\n' + "".join(lines) + f'[fields]\n"N.next" = [{named}]\n')
        one = compare(["list", "fin.toml", "N.java"], folder, CHANCE.sample(WAYS, 2), "domains")
        wanted = listed_by_renaming({name: n for name, n in counts.items()}, root, items)
        count(one == (0, wanted.encode(), b""), f"domains: {counts} {root} {items}: {one[1][:80]}")
    shutil.rmtree(folder)


def some_span(keys):
    """Words that ask for a part: keys of rows, keys after one, a key's front; and a limit."""
    words, rows = [], len(keys)
    if CHANCE.random() < 0.6:
        key = CHANCE.choice(keys)
        if CHANCE.random() < 0.4:
            key += "." + CHANCE.choice(["0", "65536"])
        if CHANCE.random() < 0.3:
            key = ".".join(key.split(".")[: CHANCE.randint(1, 3)])
        words += ["--from", key]
    if CHANCE.random() < 0.6:
        words += ["--to", CHANCE.choice(keys) + CHANCE.choice(["", "", ".0"])]
    if CHANCE.random() < 0.7:
        limits = [1, 2, 3, rows, rows - 1, rows + 1, rows // 2, 100, 256, 257, 4096]
        words += ["--limit", str(max(1, CHANCE.choice(limits)))]
    return words


def limits():
    for folder, sources, methods in examples():
        for words in calls_of(sources, methods):
            rows = run(words, folder)[1].decode().split("\n")[:-2]
            keys = [row.split(" ")[0] for row in rows]
            for _ in range(10 if keys else 0):
                compare([words[0], *some_span(keys), *words[1:]], folder, CHANCE.sample(WAYS, 4), os.path.basename(folder[:-1]))


def windows():
    folder, asked = TOP + "/examples/binary-search-tree/", []
    for words in (["list", "fin.toml", "SearchTree.java"], ["test", "fin.toml", "rotateRight", "SearchTree.java"]):
        asked += [(folder, [words[0], "--to", "0.1.2.3.0.0.0.0.3.0.1.2.0", *words[1:]], [["--workers", "7", "--window", "2"]] * 40)]
    for folder, sources, methods in CHANCE.sample(list(examples()), 8):
        words = CHANCE.choice(calls_of(sources, methods))
        keys = [row.split(" ")[0] for row in run(words, folder)[1].decode().split("\n")[:-2]]
        for _ in range(5 if keys else 0):
            ways = [["--workers", str(CHANCE.randint(3, 9)), "--window", str(CHANCE.randint(1, 5))] for _ in range(2)]
            asked += [(folder, [words[0], *some_span(keys), *words[1:]], ways)]
    for folder, words, ways in asked:
        compare(words, folder, ways, os.path.basename(folder[:-1]), 20)


def changed(text):
    """A text with one to three changes: characters left out, put in or changed, lines left out or doubled."""
    for _ in range(CHANCE.randint(1, 3)):
        at, kind = CHANCE.randrange(len(text)), CHANCE.random()
        if kind < 0.3:
            text = text[:at] + text[at + 1 :]
        elif kind < 0.8:
            text = text[:at] + CHANCE.choice('0123456789"[]{}=,.\n #nulto') + text[at + (kind < 0.6) :]
        else:
            lines = text.split("\n")
            line = CHANCE.randrange(len(lines))
            lines[line : line + 1] = [] if kind < 0.9 else [lines[line]] * 2
            text = "\n".join(lines)
        text = text or "x"
    return re.sub(r"\d{4,}", lambda number: number.group(0)[:4], text)


def mutated():
    for folder, sources, _ in examples():
        fin = open(folder + "fin.toml").read()
        with tempfile.TemporaryDirectory() as work:
            for source in sources:
                shutil.copy(folder + source, work)
            for _ in range(30):
                text = changed(fin)
                open(work + "/fin.toml", "w").write(text)
                one = compare(["list", "--limit", "2000", "fin.toml", *sources], work, CHANCE.sample(WAYS, 3), "mutated " + repr(text))
                count(one[0] in (0, 3, 4, 5) and one[2] == b"", f"mutated {folder}: {one[0]}: {text!r}")


def cell_values(last):
    return f'root = "Cell"\nfuel = 1000\n[objects]\nCell = 1\n[fields]\n"Cell.v" = [{{ from = 0, to = {last} }}]\n'


def cut():
    with tempfile.TemporaryDirectory() as work:
        def source(text):
            open(work + "/Cell.java", "w").write(text)

        open(work + "/fin.toml", "w").write(cell_values(2))
        open(work + "/flat.toml", "w").write(cell_values(2999))
        whole = "class Cell { int v; boolean repOk() { return v > 0; } }"
        for length in range(len(whole) + 1):
            source(whole[:length])
            one = compare(["list", "fin.toml", "Cell.java"], work, CHANCE.sample(WAYS, 3), f"cut at {length}")
            count(one[0] == (0 if length == len(whole) else 4 if length == 0 else 3), f"cut at {length}: {one[0]}")
        source("class Cell { int v; boolean repOk() { while (true) {} } }")
        one = compare(["list", "fin.toml", "Cell.java"], work, WAYS, "for ever")
        count(one[:2] == (5, b"spent 0\n"), f"for ever: {one}")
        source("class Cell { int v; boolean repOk() { return v > " + "- " * 100000 + "0; } }")
        one = compare(["list", "fin.toml", "Cell.java"], work, CHANCE.sample(WAYS, 6), "100,000 signs")
        count(one[:2] == (5, b"spent 0.0\n"), f"100,000 signs: {one}")
        for at in (0, 1, 255, 256, 257, 300, 511, 512, 1000, 2999):
            source("class Cell { int v; boolean repOk() { while (v == %d) {} return v %% 3 != 0; } }" % at)
            for limit in (None, 1, 100, 256, max(1, at), max(1, at * 2 // 3)):
                words = ["list"] + (["--limit", str(limit)] if limit else []) + ["flat.toml", "Cell.java"]
                compare(words, work, CHANCE.sample(WAYS, 4), f"spent at {at}")


def trees(work, nodes):
    """The trees of so many nodes, and the bytes of their listing."""
    source, fin = (open(TOP + "/examples/trees/" + name).read() for name in ("Tree.java", "fin.toml"))
    open(work + "/Tree.java", "w").write(source.replace("== 3", f"== {nodes}"))
    open(work + "/trees.toml", "w").write(fin.replace("Node = 3", f"Node = {nodes}"))
    return run(["list", "trees.toml", "Tree.java"], work)[1]


def written_by(work, ways):
    """Calls over eight nodes' trees, and the bytes of each: a listing by one worker, its builders, and the listing in these ways."""
    whole = trees(work, 8)
    files = ["trees.toml", "Tree.java"]
    yield ["list", *files], whole
    yield ["emit", *files], run(["emit", *files], work)[1]
    for way in ways:
        yield ["list", *way, *files], whole


def checked():
    with tempfile.TemporaryDirectory() as work:
        trees(work, 8)
        logs = {"whole": run(["list", "--trace", "--workers", "3", "trees.toml", "Tree.java"], work)[1]}
        logs["cut"] = logs["whole"][: len(logs["whole"]) * 2 // 3]
        for name, log in logs.items():
            open(f"{work}/{name}", "wb").write(log)
            words = ["trace", "--workers", "3", name]
            one = run(words, work)
            count(one[0] == (0 if name == "whole" else 10) and one[2] == b"", f"trace {name}: {one}")
            ends = set()
            for size in (2600, 3000, 3400, 3800, 4200, 4600, 5000, 5400, 5800, 6200, 6600, 7000, 8000, 9000, 10000, 20000, 100000):
                def little(size=size):
                    resource.setrlimit(resource.RLIMIT_AS, (size * 1024, size * 1024))

                few = run(words, work, preexec_fn=little)
                ends.add(few[0])
                good = few == one or few[0] == 8 and few[1] in (b"", b"out of memory\n") or few[0] < 0 or few[0] == 127
                count(good, f"trace {name} in {size} KB: {few}")
            count({8, one[0]} <= ends, f"trace {name}: no address space in which it ends with 8, or none in which it ends well: {ends}")
            with open("/dev/full", "wb") as out:
                status, _, error = run(words, work, stdout=out)
            count(status == 7 and error == b"", f"/dev/full, trace {name}: {status}")


def pipes():
    with tempfile.TemporaryDirectory() as work:
        for words, whole in written_by(work, WAYS):
            rows = CHANCE.choice([0, 1, 2, 5, 100, 1000])
            call = subprocess.Popen([KORAT, *words], cwd=work, stdin=subprocess.DEVNULL, stdout=subprocess.PIPE, stderr=subprocess.PIPE)
            front = b"".join(call.stdout.readline() for _ in range(rows))
            call.stdout.close()
            try:
                status = call.wait(SECONDS)
            except subprocess.TimeoutExpired:
                call.kill()
                status = "hangs"
            error = call.stderr.read()
            count(status == 7 and whole.startswith(front) and error == b"", f"a reader that leaves after {rows} lines, {words}: {status} {error[:80]}")


def full():
    with tempfile.TemporaryDirectory() as work, tempfile.TemporaryDirectory() as disk:
        for size in (4096, 65536, 131072):
            if subprocess.run(["mount", "-t", "tmpfs", "-o", f"size={size}", "tmpfs", disk], stderr=subprocess.DEVNULL).returncode:
                print("a disk that fills up isn't tried: no tmpfs can be mounted")
                break
            for words, whole in written_by(work, CHANCE.sample(WAYS, 14)):
                with open(disk + "/out", "wb") as out:
                    status, _, error = run(words, work, stdout=out)
                written = open(disk + "/out", "rb").read()
                good = status == 7 and whole.startswith(written) and len(written) == min(size, len(whole)) and error == b""
                count(good, f"a disk of {size} bytes, {words}: {status}, {len(written)} bytes")
                os.remove(disk + "/out")
            subprocess.run(["umount", disk])
        for words, _ in written_by(work, WAYS):
            with open("/dev/full", "wb") as out:
                status, _, error = run(words, work, stdout=out)
            count(status == 7 and error == b"", f"/dev/full, {words}: {status}")


def is_whole_or_told(status, out, whole):
    """Whether a listing ended well, or reported out of memory after its first rows, or before it had a line."""
    if status != 8:
        return status == 0 and out.startswith(whole)
    rows, wanted = out.split(b"\n")[:-1], whole.split(b"\n")[:-2]
    return rows == [] or rows[-1] == b"out of memory" and rows[:-1] == wanted[: len(rows) - 1]


def memory():
    sizes = [2600, 3000, 3400, 3800, 4200, 4600, 5000, 5500, 6000, 7000, 8000, 9000, 10000, 12000, 14000, 17000, 20000, 30000, 40000, 100000, 300000, 700000]
    ways = [[], ["--trace"]] + [["--workers", workers, *more] for workers in ("2", "3", "4") for more in (["--window", "1"], ["--window", "100"], [], ["--pool", "deque"], ["--window", "100", "--trace"])]
    with tempfile.TemporaryDirectory() as work:
        whole = trees(work, 8)
        for way in ways:
            ends = {}
            for size in sizes:
                def little(size=size):
                    resource.setrlimit(resource.RLIMIT_AS, (size * 1024, size * 1024))

                status, out, error = run(["list", *way, "trees.toml", "Tree.java"], work, preexec_fn=little)
                if status == 127 or b"error while loading" in error:
                    continue
                ends[status] = ends.get(status, 0) + 1
                count(is_whole_or_told(status, out, whole) and error == b"", f"{size} KB, {way}: {status}, {len(out)} bytes, {error[:80]}")
            print(f"memory {' '.join(way)}:", ", ".join(f"{status} {times} times" for status, times in sorted(ends.items(), key=str)))


def stack():
    with tempfile.TemporaryDirectory() as work:
        for size in (64, 96, 128, 256, 1024):
            def small(size=size):
                resource.setrlimit(resource.RLIMIT_STACK, (size * 1024, size * 1024))

            for words, whole in written_by(work, CHANCE.sample(WAYS, 4)):
                status, out, error = run(words, work, preexec_fn=small)
                count((status, out, error) == (0, whole, b""), f"a stack of {size} KB, {words}: {status}, {len(out)} bytes, {error[:80]}")


def size():
    with tempfile.TemporaryDirectory() as work:
        for most in (0, 1, 512, 4096, 65536, 100000):
            def limited(most=most):
                signal.signal(signal.SIGXFSZ, signal.SIG_IGN)
                resource.setrlimit(resource.RLIMIT_FSIZE, (most, most))

            for words, whole in written_by(work, CHANCE.sample(WAYS, 6)):
                with open(work + "/out", "wb") as out:
                    status, _, error = run(words, work, stdout=out, preexec_fn=limited, restore_signals=False)
                written = open(work + "/out", "rb").read()
                good = status == 7 and whole.startswith(written) and len(written) == min(most, len(whole)) and error == b""
                count(good, f"a file of at most {most} bytes, {words}: {status}, {len(written)} bytes")


def interrupted(filters, words, work):
    """Status and output of a call under strace with these words."""
    ended = subprocess.run(["strace", "-f", "-o", "/dev/null", *filters, KORAT, *words], cwd=work, stdin=subprocess.DEVNULL, stdout=subprocess.PIPE, stderr=subprocess.PIPE, timeout=SECONDS)
    return ended.returncode, ended.stdout


def signals():
    if not shutil.which("strace"):
        print("signals aren't tried: there is no strace")
        return
    with tempfile.TemporaryDirectory() as work:
        whole = trees(work, 6)
        words = ["list", "trees.toml", "Tree.java"]
        if interrupted([], ["demo", "3"], work)[0] != 0:
            print("signals aren't tried: strace can't trace here")
            return
        for call, file, status in (("write", [], 7), ("read", ["-P", "trees.toml"], 6), ("read", ["-P", "Tree.java"], 6)):
            for times in (1, 2, 63, 64, 65, 10000):
                got = interrupted([*file, "-e", f"inject={call}:error=EINTR:when=1..{times}"], words, work)
                wanted = (0, whole) if times < 65 else (status, got[1])
                good = got == wanted and (times < 65 or not got[1].startswith(whole[:8]))
                count(good, f"{times} interruptions of {call} {file}: {got[0]}, {len(got[1])} bytes")


def waiting():
    with tempfile.TemporaryDirectory() as work:
        for words, whole in written_by(work, CHANCE.sample(WAYS, 8)):
            reader, writer = os.pipe()
            fcntl.fcntl(writer, fcntl.F_SETFL, fcntl.fcntl(writer, fcntl.F_GETFL) | os.O_NONBLOCK)
            fcntl.fcntl(writer, fcntl.F_SETPIPE_SZ, 4096)
            status, _, error = run(words, work, stdout=writer)
            os.close(writer)
            front = os.read(reader, 1 << 20)
            os.close(reader)
            count(status == 7 and whole.startswith(front) and error == b"", f"a full pipe that doesn't block, {words}: {status}, {len(front)} bytes")


FOUR = """class Four {
    int x;
    boolean repOk() { return this.down(300000) == 0; }
    int down(int n) {
        if (n == 0) { int y = this.x; return 0; }
        return this.down(n - 1);
    }
}
"""

FOUR_VALUES = 'root = "Four"\nfuel = 5000000\n[objects]\nFour = 1\n[fields]\n"Four.x" = [0, 1, 2, 3]\n'


def cost(words, folder):
    """Output of a call, its seconds of processor time, and the most memory that it had."""
    with open(folder + "/out", "wb") as out:
        call = subprocess.Popen([KORAT, *words], cwd=folder, stdin=subprocess.DEVNULL, stdout=out)
        _, _, used = os.wait4(call.pid, 0)
    return open(folder + "/out", "rb").read(), used.ru_utime + used.ru_stime, used.ru_maxrss


def idle():
    with tempfile.TemporaryDirectory() as work:
        open(work + "/Four.java", "w").write(FOUR)
        open(work + "/four.toml", "w").write(FOUR_VALUES)
        whole, seconds, memory = cost(["list", "four.toml", "Four.java"], work)
        for workers in (8, 64):
            got, busy, most = cost(["list", "--workers", str(workers), "four.toml", "Four.java"], work)
            count(got == whole, f"four candidates by {workers} workers")
            count(busy <= 1.2 * seconds + 0.1 and most <= 4 * memory,
                  f"four candidates by {workers} workers: {busy:.2f} s and {most} KB, where one takes {seconds:.2f} s and {memory} KB")


PARTS = {part.__name__: part for part in (equal, cases, domains, limits, windows, mutated, cut, checked, pipes, full, memory, stack, size, signals, waiting, idle)}

if __name__ == "__main__":
    asked = sys.argv[1:] or list(PARTS)
    if any(name not in PARTS for name in asked) or not os.access(KORAT, os.X_OK):
        print("unknown part, or no program", *asked, KORAT)
        sys.exit(2)
    for name in asked:
        before, broken = passed, failed
        PARTS[name]()
        print(f"{name}: {passed - before} passed, {failed - broken} failed", flush=True)
    print(f"{passed} passed, {failed} failed")
    sys.exit(failed > 0)
