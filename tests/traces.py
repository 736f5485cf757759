#!/usr/bin/env python3
"""Tries the check of traces against a plain reading of the rules.

    tests/traces.py [COUNT [SEED]]      100 calls and seed 1 where it isn't said

Listings and tests of random bounds, ranges and limits are run with `--trace` by 1 to 8 workers with windows of 1 to 65,536
rows, and `korat trace` has to accept each. Then a byte, a number or a line of each is changed, and `korat trace` has to end
as a plain reading of the same bytes says: with the same line and status. KORAT names the program. It needs Python 3.8. It
proves nothing, and no gate runs it.
"""
import os, random, re, subprocess, sys, tempfile

TOP = os.path.dirname(os.path.dirname(os.path.abspath(__file__)))
KORAT = os.path.abspath(os.environ.get("KORAT", os.path.join(TOP, "crates/korat/out/korat")))
NUMBER = re.compile(rb"0|[1-9][0-9]*")
MOST = 2**64 - 1
END = (float("inf"),)


def number(text, end=2**64):
    """The number below `end` whose decimal text this is, or None."""
    return int(text) if len(text) < 40 and NUMBER.fullmatch(text) and int(text) < end else None


def cut(text):
    """The cut whose text this is, as a tuple, or None."""
    numbers = tuple(number(part, 2**32) for part in text.split(b"."))
    return None if None in numbers or len(numbers) > 4096 else numbers


def bound(text):
    return END if text == b"end" else cut(text)


def seat(text):
    return number(text, 2**32)


def made(name, readers, words):
    """The event of this name, each word read by its reader, or None."""
    if len(words) != len(readers):
        return None
    values = [reader(word) for reader, word in zip(readers, words)]
    return None if None in values else (name, *values)


# ---- lines


def last_of(line):
    """What a last line says, or None."""
    words = line.split(b" ")
    if words[0] == b"valid" and len(words) == 4 and words[2] == b"tried":
        return made("listed", [number, number], [words[1], words[3]])
    if words[0] == b"valid" and len(words) == 6 and (words[2], words[4]) == (b"failing", b"tried"):
        return made("tested", [number] * 3, [words[1], words[3], words[5]])
    if words[0] in (b"more", b"spent"):
        return made(words[0].decode(), [cut], words[1:])
    return None


def verdict(rest):
    """Whether the verdict before a space is a pass, or None."""
    word, *more = rest.split(b" ")
    if word == b"pass":
        return True if more else None
    if word in (b"repOk", b"spent"):
        return False if more else None
    if word in (b"ensures", b"signals"):
        return False if len(more) > 1 and seat(more[0]) else None
    if word in (b"trap", b"check-trap"):
        return False if len(more) > 1 and more[0] else None
    return None


def event_of(line):
    """The event of a line, or None."""
    name, *words = line.split(b" ")
    if name == b"take":
        return made("take", [seat, number], words)
    if name == b"steal":
        return made("steal", [seat, number, cut, number], words)
    if name == b"report":
        if len(words) == 6 and words[5] == b"spent":
            event = made("report", [seat, number, bound, number, number], words[:5])
            return event and (*event, True)
        event = made("report", [seat, number, bound, number, number], words)
        return event and (*event, False)
    if name == b"giveup":
        return made("giveup", [seat, number], words)
    if name == b"drain":
        return made("drain", [number], words)
    if name == b"stop":
        return ("stop", ()) if not words else made("stop", [cut], words)
    if name == b"look":
        return made("look", [seat], words)
    return None


# ---- the machine


class Machine:
    """Segments in the order of candidates, each a list: number, mark, end, owner, rows, tried."""

    def __init__(self, start, stop, workers):
        cuts = [(0, k) for k in range(1, workers) if start < (0, k) < stop]
        self.end = stop if start < stop else start
        self.segments = []
        for at, to in enumerate([*cuts, self.end]):
            self.segments.append([at, cuts[at - 1] if at else start, to, None, 0, 0])
        self.next, self.past, self.spent = len(cuts) + 1, 0, False

    def place(self, number):
        return next((at for at, segment in enumerate(self.segments) if segment[0] == number), None)

    def take(self, event):
        """Takes an event; False where it doesn't fit."""
        name = event[0]
        if name == "look":
            return True
        if name == "drain":
            rows, at = 0, 0
            for at, segment in enumerate(self.segments):
                rows = min(rows + segment[4], MOST)
                if not closed(segment):
                    break
            if event[1] != rows:
                return False
            while len(self.segments) > 1 and closed(self.segments[0]):
                self.past = min(self.past + self.segments.pop(0)[5], MOST)
            self.segments[0][4] = 0
            return True
        if name == "stop":
            if self.segments[0][1] != event[1]:
                return False
            self.spent = len(self.segments) == 1 and self.spent
            del self.segments[1:]
            self.segments[0][2:4] = [event[1], None]
            self.end = event[1]
            return True
        at = self.place(event[2])
        if at is None:
            return False
        segment = self.segments[at]
        if name == "take":
            if segment[3] is not None or not segment[1] < segment[2]:
                return False
            segment[3] = event[1]
        elif name == "giveup":
            if segment[3] != event[1]:
                return False
            segment[3] = None
        elif name == "steal":
            _, by, _, to, new = event
            if segment[3] is None or not segment[1] < to < segment[2] or new != self.next or new == MOST:
                return False
            self.segments.insert(at + 1, [new, to, segment[2], by, 0, 0])
            segment[2] = to
            self.next += 1
        else:
            _, by, _, reach, rows, tried, spent = event
            fits = reach != END and rows < tried if spent else rows <= tried
            if segment[3] != by or not segment[1] < reach <= segment[2] or not fits:
                return False
            segment[1] = reach
            segment[4] = min(segment[4] + rows, MOST)
            segment[5] = min(segment[5] + tried, MOST)
            if spent:
                segment[2], self.end, self.spent = reach, reach, True
                del self.segments[at + 1 :]
            if not reach < segment[2]:
                segment[3] = None
        return True


def closed(segment):
    return segment[3] is None and not segment[1] < segment[2]


# ---- a text


def reading(text, start, stop, workers):
    """The answer to a text, as the program writes it."""
    if len(text) > 2**24:
        return "bad trace 1 K0"
    *lines, rest = text.split(b"\n")
    lasts = [last_of(line) for line in lines]
    at = next((at for at, last in enumerate(lasts) if last), None)
    last = None if at is None else lasts[at]
    tests, machine = last is not None and last[0] == "tested", Machine(start, stop, workers)
    rows, failing, before = [], 0, start
    for n, line in enumerate(lines[:at], 1):
        key, _, more = line.partition(b" ")
        key, passes = cut(key), verdict(more) if tests else True
        if not more or key is None or passes is None:
            return f"bad trace {n} K1"
        if not before < key <= machine.end:
            return f"bad trace {n} K2"
        rows.append(key)
        before, failing = key, failing + (not passes)
    if last is None:
        return f"bad trace {len(rows) + 1} K1"
    horizon = last[1] if last[0] in ("more", "spent") else END
    for n, line in enumerate(lines[at + 1 :], at + 2):
        event = event_of(line)
        if event is None:
            return f"bad trace {n} K1"
        mark = None
        if event[0] == "report" and machine.place(event[2]) is not None:
            mark = machine.segments[machine.place(event[2])][1]
        if not machine.take(event) or (event[0] not in ("drain", "stop") and event[1] >= workers):
            return f"bad trace {n} K3"
        if event[0] == "report":
            written = sum(mark < key <= event[3] for key in rows)
            if event[4] < written or event[4] > written and not horizon < event[3]:
                return f"bad trace {n} K4"
    if rest:
        return f"bad trace {len(lines) + 1} K1"
    if not all(closed(segment) for segment in machine.segments):
        return f"bad trace {len(lines) + 1} K5"
    tried = min(machine.past + sum(segment[5] for segment in machine.segments), MOST)
    whole = not machine.spent and machine.end == (stop if start < stop else start)
    agrees = {
        "listed": lambda: last[1:] == (len(rows), tried) and whole,
        "tested": lambda: last[1:] == (len(rows), failing, tried) and whole,
        "more": lambda: bool(rows) and rows[-1] == last[1] and last[1] < machine.end,
        "spent": lambda: machine.spent and machine.end == last[1] and all(key < last[1] for key in rows),
    }
    return f"run ok events {len(lines) - at - 1}" if agrees[last[0]]() else f"bad trace {at + 1} K6"


# ---- trials

NODES = "class N { N next; int v; boolean repOk() { N n = this; int i = 0; while (n != null) { i = i + 1; if (i > 3) return false; n = n.next; } return v > 0; } }"
CELL = """class Cell { int v; boolean repOk() { if (v == 90) { while (true) {} } return v %% %d == 0; }
//@ ensures v > \\old(v);
void up() { if (v %% 3 != 0) v = v + 1; if (v == 8) { Cell c = null; c.v = 1; } } }"""


def problem(chance):
    """A source, a finitization, a method, and cuts to begin and end at."""
    if chance.random() < 0.3:
        text = 'root = "N"\nfuel = 1000\n[objects]\nN = 3\n[fields]\n"N.next" = ["null", "N"]\n"N.v" = [{ from = 0, to = 2 }]\n'
        return NODES, text, None, ["0.1", "0.2", "0.1.1", "0.1.0.2", "0.0"]
    most = chance.choice([3, 40, 89, 89, 200, 700])
    text = f'root = "Cell"\nfuel = 1000\n[objects]\nCell = 1\n[fields]\n"Cell.v" = [{{ from = 0, to = {most} }}]\n'
    return CELL % chance.choice([1, 2, 7]), text, "up", [f"0.{chance.randrange(most + 3)}" for _ in range(3)] + ["0", "0.1.5", "1"]


def changed(chance, text):
    """The text with a byte, a number or a line changed."""
    way = chance.randrange(6)
    lines = text.split(b"\n")
    at = chance.randrange(len(lines))
    if way == 0:
        numbers = list(re.finditer(rb"[0-9]+", text))
        if numbers:
            one = chance.choice(numbers)
            value = max(0, int(one.group()) + chance.choice([-1, 1, 1, 2]))
            return text[: one.start()] + b"%d" % value + text[one.end() :]
    if way == 1:
        return b"\n".join(lines[:at] + lines[at + 1 :])
    if way == 2:
        return b"\n".join(lines[:at] + [lines[at]] + lines[at:])
    if way == 3:
        other = chance.randrange(len(lines))
        lines[at], lines[other] = lines[other], lines[at]
        return b"\n".join(lines)
    place = chance.randrange(len(text))
    byte = chance.choice([b"", b"0", b"1", b"9", b" ", b".", b"\n", b"\r", b"e", bytes([chance.randrange(256)])])
    return text[:place] + byte + text[place + 1 :]


def told(words, folder):
    ended = subprocess.run([KORAT, *words], cwd=folder, stdin=subprocess.DEVNULL, capture_output=True)
    return ended.returncode, ended.stdout.decode("utf-8", "replace").strip()


def main():
    count = int(sys.argv[1]) if len(sys.argv) > 1 else 100
    chance = random.Random(int(sys.argv[2]) if len(sys.argv) > 2 else 1)
    passed = failed = 0
    rules = {}
    with tempfile.TemporaryDirectory() as folder:
        for _ in range(count):
            source, fin, method, cuts = problem(chance)
            open(f"{folder}/X.java", "w").write(source)
            open(f"{folder}/fin.toml", "w").write(fin)
            workers = chance.randint(1, 8)
            span = []
            if chance.random() < 0.5:
                span += ["--from", chance.choice(cuts)]
            if chance.random() < 0.4:
                span += ["--to", chance.choice(cuts)]
            options = ["--workers", str(workers), "--window", str(chance.choice([1, 2, 7, 100, 4096, 65536]))]
            if chance.random() < 0.4:
                options += ["--limit", str(chance.choice([1, 2, 5, 30]))]
            tests = method and chance.random() < 0.5
            words = ["test", "fin.toml", "up", "X.java"] if tests else ["list", "fin.toml", "X.java"]
            ended = subprocess.run([KORAT, *words, *span, *options, "--trace"], cwd=folder, stdin=subprocess.DEVNULL, capture_output=True)
            start = cut(span[span.index("--from") + 1].encode()) if "--from" in span else ()
            stop = cut(span[span.index("--to") + 1].encode()) if "--to" in span else END
            checks = ["trace", "log", *span, "--workers", str(workers)]
            texts = [ended.stdout] + [changed(chance, ended.stdout) for _ in range(4)]
            for at, text in enumerate(texts):
                open(f"{folder}/log", "wb").write(text)
                wanted = reading(text, start, stop, workers)
                rules[wanted.split()[-1] if wanted[0] == "b" else "ok"] = rules.get(wanted.split()[-1] if wanted[0] == "b" else "ok", 0) + 1
                good = told(checks, folder) == (10 if wanted[0] == "b" else 0, wanted)
                if at == 0:
                    good = good and wanted[0] == "r" and ended.returncode in (0, 1, 5)
                if good:
                    passed += 1
                else:
                    failed += 1
                    print("failed:", " ".join([*words, *span, *options]), "wanted", wanted, "told", told(checks, folder), flush=True)
                    if failed < 4:
                        open(f"/tmp/traces-failed-{failed}", "wb").write(text)
    print("answers:", " ".join(f"{rule} {times}" for rule, times in sorted(rules.items())))
    print(f"{passed} passed, {failed} failed")
    sys.exit(failed > 0)


if __name__ == "__main__":
    main()
