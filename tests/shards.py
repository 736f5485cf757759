#!/usr/bin/env python3
"""Tries mutations of shard files against a plain reading.

    tests/shards.py [COUNT [SEED]]      200 mutations and seed 1 where it isn't said

A listing is cut in shards, some of them are changed by a byte, a line or a number, and `korat merge` has to end as a plain
reading of the same bytes says: with the same bytes and status. KORAT names the program. It needs Python 3.8. It proves
nothing, and no gate runs it.
"""
import os, random, re, subprocess, sys, tempfile

TOP = os.path.dirname(os.path.dirname(os.path.abspath(__file__)))
KORAT = os.environ.get("KORAT", os.path.join(TOP, "crates/korat/out/korat"))
NUMBER = re.compile(rb"0|[1-9][0-9]*")


def number(text, end):
    """The number below `end` whose decimal text this is, or None."""
    return int(text) if NUMBER.fullmatch(text) and int(text) < end else None


def cut(text):
    """The cut whose text this is, as a tuple, or None."""
    parts = text.split(b".")
    numbers = tuple(number(part, 2**32) for part in parts)
    return None if None in numbers or len(numbers) > 4096 else numbers


END = (float("inf"),)


def reading(text):
    """(None, shard), or (the first malformed line, None). A shard is FROM, TO, rows, tried, spent."""
    *lines, rest = text.split(b"\n")
    if not lines:
        return 1, None
    words = lines[0].split(b" ", 2)
    if len(words) != 3 or words[0] != b"shard":
        return 1, None
    start = () if words[1] == b"start" else cut(words[1])
    stop = END if words[2] == b"end" else cut(words[2])
    if start is None or stop is None or not start < stop:
        return 1, None
    rows, last = [], start
    for line in lines[1:]:
        key, space, more = line.partition(b" ")
        key = cut(key)
        if key is None or not more or not last < key <= stop:
            break
        rows.append(line + b"\n")
        last = key
    at = len(rows) + 2
    if len(lines) < at:
        return at, None
    line = lines[at - 1]
    tried, spent = 0, None
    if line.startswith(b"spent "):
        spent = cut(line[6:])
        if spent is None or not last < spent <= stop:
            return at, None
    else:
        head = b"valid %d tried " % len(rows)
        tried = number(line[len(head):], 2**64) if line.startswith(head) else None
        if tried is None or tried < len(rows):
            return at, None
    if len(lines) > at or rest:
        return at + 1, None
    return None, (start, stop, rows, tried, spent)


def text_of(numbers):
    return b".".join(b"%d" % n for n in numbers)


def merging(names, texts):
    """The status and the bytes of `korat merge` over files of these names."""
    shards = []
    for name, text in zip(names, texts):
        if len(text) > 2**24:
            return 9, name + b": M1\n"
        line, shard = reading(text)
        if line:
            return 9, name + b":%d: M2\n" % line
        shards.append(shard)
    order = sorted(range(len(shards)), key=lambda n: shards[n][0])
    for a, b in zip(order, order[1:]):
        if shards[b][0] < shards[a][1]:
            return 9, names[b] + b": M3\n"
        if shards[a][1] < shards[b][0]:
            return 9, b"gap %s %s\n" % (text_of(shards[a][1]), text_of(shards[b][0]))
    rows, count, tried = [], 0, 0
    for n in order:
        rows += shards[n][2]
        count += len(shards[n][2])
        tried += shards[n][3]
        if shards[n][4] is not None:
            return 5, b"".join(rows) + b"spent %s\n" % text_of(shards[n][4])
    return 0, b"".join(rows) + b"valid %d tried %d\n" % (count, min(tried, 2**64 - 1))


def mutated(draw, text):
    """The text with one change."""
    lines = text.splitlines(True)
    kind = draw.randrange(10)
    at = draw.randrange(len(text)) if text else 0
    row = draw.randrange(len(lines)) if lines else 0
    if kind == 0:
        return text[:at] + text[at + 1:]
    if kind == 1:
        return text[:at] + bytes([draw.choice(b"0123456789. \nabz#")]) + text[at:]
    if kind == 2:
        return text[:at] + bytes([draw.randrange(256)]) + text[at + 1:]
    if kind == 3:
        return text[:at]
    if kind == 4:
        return b"".join(lines[:row] + lines[row + 1:])
    if kind == 5:
        return b"".join(lines[:row + 1] + lines[row:])
    if kind == 6 and row + 1 < len(lines):
        return b"".join(lines[:row] + [lines[row + 1], lines[row]] + lines[row + 2:])
    if kind == 7:
        places = [m for m in re.finditer(rb"[0-9]+", text)]
        place = draw.choice(places)
        value = draw.choice([b"0", b"1", b"00", b"%d" % (int(place[0]) + 1), b"4294967296", b"18446744073709551615", b"18446744073709551616"])
        return text[:place.start()] + value + text[place.end():]
    if kind == 8:
        return text + draw.choice([b"\n", b"x", b"valid 0 tried 0\n", b" "])
    return draw.choice([b"", b"\n", b"shard start end\nvalid 0 tried 0\n", text[:-1]])


def call(*words):
    done = subprocess.run([KORAT, *words], stdin=subprocess.DEVNULL, stdout=subprocess.PIPE, stderr=subprocess.PIPE)
    return done.returncode, done.stdout, done.stderr


def main():
    count = int(sys.argv[1]) if len(sys.argv) > 1 else 200
    draw = random.Random(int(sys.argv[2]) if len(sys.argv) > 2 else 1)
    passed, failed, kinds = 0, 0, {}
    with tempfile.TemporaryDirectory() as work:
        os.chdir(work)
        with open("fin.toml", "w") as file:
            file.write('root = "P"\nfuel = 100\n[objects]\nP = 1\n[fields]\n' + "".join(f'"P.{f}" = [{{ from = 0, to = 11 }}]\n' for f in "abc"))
        with open("P.java", "w") as file:
            file.write("class P { int a; int b; int c; boolean repOk() { return a < b && b != c; } }\n")
        status, listing, _ = call("list", "fin.toml", "P.java")
        keys = [line.split(b" ")[0] for line in listing.splitlines()[:-1]]
        for turn in range(count):
            cuts = sorted(draw.sample(keys, draw.randrange(1, 6)), key=cut)
            bounds = [None, *cuts, None]
            texts = []
            for a, b in zip(bounds, bounds[1:]):
                words = ["shard", "fin.toml", "P.java"]
                words += ["--from", a.decode()] if a else []
                words += ["--to", b.decode()] if b else []
                ended, text, _ = call(*words)
                assert ended == 0, (words, ended)
                texts.append(text)
            draw.shuffle(texts)
            if turn % 10:
                which = draw.randrange(len(texts))
                texts[which] = mutated(draw, texts[which])
            names = [b"s%d" % n for n in range(len(texts))]
            for name, text in zip(names, texts):
                with open(name, "wb") as file:
                    file.write(text)
            wanted = merging(names, texts)
            ended, out, err = call("merge", *[name.decode() for name in names])
            kind = "whole" if wanted[0] == 0 else "spent" if wanted[0] == 5 else wanted[1].split(b" ")[-1 if b": M" in wanted[1] else 0].strip().decode()
            kinds[kind] = kinds.get(kind, 0) + 1
            if (ended, out) == wanted and not err:
                passed += 1
            else:
                failed += 1
                print("failed:", turn, "wanted", wanted[0], wanted[1][-80:], "and not", ended, out[-80:])
            if not turn % 10 and out != listing:
                failed += 1
                print("failed:", turn, "is not the listing")
    print(", ".join(f"{kind}: {kinds[kind]}" for kind in sorted(kinds)))
    print(f"{passed} passed, {failed} failed")
    sys.exit(failed > 0)


if __name__ == "__main__":
    main()
