#!/usr/bin/env python3
"""Runs the commands of pages as they are: pages.py FOLDER PAGE.. with FOLDER a checkout in which they may write.

A command is an indented block whose first line begins with `$ `, `./korat`, `tools/` or a word of a shell, and that has no words to be
filled in, as FIN. Behind `$ ` its output follows, in which `...` stands for any lines. A line `failed: WHAT` for each that ends
with status 2, 126 or 127, or writes something else; `K not tried: WHY`; and at last `N passed, M failed`.
"""
import re
import shutil
import subprocess
import sys

OPEN = re.compile(r"\b(FIN|SOURCE|METHOD|PREFIX|WORD|LINE|CUT|CALL|FOLDER|FILE|MyClass|PARTS|SECONDS)\b|\.\. |\.\.$")
BEGINS = re.compile(r"\$ |\./korat |tools/|cat >|cp |for |xargs |make |KORAT\w*=")
# Programs that a machine may lack, and commands that take hours.
OTHERS = ("dot", "gvpack", "neato", "parallel", "sbatch", "csplit", "make", "xargs")
SAID = re.compile(r"^(korat|unproved: )?.*nothing of this program is proved$|^(mutate|cover): \d+ of \d+$")


def blocks(text):
    """The indented blocks of a page, with the line of each, without the indent."""
    found, lines, fenced = [], [], False
    for number, line in enumerate(text.splitlines() + ["end"], 1):
        if line.startswith("    ") or (not line and lines and not fenced):
            lines.append((number, line[4:]))
            continue
        while lines and not lines[-1][1].strip():
            lines.pop()
        if lines:
            found.append(lines)
        lines = []
    # A here-document may have blank lines and other commands behind it: what belongs to one block stays one.
    return found


def calls(block):
    """The commands of a block with what they write, or none where that isn't said."""
    if not BEGINS.match(block[0][1]):
        return
    if not block[0][1].startswith("$ "):
        text = "\n".join(line for _, line in block if line != "./test")
        if not OPEN.search(re.sub(r"(?s)<<'(\w+)'.*?^\1$", "", text, flags=re.M)):
            yield block[0][0], text, None
        return
    at = 0
    while at < len(block):
        number, line = block[at]
        command = line[2:]
        at += 1
        while re.search(r"[|\\]$", command) and at < len(block):
            command += "\n" + block[at][1]
            at += 1
        wanted = []
        while at < len(block) and not block[at][1].startswith("$ "):
            wanted.append(block[at][1])
            at += 1
        if not OPEN.search(command):
            yield number, command, wanted


def fits(wanted, got):
    pattern = "".join(r"(?:.*\n)*?" if line.strip() == "..." else re.escape(line.rstrip()) + r"[ \t]*\n" for line in wanted)
    return re.fullmatch(pattern, "".join(line.rstrip() + "\n" for line in got if not SAID.match(line))) is not None


def main(folder, pages):
    passed = failed = skipped = 0
    for page in pages:
        with open(f"{folder}/{page}", encoding="utf-8") as file:
            text = file.read()
        for block in blocks(text):
            for number, command, wanted in calls(block):
                missing = [name for name in OTHERS if re.search(rf"(^|[|;&]|\bdo )\s*{name}\b", command, re.M) and not shutil.which(name)]
                if missing:
                    skipped += 1
                    continue
                answer = subprocess.run(["bash", "-c", command], cwd=folder, stdin=subprocess.DEVNULL, stdout=subprocess.PIPE,
                                        stderr=subprocess.PIPE, text=True, errors="replace", timeout=900, check=False)
                out, err = answer.stdout.splitlines(), answer.stderr.splitlines()
                good = answer.returncode not in (2, 126, 127) and "command not found" not in answer.stderr
                if wanted:
                    good = good and (fits(wanted, out) or fits(wanted, out + err) or fits(wanted, err))
                passed += good
                failed += not good
                if not good:
                    print(f"failed: {page}:{number}: status {answer.returncode} of {command.splitlines()[0]}: {' / '.join((out + err)[:6])}")
    if skipped:
        print(f"{skipped} not tried: this machine lacks {', '.join(name for name in OTHERS if not shutil.which(name))}")
    print(f"{passed} passed, {failed} failed")
    return 1 if failed else 0


sys.exit(main(sys.argv[1], sys.argv[2:]))
