"""Calls of the program by which `split` and `watch` look at a listing."""
import os
import select
import subprocess
import time

# No key has an index so high, so `P.i.END` is a cut behind all keys that begin with `P.i`.
END = 65536
# Seconds of a probe that is known to end soon.
AMPLE = 1000.0


class Ended(Exception):
    """A call that gives no answer: the status that the tool ends with, and why."""

    def __init__(self, status, why):
        super().__init__(why)
        self.status = status


def program():
    """The program: the one that KORAT names, or that of the launcher, which builds it where it is missing."""
    if os.environ.get("KORAT"):
        return os.environ["KORAT"]
    launcher = os.path.join(os.path.dirname(os.path.dirname(os.path.realpath(__file__))), "korat")
    answer = subprocess.run([launcher, "--program"], stdout=subprocess.PIPE, text=True, check=False)
    if answer.returncode != 0:
        raise Ended(answer.returncode, "there is no program")
    return answer.stdout.strip()


def below(prefix, index):
    return f"{prefix}.{index}" if prefix else str(index)


def span(begin, end):
    """The options for the keys above a cut and not above another one; an empty cut is no bound."""
    return (["--from", begin] if begin else []) + (["--to", end] if end else [])


class Prober:
    def __init__(self, files):
        self.korat = program()
        self.files = files
        self.glance = 0.1
        self.known_slots = None

    def slots(self):
        """How many slots the problem has. What is wrong with the files ends the tool, and a slow machine gets more time for a glance."""
        if self.known_slots is None:
            started = time.monotonic()
            answer = subprocess.run([self.korat, "check", "--", *self.files], stdin=subprocess.DEVNULL, stdout=subprocess.PIPE,
                                    text=True, errors="replace", check=False)
            line = answer.stdout.rstrip("\n")
            if answer.returncode != 0:
                raise Ended(answer.returncode, line)
            self.known_slots = int(line.split(" ")[-1])
            self.glance = max(self.glance, 10 * (time.monotonic() - started))
        return self.known_slots

    def start(self, options):
        return subprocess.Popen([self.korat, "list", *options, "--", *self.files], stdin=subprocess.DEVNULL, stdout=subprocess.PIPE)

    def last_line(self, options, seconds):
        """The last line of a listing, or none where it takes longer."""
        child = self.start(options)
        deadline = time.monotonic() + seconds
        tail = b""
        while True:
            left = deadline - time.monotonic()
            if left <= 0 or not select.select([child.stdout], [], [], left)[0]:
                child.kill()
                child.wait()
                child.stdout.close()
                return None
            chunk = os.read(child.stdout.fileno(), 1 << 16)
            if not chunk:
                break
            tail = (tail + chunk)[-(1 << 17):]
        child.stdout.close()
        line = tail.rstrip(b"\n").rpartition(b"\n")[2].decode(errors="replace")
        refuse_end(child.wait(), line)
        return line

    def tried(self, begin, end, seconds):
        """How many candidates are tried there, or none where that takes longer."""
        line = self.last_line(span(begin, end), seconds)
        return None if line is None else int(line.split(" ")[-1])

    def is_something(self, begin, end, seconds):
        """Whether something is tried there. What takes longer is."""
        return self.last_line([*span(begin, end), "--limit", "1"], seconds) != "valid 0 tried 0"

    def highest(self, prefix, end, seconds):
        """The highest index behind a prefix of the keys that end at a cut; -1 where the prefix itself is a key, so that no index is."""
        highest, step = -1, 1
        while step < END and self.is_something(below(below(prefix, step - 1), END), end, seconds):
            highest, step = step, 2 * step
        if highest == -1 and self.is_something(prefix, below(below(prefix, 0), END), seconds):
            highest = 0
        # Something is there from `highest` on, and nothing from `step` on.
        while highest >= 0 and step - highest > 1:
            middle = (highest + step) // 2
            if self.is_something(below(below(prefix, middle - 1), END), end, seconds):
                highest = middle
            else:
                step = middle
        return highest


def refuse_end(status, line):
    """Ends the tool where a listing has no whole report."""
    if status == 5:
        raise Ended(5, f"{line}: that run needs more fuel")
    if status != 0:
        raise Ended(status if status > 0 else 70, line)
