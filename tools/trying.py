"""What `mutate` and `cover` share: the words of a call, the class in the subset, and runs of the program on changed sources."""
import os
import re
import subprocess
import sys
import tempfile

from probing import Ended, program
from subset import Program

HERE = os.path.dirname(os.path.realpath(__file__))


def root_class(text):
    """The class of the root: in version 1 the root's name, in version 2 the class of the object domain that has it."""
    root = re.search(r"(?m)^\s*root\s*=\s*[\"']([^\"']+)[\"']", text)
    root = root.group(1) if root else ""
    if not re.search(r"(?m)^\s*version\s*=\s*2\b", text):
        return root
    key = f"[\"']?{re.escape(root)}[\"']?"
    inline = re.search(rf"(?m)^\s*(?:objects\s*\.\s*)?{key}\s*=\s*\{{[^}}\n]*\bclass\s*=\s*[\"']([^\"']+)[\"']", text)
    table = re.search(rf"(?m)^\s*\[\s*objects\s*\.\s*{key}\s*\][^\[]*?^\s*class\s*=\s*[\"']([^\"']+)[\"']", text)
    dotted = re.search(rf"(?m)^\s*(?:objects\s*\.\s*)?{key}\s*\.\s*class\s*=\s*[\"']([^\"']+)[\"']", text)
    found = inline or table or dotted
    return found.group(1) if found else root


class Trial:
    """Files that the program accepts, in a folder of their own: the class as it is, or adapted."""

    def __init__(self, tool, usage, words):
        self.tool = tool
        self.method, self.seconds, files = None, 20.0, []
        while words:
            word, words = words[0], words[1:]
            if word in ("--method", "--seconds") and words:
                if word == "--method":
                    self.method = words[0]
                elif re.fullmatch(r"[0-9]{1,5}(\.[0-9]+)?", words[0]):
                    self.seconds = float(words[0])
                else:
                    raise Ended(2, usage)
                words = words[1:]
            elif word.startswith("-"):
                raise Ended(2, usage)
            else:
                files.append(word)
        if len(files) < 2:
            raise Ended(2, usage)
        for name in files:
            if not os.access(name, os.R_OK) or os.path.isdir(name):
                raise Ended(2, f"can't read {name}")
        self.fin, self.names = files[0], files[1:]
        self.korat = program()
        self.folder = tempfile.TemporaryDirectory()
        self.take()
        self.program = Program(self.files)
        with open(self.fin, encoding="utf-8") as file:
            self.root = root_class(file.read())

    def take(self):
        """Sets `files` to the sources in the subset, and `fin` to their finitization."""
        self.files = self.names
        line, status = self.run(["check"], self.files)
        if status == 0:
            return
        if status not in (3, 4):
            raise Ended(status, line)
        adapted = os.path.join(self.folder.name, "adapted")
        method = ["--method", self.method] if self.method else []
        answer = subprocess.run([os.path.join(HERE, "adapt"), *method, self.fin, *self.names, "-o", adapted], stdout=subprocess.PIPE,
                                stderr=subprocess.STDOUT, text=True, check=False)
        if answer.returncode != 0:
            raise Ended(status, f"{line}, and it can't be adapted: {answer.stdout.splitlines()[-1] if answer.stdout else ''}")
        self.fin = os.path.join(adapted, os.path.basename(self.fin))
        self.files = [os.path.join(adapted, os.path.basename(name)) for name in self.names]
        line, status = self.run(["check"], self.files)
        if status != 0:
            raise Ended(status, line)

    def run(self, words, files):
        """A call's whole report, and its status; nothing and none where it takes longer. The word METHOD is the method."""
        method = [self.method] if words[0] == "test" else []
        try:
            answer = subprocess.run([self.korat, *words, "--", self.fin, *method, *files], stdin=subprocess.DEVNULL, stdout=subprocess.PIPE,
                                    text=True, errors="replace", timeout=self.seconds, check=False)
        except subprocess.TimeoutExpired:
            return "", None
        return answer.stdout.rstrip("\n"), answer.returncode

    def changed(self, words, source, edits):
        """As `run`, with edits in one source."""
        path = os.path.join(self.folder.name, os.path.basename(source.path))
        with open(path, "w", encoding="utf-8") as file:
            file.write(source.edited(edits))
        return self.run(words, [path if name == source.path else name for name in self.files])

    def whole(self, words):
        """A report of the class as it is, by its lines; ends the tool where there is none."""
        report, status = self.run(words, self.files)
        if status is None:
            raise Ended(70, f"{words[0]} takes more than {self.seconds:g} seconds: smaller bounds, or --seconds")
        lines = report.splitlines()
        if status not in (0, 1):
            raise Ended(status, lines[-1] if lines else "no report")
        return lines[:-1]

    def name_of(self, source):
        """The name that a source has in the words."""
        return self.names[self.files.index(source.path)]


def progress(tool, done, count):
    if sys.stderr.isatty():
        sys.stderr.write(f"\r{tool}: {done} of {count}\033[K" + ("\n" if done == count else ""))
        sys.stderr.flush()
    elif done % 50 == 0 or done == count:
        print(f"{tool}: {done} of {count}", file=sys.stderr, flush=True)


def call(tool, main):
    try:
        sys.exit(main(sys.argv[1:]))
    except Ended as fault:
        print(f"{tool}: {fault}", file=sys.stderr)
        sys.exit(fault.status)
    except KeyboardInterrupt:
        sys.exit(130)
    except BrokenPipeError:
        sys.stderr.close()
        sys.exit(7)
