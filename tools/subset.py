"""Sources of the subset as `mutate` and `cover` see them: tokens, classes, methods and statements. The sources are ones that `check`
accepts, so nothing is judged here."""
import re

TOKEN = re.compile(r"""(?P<gap>\s+|//[^\n\r]*|/\*.*?\*/)|(?P<name>[^\W\d][\w$]*)|(?P<number>\d\w*)
    |(?P<sign>>>>=|>>>|>>=|<<=|>>|<<|==|>=|<=|!=|&&|\|\||\+\+|--|[-+*/&|^%]=|.)""", re.S | re.X)
PAIRS = {"(": ")", "{": "}", "[": "]"}
TYPES = {"int", "long", "boolean", "void"}
STATEMENTS = {"if", "while", "for", "do", "return", "break", "continue", "else", "new", "throw"}


class Token:
    def __init__(self, kind, text, start, line):
        self.kind, self.text, self.start, self.line = kind, text, start, line
        self.end = start + len(text)


class Statement:
    """A statement from one token up to another one, with the statements in it, and the tokens of its condition."""

    def __init__(self, kind, first, last, parts=(), condition=None):
        self.kind, self.first, self.last, self.parts, self.condition = kind, first, last, list(parts), condition

    def all(self):
        yield self
        for part in self.parts:
            yield from part.all()


class Method:
    def __init__(self, source, owner, name, result, body):
        self.source, self.owner, self.name, self.result, self.body = source, owner, name, result, body


class Source:
    def __init__(self, path, text):
        self.path, self.text = path, text
        self.tokens = []
        line = 1
        for match in TOKEN.finditer(text):
            if match.lastgroup != "gap":
                self.tokens.append(Token(match.lastgroup, match.group(), match.start(), line))
            line += match.group().count("\n")
        self.closing = self.matched()
        self.generic = self.type_arguments()
        self.above = {}
        self.methods = []
        self.find_classes(0, len(self.tokens))

    def at(self, index):
        return self.tokens[index].text if 0 <= index < len(self.tokens) else ""

    def matched(self):
        """For each opening bracket the index of its closing one."""
        closing, open_ = {}, []
        for index, token in enumerate(self.tokens):
            if token.text in PAIRS:
                open_.append(index)
            elif token.text in PAIRS.values() and open_:
                closing[open_.pop()] = index
        return closing

    def type_arguments(self):
        """The brackets that are no comparisons: behind `HashSet` and `LinkedList`."""
        found = set()
        for index, token in enumerate(self.tokens):
            if token.text == "<" and self.at(index - 1) in ("HashSet", "LinkedList"):
                depth, at = 0, index
                while at < len(self.tokens):
                    depth += {"<": 1, ">": -1, ">>": -2, ">>>": -3}.get(self.at(at), 0)
                    if self.at(at) in ("<", ">", ">>", ">>>"):
                        found.add(at)
                    if depth <= 0:
                        break
                    at += 1
        return found

    def find_classes(self, index, end):
        while index < end:
            if self.at(index) == "class" and self.at(index - 1) != ".":
                name, opening = self.at(index + 1), index
                while self.at(opening) != "{":
                    if self.at(opening) == "extends":
                        self.above[name] = self.at(opening + 1)
                    opening += 1
                self.above.setdefault(name, None)
                self.find_methods(name, opening + 1, self.closing[opening])
                index = self.closing[opening] + 1
            else:
                index += 1

    def find_methods(self, owner, index, end):
        while index < end:
            token = self.tokens[index]
            if token.text == "class":
                self.find_classes(index, index + 1)
                while self.at(index) != "{":
                    index += 1
                index = self.closing[index] + 1
            elif token.text == "(" and self.at(self.closing[index] + 1) == "{":
                body = self.closing[index] + 1
                if self.tokens[index - 1].kind == "name" and self.at(index - 1) != owner:
                    self.methods.append(Method(self, owner, self.at(index - 1), self.at(index - 2), self.statement(body)))
                index = self.closing[body] + 1
            elif token.text in PAIRS:
                index = self.closing[index] + 1
            else:
                index += 1

    def statement(self, index):
        """The statement that begins at a token."""
        word = self.at(index)
        if word == "{":
            parts, at = [], index + 1
            while at < self.closing[index]:
                parts.append(self.statement(at))
                at = parts[-1].last
            return Statement("block", index, self.closing[index] + 1, parts)
        if word in ("if", "while", "for"):
            close = self.closing[index + 1]
            parts = [self.statement(close + 1)]
            if word == "if" and self.at(parts[0].last) == "else":
                parts.append(self.statement(parts[0].last + 1))
            return Statement(word, index, parts[-1].last, parts, self.condition(word, index + 2, close))
        if word == "do":
            body = self.statement(index + 1)
            close = self.closing[body.last + 1]
            return Statement("do", index, close + 2, [body], (body.last + 2, close))
        at = index
        while self.at(at) != ";":
            at = self.closing[at] + 1 if self.at(at) in PAIRS else at + 1
        kind = word if word in ("return", "break", "continue", ";") else "local" if self.is_local(index) else "simple"
        return Statement(kind, index, at + 1)

    def condition(self, word, first, end):
        """The tokens of a condition: of a `for` those between its two semicolons."""
        if word != "for":
            return (first, end)
        semicolons = [at for at in range(first, end) if self.at(at) == ";"]
        return (semicolons[0] + 1, semicolons[1]) if semicolons[0] + 1 < semicolons[1] else None

    def is_local(self, index):
        if self.at(index) in TYPES or self.at(index) == "final":
            return True
        following = self.at(index + 1)
        if self.tokens[index].kind != "name" or self.at(index) in ("this", "super", "new"):
            return False
        return (self.tokens[index + 1].kind == "name" and following != "instanceof") or (following == "[" and self.at(index + 2) == "]") \
            or index + 1 in self.generic or (following == "." and self.tokens[index + 3].kind == "name" and self.at(index + 3) != "instanceof")

    def words(self, first, end):
        """The text of tokens as the source has it, in one line."""
        return " ".join(self.text[self.tokens[first].start:self.tokens[end - 1].end].split()) if first < end else ""

    def edited(self, edits):
        """The text with edits, each a start, an end and what is there instead."""
        text = self.text
        for start, end, new in sorted(edits, reverse=True):
            text = text[:start] + new + text[end:]
        return text


class Program:
    def __init__(self, paths):
        self.sources = []
        for path in paths:
            with open(path, encoding="utf-8") as file:
                self.sources.append(Source(path, file.read()))

    def above(self, name):
        return next((source.above[name] for source in self.sources if name in source.above), None)

    def method(self, root, name):
        """The method of a class with this name, its own or inherited."""
        while root:
            for source in self.sources:
                for method in source.methods:
                    if method.owner == root and method.name == name:
                        return method
            root = self.above(root)
        return None

    def reached(self, start):
        """The methods that a method may run, by the names that it calls, itself first."""
        found, waiting = [start], [start]
        while waiting:
            method = waiting.pop()
            source = method.source
            for index in range(method.body.first, method.body.last):
                if source.tokens[index].kind == "name" and source.at(index + 1) == "(":
                    for other in (other for each in self.sources for other in each.methods if other.name == source.at(index)):
                        if other not in found:
                            found.append(other)
                            waiting.append(other)
        return found
