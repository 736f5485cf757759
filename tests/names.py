#!/usr/bin/env python3
"""Looks up what the pages name in the sources.

docs/PROOFS.md, docs/ARCHITECTURE.md, docs/CONTRIBUTING.md and the README page of each crate name contracts, definitions,
functions, types, files and tests in backticks. Each name in a row of a table has to be in a crate that the row names; on the
page of a crate it may also be in that crate, or in one of those that its line in crates.txt names. The name of a clause or of
a field counts in a row that names its function, record or type too (on the page of a crate: anywhere). In a paragraph of the three documents a name may be in any
crate, and a path has to be in the checkout or in a crate that the paragraph names. On each page, a name followed by `of kr_x`
has to be in kr_x, and each crate that is named in crates.txt. docs/ARCHITECTURE.md has one row for each crate, and each link
between pages leads to a file and a heading that are there.

The table of files in docs/PROOFS.md (`| File | Lines |`) has to list exactly the files of `specs/` with a definition that the
contracts of `run` and `one_answer`, or the laws of the last group of rows, use, directly or through other definitions.

The sources are read as text, and nothing is proved or built. Each miss is a line `failed: PAGE:LINE: ..`; the last line is
`N passed, M failed`, where a name that was found counts as passed. A false name is planted in each page, in memory alone, and
has to be found missing.

    tests/names.py [FOLDER]         the pages of this checkout, or of another one
    tests/names.py --closure        prints the files for the table, with their lines, and the types that they use
    tests/names.py --index          numbers the decisions of docs/DECISIONS.md that have no number, and writes its index by crate
"""

import os
import re
import sys
from functools import lru_cache
from glob import glob

TOP = os.path.dirname(os.path.dirname(os.path.realpath(__file__)))

# Words in backticks that are no names of the sources: of Java, of the command line, of what the program writes and reads, and
# of the kit. A word is first looked up in the sources.
JAVA = set("""abstract boolean break class continue do else extends false final for if import instanceof int null package private
    protected public return static super this throw true try void while long char byte short double float HashSet LinkedList repOk
    main length""".split())
WRITTEN = set("""list test check demo shard merge valid more spent ok nodes failing tried pass trap gap start end take report steal
    giveup look drain stop objects arrays fields params root fuel from to korat ensures requires old result KORAT NAME""".split())
KIT = set("""toml clap itoa unicode_ident bstr indexmap thiserror crossbeam_deque std parse_document table_view decode_utf8
    is_xid_start is_xid_continue signed_decimal IsMemory Steal Vec String Option Result Ok Err Some None Wait Threads Drop Send
    Clone Model Mutex Condvar AllocError Unit rt antt stdin stdout cargo Ledger Share Book Blank""".split())
TOOLS = {os.path.basename(path).split(".")[0] for path in glob(f"{TOP}/tools/*")} | {"java", "begun", "rattle", "commands"}
WORDS = JAVA | WRITTEN | KIT | TOOLS

# Fewer names than this on a page say that the script no longer reads it.
LEAST = {"docs/PROOFS.md": 500, "docs/ARCHITECTURE.md": 40, "docs/CONTRIBUTING.md": 80}
LEAST_OF_PAGES = 900

# A file of so few lines may say "Between crates": its row in the table says all of it.
SHORT = 3

# Files between crates of which the promise uses one definition (`drained`, `CountsFew`): their first lines may say so.
PARTLY = {("kr_core", "Rows"), ("kr_board", "Windows")}

IDENTIFIER = r"[A-Za-z_][A-Za-z_0-9]*"
CRATE = re.compile(r"\b(?:kr_[a-z_]*[a-z]|korat_[a-z_]*[a-z])\b")


def text_of(path):
    with open(path, encoding="utf-8") as file:
        return file.read()


# ---- the sources of a crate


def without_comments(line):
    return re.sub(r"//.*", "", line)


class Crate:
    """The names that a crate's text declares."""

    def __init__(self, folder):
        self.folder = folder
        self.names = {}  # name -> kinds
        self.clauses = {}  # clause -> functions that have it
        self.members = {}  # type, trait or record -> names of its functions, variants, fields and clauses
        self.bridges = set()  # (trait, type) of each `impl TRAIT for TYPE`
        for path in sorted(glob(f"{folder}/src/**/*.rt", recursive=True)):
            self.add_file(path, "src")
            self.read_code(text_of(path))
        for part in ("specs", "proofs"):
            for path in sorted(glob(f"{folder}/{part}/**/*.antt", recursive=True)):
                self.add_file(path, part)
                self.read_logic(text_of(path), part)

    def add(self, name, kind):
        self.names.setdefault(name, set()).add(kind)

    def add_member(self, owner, name):
        self.members.setdefault(owner, set()).add(name)

    def add_file(self, path, part):
        name = os.path.basename(path)
        self.add(name.rsplit(".", 1)[0], "file")
        self.add(name, "file")
        self.add(os.path.relpath(path, self.folder), "file")
        self.add(os.path.relpath(path, self.folder).rsplit(".", 1)[0], "file")

    def read_code(self, text):
        owner, depth, function = None, 0, None
        for raw in text.split("\n"):
            line = without_comments(raw)
            head = re.match(r"\s*(?:pub(?:\([a-z]+\))? )?(?:unsafe )?(impl|trait|struct|enum|union)\b(.*)", line)
            if head and depth == 0:
                owner = self.read_head(head.group(1), head.group(2))
            found = re.match(rf"\s*(?:pub(?:\([a-z]+\))? )?(?:const |unsafe )*fn ({IDENTIFIER})", line)
            if found:
                function = (owner if depth else None, found.group(1))
                self.add(found.group(1), "function")
                if function[0]:
                    self.add_member(function[0], found.group(1))
            self.read_item(line, owner if depth else None)
            clause = re.match(rf"\s*(?:ensures|requires)\*? ({IDENTIFIER}) \{{", line)
            if clause and function:
                self.add_clause(clause.group(1), function)
            depth += line.count("{") - line.count("}")
            if depth == 0 and "}" in line:
                owner = None

    def read_head(self, keyword, rest):
        rest = re.sub(r"<[^<>]*>", "", re.sub(r"<[^<>]*>", "", re.sub(r"<[^<>]*>", "", rest)))
        if keyword != "impl":
            name = re.match(rf"\s*({IDENTIFIER})", rest).group(1)
            self.add(name, keyword)
            return name
        bridge = re.match(rf"\s*(?:{IDENTIFIER}::)*({IDENTIFIER}) for (?:&(?:mut )?)?(?:{IDENTIFIER}::)*({IDENTIFIER})", rest)
        if bridge:
            self.bridges.add((bridge.group(1), bridge.group(2)))
            self.members.setdefault(bridge.group(1), set())
            return bridge.group(2)
        name = re.match(rf"\s*(?:{IDENTIFIER}::)*({IDENTIFIER})", rest)
        return name.group(1) if name else None

    def read_item(self, line, owner):
        item = re.match(rf"\s*(?:pub(?:\([a-z]+\))? )?(const|static|type|mod|ghost) ({IDENTIFIER})\s*[:=;<{{]", line)
        if item and item.group(1) != "ghost":
            self.add(item.group(2), item.group(1))
        # fields, ghost ones too, and variants
        field = re.match(rf"\s*(?:pub(?:\([a-z]+\))? )?(?:ghost )?({IDENTIFIER})\s*(?::|,|\(|\{{|=)", line)
        if owner and field:
            self.add(field.group(1), "variant" if field.group(1)[0].isupper() else "field")
            self.add_member(owner, field.group(1))

    def add_clause(self, name, function):
        owner, plain = function
        self.add(name, "clause")
        self.clauses.setdefault(name, set()).add(plain)
        self.add_member(plain, name)
        if owner:
            self.add_member(owner, name)

    def read_logic(self, text, part):
        owner = None
        for line in text.split("\n"):
            if re.match(r"\s*--|\s*(pub )?use |\s*$", line):
                continue
            head = re.match(rf"(abbrev|record|data|rec|opaque|module|theorem|unfolding\b.*?)?\s*(pub )?(record |data |mod )?({IDENTIFIER})\b", line)
            if head and not line.startswith(" "):
                name = head.group(4)
                self.add(name, "definition" if part == "specs" else "lemma")
                is_group = "record" in line.split()[:2] or "data" in line.split()[:2] or "record" in line.split()[:3]
                owner = name if is_group else None
                continue
            field = re.match(rf"\s+(?:pub )?({IDENTIFIER}) :", line)
            if field:
                self.add(field.group(1), "variant" if field.group(1)[0].isupper() else "field")
                if owner:
                    self.add_member(owner, field.group(1))


@lru_cache(maxsize=None)
def crate(top, name):
    return Crate(f"{top}/crates/{name}")


# ---- what a page says


def units(text):
    """The rows of tables, the items of lists and the paragraphs of a page, each with its line."""
    found, held, first = [], [], 0
    for number, line in enumerate(text.split("\n") + [""], 1):
        if line.startswith("    ") and not held:
            continue
        begins = re.match(r"(\||- |\d+\. |#)", line)
        if held and (begins or not line.strip() or held[0].startswith("|")):
            found.append((first, "\n".join(held)))
            held = []
        if line.strip() and not line.startswith("#"):
            first = first if held else number
            held.append(line)
    return found


SEPARATOR = r"(?:,\s+(?:and\s+)?|\s+(?:and|or|to)\s+)"
LISTED = re.compile(rf"((?:`[^`]+`(?:\s+\([^()]*\))?{SEPARATOR})*`[^`]+`(?:\s+\([^()]*\))?)\s+of\s+`?(kr_[a-z_]*[a-z]|korat_[a-z_]*[a-z])\b`?")


def names_in(text):
    """Names in backticks, each with the crate that `of CRATE` gives it, or None."""
    bound = {}
    for found in LISTED.finditer(text):
        for name in re.finditer(r"`([^`]+)`", found.group(1)):
            bound[found.start(1) + name.start()] = found.group(2)
    return [(m.group(1).replace("\n", " "), bound.get(m.start())) for m in re.finditer(r"`([^`]+)`", text)]


def is_name(token):
    """Whether a text in backticks can be a name of the sources, and no command, formula or text."""
    return re.fullmatch(rf"\.?{IDENTIFIER}(?:(?:::|\.){IDENTIFIER})*(?: for {IDENTIFIER})?(?:\(\))?", token) is not None


def is_path(token):
    """Whether it is a path with a folder, or the name of a file with its ending."""
    return re.fullmatch(r"[A-Za-z_0-9.*-]+(?:/[A-Za-z_0-9.*-]*)+|[A-Za-z_0-9-]+\.(?:md|sh|py|txt|rt|antt)", token) is not None


def has_path(top, crates, path):
    if "NAME" in path or path in ("src/", "specs/", "proofs/", "must-fail/", "wrong/"):
        return True
    folders = [top, f"{top}/docs", f"{top}/tests"] + [f"{top}/crates/{name}" for name in crates]
    endings = ["", ".antt", ".rt"]
    return any(glob(f"{folder}/{path}{ending}") for folder in folders for ending in endings) or any(
        path in crate(top, name).names for name in crates
    )


def spots(top, crates, token, functions):
    """Crates of these that have the name; a clause counts where its function is among these."""
    token = token.removesuffix("()")
    if " for " in token:
        one, other = token.split(" for ")
        return [name for name in crates if (one.split("::")[-1], other.split("::")[-1]) in crate(top, name).bridges]
    path = re.split(r"::|\.", token.lstrip("."))
    return [name for name in crates if has_name(crate(top, name), path, None if token.startswith(".") else functions)]


def has_name(source, path, functions):
    last = path[-1]
    if len(path) == 1:
        kinds = source.names.get(last, set())
        owners = {owner for owner, members in source.members.items() if last in members}
        loose = {"clause"} if functions is None else {"clause", "field"}
        return bool(kinds - loose) or bool((source.clauses.get(last, set()) | owners) & (functions or owners))
    owner = path[-2]
    if last in source.members.get(owner, ()) or (owner in source.clauses and last in source.names):
        return True
    return bool({"file", "mod"} & source.names.get(owner, set())) and last in source.names


def why(top, all_crates, crates, token):
    """What a message says of a name that was not found."""
    asked = "in none of the crates that the row names" if len(crates) != 1 else f"not in {crates[0]}"
    asked = "in no crate" if len(crates) == len(all_crates) else asked
    last = re.split(r"::|\.| ", token.removesuffix("()"))[-1]
    for name in crates:
        held = crate(top, name).clauses.get(last)
        if held and "::" not in token:
            return f"in {name} a clause of {', '.join(sorted(held)[:4])}, and the row names none of these"
    there = [name for name in all_crates if name not in crates and spots(top, [name], token, None)]
    if there:
        return f"{asked}, but in {', '.join(there[:4])}"
    return f"{asked}, nor in any other" if asked != "in no crate" else asked


def parts_of(tokens):
    """The names that these are made of: of `Shared::drain` both."""
    return {part for token, _ in tokens if is_name(token) for part in re.split(r"::|\.", token.removesuffix("()"))}


class Look:
    """Goes over pages and counts what was found and what was not."""

    def __init__(self, top):
        self.top = top
        lines = [line.split(":") for line in text_of(f"{top}/crates.txt").split("\n") if line and not line.startswith("#")]
        self.crates = [line[0] for line in lines]
        self.below = {line[0]: [name for name in line[1].split() if name in self.crates] for line in lines}
        self.found = 0
        self.misses = []

    def miss(self, page, line, what):
        self.misses.append(f"{page}:{line}: {what}")

    def crates_in(self, page, line, text):
        named = list(dict.fromkeys(CRATE.findall(text)))
        for name in named:
            if name not in self.crates and name != "kr_x":
                self.miss(page, line, f"`{name}`: no crate of crates.txt")
        return [name for name in named if name in self.crates]

    def page(self, page, text, own, is_whole):
        """All names of a page whose every name is looked up, or of one where only `NAME of CRATE` is."""
        before = self.found
        for line, heading in enumerate(text.split("\n"), 1):
            if heading.startswith("#"):
                self.crates_in(page, line, heading)
        for line, unit in units(text):
            named = self.crates_in(page, line, unit)
            is_row = unit.startswith("|")
            if own:
                crates = [own] + [name for name in named + self.below[own] if name != own]
            else:
                crates = named if is_row else self.crates
            tokens = names_in(unit)
            if is_whole and is_row and not crates and any(is_name(token) and token not in WORDS for token, _ in tokens):
                self.miss(page, line, f"the row names no crate: {unit[:60]}..")
                continue
            # in a row, the name of a clause or of a field needs that of its function, record or type; on a crate's page anywhere
            functions = parts_of(names_in(text) if own else tokens)
            for token, bound in tokens:
                near = [bound] if bound in self.crates else crates
                if is_path(token):
                    near = near if bound or own else named
                self.token(page, line, token, near, functions if is_row else None, is_whole or bound)
        return self.found - before

    def token(self, page, line, token, crates, functions, is_asked):
        if is_path(token):
            if not is_asked or token.startswith(("out/", "crates/*/out", "crates/korat/out")):
                return
            if has_path(self.top, crates or self.crates, token):
                self.found += 1
            else:
                self.miss(page, line, f"`{token}`: no such file")
            return
        if not is_asked or not is_name(token):
            return
        if token in self.crates or spots(self.top, crates, token, functions):
            self.found += 1
        elif token not in WORDS and token.split("::")[0] not in KIT and token.split(".")[0] not in JAVA:
            self.miss(page, line, f"`{token}`: {why(self.top, self.crates, crates, token)}")


# ---- the files that the headline rests on


class Logic:
    """The definitions of one file of specs/: for each its text, and what its names are imported from."""

    def __init__(self, path):
        self.imports = {}  # name here -> (crate, module, name there)
        self.aliases = {}  # alias -> (crate, module)
        self.bodies = {}  # definition -> words of its text
        self.declared = {}  # name or alias here -> (crate, type)
        held, mutual = None, False
        for line in text_of(path).split("\n"):
            if re.match(r"\s*--|(pub )?mod ", line):
                continue
            used = re.match(r"(?:pub )?use Rattle\.([a-z_]+)\.specs\.(.+)$", line)
            if used:
                self.read_import(used.group(1), used.group(2))
                continue
            if line and not line.startswith(" "):
                mutual = re.match(r"(?:[a-z]+ )?mutual$", line) is not None
                held = [re.match(r"(?:(?:abbrev|unfoldable|record|data|pub) )*([^\s(:]+)", line).group(1)]
            elif mutual and re.match(r"  (?:pub )?\S+ :", line):
                # the definitions of a block use each other: each has the words of all
                held.append(re.match(r"  (?:pub )?(\S+) :", line).group(1))
                for name in held:
                    self.bodies[name] = self.bodies.setdefault(held[0], set())
            for name in (held or [])[:1]:
                self.bodies.setdefault(name, set()).update(re.findall(r"[^\s(){}\[\],;]+", line))

    def read_import(self, name, rest):
        module, _, braces = rest.partition("{")
        alias = re.fullmatch(r"(.+?) as (\S+)", module.strip())
        path = (alias.group(1) if alias else module).rstrip(". ").split(".")
        if path[0] == "declared":
            for word in ([alias.group(2)] if alias else self.words(braces)):
                self.declared[word] = (name, [part for part in path if part[0].isupper() and not part.startswith("The")][-1:])
        elif alias and not braces:
            self.aliases[alias.group(2)] = (name, path[0])
        else:
            for there, here in self.pairs(braces):
                self.imports[here] = (name, path[0], there)
            if not braces:
                self.aliases[path[-1]] = (name, path[0])

    @staticmethod
    def pairs(braces):
        for item in braces.rstrip("} ").split(","):
            parts = item.split()
            if parts:
                yield parts[0], parts[-1]

    def words(self, braces):
        return [here for _, here in self.pairs(braces)]


@lru_cache(maxsize=None)
def code_types(top, name):
    """For each type of a crate: its text, the text of its `impl Model`, and the text of its file."""
    found = {}
    for path in sorted(glob(f"{top}/crates/{name}/src/**/*.rt", recursive=True)):
        text = re.sub(r"//.*", "", text_of(path))
        models = dict(re.findall(rf"^impl(?:<[^\n]*?>)? Model for ({IDENTIFIER})[^\n]*\{{\n(.*?)^\}}", text, re.S | re.M))
        for kind, body in re.findall(rf"^(?:pub(?:\([a-z]+\))? )?(?:struct|enum) ({IDENTIFIER})[^\n]*\{{\n(.*?)^\}}", text, re.S | re.M):
            found[kind] = (body, models.get(kind, ""), text)
    return found


def behind_type(top, name, kind):
    """The types of a type's fields, and the definitions that its contracts' view names."""
    body, model, text = code_types(top, name).get(kind, ("", "", ""))
    types, roots = [], []
    for word in set(re.findall(r"\b[A-Z][A-Za-z0-9]*\b", body)):
        used = re.search(rf"^use (kr_[a-z_]+)::[^;]*\b{word}\b[^;]*;", text, re.M)
        if used:
            types.append((used.group(1), word))
        elif word in code_types(top, name):
            types.append((name, word))
    for there, module, words in re.findall(r"ghost use Rattle\.([a-z_]+)\.specs\.([A-Za-z]+)\.\{([^}]*)\}", model):
        roots += [(there, module, word.strip()) for word in words.split(",") if os.path.exists(f"{top}/crates/{there}")]
    return types, roots


@lru_cache(maxsize=None)
def logic(top, name, module):
    path = f"{top}/crates/{name}/specs/{module}.antt"
    return Logic(path) if os.path.exists(path) else None


def reached(top, roots):
    """The files with a definition that these definitions use, and the types of code that they use."""
    files, types, seen, left, looked = set(), set(), set(), list(roots), set()
    while left or types - looked:
        for kind in types - looked:
            fields, more = behind_type(top, *kind)
            left += more
            looked.update(fields)
            for field in fields:
                left += behind_type(top, *field)[1]
            looked.add(kind)
        if not left:
            continue
        name, module, definition = left.pop()
        if (name, module, definition) in seen:
            continue
        seen.add((name, module, definition))
        file = logic(top, name, module)
        if file is None:
            continue
        files.add((name, module))
        # a name that the file hands on from another one is a word of its own
        for word in file.bodies.get(definition, {definition}):
            for part in {word, f"◌{word}◌"} | ({word.split(".")[0]} if "." in word else set()):
                if part in file.imports:
                    left.append(file.imports[part])
                if part in file.declared and file.declared[part][1] and os.path.exists(f"{top}/crates/{file.declared[part][0]}"):
                    types.add((file.declared[part][0], file.declared[part][1][0]))
                if part in file.bodies:
                    left.append((name, module, part))
                if part in file.aliases and "." in word:
                    left.append((*file.aliases[part], word.split(".")[1]))
    return files, types


def roots_of(top):
    """What the contracts of `run` and `one_answer` name."""
    wanted = []
    for path in sorted(glob(f"{top}/crates/korat_top/src/*.rt")):
        text = text_of(path)
        for function in ("run", "one_answer"):
            found = re.search(rf"pub fn {function}\b.*?\n\{{", text, re.S)
            if found:
                words = set(re.findall(IDENTIFIER, found.group(0)))
                for line in re.findall(r"ghost use Rattle\.([a-z_]+)\.specs\.([A-Za-z]+)\.\{([^}]*)\}", text):
                    wanted += [(line[0], line[1], word.strip()) for word in line[2].split(",") if word.strip() in words]
    return [root for root in wanted if os.path.exists(f"{top}/crates/{root[0]}/specs/{root[1]}.antt")]


def law_roots(top, rows):
    """All definitions of the files in the table's last group, the laws."""
    found = []
    for name, module in rows:
        file = logic(top, name, module)
        found += [(name, module, definition) for definition in (file.bodies if file else ())]
    return found


def lines_of(top, name, module):
    lines = text_of(f"{top}/crates/{name}/specs/{module}.antt").split("\n")
    return sum(1 for line in lines if line.strip() and not re.match(r"\s*--|(pub )?(use|mod) ", line))


def table_of(text):
    """The rows of the table of files: (line, files of the row, lines, group)."""
    rows, group, is_in = [], "", False
    for number, line in enumerate(text.split("\n"), 1):
        if line.startswith("| File | Lines |"):
            is_in = True
        elif is_in and not line.startswith("|"):
            return rows
        elif is_in and not line.startswith("|---"):
            cells = [cell.strip() for cell in line.strip("|").split("|")]
            if cells[0].startswith("**"):
                group = cells[0].strip("*")
            else:
                rows.append((number, files_in(cells[0]), cells[1], group))
    return rows


def files_in(cell):
    files, name = [], None
    for found in re.finditer(r"(kr_[a-z_]*[a-z]|korat_[a-z_]*[a-z])|`([A-Za-z]+)`", cell):
        if found.group(1):
            name = found.group(1)
        else:
            files.append((name, found.group(2)))
    return files


def look_at_files(look):
    """Compares the table of files with what the contracts reach."""
    page, top = "docs/PROOFS.md", look.top
    text = text_of(f"{top}/{page}")
    rows = table_of(text)
    laws = [file for row in rows if row[3].startswith("The laws") for file in row[1]]
    roots = roots_of(top)
    files, types = reached(top, roots + law_roots(top, laws))
    if len(roots) < 3 or len(files) < 60:
        look.miss(page, 1, f"the contracts of `run` and `one_answer` reach only {len(files)} files: the script no longer reads them")
    listed = {}
    for line, named, lines, _ in rows:
        for file in named:
            if file in listed:
                look.miss(page, line, f"{file[0]} `{file[1]}` is in the table twice")
            listed[file] = line
        there = [lines_of(top, *file) for file in named if os.path.exists(f"{top}/crates/{file[0]}/specs/{file[1]}.antt")]
        if lines and str(sum(there)) != lines:
            look.miss(page, line, f"{', '.join(f'{a} {b}' for a, b in named)}: {sum(there)} lines, and not {lines}")
    for file in sorted(files - set(listed)):
        look.miss(page, rows[0][0] if rows else 1, f"{file[0]} `{file[1]}`: the headline uses it, and the table doesn't list it")
    for file in sorted(set(listed) - files):
        look.miss(page, listed[file], f"{file[0]} `{file[1]}`: in the table, and the headline doesn't use it")
    for name, module in sorted(files & set(listed)):
        if lines_of(top, name, module) > SHORT and (name, module) not in PARTLY and not text_of(f"{top}/crates/{name}/specs/{module}.antt").startswith("-- To be believed"):
            look.miss(page, listed[(name, module)], f"{name} `{module}`: the headline uses it, and its first line doesn't begin with 'To be believed'")
    told = text[text.find("## How to read it"):text.find("| File | Lines |")]
    for name, kind in sorted(types):
        if not re.search(rf"`{kind}`", told):
            look.miss(page, rows[0][0] if rows else 1, f"`{kind}` of {name}: a type that these definitions use, and the text above the table doesn't name it")
    look.found += len(files & set(listed))


# ---- links, and the rows of the crates


def slug(heading):
    plain = re.sub(r"[`*]|\[([^\]]*)\]\([^)]*\)", lambda m: m.group(1) or "", heading.strip())
    return re.sub(r"\s", "-", re.sub(r"[^\w\s-]", "", plain.lower()))


def look_at_links(look, page, text):
    folder = os.path.dirname(f"{look.top}/{page}")
    for number, line in enumerate(text.split("\n"), 1):
        for target in re.findall(r"\]\(([^)\s]+)\)", line):
            if re.match(r"[a-z]+:", target):
                continue
            path, _, anchor = target.partition("#")
            there = os.path.join(folder, path) if path else f"{look.top}/{page}"
            if not os.path.exists(there):
                look.miss(page, number, f"a link to {target}: no such file")
            elif anchor and anchor not in {slug(h) for h in re.findall(r"^#+ (.*)$", text_of(there), re.M)}:
                look.miss(page, number, f"a link to {target}: no such heading")
            else:
                look.found += 1


def look_at_rows(look):
    page = "docs/ARCHITECTURE.md"
    rows = re.findall(r"^\| (kr_[a-z_]+|korat(?:_[a-z_]+)?) \|", text_of(f"{look.top}/{page}"), re.M)
    for name in look.crates:
        if rows.count(name) != 1:
            look.miss(page, 1, f"`{name}` of crates.txt has {rows.count(name)} rows, and not 1")
        else:
            look.found += 1
        if not os.path.exists(f"{look.top}/crates/{name}/README.md"):
            look.miss(f"crates/{name}/README.md", 1, "no such page")
    for name in sorted(set(rows) - set(look.crates)):
        look.miss(page, 1, f"`{name}` has a row, and is no crate of crates.txt")


# ---- the index of docs/DECISIONS.md

INDEX = "## Index by crate"


def owner_of(top, crates, token):
    """The one crate that has the name, where only one has it (crates of tests aside)."""
    if not is_name(token) or token in WORDS or len(token) < 4:
        return set()
    kinds = {"function", "struct", "enum", "trait", "const", "definition", "file"}
    last = re.split(r"::|\.| ", token.removesuffix("()"))
    owners = [name for name in crates if not name.endswith("_tests") and (
        last[-1] in crate(top, name).members.get(last[0], ()) if len(last) == 2 else kinds & crate(top, name).names.get(token, set()))]
    return set(owners) if len(owners) == 1 else set()


def index_of(top, text, crates):
    """Which numbered decisions name each crate, or a thing that it alone has: its numbers in ascending order."""
    found = {}
    for item in re.split(r"^(?=- \*\*)", text.partition(INDEX)[0], flags=re.M):
        number = re.match(r"- \*\*(\d+)\. ", item)
        if not number:
            continue
        body = item.partition("\n## ")[0]
        named = set(CRATE.findall(body)) & set(crates)
        for token in re.findall(r"`([^`]+)`", body):
            named |= owner_of(top, crates, token)
        for name in named:
            found.setdefault(name, set()).add(int(number.group(1)))
    return {name: sorted(found[name]) for name in crates if name in found}


def numbered(text):
    """The page with a number for each decision that has none, from the greatest one on."""
    last = max([int(number) for number in re.findall(r"^- \*\*(\d+)\. ", text, re.M)] or [0])

    def one(found):
        nonlocal last
        last += 1
        return f"- **{last}. "

    return re.sub(r"^- \*\*(?!\d+\. )", one, text, flags=re.M)


def with_index(top, text, crates):
    """The page with numbers and with the index that belongs to it."""
    body = numbered(text.partition(INDEX)[0].rstrip("\n"))
    rows = [f"| {name} | {', '.join(map(str, numbers))} |" for name, numbers in index_of(top, body, crates).items()]
    head = "The numbers of the decisions that name a crate, or something that it alone has (made by `tests/names.py --index`)."
    return "\n".join([body, "", INDEX, "", head, "", "| Crate | Decisions |", "|---|---|"] + rows) + "\n"


def look_at_index(look):
    page = "docs/DECISIONS.md"
    text = text_of(f"{look.top}/{page}")
    numbers = re.findall(r"^- \*\*(\d+)\. ", text, re.M)
    for number in sorted(set(number for number in numbers if numbers.count(number) > 1)):
        look.miss(page, 1, f"two decisions have the number {number}")
    if with_index(look.top, text, look.crates) != text:
        look.miss(page, 1, "the numbers of decisions, or the index by crate, are old: run tests/names.py --index")
    else:
        look.found += 1


# ---- all of it


def pages_of(top, crates):
    """Each page with the crate whose page it is, and whether each of its names is looked up."""
    whole = [(f"docs/{name}.md", None, True) for name in ("PROOFS", "ARCHITECTURE", "CONTRIBUTING")]
    whole += [(f"crates/{name}/README.md", name, True) for name in crates if os.path.exists(f"{top}/crates/{name}/README.md")]
    others = ["README.md", "bench/README.md"] + sorted(os.path.relpath(path, top) for path in glob(f"{top}/docs/*.md"))
    others += sorted(os.path.relpath(path, top) for path in glob(f"{top}/examples/*/README.md")) + ["tests/cases/README.md"]
    done = {page for page, _, _ in whole}
    return whole + [(page, None, False) for page in others if page not in done and os.path.exists(f"{top}/{page}")]


def planted(text):
    """The page with a false name in its last row or paragraph that has a name of a crate or a table's row."""
    return text.rstrip("\n") + "\n\nA false one: `no_such_name_is_here` of kr_base.\n"


def main(words):
    top = words[-1] if words and not words[-1].startswith("--") else TOP
    look = Look(top)
    if "--index" in words:
        path = f"{top}/docs/DECISIONS.md"
        text = with_index(top, text_of(path), look.crates)
        with open(path, "w", encoding="utf-8") as file:
            file.write(text)
        return 0
    if "--closure" in words:
        laws = [file for row in table_of(text_of(f"{top}/docs/PROOFS.md")) if row[3].startswith("The laws") for file in row[1]]
        files, types = reached(top, roots_of(top) + law_roots(top, laws))
        for name, module in sorted(files):
            print(lines_of(top, name, module), name, module, text_of(f"{top}/crates/{name}/specs/{module}.antt").split("\n")[0])
        for name, kind in sorted(types):
            print("type", name, kind)
        return 0
    of_pages = 0
    for page, own, is_whole in pages_of(top, look.crates):
        text = text_of(f"{top}/{page}")
        found = look.page(page, text, own, is_whole)
        of_pages += found if own else 0
        if found < LEAST.get(page, 0):
            look.miss(page, 1, f"only {found} names, and not {LEAST[page]}: the script no longer reads the page")
        look_at_links(look, page, text)
        trial = Look(top)
        trial.page(page, planted(text), own, is_whole)
        if not any("no_such_name_is_here" in miss for miss in trial.misses):
            look.miss(page, 1, "a false name that was planted here isn't found missing")
    if of_pages < LEAST_OF_PAGES:
        look.miss("crates", 1, f"only {of_pages} names on the crates' pages: the script no longer reads them")
    look_at_rows(look)
    look_at_index(look)
    look_at_files(look)
    for miss in look.misses:
        print(f"failed: {miss}")
    print(f"{look.found} passed, {len(look.misses)} failed")
    return 1 if look.misses else 0


if __name__ == "__main__":
    sys.exit(main(sys.argv[1:]))
