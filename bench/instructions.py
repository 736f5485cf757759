#!/usr/bin/env python3
"""Counts the instructions that the built program takes for a candidate, by crate, and compares them with bench/instructions.txt.

    instructions.py [--store] [NAME..]   the cases of these names, or all; --store writes what was counted into the table
    instructions.py names                the names of the cases

Each case is listed, or tested, with bounds that leave hardly anything to search and with larger ones; what the first takes is
subtracted. Counts are of valgrind's tool callgrind, so they don't depend on the load of the machine."""
import collections
import os
import re
import subprocess
import sys
import tempfile

BENCH = os.path.dirname(os.path.realpath(__file__))
EXAMPLES = os.path.join(BENCH, "..", "examples")
TABLE = os.path.join(BENCH, "instructions.txt")
TREE = """import java.util.*;
class Node { Node left; Node right; }
class Tree {
  Node root;
  boolean repOk() {
    if (root == null) return false;
    HashSet<Node> seen = new HashSet<Node>();
    LinkedList<Node> work = new LinkedList<Node>();
    seen.add(root);
    work.add(root);
    while (!work.isEmpty()) {
      Node n = work.removeFirst();
      if (n.left != null) { if (!seen.add(n.left)) return false; work.add(n.left); }
      if (n.right != null) { if (!seen.add(n.right)) return false; work.add(n.right); }
    }
    return seen.size() == NODES;
  }
  //@ ensures root.left == \\old(root.right);
  void turn() { Node k = root.left; root.left = root.right; root.right = k; }
}
"""
TREE_BOUNDS = """root = "Tree"
fuel = 2000
[objects]
Tree = 1
Node = NODES
[fields]
"Tree.root" = ["null", "Node"]
"Node.left" = ["null", "Node"]
"Node.right" = ["null", "Node"]
"""

# A case: its folder of examples/, the method that `test` runs, what is added to the class for it where the example has none, and
# the replacements of the finitization that make small bounds of its own and large ones.
Case = collections.namedtuple("Case", "example file method added small large")
CASES = {
    "sorted-list": Case("sorted-list", "SortedList.java", "insert", "",
        [("Node = 3", "Node = 1"), ("to = 3", "to = 1")],
        [("fuel = .*", "fuel = 100000"), ("Node = 3", "Node = 12"), ("to = 3", "to = 12")]),
    "search-tree": Case("binary-search-tree", "SearchTree.java", "rotateRight", "",
        [("Node = 3", "Node = 1"), ("to = 3", "to = 1")], [("Node = 3", "Node = 5"), ("to = 3", "to = 5")]),
    "heap-array": Case("heap-array", "HeapArray.java", "clear", "    //@ ensures size == 0;\n    void clear() { size = 0; }\n",
        [("to = 4", "to = 1")], [("to = 4", "to = 6"), ("to = 2", "to = 3")]),
    "red-black-tree": Case("red-black-tree", "RedBlackTree.java", "clear",
        "    //@ ensures root == null && size == 0;\n    void clear() { root = null; size = 0; }\n",
        [("Entry = 4", "Entry = 1"), ("to = 4", "to = 1")], [("Entry = 4", "Entry = 5"), ("to = 4", "to = 5")]),
    "hash-table": Case("hash-table", "HashTable.java", "clear", "    //@ ensures count == 0;\n    void clear() { count = 0; }\n",
        [("Node = 3", "Node = 1"), ("to = 3", "to = 1")], [("Node = 3", "Node = 4"), ("to = 3", "to = 4")]),
}


def inputs(name, size, folder):
    """Writes a case's files of a size, small or large, and gives the words that name them, and the method."""
    fin, source = os.path.join(folder, f"{size}.toml"), os.path.join(folder, f"{size}.java")
    if name == "trees":
        nodes = {"small": "1", "large": "8"}[size]
        text, bounds, method = TREE.replace("NODES", nodes), TREE_BOUNDS.replace("NODES", nodes), "turn"
    else:
        case = CASES[name]
        text = open(os.path.join(EXAMPLES, case.example, case.file)).read()
        if case.added:
            end = text.rstrip().rindex("}")
            text = text[:end] + case.added + text[end:]
        bounds, method = open(os.path.join(EXAMPLES, case.example, "fin.toml")).read(), case.method
        for old, new in getattr(case, size):
            bounds = re.sub(old, new, bounds)
    open(fin, "w").write(bounds)
    open(source, "w").write(text)
    return fin, source, method


def counted(program, words, folder):
    """Runs the program under callgrind; the instructions by crate, and the candidates that its last line counts."""
    out = os.path.join(folder, "callgrind.out")
    run = subprocess.run(["valgrind", "--tool=callgrind", f"--callgrind-out-file={out}", program, *words],
                         stdout=subprocess.PIPE, stderr=subprocess.DEVNULL, text=True)
    last = run.stdout.splitlines()[-1] if run.stdout else ""
    if run.returncode not in (0, 1) or "tried" not in last:
        sys.exit(f"instructions: status {run.returncode} of {' '.join(words)}: {last}")
    listed = subprocess.run(["callgrind_annotate", "--threshold=100", "--show-percs=no", out], stdout=subprocess.PIPE,
                            stderr=subprocess.DEVNULL, text=True).stdout
    crates = collections.Counter()
    for line in listed.splitlines():
        found = re.match(r"\s*([\d,]+)\s+\S*?:(\S.*)$", line)
        if found:
            crate = re.search(r"\b(kr_[a-z_]+|korat[a-z_]*)\b", found.group(2))
            crates[crate.group(1) if crate else "library"] += int(found.group(1).replace(",", ""))
    return crates, int(last.split()[-1])


def per_candidate(program, name, command, folder):
    """A case's instructions a candidate, by crate: what the large bounds take beyond the small ones."""
    found = {}
    for size in ("small", "large"):
        fin, source, method = inputs(name, size, folder)
        words = [command, fin, *([method] if command == "test" else []), source]
        found[size] = counted(program, words, folder)
    (few, first), (many, last) = found["small"], found["large"]
    candidates = last - first
    return candidates, {crate: (many[crate] - few[crate]) / candidates for crate in many}


def stored():
    """The table: by case, the instructions a candidate that were stored."""
    if not os.path.exists(TABLE):
        return {}
    lines = [line.split() for line in open(TABLE) if line.strip() and not line.startswith("#")]
    return {words[0]: float(words[2]) for words in lines}


def main(words):
    names = ["trees", *CASES]
    if words == ["names"]:
        print("\n".join(names))
        return 0
    store = "--store" in words
    chosen = [word for word in words if word != "--store"] or names
    if any(name not in names for name in chosen):
        print(f"instructions: no case of this name: {' '.join(name for name in chosen if name not in names)}", file=sys.stderr)
        return 2
    before, rows = stored(), []
    with tempfile.TemporaryDirectory() as folder:
        for name in chosen:
            for command in ("list", "test"):
                candidates, crates = per_candidate(os.environ["KORAT"], name, command, folder)
                total, case = sum(crates.values()), f"{command}:{name}"
                ratio = f"{total / before[case]:.3f} of the table's {before[case]:.0f}" if case in before else "not in the table"
                print(f"{case}: {total:.0f} instructions a candidate of {candidates:,}; {ratio}")
                for crate, count in sorted(crates.items(), key=lambda pair: -pair[1])[:8]:
                    if count >= total / 100:
                        print(f"    {crate:24} {count:8.0f}  {100 * count / total:4.0f} %")
                rows.append((case, candidates, total))
    if store:
        kept = {case: f"{case} {candidates} {total:.0f}" for case, candidates, total in rows}
        old = {line.split()[0]: line.rstrip() for line in open(TABLE) if line.strip() and not line.startswith("#")} if before else {}
        with open(TABLE, "w") as table:
            table.write("# case, candidates, instructions a candidate: written by bench/instructions.sh --store\n")
            for case in [f"{command}:{name}" for name in names for command in ("list", "test")]:
                if case in kept or case in old:
                    table.write((kept.get(case) or old[case]) + "\n")
    return 0


if __name__ == "__main__":
    sys.exit(main(sys.argv[1:]))
