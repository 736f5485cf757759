#!/usr/bin/env bash
# Tests of tools/bounds and tools/try: first finitizations, the whole way with classes as their authors wrote them, methods, and
# words and classes that are wrong.
. "$(dirname "$(readlink -f "$0")")/common.bash"

refuse 2 "bounds without words" "$tools/bounds"
refuse 2 "bounds without a source" "$tools/bounds" --method m
refuse 2 "bounds with an unknown option" "$tools/bounds" -x A.java
refuse 2 "try without words" "$tools/try"
refuse 2 "try without a source" "$tools/try" fin.toml
refuse 2 "try with an unknown option" "$tools/try" -x A.java
refuse 2 "try with a limit that is no number" "$tools/try" --limit x A.java
refuse 2 "try with a method that is no name" "$tools/try" --method a-b A.java
refuse 2 "try with a source that isn't there" "$tools/try" none.java

if [ ! -x "$KORAT" ] || ! command -v javac >/dev/null; then
    echo "20 not tried: there is no program, or no JDK"
    finish
    exit
fi

cat >Tree.java <<'END'
import java.util.*;

public class Tree<K extends Comparable<K>> {
    enum Color { RED, BLACK }

    static class Node<K> {
        K key;
        Node<K> left, right;
        Color color;
        int unread;
    }

    private Node<K> root;
    private int size;
    private boolean[] marks = new boolean[0];

    boolean repOk() {
        return count(root) == size && (root == null || root.color == Color.BLACK) && marks.length == 0;
    }

    private int count(Node<K> node) {
        if (node == null) return 0;
        if (node.left != null && node.left.key.compareTo(node.key) >= 0) return -9;
        if (node.right != null) return -9;
        return 1 + count(node.left);
    }

    //@ requires size < 3;
    //@ ensures size == \old(size) + 1;
    void grow(int by) {
        size = size + by;
    }
}
END
cat >wanted <<'END'
root = "Tree"
fuel = 100000
[objects]
Tree = 1
Node = 3
[arrays]
"boolean[]" = { count = 1, lengths = [{ from = 0, to = 3 }] }
[fields]
"Tree.root" = ["null", "Node"]
"Tree.size" = [{ from = 0, to = 3 }]
"Tree.marks" = ["boolean[]"]
"Node.key" = [{ from = 1, to = 3 }]
"Node.left" = ["null", "Node"]
"Node.right" = ["null", "Node"]
"Node.color" = ["Color"]
"boolean[].*" = [false, true]
END
run 0 "bounds" "$tools/bounds" Tree.java
sed '1d; s/  #.*//' out | diff - wanted >differences
count $? "bounds: $(cat differences)"
run 0 "bounds of a method" "$tools/bounds" --method grow Tree.java
[ "$(sed -n '/^\[params\]/,$p' out)" = $'[params]\n"grow.by" = [{ from = 0, to = 2 }]' ]
count $? "bounds of a method: $(tail -n 3 out)"
printf 'class Cell {\n    Integer v;\n    boolean repOk() { return v == null || v > 1; }\n}\n' >Cell.java
run 0 "bounds of what may be null" "$tools/bounds" Cell.java
grep -qx '"Cell.v" = \["null", { from = 1, to = 3 }\]' out
count $? "bounds of what may be null: $(tail -n 1 out)"
refuse 1 "bounds of a method that isn't there" "$tools/bounds" --method none Tree.java
refuse 1 "bounds of a root that isn't there" "$tools/bounds" --root None Tree.java
echo 'class Plain { int x; }' >Plain.java
refuse 1 "bounds without a predicate" "$tools/bounds" Plain.java

# The last line of a try, and a line before it: tried STATUS NAME LAST LINE WORD..
tried() {
    local status=$1 name=$2 last=$3 line=$4
    shift 4
    run "$status" "$name" "$tools/try" "$@"
    [ "$(tail -n 1 out)" = "$last" ] && grep -qF -e "$line" out
    count $? "$name: $(tail -n 2 out | tr '\n' '~')"
}

tried 0 "a class without a finitization" '14 structures, the same as on this JVM' 'bounds: a first finitization' Tree.java
tried 1 "a method" '30 calls of grow, 30 fail (ensures 1: 10, repOk: 20); 14 structures, the same as on this JVM' 'adapt: ' --method grow made.toml Tree.java
[ -f made.toml ] && grep -qx '"grow.by" = .*' made.toml
count $? "a finitization that isn't there isn't made"
example=$top/examples/sorted-list
tried 1 "a class of the subset" '20 calls of insertBehind, 5 fail (trap NullPointerException: 2, repOk: 3); 10 structures, the same as on this JVM' \
    'adapt: nothing to do' --method insertBehind "$example/fin.toml" "$example/SortedList.java"
tried 0 "a limit" 'the first 3 structures, valid on this JVM too; more follow: --limit, or smaller bounds' '0.0.0 SortedList#0' --limit 3 "$example/fin.toml" "$example/SortedList.java"
printf 'class Wide {\n    double x;\n    boolean repOk() { return x > 0; }\n}\n' >Wide.java
tried 1 "a class that isn't adapted" 'not adapted: 1 line above: what has to be written otherwise' 'bounds: ' Wide.java
printf 'class Ring {\n    Ring next;\n    boolean repOk() {\n        for (Ring r = next; r != null; r = r.next) { }\n        return true;\n    }\n}\n' >Ring.java
tried 1 "a predicate that doesn't end on a cycle" "1 structure below 0.1, valid on this JVM too; the class's own repOk doesn't end on the next candidate, with ten times the fuel either, in the loop at Ring.java:4, as on Ring#0{next=Ring#0}: let it remember or count what it meets" 'adapt: nothing to do' Ring.java
tried 1 "a class without a predicate" 'no finitization could be made: no class of the sources has a `boolean repOk()`: write one, which says whether an object is valid' '' Plain.java

finish
