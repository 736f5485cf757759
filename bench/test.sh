#!/usr/bin/env bash
# Times the built program where it tests a method of ten units on each of the 58,786 binary trees of 11 nodes, beside listing them
# alone, in turns, and prints figures: the best wall time of each, and the ratio. It judges nothing and never fails.
#
# It needs bash 5 and the program (run ./korat once).
#
#     bench/test.sh [RUNS] [NODES]      how many runs each figure is the best of, 3 where it isn't said; how many nodes, 11
source "$(dirname "$(readlink -f "$0")")/common.sh"
runs=${1:-3}
nodes=${2:-11}
each=$runs
runs=1

fin="$work/fin.toml"
source="$work/Tree.java"
cat >"$source" <<JAVA
import java.util.*;
class Node { Node left; Node right; }
class Tree {
  Node root;
  boolean repOk() {
    if (root == null) return false;
    HashSet<Node> seen = new HashSet<Node>();
    LinkedList<Node> work = new LinkedList<Node>();
    seen.add(root);
    work.add(root);
    while (!work.isEmpty()) {
      Node n = work.removeFirst();
      if (n.left != null) { if (!seen.add(n.left)) return false; work.add(n.left); }
      if (n.right != null) { if (!seen.add(n.right)) return false; work.add(n.right); }
    }
    return seen.size() == $nodes;
  }
  //@ ensures root.left == \\old(root.right);
  void turn() { Node k = root.left; root.left = root.right; root.right = k; }
}
JAVA
printf 'root = "Tree"\nfuel = 2000\n[objects]\nTree = 1\nNode = %d\n[fields]\n"Tree.root" = ["null", "Node"]\n"Node.left" = ["null", "Node"]\n"Node.right" = ["null", "Node"]\n' "$nodes" >"$fin"

list=0
test=0
for ((turn = 0; turn < each; turn++)); do
    took=$(least_time "$work/listed" list "$fin" "$source")
    if ((turn == 0 || took < list)); then list=$took; fi
    took=$(least_time "$work/tested" test "$fin" turn "$source")
    if ((turn == 0 || took < test)); then test=$took; fi
done
echo "last line of the list   $(tail -n 1 "$work/listed")"
echo "last line of the test   $(tail -n 1 "$work/tested")"
echo "time of the list        $list us, the best of $each"
echo "time of the test        $test us, the best of $each"
echo "ratio                   $((test * 100 / (list > 0 ? list : 1)))/100"
exit 0
