import java.util.*;
class Node {
  Node left;
  Node right;
}
class Tree {
  Node root;
  boolean repOk() {
    if (root == null) return false;
    HashSet<Node> seen = new HashSet<Node>();
    LinkedList<Node> work = new LinkedList<Node>();
    seen.add(root);
    work.add(root);
    while (!work.isEmpty()) {
      Node n = work.removeFirst();
      if (n.left != null) {
        if (!seen.add(n.left)) return false;
        work.add(n.left);
      }
      if (n.right != null) {
        if (!seen.add(n.right)) return false;
        work.add(n.right);
      }
    }
    return seen.size() == 3;
  }
}
