import java.util.HashSet;
import java.util.LinkedList;

// A binary search tree of different integers, with its size.
class SearchTree {
    static class Node {
        int key;
        Node left;
        Node right;
    }

    Node root;
    int size;

    boolean repOk() {
        if (root == null) return size == 0;
        return isTree() && count(root) == size && isOrdered(root, null, null);
    }

    // No node is reached twice.
    private boolean isTree() {
        HashSet<Node> seen = new HashSet<Node>();
        LinkedList<Node> work = new LinkedList<Node>();
        seen.add(root);
        work.add(root);
        while (!work.isEmpty()) {
            Node node = work.removeFirst();
            if (node.left != null) {
                if (!seen.add(node.left)) return false;
                work.add(node.left);
            }
            if (node.right != null) {
                if (!seen.add(node.right)) return false;
                work.add(node.right);
            }
        }
        return true;
    }

    private int count(Node node) {
        return node == null ? 0 : 1 + count(node.left) + count(node.right);
    }

    // Keys lie between those of two nodes, where these are there.
    private boolean isOrdered(Node node, Node above, Node below) {
        if (node == null) return true;
        if (above != null && node.key <= above.key) return false;
        if (below != null && node.key >= below.key) return false;
        return isOrdered(node.left, above, node) && isOrdered(node.right, node, below);
    }

    // Turns the root to the right: its left child comes to stand above it.
    //@ requires root != null && root.left != null;
    //@ ensures root == \old(root.left) && root.right == \old(root);
    //@ ensures root.right.left == \old(root.left.right);
    void rotateRight() {
        Node above = root.left;
        root.left = above.right;
        above.right = root;
        root = above;
    }

    // The same, wrong on purpose: the tree between the two is forgotten.
    //@ requires root != null && root.left != null;
    //@ ensures root == \old(root.left) && root.right == \old(root);
    void rotateOver() {
        Node above = root.left;
        root.left = null;
        above.right = root;
        root = above;
    }
}
