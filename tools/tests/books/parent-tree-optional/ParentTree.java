package books;

import java.util.Optional;

public class ParentTree {
    static final class Node {
        int key;
        Node left;
        Node right;
        Node parent;
    }

    private Node root;
    /** The node with the least key. */
    private Node least;

    private Optional<Node> leftmost() {
        if (root == null) return Optional.empty();
        Node n = root;
        while (n.left != null) n = n.left;
        return Optional.of(n);
    }

    private static Node successor(Node n) {
        if (n.right != null) {
            n = n.right;
            while (n.left != null) n = n.left;
            return n;
        }
        var parent = n.parent;
        while (parent != null && n == parent.right) {
            n = parent;
            parent = parent.parent;
        }
        return parent;
    }

    boolean repOk() {
        if (root != null && root.parent != null) return false;
        if (!isLinked(root, 3)) return false;
        if (leftmost().orElse(null) != least) return false;
        Node n = least;
        while (n != null) {
            Node next = successor(n);
            if (next != null && next.key <= n.key) return false;
            n = next;
        }
        return true;
    }

    private static boolean isLinked(Node n, int depth) {
        if (n == null) return true;
        if (depth == 0) return false;
        if (n.left != null && (n.left.parent != n || n.left == n.right)) return false;
        if (n.right != null && n.right.parent != n) return false;
        return isLinked(n.left, depth - 1) && isLinked(n.right, depth - 1);
    }
}
