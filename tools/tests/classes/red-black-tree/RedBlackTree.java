import java.util.*;

/** A red-black tree of integers with parents (Cormen et al., Introduction to Algorithms). */
public class RedBlackTree {

    enum Color { RED, BLACK }

    static class Node {
        final int key;
        Color color = Color.RED;
        Node left, right, p;

        Node(int key) { this.key = key; }
    }

    Node root;

    /** The number of keys. */
    int size;

    private void leftRotate(Node x) {
        Node y = x.right;
        x.right = y.left;
        if (y.left != null) y.left.p = x;
        y.p = x.p;
        if (x.p == null) root = y;
        else if (x == x.p.left) x.p.left = y;
        else x.p.right = y;
        y.left = x;
        x.p = y;
    }

    private void rightRotate(Node x) {
        Node y = x.left;
        x.left = y.right;
        if (y.right != null) y.right.p = x;
        y.p = x.p;
        if (x.p == null) root = y;
        else if (x == x.p.right) x.p.right = y;
        else x.p.left = y;
        y.right = x;
        x.p = y;
    }

    public void insert(int key) {
        Node z = new Node(key), y = null;
        for (Node x = root; x != null; x = z.key < x.key ? x.left : x.right) y = x;
        z.p = y;
        if (y == null) root = z;
        else if (z.key < y.key) y.left = z;
        else y.right = z;
        size++;
        insertFixup(z);
        assert repOk() : "broken by " + key;
    }

    private void insertFixup(Node z) {
        while (z.p != null && z.p.color == Color.RED) {
            Node grandparent = z.p.p;
            boolean isLeft = z.p == grandparent.left;
            Node uncle = isLeft ? grandparent.right : grandparent.left;
            if (uncle != null && uncle.color == Color.RED) {
                z.p.color = uncle.color = Color.BLACK;
                grandparent.color = Color.RED;
                z = grandparent;
            } else if (isLeft) {
                if (z == z.p.right) leftRotate(z = z.p);
                z.p.color = Color.BLACK;
                grandparent.color = Color.RED;
                rightRotate(grandparent);
            } else {
                if (z == z.p.left) rightRotate(z = z.p);
                z.p.color = Color.BLACK;
                grandparent.color = Color.RED;
                leftRotate(grandparent);
            }
        }
        root.color = Color.BLACK;
    }

    private static Color colorOf(Node node) {
        return node == null ? Color.BLACK : node.color;
    }

    /** The black height below the node, or -1. */
    private int blackHeight(Node node) {
        if (node == null) return 0;
        int left = blackHeight(node.left), right = blackHeight(node.right);
        if (left == -1 || right == -1 || left != right) return -1;
        switch (node.color) {
            case RED:
                for (Node child : new Node[] { node.left, node.right }) {
                    if (colorOf(child) == Color.RED) return -1;
                }
                break;
            case BLACK:
                left++;
                break;
            default:
                throw new AssertionError(node.color);
        }
        return left;
    }

    public boolean repOk() {
        if (root == null) return size == 0;
        if (root.p != null || colorOf(root) != Color.BLACK) return false;

        Set<Node> visited = new HashSet<>(Collections.singleton(root));
        Deque<Node> stack = new ArrayDeque<>();
        stack.push(root);
        while (!stack.isEmpty()) {
            Node node = stack.pop();
            for (Node child : Arrays.asList(node.left, node.right)) {
                if (child == null) continue;
                if (child.p != node || !visited.add(child)) return false;
                stack.push(child);
            }
        }
        if (visited.size() != size) return false;

        int last = Integer.MIN_VALUE;
        for (Node node = minimum(root); node != null; node = successor(node)) {
            if (node.key <= last) return false;
            last = node.key;
        }
        return blackHeight(root) >= 0;
    }

    private static Node minimum(Node x) {
        while (x.left != null) x = x.left;
        return x;
    }

    private static Node successor(Node x) {
        if (x.right != null) return minimum(x.right);
        Node y = x.p;
        while (y != null && x == y.right) {
            x = y;
            y = y.p;
        }
        return y;
    }
}
