package books;

import java.util.ConcurrentModificationException;

public class SkewHeap {
    public enum Grade { A, B, C }

    private static class Node {
        Grade value;
        Node left, right;

        Node(Grade value) {
            this.value = value;
        }
    }

    private Node root;
    private transient int modCount;

    public void add(Grade value) {
        modCount++;
        root = merge(root, new Node(value));
    }

    private static Node merge(Node a, Node b) {
        if (a == null) return b;
        if (b == null) return a;
        if (a.value.compareTo(b.value) > 0) {
            Node swap = a;
            a = b;
            b = swap;
        }
        Node left = merge(b, a.right);
        a.right = a.left;
        a.left = left;
        return a;
    }

    boolean repOk() {
        try {
            return isHeap(root, null, 0) && !isShared(root, root);
        } catch (ConcurrentModificationException e) {
            return false;
        }
    }

    private boolean isHeap(Node node, Grade above, int depth) {
        if (node == null) return true;
        if (depth > 3) throw new ConcurrentModificationException("a cycle");
        if (above != null && node.value.compareTo(above) < 0) return false;
        return isHeap(node.left, node.value, depth + 1) && isHeap(node.right, node.value, depth + 1);
    }

    /** Whether a node below `top` has two ways to it. */
    private boolean isShared(Node node, Node top) {
        if (node == null) return false;
        if (ways(top, node) > 1) return true;
        return isShared(node.left, top) || isShared(node.right, top);
    }

    private static int ways(Node from, Node to) {
        if (from == null) return 0;
        return (from == to ? 1 : 0) + ways(from.left, to) + ways(from.right, to);
    }
}
