package books;

import java.util.Comparator;

public class ScapegoatTree<T extends Comparable<T>> {
    static class Node<T> {
        T x;
        Node<T> left, right, parent;
    }

    Node<T> root;
    int n;
    int q;
    private static final double log32 = 2.4663034623764317;

    static int log32(int q) {
        return (int) Math.ceil(log32 * Math.log(q));
    }

    boolean add(T x) {
        throw new UnsupportedOperationException("not in this excerpt");
    }

    private int size(Node<T> u) {
        if (u == null) return 0;
        return 1 + size(u.left) + size(u.right);
    }

    boolean repOk() {
        if (q < n || n < 0 || q / 2 > n) return false;
        final Comparator<T> order = (a, b) -> a.compareTo(b);
        if (root != null && root.parent != null) return false;
        return sorted(root, null, null, order) && size(root) == n;
    }

    private boolean sorted(Node<T> u, T low, T high, Comparator<T> order) {
        if (u == null) return true;
        if (low != null && order.compare(u.x, low) <= 0) return false;
        if (high != null && order.compare(u.x, high) >= 0) return false;
        if (u.left != null && u.left.parent != u) return false;
        if (u.right != null && u.right.parent != u) return false;
        return sorted(u.left, low, u.x, order) && sorted(u.right, u.x, high, order);
    }
}
