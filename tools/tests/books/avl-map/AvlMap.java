package books.avl;

import java.util.NoSuchElementException;
import java.util.Objects;

/** A map over an AVL tree. */
public class AvlMap<K extends Comparable<? super K>, V> {
    private class Node {
        final K key;
        V value;
        Node left, right;
        int height = 1;

        Node(K key, V value) {
            this.key = key;
            this.value = value;
            size++;
        }

        int balance() {
            return heightOf(left) - heightOf(right);
        }

        boolean isBalanced() {
            int b = balance();
            return b >= -1 && b <= 1;
        }
    }

    private Node root;
    private int size;

    private int heightOf(Node n) {
        return n == null ? 0 : n.height;
    }

    public V get(K key) {
        Objects.requireNonNull(key, "key");
        Node n = root;
        while (n != null) {
            int c = key.compareTo(n.key);
            if (c == 0) return n.value;
            n = c < 0 ? n.left : n.right;
        }
        throw new NoSuchElementException("no " + key);
    }

    public void put(K key, V value) {
        root = put(root, key, value);
    }

    private Node put(Node n, K key, V value) {
        if (n == null) return new Node(key, value);
        int c = key.compareTo(n.key);
        if (c < 0) n.left = put(n.left, key, value);
        else if (c > 0) n.right = put(n.right, key, value);
        else n.value = value;
        return rebalance(n);
    }

    private Node rebalance(Node n) {
        update(n);
        if (n.balance() > 1) {
            if (n.left.balance() < 0) n.left = rotateLeft(n.left);
            return rotateRight(n);
        }
        if (n.balance() < -1) {
            if (n.right.balance() > 0) n.right = rotateRight(n.right);
            return rotateLeft(n);
        }
        return n;
    }

    private Node rotateLeft(Node n) {
        Node r = n.right;
        n.right = r.left;
        r.left = n;
        update(n);
        update(r);
        return r;
    }

    private Node rotateRight(Node n) {
        Node l = n.left;
        n.left = l.right;
        l.right = n;
        update(n);
        update(l);
        return l;
    }

    private void update(Node n) {
        n.height = 1 + Math.max(heightOf(n.left), heightOf(n.right));
    }

    boolean repOk() {
        return check(root, null, null) && count(root) == size;
    }

    private boolean check(Node n, K low, K high) {
        if (n == null) return true;
        if (low != null && n.key.compareTo(low) <= 0) return false;
        if (high != null && n.key.compareTo(high) >= 0) return false;
        if (!check(n.left, low, n.key) || !check(n.right, n.key, high)) return false;
        return n.isBalanced() && n.height == 1 + Math.max(heightOf(n.left), heightOf(n.right));
    }

    private int count(Node n) {
        return n == null ? 0 : 1 + count(n.left) + count(n.right);
    }
}
