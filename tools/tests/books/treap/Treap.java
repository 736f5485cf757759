package books;

import java.util.ArrayDeque;
import java.util.Deque;
import java.util.Iterator;
import java.util.NoSuchElementException;
import java.util.Random;

public final class Treap<E extends Comparable<E>> implements Iterable<E> {
    private static final class Node<E> {
        E key;
        int priority;
        Node<E> left, right;

        Node(E key, int priority) {
            this.key = key;
            this.priority = priority;
        }
    }

    private final Random random = new Random();
    private Node<E> root;

    public boolean add(E key) {
        int before = size();
        root = insert(root, key);
        return size() > before;
    }

    private Node<E> insert(Node<E> n, E key) {
        if (n == null) return new Node<>(key, random.nextInt());
        int c = key.compareTo(n.key);
        if (c < 0) {
            n.left = insert(n.left, key);
            if (n.left.priority < n.priority) n = rotateRight(n);
        } else if (c > 0) {
            n.right = insert(n.right, key);
            if (n.right.priority < n.priority) n = rotateLeft(n);
        }
        return n;
    }

    private Node<E> rotateRight(Node<E> n) {
        Node<E> l = n.left;
        n.left = l.right;
        l.right = n;
        return l;
    }

    private Node<E> rotateLeft(Node<E> n) {
        Node<E> r = n.right;
        n.right = r.left;
        r.left = n;
        return r;
    }

    public int size() {
        int n = 0;
        for (E e : this) n++;
        return n;
    }

    @Override
    public Iterator<E> iterator() {
        return new Iterator<E>() {
            private final Deque<Node<E>> stack = new ArrayDeque<>();
            { push(root); }

            private void push(Node<E> n) {
                for (; n != null; n = n.left) stack.push(n);
            }

            @Override
            public boolean hasNext() {
                return !stack.isEmpty();
            }

            @Override
            public E next() {
                if (stack.isEmpty()) throw new NoSuchElementException();
                Node<E> n = stack.pop();
                push(n.right);
                return n.key;
            }
        };
    }

    public boolean repOk() {
        return isOrdered(root, null, null) && isHeap(root);
    }

    private boolean isOrdered(Node<E> n, E min, E max) {
        return n == null
                || (min == null || min.compareTo(n.key) < 0)
                && (max == null || max.compareTo(n.key) > 0)
                && isOrdered(n.left, min, n.key)
                && isOrdered(n.right, n.key, max);
    }

    private boolean isHeap(Node<E> n) {
        if (n == null) return true;
        for (Node<E> child : new Node[] { n.left, n.right }) {
            if (child != null && (child.priority < n.priority || !isHeap(child))) return false;
        }
        return true;
    }
}
