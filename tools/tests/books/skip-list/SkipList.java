package books;

/** A skip list whose header has no key. */
public class SkipList<K extends Comparable<K>> {
    static final int MAX_LEVEL = 2;

    static class Node<K> {
        K key;
        Node<K>[] next;

        @SuppressWarnings("unchecked")
        Node(K key, int level) {
            this.key = key;
            next = new Node[level];
        }

        int level() {
            return next.length;
        }
    }

    private final Node<K> head = new Node<>(null, MAX_LEVEL);
    private int level = 1;

    public boolean contains(K key) {
        Node<K> n = head;
        for (int i = level - 1; i >= 0; i--) {
            while (n.next[i] != null && n.next[i].key.compareTo(key) < 0) n = n.next[i];
        }
        n = n.next[0];
        return n != null && n.key.equals(key);
    }

    boolean repOk() {
        if (head.key != null || head.level() != MAX_LEVEL || level < 1 || level > MAX_LEVEL) return false;
        int highest = 1;
        K last = null;
        for (Node<K> n = head.next[0]; n != null; n = n.next[0]) {
            if (n == head || n.key == null) return false;
            if (last != null && last.compareTo(n.key) >= 0) return false;
            last = n.key;
            highest = Math.max(highest, n.level());
        }
        if (level < highest) return false;
        for (int i = 1; i < MAX_LEVEL; i++) {
            Node<K> below = head.next[0];
            for (Node<K> n = head.next[i]; n != null; n = n.next[i]) {
                if (n.level() <= i) return false;
                while (below != n) {
                    if (below == null || below.level() > i) return false;
                    below = below.next[0];
                }
                below = below.next[0];
            }
            while (below != null) {
                if (below.level() > i) return false;
                below = below.next[0];
            }
        }
        return distinctArrays();
    }

    private boolean distinctArrays() {
        for (Node<K> a = head; a != null; a = a.next[0]) {
            for (Node<K> b = a.next[0]; b != null; b = b.next[0]) {
                if (a.next == b.next) return false;
            }
        }
        return true;
    }
}
