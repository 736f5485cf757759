import java.util.HashMap;
import java.util.Map;

/** A cache that forgets what was used least recently. */
public class LruCache<K, V> {

    private class Node {
        K key;
        V value;
        Node prev;
        Node next;
    }

    private final int capacity;
    private final Map<K, Node> nodes = new HashMap<>();
    private final Node head = new Node(); // most recent after it
    private final Node tail = new Node(); // least recent before it

    public LruCache(int capacity) {
        this.capacity = capacity;
        head.next = tail;
        tail.prev = head;
    }

    public V get(K key) {
        Node node = nodes.get(key);
        if (node == null) {
            return null;
        }
        unlink(node);
        linkFirst(node);
        return node.value;
    }

    public void put(K key, V value) {
        Node node = nodes.computeIfAbsent(key, k -> new Node());
        if (node.prev != null) {
            unlink(node);
        }
        node.key = key;
        node.value = value;
        linkFirst(node);
        if (nodes.size() > capacity) {
            Node eldest = tail.prev;
            unlink(eldest);
            nodes.remove(eldest.key);
        }
    }

    private void unlink(Node node) {
        node.prev.next = node.next;
        node.next.prev = node.prev;
    }

    private void linkFirst(Node node) {
        node.next = head.next;
        node.prev = head;
        head.next.prev = node;
        head.next = node;
    }

    boolean repOk() {
        if (head == null || tail == null || head == tail) return false;
        int count = 0;
        for (Node node = head.next; node != tail; node = node.next) {
            if (node == null || node.next == null || node.next.prev != node) return false;
            if (nodes.get(node.key) != node) return false;
            if (++count > capacity) return false;
        }
        return nodes.size() == count;
    }
}
