package books;

import java.util.HashMap;
import java.util.Map;

/** Keeps the entries that were used last. */
public class LruCache<K, V> {
    private static class Entry<K, V> {
        K key;
        V value;
        Entry<K, V> prev, next;
    }

    private final int capacity;
    private final Map<K, Entry<K, V>> index = new HashMap<>();
    private final Entry<K, V> head = new Entry<>();

    public LruCache(int capacity) {
        this.capacity = capacity;
        head.prev = head.next = head;
    }

    public V get(K key) {
        Entry<K, V> e = index.get(key);
        if (e == null) return null;
        unlink(e);
        linkFirst(e);
        return e.value;
    }

    private void unlink(Entry<K, V> e) {
        e.prev.next = e.next;
        e.next.prev = e.prev;
    }

    private void linkFirst(Entry<K, V> e) {
        e.prev = head;
        e.next = head.next;
        e.next.prev = e;
        head.next = e;
    }

    public boolean repOk() {
        if (index.size() > capacity) return false;
        int n = 0;
        for (Entry<K, V> e = head.next; e != head; e = e.next) {
            if (e.next.prev != e || index.get(e.key) != e) return false;
            if (++n > index.size()) return false;
        }
        return n == index.size();
    }
}
