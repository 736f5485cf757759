package books;

import java.util.HashSet;
import java.util.Map;
import java.util.Objects;
import java.util.Set;

public class ChainedTable<K, V> {
    static class Node<K, V> implements Map.Entry<K, V> {
        final int hash;
        final K key;
        V value;
        Node<K, V> next;

        Node(int hash, K key, V value, Node<K, V> next) {
            this.hash = hash;
            this.key = key;
            this.value = value;
            this.next = next;
        }

        public final K getKey() { return key; }
        public final V getValue() { return value; }

        public final V setValue(V newValue) {
            V oldValue = value;
            value = newValue;
            return oldValue;
        }
    }

    static final int hash(Object key) {
        int h;
        return key == null ? 0 : (h = key.hashCode()) ^ h >>> 16;
    }

    private Node<K, V>[] table;
    private int size;

    final Node<K, V> getNode(Object key) {
        Node<K, V>[] tab = table;
        Node<K, V> first;
        int n;
        if (tab != null && (n = tab.length) > 0 && (first = tab[n - 1 & hash(key)]) != null) {
            for (Node<K, V> e = first; e != null; e = e.next) {
                if (e.hash == hash(key) && Objects.equals(key, e.key)) return e;
            }
        }
        return null;
    }

    boolean repOk() {
        Set<Node<K, V>> seen = new HashSet<>();
        for (int i = 0; i < table.length; i++) {
            for (Node<K, V> e = table[i]; e != null; e = e.next) {
                if (!seen.add(e)) return false;
                if (e.hash != hash(e.key) || (e.hash & table.length - 1) != i) return false;
                if (getNode(e.getKey()) != e) return false;
            }
        }
        return seen.size() == size;
    }
}
