import java.util.function.BiConsumer;
import java.util.NoSuchElementException;

/**
 * A map that forgets the eldest entry: a hash table with chains, whose entries are also in a circular doubly linked list
 * with a header, the most recently used one first.
 */
public class LruMap<K, V> {
    static final int DEFAULT_CAPACITY = 2;

    static class Entry<K, V> {
        final int hash;
        final K key;
        V value;
        Entry<K, V> next;
        Entry<K, V> before, after;

        Entry(int hash, K key, V value, Entry<K, V> next) {
            this.hash = hash;
            this.key = key;
            this.value = value;
            this.next = next;
        }

        final K getKey() { return key; }
        final V getValue() { return value; }

        @Override
        public final int hashCode() { return hash ^ (value == null ? 0 : value.hashCode()); }
    }

    private transient Entry<K, V>[] table;
    private transient final Entry<K, V> header;
    private transient int size;
    private final int capacity;

    @SuppressWarnings("unchecked")
    public LruMap(int capacity) {
        if (capacity <= 0)
            throw new IllegalArgumentException("capacity: " + capacity);
        this.capacity = capacity;
        this.table = (Entry<K, V>[]) new Entry[capacity];
        this.header = new Entry<>(-1, null, null, null);
        header.before = header.after = header;
    }

    public LruMap() { this(DEFAULT_CAPACITY); }

    static int indexFor(int h, int length) { return (h & 0x7fffffff) % length; }

    public V get(K key) {
        int h = key.hashCode();
        for (Entry<K, V> e = table[indexFor(h, table.length)]; e != null; e = e.next)
            if (e.hash == h && (e.key == key || key.equals(e.key))) {
                recordAccess(e);
                return e.value;
            }
        return null;
    }

    private void recordAccess(Entry<K, V> e) {
        e.before.after = e.after;
        e.after.before = e.before;
        e.after = header.after;
        e.before = header;
        header.after.before = e;
        header.after = e;
    }

    public void forEach(BiConsumer<? super K, ? super V> action) {
        for (Entry<K, V> e = header.after; e != header; e = e.after)
            action.accept(e.key, e.value);
    }

    public boolean repOk() {
        if (header == null || table == null || header.hash != -1)
            return false;
        if (size < 0 || size > capacity)
            return false;
        int listed = 0;
        Entry<K, V> e = header;
        do {
            if (e.after == null || e.after.before != e)
                return false;
            e = e.after;
            if (e != header && ++listed > size)
                return false;
        } while (e != header);
        int hashed = 0;
        for (int i = 0; i < table.length; ++i) {
            for (Entry<K, V> x = table[i]; x != null; x = x.next, hashed++) {
                if (hashed >= listed || x.hash < 0 || indexFor(x.hash, table.length) != i || !isListed(x))
                    return false;
                for (Entry<K, V> y = table[i]; y != x; y = y.next)
                    if (y.hash == x.hash && y.key.equals(x.key))
                        return false;
            }
        }
        return hashed == size && listed == size;
    }

    private boolean isListed(Entry<K, V> x) {
        for (Entry<K, V> e = header.after; e != header; e = e.after)
            if (e == x)
                return true;
        return false;
    }
}
