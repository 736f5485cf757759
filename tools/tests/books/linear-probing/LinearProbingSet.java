package books;

public class LinearProbingSet<Key> {
    private Object[] keys;
    private int n;

    public LinearProbingSet(int capacity) {
        keys = new Object[capacity];
    }

    private int hash(Object key) {
        return (key.hashCode() & 0x7fffffff) % keys.length;
    }

    private int indexOf(Object key) {
        int i = hash(key);
        while (keys[i] != null) {
            if (keys[i].equals(key)) return i;
            i = (i + 1) % keys.length;
        }
        return -1;
    }

    public boolean contains(Key key) {
        if (key == null) throw new IllegalArgumentException("argument to contains() is null");
        return indexOf(key) >= 0;
    }

    private void resize(int capacity) {
        LinearProbingSet<Key> temp = new LinearProbingSet<>(capacity);
        for (Object key : keys) {
            if (key != null) temp.put(key);
        }
        keys = temp.keys;
    }

    private void put(Object key) {
        if (n >= keys.length / 2) resize(2 * keys.length);
        int i = hash(key);
        while (keys[i] != null) i = (i + 1) % keys.length;
        keys[i] = key;
        n++;
    }

    boolean repOk() {
        int count = 0;
        for (Object key : keys) {
            if (key != null) count++;
        }
        if (count != n || n >= keys.length) return false;
        for (int i = 0; i < keys.length; i++) {
            if (keys[i] != null && indexOf(keys[i]) != i) return false;
        }
        return true;
    }
}
