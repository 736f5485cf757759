package books;

public class SparseVector {
    private static class Entry {
        final int index;
        long value;
        Entry next;

        Entry(int index, long value, Entry next) {
            this.index = index;
            this.value = value;
            this.next = next;
        }
    }

    private Entry first;
    private int size;

    public long dot(SparseVector other) {
        long sum = 0L;
        Entry a = first, b = other.first;
        while (a != null && b != null) {
            if (a.index == b.index) {
                sum += a.value * b.value;
                a = a.next;
                b = b.next;
            } else if (a.index < b.index) a = a.next;
            else b = b.next;
        }
        return sum;
    }

    public boolean repOk() {
        int last = -1;
        for (Entry e = first; e != null; e = e.next) {
            if (e.index <= last || e.index >= size || e.value == 0) return false;
            last = e.index;
        }
        return true;
    }
}
