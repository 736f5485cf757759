package books;

import java.util.Iterator;
import java.util.LinkedHashSet;
import java.util.Set;

/** A hash set that keeps the order of insertion. */
public class OrderedSet<E> implements Iterable<E> {
    private static final class Entry<E> {
        final E element;
        Entry<E> chain;
        Entry<E> younger;

        Entry(E element) {
            this.element = element;
        }
    }

    private Entry<E>[] buckets;
    private Entry<E> eldest;
    private int size;

    private int index(Object element) {
        return Math.floorMod(element.hashCode(), buckets.length);
    }

    public boolean contains(Object element) {
        for (Entry<E> e = buckets[index(element)]; e != null; e = e.chain) {
            if (e.element.equals(element)) return true;
        }
        return false;
    }

    @Override
    public Iterator<E> iterator() {
        return new Iterator<>() {
            private Entry<E> next = eldest;

            @Override
            public boolean hasNext() {
                return next != null;
            }

            @Override
            public E next() {
                E element = next.element;
                next = next.younger;
                return element;
            }
        };
    }

    private boolean chainsEnd() {
        for (Entry<E> bucket : buckets) {
            int length = 0;
            for (Entry<E> e = bucket; e != null; e = e.chain) if (++length > size) return false;
        }
        return true;
    }

    boolean repOk() {
        if (!chainsEnd()) return false;
        Set<E> elements = new LinkedHashSet<>();
        int count = 0;
        for (E element : this) {
            if (!elements.add(element) || !contains(element)) return false;
            count++;
        }
        if (count != size) return false;
        int chained = 0;
        for (int i = 0; i < buckets.length; i++) {
            for (Entry<E> e = buckets[i]; e != null; e = e.chain) {
                if (index(e.element) != i || !elements.contains(e.element)) return false;
                if (++chained > size) return false;
            }
        }
        return chained == size;
    }
}
