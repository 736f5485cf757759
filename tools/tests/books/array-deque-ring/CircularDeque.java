package books;

import java.util.AbstractCollection;
import java.util.Iterator;

/** As java.util.ArrayDeque was before Java 9. */
public class CircularDeque<E> extends AbstractCollection<E> {
    transient Object[] elements;
    transient int head;
    transient int tail;
    private static final int MIN_INITIAL_CAPACITY = 8;

    public CircularDeque() {
        elements = new Object[16];
    }

    private void doubleCapacity() {
        assert head == tail;
        int p = head;
        int n = elements.length;
        int r = n - p; // number of elements to the right of p
        int newCapacity = n << 1;
        if (newCapacity < 0) throw new IllegalStateException("Sorry, deque too big");
        Object[] a = new Object[newCapacity];
        System.arraycopy(elements, p, a, 0, r);
        System.arraycopy(elements, 0, a, r, p);
        elements = a;
        head = 0;
        tail = n;
    }

    public void addLast(E e) {
        if (e == null) throw new NullPointerException();
        elements[tail] = e;
        if ((tail = (tail + 1) & (elements.length - 1)) == head) doubleCapacity();
    }

    @Override
    public int size() {
        return (tail - head) & (elements.length - 1);
    }

    @Override
    public boolean isEmpty() {
        return head == tail;
    }

    @Override
    public Iterator<E> iterator() {
        return new DeqIterator();
    }

    private class DeqIterator implements Iterator<E> {
        private int cursor = head;
        private int fence = tail;

        public boolean hasNext() {
            return cursor != fence;
        }

        public E next() {
            @SuppressWarnings("unchecked")
            E result = (E) elements[cursor];
            cursor = (cursor + 1) & (elements.length - 1);
            return result;
        }
    }

    boolean repOk() {
        if (head >= elements.length || tail >= elements.length) return false;
        if (elements[tail] != null) return false;
        if (isEmpty() ? elements[head] != null : elements[head] == null) return false;
        if (elements[(head - 1) & (elements.length - 1)] != null) return false;
        for (E e : this) if (e == null) return false;
        int held = 0;
        for (Object o : elements) if (o != null) held++;
        return held == size();
    }
}
