package rings;

import java.util.NoSuchElementException;

/**
 * A deque in a circular array, after java.util.ArrayDeque: the array's length is a power of two, at least one of its
 * elements is null, and so are all that aren't between head and tail.
 */
public class ArrayRing<E> implements Cloneable {

    private E[] elements;
    private int head;
    private int tail;

    private static final int MIN_INITIAL_CAPACITY = 8;

    @SuppressWarnings("unchecked")
    public ArrayRing(int numElements) {
        int capacity = MIN_INITIAL_CAPACITY;
        while (capacity <= numElements)
            capacity <<= 1;
        elements = (E[]) new Object[capacity];
    }

    @SuppressWarnings("unchecked")
    private void doubleCapacity() {
        assert head == tail;
        int p = head;
        int n = elements.length;
        int r = n - p; // number of elements to the right of p
        Object[] a = new Object[n << 1];
        System.arraycopy(elements, p, a, 0, r);
        System.arraycopy(elements, 0, a, r, p);
        elements = (E[]) a;
        head = 0;
        tail = n;
    }

    public void addFirst(E e) {
        if (e == null)
            throw new NullPointerException();
        elements[head = (head - 1) & (elements.length - 1)] = e;
        if (head == tail)
            doubleCapacity();
    }

    public void addLast(E e) {
        if (e == null)
            throw new NullPointerException();
        elements[tail] = e;
        if ((tail = (tail + 1) & (elements.length - 1)) == head)
            doubleCapacity();
    }

    public E pollFirst() {
        int h = head;
        E result = elements[h];
        if (result == null)
            return null;
        elements[h] = null;
        head = (h + 1) & (elements.length - 1);
        return result;
    }

    public E removeFirst() {
        E x = pollFirst();
        if (x == null)
            throw new NoSuchElementException();
        return x;
    }

    public int size() {
        return (tail - head) & (elements.length - 1);
    }

    private boolean checkInvariants() {
        assert elements.length > 0 && Integer.bitCount(elements.length) == 1;
        assert head >= 0 && head < elements.length : head;
        assert tail >= 0 && tail < elements.length : tail;
        assert elements[tail] == null;
        assert head == tail
                ? elements[head] == null
                : (elements[head] != null && elements[(tail - 1) & (elements.length - 1)] != null);
        assert elements[(head - 1) & (elements.length - 1)] == null;
        return true;
    }

    public boolean repOk() {
        if (elements == null || !checkInvariants())
            return false;
        int mask = elements.length - 1;
        int i = head;
        for (; i != tail; i = (i + 1) & mask)
            if (elements[i] == null)
                return false;
        int nulls = 0;
        for (E e : elements)
            nulls += e == null ? 1 : 0;
        return nulls + size() == elements.length;
    }
}
