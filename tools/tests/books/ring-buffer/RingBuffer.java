package books;

import java.util.Arrays;
import java.util.NoSuchElementException;

public class RingBuffer<E> {
    private Object[] items;
    private int head;
    private int count;

    public RingBuffer(int capacity) {
        if (capacity <= 0) throw new IllegalArgumentException("capacity: " + capacity);
        items = new Object[capacity];
    }

    public boolean offer(E item) {
        if (item == null) throw new NullPointerException();
        if (count == items.length) return false;
        items[(head + count++) % items.length] = item;
        return true;
    }

    @SuppressWarnings("unchecked")
    public E take() {
        if (count == 0) throw new NoSuchElementException();
        E item = (E) items[head];
        items[head] = null;
        head = (head + 1) % items.length;
        count--;
        return item;
    }

    @Override
    public String toString() {
        return Arrays.toString(items);
    }

    private boolean isUsed(int index) {
        int offset = index - head;
        if (offset < 0) offset += items.length;
        return offset < count;
    }

    boolean repOk() {
        if (items == null || items.length == 0) return false;
        if (head < 0 || head >= items.length || count < 0 || count > items.length) return false;
        for (int i = 0; i < items.length; i++) {
            if (isUsed(i) != (items[i] != null)) return false;
        }
        return true;
    }
}
