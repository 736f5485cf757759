package stacks;

/** A stack that knows its least element: each entry keeps the least of those up to it. */
public class MinStack extends AbstractStack {

    private static class Entry {
        int value;
        int min;
        Entry below;

        Entry(int value, Entry below) {
            this.value = value;
            this.below = below;
            this.min = below == null ? value : Math.min(value, below.min);
        }
    }

    private final int limit = CAPACITY - 1;
    private Entry top;

    @Override
    public void push(int value) {
        if (size == limit) {
            throw new IllegalStateException("more than " + limit);
        }
        top = new Entry(value, top);
        size++;
    }

    @Override
    public int pop() {
        int value = peek();
        top = top.below;
        size--;
        return value;
    }

    public int min() {
        return top.min;
    }

    @Override
    protected int elementAt(int index) {
        Entry entry = top;
        for (int i = size - 1; i > index; i--) entry = entry.below;
        return entry.value;
    }

    private int least(int... values) {
        int least = values[0];
        for (int value : values) least = Math.min(least, value);
        return least;
    }

    private boolean check() {
        int depth = 0;
        for (Entry entry = top; entry != null; entry = entry.below) {
            if (++depth > limit) return false;
            int expected = entry.below == null ? entry.value : least(entry.value, entry.below.min);
            if (entry.min != expected) return false;
        }
        return depth == size();
    }

    @Override
    boolean repOk() {
        return super.repOk() && check() && (isEmpty() || peek() == top.value);
    }
}
