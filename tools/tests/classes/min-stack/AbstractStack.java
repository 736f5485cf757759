package stacks;

import java.util.EmptyStackException;

/** What stacks have in common. */
abstract class AbstractStack implements IntStack {
    protected int size;

    @Override
    public int size() {
        return size;
    }

    protected abstract int elementAt(int index);

    public int peek() {
        if (isEmpty()) {
            throw new EmptyStackException();
        }
        return elementAt(size - 1);
    }

    private boolean check() {
        return size >= 0 && size <= CAPACITY;
    }

    boolean repOk() {
        return check();
    }

    @Override
    public int hashCode() {
        int hash = 1;
        for (int i = 0; i < size; i++) hash = 31 * hash + elementAt(i);
        return hash;
    }

    @Override
    public boolean equals(Object object) {
        if (this == object) return true;
        if (object == null || getClass() != object.getClass()) return false;
        AbstractStack other = (AbstractStack) object;
        if (size != other.size) return false;
        for (int i = 0; i < size; i++) {
            if (elementAt(i) != other.elementAt(i)) return false;
        }
        return true;
    }
}
