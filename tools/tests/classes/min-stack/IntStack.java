package stacks;

/** A stack of integers. */
public interface IntStack {
    int CAPACITY = 3;

    void push(int value);

    int pop();

    int size();

    default boolean isEmpty() {
        return size() == 0;
    }
}
