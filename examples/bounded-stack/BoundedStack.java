// A stack of numbers in an array of a fixed length; what is free holds 0.
class BoundedStack {
    int[] items;
    int size;

    boolean repOk() {
        if (items == null || size < 0 || size > items.length) return false;
        for (int i = size; i < items.length; i++) {
            if (items[i] != 0) return false;
        }
        return true;
    }

    // Puts a number on top, where there is room.
    //@ ensures size == \old(size) + 1;
    //@ ensures items[size - 1] == number;
    //@ signals (Full full) full.length == items.length;
    //@ signals (IllegalStateException) size == \old(size) && size == items.length;
    void push(int number) {
        if (size == items.length) throw new Full(size);
        items[size] = number;
        size++;
    }

    // Takes the number on top away.
    //@ ensures \result == \old(size == 0 ? 0 : items[size - 1]);
    //@ ensures size == \old(size) - 1;
    //@ signals (IllegalStateException) \old(size) == 0 && size == 0;
    int pop() {
        if (size == 0) throw new IllegalStateException();
        size--;
        int number = items[size];
        items[size] = 0;
        return number;
    }

    // The same, wrong on purpose: it refuses the last number too.
    //@ ensures \result == \old(size == 0 ? 0 : items[size - 1]);
    //@ ensures size == \old(size) - 1;
    //@ signals (IllegalStateException) \old(size) == 0 && size == 0;
    int popLast() {
        if (size <= 1) throw new IllegalStateException();
        size--;
        int number = items[size];
        items[size] = 0;
        return number;
    }

    // There is no room; so many numbers were there.
    static class Full extends IllegalStateException {
        int length;

        Full(int length) {
            this.length = length;
        }
    }
}
