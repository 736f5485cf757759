// A queue in an array that is gone round in: so many elements from the first one on; what is free holds 0.
class RingBuffer {
    int[] slots;
    int first;
    int count;

    boolean repOk() {
        if (slots == null || slots.length == 0) return false;
        if (first < 0 || first >= slots.length) return false;
        if (count < 0 || count > slots.length) return false;
        if (count == 0 && first != 0) return false;
        for (int i = count; i < slots.length; i++) {
            if (slots[(first + i) % slots.length] != 0) return false;
        }
        return true;
    }

    // Takes the first element away, and makes its place free.
    //@ requires count > 0;
    //@ ensures \result == \old(slots[first]);
    //@ ensures count == \old(count) - 1;
    //@ ensures count == 0 || first == \old((first + 1) % slots.length);
    int remove() {
        int element = slots[first];
        slots[first] = 0;
        count--;
        first = count == 0 ? 0 : (first + 1) % slots.length;
        return element;
    }

    // The same, wrong on purpose: it runs out of the array's end.
    //@ requires count > 0;
    //@ ensures \result == \old(slots[first]);
    //@ ensures count == \old(count) - 1;
    int removeOver() {
        int element = slots[first];
        slots[first] = 0;
        count--;
        first++;
        return element;
    }
}
