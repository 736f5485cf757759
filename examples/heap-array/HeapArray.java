// A priority queue in an array: a child is not above its parent.
class HeapArray {
    int[] elements;
    int size;

    boolean repOk() {
        if (elements == null) return false;
        if (size < 0 || size > elements.length) return false;
        for (int i = 0; i < size; i++) {
            if (elements[i] < 0) return false;
            if (i > 0 && elements[i] > elements[(i - 1) / 2]) return false;
        }
        for (int i = size; i < elements.length; i++) {
            if (elements[i] != -1) return false;
        }
        return true;
    }
}
