package books;

import java.util.function.BiPredicate;

public class CartesianTree {
    static class Vertex {
        int index;
        Vertex left, right;
    }

    private int[] values;
    private Vertex root;

    /** Checks that a subtree covers exactly the indices from low up to high. */
    private boolean covers(Vertex v, int low, int high) {
        if (v == null) return low == high;
        if (v.index < low || v.index >= high) return false;
        for (int i = low; i < high; i++) {
            if (values[i] < values[v.index]) return false;
        }
        return covers(v.left, low, v.index) && covers(v.right, v.index + 1, high);
    }

    boolean repOk() {
        return covers(root, 0, values.length);
    }
}
