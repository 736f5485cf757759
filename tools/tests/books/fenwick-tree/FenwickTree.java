package books;

import java.util.stream.IntStream;

public class FenwickTree {
    private int[] tree;
    private int[] values;

    public FenwickTree(int n) {
        tree = new int[n + 1];
        values = new int[n + 1];
    }

    public void set(int index, int value) {
        int delta = value - values[index];
        values[index] = value;
        for (int i = index; i < tree.length; i += lowBit(i)) tree[i] += delta;
    }

    public int prefix(int index) {
        int sum = 0;
        for (int i = index; i > 0; i -= lowBit(i)) sum += tree[i];
        return sum;
    }

    private static int lowBit(int i) {
        return i & -i;
    }

    public int total() {
        return IntStream.of(values).sum();
    }

    public boolean repOk() {
        if (tree == values || tree.length != values.length) return false;
        if (tree[0] != 0 || values[0] != 0) return false;
        int running = 0;
        for (int i = 1; i < values.length; i++) {
            running += values[i];
            if (prefix(i) != running) return false;
        }
        return true;
    }
}
