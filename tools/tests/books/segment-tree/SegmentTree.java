package books;

import java.util.Arrays;
import java.util.function.IntBinaryOperator;

public class SegmentTree {
    private final int[] sums;
    private final int n;

    public SegmentTree(int[] values) {
        n = values.length;
        sums = new int[2 * n - 1];
        System.arraycopy(values, 0, sums, n - 1, n);
        for (int i = n - 2; i >= 0; i--) sums[i] = sums[2 * i + 1] + sums[2 * i + 2];
    }

    public int sum(int from, int to) {
        return sum(0, 0, n - 1, from, to);
    }

    private int sum(int node, int low, int high, int from, int to) {
        if (to < low || high < from) return 0;
        if (from <= low && high <= to) return sums[node];
        int mid = low + high >>> 1;
        return sum(2 * node + 1, low, mid, from, to) + sum(2 * node + 2, mid + 1, high, from, to);
    }

    public boolean repOk() {
        if (sums.length != 2 * n - 1) return false;
        int[] copy = Arrays.copyOf(sums, sums.length);
        for (int i = n - 2; i >= 0; i--) copy[i] = copy[2 * i + 1] + copy[2 * i + 2];
        if (!Arrays.equals(copy, sums)) return false;
        int total = 0;
        for (int i = n - 1; i < sums.length; ++i) total += sums[i];
        return sum(0, n - 1) == total;
    }
}
