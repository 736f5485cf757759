package books;

import java.util.Arrays;

/** An index priority queue; refused, since its two kinds of arrays become one. */
public class IndexMinPQ {
    private final int maxN;
    private int n;
    private final int[] pq;
    private final int[] qp;
    private final Integer[] keys;

    public IndexMinPQ(int maxN) {
        this.maxN = maxN;
        keys = new Integer[maxN];
        pq = new int[maxN + 1];
        qp = new int[maxN + 1];
        Arrays.fill(qp, -1);
    }

    public boolean contains(int i) {
        return qp[i] != -1;
    }

    private boolean greater(int i, int j) {
        return keys[pq[i]].compareTo(keys[pq[j]]) > 0;
    }

    boolean repOk() {
        if (n < 0 || n > maxN || pq == qp) return false;
        for (int i = 1; i <= n; i++) {
            if (pq[i] < 0 || pq[i] >= maxN || qp[pq[i]] != i) return false;
        }
        int contained = 0;
        for (int i = 0; i < maxN; i++) if (contains(i)) contained++;
        if (contained != n) return false;
        for (int k = 2; k <= n; k++) {
            if (greater(k / 2, k)) return false;
        }
        return true;
    }
}
