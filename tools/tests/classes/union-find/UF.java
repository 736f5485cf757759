/**
 *  The UF class represents a union-find data type, weighted by rank and with path compression by halving.
 */
public class UF {

    private int[] parent;  // parent[i] = parent of i
    private byte[] rank;   // rank[i] = rank of subtree rooted at i
    private int count;     // number of components

    public UF(int n) {
        if (n < 0) throw new IllegalArgumentException();
        count = n;
        parent = new int[n];
        rank = new byte[n];
        for (int i = 0; i < n; i++) {
            parent[i] = i;
            rank[i] = 0;
        }
    }

    public int find(int p) {
        validate(p);
        while (p != parent[p]) {
            parent[p] = parent[parent[p]];    // path compression by halving
            p = parent[p];
        }
        return p;
    }

    public int count() {
        return count;
    }

    public void union(int p, int q) {
        int rootP = find(p);
        int rootQ = find(q);
        if (rootP == rootQ) return;

        // make root of smaller rank point to root of larger rank
        if      (rank[rootP] < rank[rootQ]) parent[rootP] = rootQ;
        else if (rank[rootP] > rank[rootQ]) parent[rootQ] = rootP;
        else {
            parent[rootQ] = rootP;
            rank[rootP]++;
        }
        count--;
    }

    // validate that p is a valid index
    private void validate(int p) {
        int n = parent.length;
        if (p < 0 || p >= n) {
            throw new IllegalArgumentException("index " + p + " is not between 0 and " + (n-1));
        }
    }

    private static void increment(int[] counts, int at) {
        counts[at]++;
    }

    boolean repOk() {
        if (parent == null) return false;
        int n = parent.length;
        int[] members = new int[n];
        int roots = 0;
        for (int i = 0; i < n; i++) {
            int root = i, steps = 0;
            while (root != parent[root]) {
                validate(root);
                root = parent[root];
                if (steps++ > n) return false;
            }
            increment(members, root);
        }
        for (int i = 0; i < n; i++) {
            if (members[i] > 0) {
                roots += 1;
                if (parent[i] != i) return false;
            }
        }
        return roots == count;
    }
}
