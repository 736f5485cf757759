package books;

import java.util.HashSet;
import java.util.Set;

public class BinomialHeap {
    public static class BinomialNode {
        protected int key;
        protected int degree;
        protected BinomialNode parent, child, sibling;

        private int count() {
            int n = 1;
            for (BinomialNode c = child; c != null; c = c.sibling) n += c.count();
            return n;
        }

        public boolean precedes(BinomialNode that) {
            return this.degree < that.degree;
        }
    }

    private BinomialNode head;
    private int size;

    protected static void link(BinomialNode y, BinomialNode z) {
        y.parent = z;
        y.sibling = z.child;
        z.child = y;
        z.degree += 1;
    }

    public boolean repOk() {
        Set<BinomialNode> nodes = new HashSet<>();
        int total = 0;
        BinomialNode before = null;
        for (BinomialNode n = head; n != null; n = n.sibling) {
            if (n.parent != null) return false;
            if (before != null && !before.precedes(n)) return false;
            if (!isBinomialTree(n, n.degree, nodes)) return false;
            total += n.count();
            before = n;
        }
        return total == size;
    }

    private static boolean isBinomialTree(BinomialNode n, int degree, Set<BinomialNode> nodes) {
        if (n == null || n.degree != degree || !nodes.add(n)) return false;
        int expected = degree - 1;
        for (BinomialNode c = n.child; c != null; c = c.sibling, expected--) {
            if (c.parent != n || c.key < n.key) return false;
            if (!isBinomialTree(c, expected, nodes)) return false;
        }
        return expected == -1;
    }
}
