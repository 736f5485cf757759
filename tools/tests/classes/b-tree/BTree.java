import java.util.ArrayList;
import java.util.HashSet;
import java.util.List;
import java.util.Objects;
import java.util.Set;

/** A B-tree of minimum degree T (Cormen et al.): a node but the root has from T-1 to 2T-1 keys. */
public class BTree {
    static final int T = 2;
    static final int MAX_KEYS = 2 * T - 1;

    static class BTreeNode {
        int n;                  // the number of keys
        Integer[] keys;         // ascending
        BTreeNode[] children;   // n + 1 of them, or null in a leaf

        BTreeNode(boolean leaf) {
            keys = new Integer[MAX_KEYS];
            children = leaf ? null : new BTreeNode[MAX_KEYS + 1];
        }

        boolean isLeaf() {
            return children == null;
        }
    }

    private BTreeNode root = new BTreeNode(true);

    public boolean contains(Integer key) {
        return search(root, Objects.requireNonNull(key)) != null;
    }

    private BTreeNode search(BTreeNode x, Integer key) {
        int i = 0;
        while (i < x.n && key > x.keys[i]) i++;
        if (i < x.n && key.equals(x.keys[i])) return x;
        return x.isLeaf() ? null : search(x.children[i], key);
    }

    /** The depth of all leaves below, or -1 where they differ or a node is broken. */
    private int depth(BTreeNode node, Set<BTreeNode> seen, List<Integer> inOrder) {
        if (node == null || !seen.add(node) || node.keys == null) return -1;
        if (node.n > MAX_KEYS || node.n > node.keys.length) return -1;
        if (node.n < (node == root ? 0 : T - 1)) return -1;
        if (node.isLeaf()) {
            for (int i = 0; i < node.n; i++) inOrder.add(node.keys[i]);
            return 0;
        }
        if (node.n == 0 || node.children.length < node.n + 1) return -1;
        int below = depth(node.children[0], seen, inOrder);
        for (int i = 0; i < node.n; i++) {
            inOrder.add(node.keys[i]);
            int next = depth(node.children[i + 1], seen, inOrder);
            if (next != below) return -1;
        }
        return below < 0 ? -1 : below + 1;
    }

    public boolean repOk() {
        List<Integer> keys = new ArrayList<>(100);
        if (depth(root, new HashSet<>(), keys) < 0) return false;
        Integer previous = null;
        for (Integer key : keys) {
            if (key == null) return false;
            if (previous != null && previous.compareTo(key) >= 0) return false;
            previous = key;
        }
        boolean[] used = new boolean[100];
        for (int key : keys) {
            if (used[key]) return false;
            used[key] = true;
        }
        return true;
    }
}
