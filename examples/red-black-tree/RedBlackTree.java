import java.util.HashSet;
import java.util.LinkedList;

// A red-black tree of different integers, with parents, as java.util.TreeMap is one.
class RedBlackTree {
    static final boolean RED = false;
    static final boolean BLACK = true;

    static class Entry {
        int key;
        boolean color;
        Entry left;
        Entry right;
        Entry parent;
    }

    Entry root;
    int size;

    boolean repOk() {
        if (root == null) return size == 0;
        if (root.parent != null || root.color != BLACK) return false;
        if (!isTree()) return false;
        return blackHeight(root) >= 0 && isOrdered(root, null, null);
    }

    // No entry is reached twice, each is its children's parent, and there are as many as the size says.
    private boolean isTree() {
        HashSet<Entry> seen = new HashSet<Entry>();
        LinkedList<Entry> work = new LinkedList<Entry>();
        seen.add(root);
        work.add(root);
        while (!work.isEmpty()) {
            Entry entry = work.removeFirst();
            Entry child = entry.left;
            if (child != null) {
                if (!seen.add(child) || child.parent != entry) return false;
                work.add(child);
            }
            child = entry.right;
            if (child != null) {
                if (!seen.add(child) || child.parent != entry) return false;
                work.add(child);
            }
        }
        return seen.size() == size;
    }

    // How many black entries stand on each path down; -1 where paths differ or a red entry has a red child.
    private static int blackHeight(Entry entry) {
        if (entry == null) return 0;
        if (entry.color == RED) {
            if (entry.left != null && entry.left.color == RED) return -1;
            if (entry.right != null && entry.right.color == RED) return -1;
        }
        int left = blackHeight(entry.left);
        int right = blackHeight(entry.right);
        if (left < 0 || left != right) return -1;
        return entry.color == BLACK ? left + 1 : left;
    }

    private static boolean isOrdered(Entry entry, Entry above, Entry below) {
        if (entry == null) return true;
        if (above != null && entry.key <= above.key) return false;
        if (below != null && entry.key >= below.key) return false;
        return isOrdered(entry.left, above, entry) && isOrdered(entry.right, entry, below);
    }
}
