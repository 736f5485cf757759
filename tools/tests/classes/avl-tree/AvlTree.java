/** An AVL tree of integers: the heights of the two subtrees of a node differ by at most one. */
public class AvlTree {

    private static final int ALLOWED_IMBALANCE = 1;

    private static class AvlNode {
        AvlNode(int element) { this(element, null, null); }

        AvlNode(int element, AvlNode lt, AvlNode rt) {
            this.element = element;
            left = lt;
            right = rt;
            height = 0;
        }

        int element;       // The data in the node
        AvlNode left;      // Left child
        AvlNode right;     // Right child
        byte height;       // Height
    }

    private AvlNode root;

    public AvlTree() {
        root = null;
    }

    public void insert(int x) {
        root = insert(x, root);
    }

    public boolean contains(int x) {
        return contains(x, root);
    }

    public void makeEmpty() {
        root = null;
    }

    public void printTree() {
        if (root == null)
            System.out.println("Empty tree");
        else
            printTree(root);
    }

    private AvlNode insert(int x, AvlNode t) {
        if (t == null)
            return new AvlNode(x);
        int compareResult = Integer.compare(x, t.element);
        if (compareResult < 0)
            t.left = insert(x, t.left);
        else if (compareResult > 0)
            t.right = insert(x, t.right);
        else
            ; // Duplicate; do nothing
        return balance(t);
    }

    private AvlNode balance(AvlNode t) {
        if (t == null)
            return t;
        if (height(t.left) - height(t.right) > ALLOWED_IMBALANCE)
            if (height(t.left.left) >= height(t.left.right))
                t = rotateWithLeftChild(t);
            else
                t = doubleWithLeftChild(t);
        else if (height(t.right) - height(t.left) > ALLOWED_IMBALANCE)
            t = doubleWithLeftChild(t);
        t.height = (byte) (Math.max(height(t.left), height(t.right)) + 1);
        return t;
    }

    private AvlNode rotateWithLeftChild(AvlNode k2) {
        AvlNode k1 = k2.left;
        k2.left = k1.right;
        k1.right = k2;
        k2.height = (byte) (Math.max(height(k2.left), height(k2.right)) + 1);
        k1.height = (byte) (Math.max(height(k1.left), k2.height) + 1);
        return k1;
    }

    private AvlNode doubleWithLeftChild(AvlNode k3) {
        return rotateWithLeftChild(k3);
    }

    private boolean contains(int x, AvlNode t) {
        while (t != null) {
            if (x < t.element)
                t = t.left;
            else if (x > t.element)
                t = t.right;
            else
                return true; // Match
        }
        return false;
    }

    private void printTree(AvlNode t) {
        if (t != null) {
            printTree(t.left);
            System.out.println(t.element);
            printTree(t.right);
        }
    }

    /** Return the height of node t, or -1, if null. */
    private int height(AvlNode t) {
        return t == null ? -1 : t.height;
    }

    /** Thrown by the check of balance; the tree is not what it should be. */
    private static class BadTree extends RuntimeException {
        BadTree(String message, AvlNode at) {
            super(message + " at " + at.element);
        }
    }

    // The true height; each subtree is checked on the way.
    private int checkBalance(AvlNode t, int depth) {
        if (t == null)
            return -1;
        if (depth > 10)
            throw new BadTree("OOPS: a cycle", t);
        int hl = checkBalance(t.left, depth + 1);
        int hr = checkBalance(t.right, depth + 1);
        if (Math.abs(hl - hr) > ALLOWED_IMBALANCE)
            throw new BadTree("OOPS: unbalanced", t);
        int h = 1 + Math.max(hl, hr);
        if (h != t.height)
            throw new BadTree("OOPS: height " + t.height + ", not " + h, t);
        return h;
    }

    private long lastSeen;

    private static boolean inOrder(AvlNode t, int low, int high) {
        return t == null
                || low <= t.element && t.element <= high
                        && inOrder(t.left, low, t.element - 1)
                        && inOrder(t.right, t.element + 1, high);
    }

    boolean repOk() {
        try {
            checkBalance(root, 0);
        } catch (BadTree bad) {
            return false;
        }
        return inOrder(root, Integer.MIN_VALUE, Integer.MAX_VALUE);
    }
}
