package books;

public class TwoThreeTree {
    private static class Node {
        Integer small;
        Integer large;
        Node left, middle, right;

        boolean isLeaf() {
            return left == null && middle == null && right == null;
        }

        boolean isThreeNode() {
            return large != null;
        }
    }

    private Node root;

    boolean repOk() {
        return root == null || height(root, Integer.MIN_VALUE, Integer.MAX_VALUE) >= 0;
    }

    /** The height of a well-formed subtree with keys between two bounds, or -1. */
    private int height(Node n, int low, int high) {
        if (n == null || n.small == null || n.small <= low || n.small >= high) return -1;
        if (n.isThreeNode() && (n.large <= n.small || n.large >= high)) return -1;
        if (n.isLeaf()) return 0;
        int left = height(n.left, low, n.small);
        if (left < 0) return -1;
        if (!n.isThreeNode()) {
            return n.middle == null && height(n.right, n.small, high) == left ? left + 1 : -1;
        }
        return height(n.middle, n.small, n.large) == left && height(n.right, n.large, high) == left ? left + 1 : -1;
    }
}
