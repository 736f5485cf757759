import java.util.*;

public class FibonacciHeap {
    public static class Node {
        private Node parent, left = this, right = this, child;
        private int degree = 0;
        private boolean mark = false;
        double unused;
        private int key;

        public Node(int key) { this.key = key; }

        boolean isRoot() { return parent == null; }
    }

    private Node min;
    private int n;
    private static final double PHI = (1 + Math.sqrt(5)) / 2;

    public Node insert(int key) {
        Node x = new Node(key);
        if (min != null) {
            x.left = min;
            x.right = min.right;
            min.right = x;
            x.right.left = x;
            if (key < min.key) min = x;
        } else {
            min = x;
        }
        n++;
        return x;
    }

    protected void consolidate() {
        int size = (int) Math.floor(Math.log(n) / Math.log(PHI)) + 1;
        List<Node> array = new ArrayList<Node>(size);
        for (int i = 0; i < size; i++) array.add(null);
    }

    public boolean repOk() {
        if (min == null) return n == 0;
        HashSet<Node> seen = new HashSet<Node>();
        Stack<Node> todo = new Stack<>();
        todo.push(min);
        while (!todo.empty()) {
            Node start = todo.pop();
            Node x = start;
            int degree = 0;
            do {
                if (!seen.add(x)) return false;
                if (x.right == null || x.right.left != x || x.parent != start.parent) return false;
                if (x.key < (x.isRoot() ? min.key : x.parent.key)) return false;
                if (x.isRoot() && x.mark) return false;
                if (x.child != null) {
                    if (x.child.parent != x) return false;
                    todo.push(x.child);
                } else if (x.degree != 0) {
                    return false;
                }
                degree++;
                x = x.right;
            } while (x != start);
            if (start.parent != null && start.parent.degree != degree) return false;
        }
        return min.isRoot() && seen.size() == n;
    }
}
