package books;

import java.util.Stack;

public class ThreadedTree {
    static class Node {
        int info;
        Node left, right;
        boolean threaded; // right is the successor

        Node child() {
            return threaded ? null : right;
        }
    }

    Node root;

    boolean repOk() {
        Stack<Node> path = new Stack<>();
        Stack<Node> visited = new Stack<>();
        Node p = root, last = null;
        while (p != null || !path.isEmpty()) {
            if (p != null) {
                if (visited.search(p) != -1) return false;
                visited.push(p);
                path.push(p);
                p = p.left;
                continue;
            }
            p = path.pop();
            if (last != null) {
                if (last.info >= p.info) return false;
                if (last.threaded && last.right != p) return false;
            }
            last = p;
            p = p.child();
        }
        return last == null || !last.threaded && last.right == null;
    }
}
