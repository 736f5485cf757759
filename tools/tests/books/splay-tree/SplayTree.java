package books;

import java.util.Comparator;
import java.util.HashSet;
import java.util.LinkedList;
import java.util.Queue;
import java.util.Set;

public class SplayTree<T extends Comparable<T>> {
    private static class Node<T extends Comparable<T>> {
        private T data;
        private Node<T> parent;
        private Node<T> left;
        private Node<T> right;

        public Node(T data) {
            this.data = data;
        }
    }

    private Node<T> root;
    private int size;

    private void splay(Node<T> x) {
        while (x.parent != null) {
            if (x.parent.parent == null) {
                if (x == x.parent.left) rightRotate(x.parent);
                else leftRotate(x.parent);
            } else {
                leftRotate(x.parent);
            }
        }
    }

    private void leftRotate(Node<T> x) {
        Node<T> y = x.right;
        x.right = y.left;
        if (y.left != null) y.left.parent = x;
        y.parent = x.parent;
        if (x.parent == null) this.root = y;
        else if (x == x.parent.left) x.parent.left = y;
        else x.parent.right = y;
        y.left = x;
        x.parent = y;
    }

    private void rightRotate(Node<T> x) {
        Node<T> y = x.left;
        x.left = y.right;
        y.right = x;
    }

    public boolean repOk() {
        if (root == null) return size == 0;
        if (root.parent != null) return false;
        final Set<Node<T>> visited = new HashSet<Node<T>>();
        final Queue<Node<T>> queue = new LinkedList<Node<T>>();
        visited.add(root);
        queue.add(root);
        while (!queue.isEmpty()) {
            Node<T> current = queue.remove();
            for (int side = 0; side < 2; side++) {
                Node<T> child = side == 0 ? current.left : current.right;
                if (child == null) continue;
                if (child.parent != current || !visited.add(child)) return false;
                int order = child.data.compareTo(current.data);
                if (side == 0 && order >= 0 || side == 1 && order <= 0) return false;
                queue.offer(child);
            }
        }
        return visited.size() == size && inOrder(root, null) != null;
    }

    /** The greatest element, or null where the elements don't ascend. */
    private T inOrder(Node<T> n, T before) {
        T last = before;
        if (n.left != null) {
            last = inOrder(n.left, before);
            if (last == null) return null;
        }
        if (last != null && last.compareTo(n.data) >= 0) return null;
        last = n.data;
        return n.right == null ? last : inOrder(n.right, last);
    }
}
