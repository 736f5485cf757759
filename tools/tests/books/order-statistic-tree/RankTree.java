package books;

import java.util.ArrayList;
import java.util.Collections;
import java.util.Comparator;
import java.util.List;

public class RankTree<K extends Comparable<K>> {
    private static class Node<K> {
        K key;
        Node<K> left, right;
        int size;
    }

    private Node<K> root;
    private boolean descending;

    private int compare(K a, K b) {
        return descending ? b.compareTo(a) : a.compareTo(b);
    }

    private int size(Node<K> node) {
        return node != null ? node.size : 0;
    }

    public K select(int rank) {
        if (rank < 0 || rank >= size(root)) throw new IndexOutOfBoundsException(String.valueOf(rank));
        return select(root, rank).key;
    }

    private Node<K> select(Node<K> node, int rank) {
        int left = size(node.left);
        if (rank < left) return select(node.left, rank);
        if (rank > left) return select(node.right, rank - left - 1);
        return node;
    }

    private void collect(Node<K> node, List<? super K> keys) {
        if (node == null) return;
        collect(node.left, keys);
        keys.add(node.key);
        collect(node.right, keys);
    }

    private boolean sizesAreRight(Node<K> node) {
        return node == null || node.size == 1 + size(node.left) + size(node.right)
                && sizesAreRight(node.left) && sizesAreRight(node.right);
    }

    boolean repOk() {
        if (!sizesAreRight(root)) return false;
        List<K> keys = new ArrayList<>(size(root));
        collect(root, keys);
        for (int rank = 0; rank < keys.size(); rank++) {
            if (rank > 0 && compare(keys.get(rank - 1), keys.get(rank)) >= 0) return false;
            if (!select(rank).equals(keys.get(rank))) return false;
        }
        return true;
    }
}
