package books;

import java.util.ArrayList;
import java.util.List;

public class IntervalTree {
    /** A closed interval. */
    public record Interval(int low, int high) implements Comparable<Interval> {
        public Interval {
            if (low > high) throw new IllegalArgumentException("empty interval");
        }

        boolean overlaps(Interval other) {
            return low <= other.high && other.low <= high;
        }

        @Override
        public int compareTo(Interval other) {
            return low != other.low ? Integer.compare(low, other.low) : Integer.compare(high, other.high);
        }
    }

    private static class Node {
        Interval interval;
        int max;
        Node left;
        Node right;
    }

    private Node root;

    public List<Interval> overlapping(Interval query) {
        List<Interval> found = new ArrayList<>();
        collect(root, query, found);
        return found;
    }

    private void collect(Node node, Interval query, List<Interval> found) {
        if (node == null || node.max < query.low()) return;
        collect(node.left, query, found);
        if (node.interval.overlaps(query)) found.add(node.interval);
        collect(node.right, query, found);
    }

    boolean repOk() {
        List<Interval> all = new ArrayList<>();
        if (!isAcyclic(root, 0) || !walk(root, all)) return false;
        for (int i = 1; i < all.size(); i++) {
            if (all.get(i - 1).compareTo(all.get(i)) >= 0) return false;
        }
        return true;
    }

    private boolean isAcyclic(Node node, int depth) {
        return node == null || depth < 3 && isAcyclic(node.left, depth + 1) && isAcyclic(node.right, depth + 1);
    }

    private boolean walk(Node node, List<Interval> all) {
        if (node == null) return true;
        if (node.interval.low() > node.interval.high()) return false;
        if (!walk(node.left, all)) return false;
        all.add(node.interval);
        if (!walk(node.right, all)) return false;
        int max = node.interval.high();
        if (node.left != null) max = Math.max(max, node.left.max);
        if (node.right != null) max = Math.max(max, node.right.max);
        return node.max == max;
    }
}
