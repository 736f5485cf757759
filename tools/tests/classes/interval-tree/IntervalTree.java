import java.util.ArrayList;
import java.util.List;

/** Intervals in a search tree by their low ends; each node knows the greatest high end below it. */
public class IntervalTree {

    /** The integers from low to high, both included. */
    public static class Interval implements Comparable<Interval> {
        final int low;
        final int high;

        public Interval(int low, int high) {
            if (low > high) throw new IllegalArgumentException(low + " > " + high);
            this.low = low;
            this.high = high;
        }

        boolean intersects(Interval that) {
            return this.low <= that.high && that.low <= this.high;
        }

        boolean isValid() {
            return low <= high;
        }

        @Override
        public int compareTo(Interval that) {
            if (low != that.low) return low < that.low ? -1 : +1;
            return Integer.compare(high, that.high);
        }

        @Override
        public boolean equals(Object other) {
            if (!(other instanceof Interval)) return false;
            Interval that = (Interval) other;
            return low == that.low && high == that.high;
        }

        @Override
        public int hashCode() {
            return 31 * low + high;
        }

        @Override
        public String toString() {
            return "[" + low + ".." + high + "]";
        }
    }

    private static class Node {
        Interval interval;
        int max;
        Node left;
        Node right;
    }

    private Node root;

    public List<Interval> all(Interval query) {
        List<Interval> found = new ArrayList<>();
        collect(root, query, found::add);
        return found;
    }

    private static void collect(Node node, Interval query, java.util.function.Consumer<Interval> consumer) {
        if (node == null || node.max < query.low) return;
        collect(node.left, query, consumer);
        if (node.interval.intersects(query)) consumer.accept(node.interval);
        collect(node.right, query, consumer);
    }

    private static int max(Node node) {
        return node == null ? Integer.MIN_VALUE : node.max;
    }

    private static int max(int a, int b, int c) {
        return Math.max(a, Math.max(b, c));
    }

    private static boolean isAcyclic(Node node, List<Node> path) {
        if (node == null) return true;
        if (path.contains(node)) return false;
        path.add(node);
        boolean result = isAcyclic(node.left, path) && isAcyclic(node.right, path);
        return result;
    }

    private static void inorder(Node node, List<Interval> intervals) {
        if (node == null) return;
        inorder(node.left, intervals);
        intervals.add(node.interval);
        inorder(node.right, intervals);
    }

    private static boolean maxOk(Node node) {
        if (node == null) return true;
        return node.max == max(node.interval.high, max(node.left), max(node.right)) && maxOk(node.left) && maxOk(node.right);
    }

    boolean repOk() {
        if (!isAcyclic(root, new ArrayList<>())) return false;
        List<Interval> intervals = new ArrayList<>();
        inorder(root, intervals);
        for (Interval interval : intervals) {
            if (interval == null || !interval.isValid()) return false;
        }
        for (int i = 1; i < intervals.size(); i++) {
            if (intervals.get(i - 1).compareTo(intervals.get(i)) >= 0) return false;
            if (intervals.indexOf(intervals.get(i)) != i) return false;
        }
        return maxOk(root);
    }
}
