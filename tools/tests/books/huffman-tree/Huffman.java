import java.util.Comparator;
import java.util.PriorityQueue;

public class Huffman {
    // Huffman trie node
    private static class Node implements Comparable<Node> {
        private final char ch;
        private final int freq;
        private final Node left, right;

        Node(char ch, int freq, Node left, Node right) {
            this.ch    = ch;
            this.freq  = freq;
            this.left  = left;
            this.right = right;
        }

        // is the node a leaf node?
        private boolean isLeaf() {
            assert ((left == null) && (right == null)) || ((left != null) && (right != null));
            return (left == null) && (right == null);
        }

        // compare, based on frequency
        public int compareTo(Node that) {
            return this.freq - that.freq;
        }
    }

    private Node root;

    private static Node buildTrie(int[] freq) {
        PriorityQueue<Node> pq = new PriorityQueue<Node>();
        for (char c = 0; c < freq.length; c++)
            if (freq[c] > 0)
                pq.add(new Node(c, freq[c], null, null));
        while (pq.size() > 1) {
            Node left  = pq.poll();
            Node right = pq.poll();
            Node parent = new Node('\0', left.freq + right.freq, left, right);
            pq.add(parent);
        }
        return pq.poll();
    }

    public boolean repOk() {
        return isTrie(root) && symbols(root, new boolean[256]);
    }

    private static boolean isTrie(Node x) {
        if (x.isLeaf()) return x.ch != '\0';
        if (x.ch != 0 || x.freq != x.left.freq + x.right.freq) return false;
        if (x.left.compareTo(x.right) > 0) return false;
        return isTrie(x.left) && isTrie(x.right);
    }

    /** Each symbol once. */
    private static boolean symbols(Node x, boolean[] used) {
        if (!x.isLeaf()) return symbols(x.left, used) && symbols(x.right, used);
        if (used[x.ch]) return false;
        return used[x.ch] = true;
    }
}
