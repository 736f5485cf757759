import java.util.ArrayList;
import java.util.LinkedList;
import java.util.List;
import java.util.Queue;

/** Words over a small alphabet; each node has a child for each letter that goes on from it. */
public class Trie {
    /** The letters are FIRST, and those behind it. */
    private static final char FIRST = 'a';
    private static final int R = 'b' - 'a' + 1;

    private static class Node {
        private char letter;
        private boolean isWord;
        private Node[] next = new Node[R];
    }

    private Node root = new Node();
    private int words;

    public boolean contains(String key) {
        Node x = get(root, key, 0);
        return x != null && x.isWord;
    }

    private Node get(Node x, String key, int d) {
        if (x == null) return null;
        if (d == key.length()) return x;
        char c = key.charAt(d);
        return get(x.next[c - FIRST], key, d + 1);
    }

    public void add(String key) {
        if (key == null) throw new IllegalArgumentException("argument to add() is null");
        root = add(root, key, 0);
    }

    private Node add(Node x, String key, int d) {
        if (x == null) x = new Node();
        if (d == key.length()) {
            if (!x.isWord) words++;
            x.isWord = true;
        } else {
            char c = key.charAt(d);
            x.next[c - FIRST] = add(x.next[c - FIRST], key, d + 1);
            x.next[c - FIRST].letter = c;
        }
        return x;
    }

    public Iterable<String> keys() {
        List<String> results = new ArrayList<>();
        collect(root, new StringBuilder(), results);
        return results;
    }

    private void collect(Node x, StringBuilder prefix, List<String> results) {
        if (x == null) return;
        if (x.isWord) results.add(prefix.toString());
        for (char c = FIRST; c < FIRST + R; c++) {
            prefix.append(c);
            collect(x.next[c - FIRST], prefix, results);
            prefix.deleteCharAt(prefix.length() - 1);
        }
    }

    private static boolean hasChild(Node node) {
        for (Node child : node.next) {
            if (child != null) return true;
        }
        return false;
    }

    boolean repOk() {
        if (root == null || root.letter != '\0') return false;
        int found = 0;
        List<Node> seen = new ArrayList<Node>();
        List<Node[]> arrays = new ArrayList<Node[]>();
        Queue<Node> queue = new LinkedList<Node>();
        queue.add(root);
        seen.add(root);
        while (queue.peek() != null) {
            Node node = queue.remove();
            if (node.next == null || node.next.length != R || arrays.contains(node.next)) return false;
            arrays.add(node.next);
            if (node.isWord) ++found;
            else if (node != root && !hasChild(node)) return false;
            char letter = FIRST;
            for (Node child : node.next) {
                if (child != null) {
                    if (seen.contains(child) || child.letter != letter) return false;
                    seen.add(child);
                    queue.add(child);
                }
                letter++;
            }
        }
        return seen.get(0) == root && found == words;
    }
}
