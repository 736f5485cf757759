import java.util.ArrayList;
import java.util.LinkedList;
import java.util.List;
import java.util.Queue;

/**
 * A symbol table with string keys, by a ternary search trie. A node has a character and three links: for smaller characters,
 * for the next character of the key, and for greater ones.
 *
 * @param <Value> the type of the values
 */
public class TST<Value> {
    private int n;              // size
    private Node<Value> root;   // root of TST

    private static class Node<Value> {
        private char c;                        // character
        private Node<Value> left, mid, right;  // left, middle, and right subtries
        private Value val;                     // value associated with string
    }

    public TST() {
    }

    public int size() {
        return n;
    }

    public boolean contains(String key) {
        if (key == null) {
            throw new IllegalArgumentException("argument to contains() is null");
        }
        return get(key) != null;
    }

    public Value get(String key) {
        if (key.length() == 0) throw new IllegalArgumentException("key must have length >= 1");
        Node<Value> x = get(root, key, 0);
        if (x == null) return null;
        return x.val;
    }

    private Node<Value> get(Node<Value> x, String key, int d) {
        if (x == null) return null;
        char c = key.charAt(d);
        if      (c < x.c)              return get(x.left,  key, d);
        else if (c > x.c)              return get(x.right, key, d);
        else if (d < key.length() - 1) return get(x.mid,   key, d+1);
        else                           return x;
    }

    public void put(String key, Value val) {
        if (!contains(key)) n++;
        else if (val == null) n--;       // delete existing key
        root = put(root, key, val, 0);
    }

    private Node<Value> put(Node<Value> x, String key, Value val, int d) {
        char c = key.charAt(d);
        if (x == null) {
            x = new Node<Value>();
            x.c = c;
        }
        if      (c < x.c)              x.left  = put(x.left,  key, val, d);
        else if (c > x.c)              x.right = put(x.right, key, val, d);
        else if (d < key.length() - 1) x.mid   = put(x.mid,   key, val, d+1);
        else                           x.val   = val;
        return x;
    }

    public Iterable<String> keys() {
        Queue<String> queue = new LinkedList<>();
        collect(root, new StringBuilder(), queue);
        return queue;
    }

    private void collect(Node<Value> x, StringBuilder prefix, Queue<String> queue) {
        if (x == null) return;
        collect(x.left,  prefix, queue);
        if (x.val != null) queue.add(prefix.toString() + x.c);
        prefix.append(x.c);
        collect(x.mid,   prefix, queue);
        prefix.deleteCharAt(prefix.length() - 1);
        collect(x.right, prefix, queue);
    }

    /** No node is met twice, characters are in order, no subtrie is without a value, and the size is right. */
    public boolean repOk() {
        List<Node<Value>> visited = new ArrayList<>();
        if (!isTrie(root, Character.MIN_VALUE, Character.MAX_VALUE, visited)) return false;
        int values = 0;
        for (Node<Value> x : visited) {
            if (x.val != null) ++values;
            else if (x.mid == null) return false;
        }
        return values == n;
    }

    private boolean isTrie(Node<Value> x, char lo, char hi, List<Node<Value>> visited) {
        if (x == null) return true;
        for (Node<Value> other : visited)
            if (other == x) return false;
        visited.add(x);
        return x.c >= lo && x.c <= hi
            && (x.c == 0 || isTrie(x.left, lo, (char) (x.c - 1), visited))
            && isTrie(x.right, (char) (x.c + 1), hi, visited)
            && isTrie(x.mid, Character.MIN_VALUE, Character.MAX_VALUE, visited);
    }
}
