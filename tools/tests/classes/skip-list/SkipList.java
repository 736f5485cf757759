import java.util.Arrays;
import java.util.Random;

/**
 * A skip list of integers (W. Pugh). Each node stands in the lists of the levels 0 to height-1; the list of a level is a
 * part of the list of the level below it.
 */
public class SkipList {
    /** No node is higher. */
    static final int MAX_LEVEL = 2;
    static final double P = 0.5;

    static class Node {
        int key;
        Node[] forward;

        Node(int key, int height) {
            this.key = key;
            forward = new Node[height];
        }

        int height() {
            return forward.length;
        }
    }

    protected final Node head;
    protected int level;
    private final Random random = new Random();

    public SkipList() {
        head = new Node(Integer.MIN_VALUE, MAX_LEVEL);
        level = 1;
    }

    private int randomHeight() {
        int height = 1;
        while (height < MAX_LEVEL && random.nextDouble() < P) height++;
        return height;
    }

    public boolean contains(int key) {
        Node x = head;
        for (int i = level - 1; i >= 0; i--) {
            while (x.forward[i] != null && x.forward[i].key < key) x = x.forward[i];
        }
        x = x.forward[0];
        return x != null && x.key == key;
    }

    public void insert(int key) {
        Node[] update = new Node[MAX_LEVEL];
        Arrays.fill(update, head);
        Node x = head;
        for (int i = level - 1; i >= 0; i--) {
            while (x.forward[i] != null && x.forward[i].key < key) x = x.forward[i];
            update[i] = x;
        }
        x = x.forward[0];
        if (x != null && x.key == key) return;
        int height = randomHeight();
        level = Math.max(level, height);
        x = new Node(key, height);
        for (int i = 0; i < height; i++) {
            x.forward[i] = update[i].forward[i];
            update[i].forward[i] = x;
        }
    }

    /** How many nodes the list of a level has. */
    private int count(int level) {
        int count = 0;
        for (Node x = head.forward[level]; x != null; x = x.forward[level]) count++;
        return count;
    }

    public boolean repOk() {
        if (head == null || head.forward == null || head.height() != MAX_LEVEL) return false;
        if (level < 1 || level > MAX_LEVEL) return false;

        // the lowest list has all nodes, in order
        int[] heights = new int[] {0, 0, 0};
        for (Node x = head.forward[0], previous = null; x != null; previous = x, x = x.forward[0]) {
            if (x.forward == null || x.height() == 0 || x.height() > level) return false;
            if (previous != null && previous.key >= x.key) return false;
            heights[x.height()]++;
        }

        // each higher list is made of the nodes that are as high
        for (int i = 1; i < MAX_LEVEL; i++) {
            Node below = head;
            for (Node x = head.forward[i]; x != null; x = x.forward[i]) {
                do {
                    below = below.forward[0];
                } while (below != null && below != x);
                if (below == null) return false;
            }
            int higher = 0;
            for (int height = i + 1; height <= MAX_LEVEL; height++) higher += heights[height];
            if (count(i) != higher) return false;
            if (i >= level && higher > 0) return false;
        }
        return level == 1 || count(level - 1) > 0;
    }
}
