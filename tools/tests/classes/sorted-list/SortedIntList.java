import java.util.function.IntConsumer;

/** Integers in ascending order, between two sentinels that are less and greater than all of them. */
public final class SortedIntList {
    private static final int LOWEST = Integer.MIN_VALUE, HIGHEST = Integer.MAX_VALUE;

    private final class Node {
        int value;
        Node next;

        Node(int value, Node next) {
            this.value = value;
            this.next = next;
        }
    }

    private Node head = new Node(LOWEST, new Node(HIGHEST, null));
    private int size;

    public boolean insert(int value) {
        if (value == LOWEST || value == HIGHEST) {
            throw new IllegalArgumentException("reserved: " + value);
        }
        Node before = findBefore(value);
        if (before.next.value == value) return false;
        before.next = new Node(value, before.next);
        ++size;
        return true;
    }

    public boolean delete(int value) {
        Node before = findBefore(value);
        if (before.next.value != value || value == HIGHEST) return false;
        before.next = before.next.next;
        --size;
        return true;
    }

    private Node findBefore(int value) {
        Node node = head;
        while (node.next.value < value) node = node.next;
        return node;
    }

    public void forEach(IntConsumer action) {
        for (Node node = head.next; node.value != HIGHEST; node = node.next) action.accept(node.value);
    }

    private boolean isSorted() {
        return isSorted(head);
    }

    private boolean isSorted(Node from) {
        return from.next == null || from.value < from.next.value && isSorted(from.next);
    }

    private int length() {
        int length = 0;
        for (Node slow = head, fast = head; slow != null; slow = slow.next, length++) {
            if (fast != null) fast = fast.next;
            if (fast != null) fast = fast.next;
            if (fast != null && fast == slow) return -1;
        }
        return length;
    }

    private Node last() {
        Node last = head;
        while (last.next != null) last = last.next;
        return last;
    }

    public boolean repOk() {
        if (head == null || head.value != LOWEST) return false;
        if (length() != size + 2) return false;
        if (!isSorted()) return false;
        return last().value == HIGHEST;
    }
}
