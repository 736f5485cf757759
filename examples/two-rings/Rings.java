// Two rings of nodes that share no node.
class Node {
    Node next;
}

class Rings {
    Node left;
    Node right;
    int size;

    // The number of nodes in the ring from a node on; -1 where it comes by the other ring's node, or doesn't close.
    int count(Node first, Node other) {
        int count = 1;
        for (Node node = first.next; node != first; node = node.next) {
            if (node == other || count == size) return -1;
            count++;
        }
        return count;
    }

    boolean repOk() {
        int nodes = count(left, right);
        return nodes > 0 && nodes + count(right, left) == size;
    }

    // Moves a node from the left ring to the right one.
    //@ requires left.next != left;
    //@ ensures count(left, right) == \old(count(left, right)) - 1;
    //@ ensures count(right, left) == \old(count(right, left)) + 1;
    void move() {
        Node moved = left.next;
        left.next = moved.next;
        moved.next = right.next;
        right.next = moved;
    }
}
