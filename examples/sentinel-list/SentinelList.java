// A singly linked list between two sentinels: one before the first node, one after the last.
class Node {
    Node next;
}

class SentinelList {
    Node head;
    Node tail;
    int size;

    boolean repOk() {
        int count = 0;
        for (Node node = head.next; node != tail; node = node.next) {
            if (node == null || count == size) return false;
            count++;
        }
        return count == size && tail.next == null;
    }

    // Takes the first node out.
    //@ requires size > 0;
    //@ ensures size == \old(size) - 1;
    void removeFirst() {
        head.next = head.next.next;
        size--;
    }
}
