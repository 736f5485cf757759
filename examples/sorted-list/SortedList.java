// A singly linked list of integers in ascending order, with its size.
class Node {
    int value;
    Node next;
}

class SortedList {
    Node head;
    int size;

    boolean repOk() {
        int count = 0;
        for (Node node = head; node != null; node = node.next) {
            count++;
            if (count > size) return false;
            if (node.next != null && node.value > node.next.value) return false;
        }
        return count == size;
    }

    boolean contains(int value) {
        for (Node node = head; node != null; node = node.next) {
            if (node.value == value) return true;
        }
        return false;
    }

    // Puts a value where it belongs.
    //@ ensures size == \old(size) + 1;
    //@ ensures contains(value);
    void insert(int value) {
        Node entry = new Node();
        entry.value = value;
        size++;
        if (head == null || value <= head.value) {
            entry.next = head;
            head = entry;
            return;
        }
        Node before = head;
        while (before.next != null && before.next.value < value) before = before.next;
        entry.next = before.next;
        before.next = entry;
    }

    // The same, wrong on purpose: it never looks at the head.
    //@ ensures size == \old(size) + 1;
    //@ ensures contains(value);
    void insertBehind(int value) {
        Node entry = new Node();
        entry.value = value;
        size++;
        Node before = head;
        while (before.next != null && before.next.value < value) before = before.next;
        entry.next = before.next;
        before.next = entry;
    }
}
