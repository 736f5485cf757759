import java.util.HashSet;

// A circular doubly linked list with a header entry, as java.util.LinkedList once was.
class DoublyLinkedList {
    static class Entry {
        int element;
        Entry next;
        Entry previous;
    }

    Entry header;
    int size;

    boolean repOk() {
        if (header == null) return false;
        HashSet<Entry> visited = new HashSet<Entry>();
        Entry entry = header;
        do {
            if (!visited.add(entry)) return false;
            Entry next = entry.next;
            if (next == null || next.previous != entry) return false;
            entry = next;
        } while (entry != header);
        return visited.size() - 1 == size;
    }
}
