package cs.sets;

import java.util.*;

/** Disjoint sets as linked lists (CLRS 21.2), with the weighted-union heuristic. */
public final class DisjointSets {
    /** A set: its first and last element, and how many there are. */
    protected class ListSet {
        protected Element head, tail;
        protected int size = 0;

        protected boolean isEmpty() { return size == 0; }
    }

    protected static final class Element {
        ListSet set;
        Element next;
        final int rank;

        Element(int rank) { this.rank = rank; }

        public String toString() { return "Element " + rank; }
    }

    private ListSet first, second;

    public void union(Element x, Element y) {
        ListSet a = x.set, b = y.set;
        if (a == b) return;
        if (a.size < b.size) { ListSet t = a; a = b; b = t; }
        a.tail.next = b.head;
        a.tail = b.tail;
        for (Element e = b.head; e != null; e = e.next) e.set = a;
        a.size += b.size;
        b.size = 0;
        b.head = b.tail = null;
    }

    boolean repOk() {
        if (first == null || second == null || first == second) return false;
        final IdentityHashMap<Element, ListSet> owner = new IdentityHashMap<>();
        for (ListSet set : new ListSet[] { first, second }) {
            if (set.isEmpty() != (set.head == null) || (set.head == null) != (set.tail == null)) return false;
            int count = 0;
            Element last = null;
            for (Element e = set.head; e != null; last = e, e = e.next) {
                if (owner.put(e, set) != null || e.set != set) return false;
                count++;
            }
            if (last != set.tail || count != set.size) return false;
        }
        return true;
    }
}
