package books;

import java.util.Iterator;
import java.util.NoSuchElementException;

public class LinkedDeque<Item> implements Iterable<Item> {
    private class Link {
        Item item;
        Link before, after;
    }

    private Link first, last;
    private int count;

    public void addLast(Item item) {
        if (item == null) throw new IllegalArgumentException();
        Link link = new Link();
        link.item = item;
        link.before = last;
        if (last == null) first = link;
        else last.after = link;
        last = link;
        count++;
    }

    public Iterator<Item> iterator() {
        return new ForwardIterator();
    }

    private class ForwardIterator implements Iterator<Item> {
        private Link current = first;
        private int left = count;

        @Override
        public boolean hasNext() {
            return left > 0;
        }

        @Override
        public Item next() {
            if (!hasNext()) throw new NoSuchElementException();
            Item item = current.item;
            current = current.after;
            left--;
            return item;
        }

        @Override
        public void remove() {
            throw new UnsupportedOperationException();
        }
    }

    boolean repOk() {
        if (count == 0) return first == null && last == null;
        int seen = 0;
        for (Item item : this) {
            if (item == null) return false;
            seen++;
        }
        if (seen != count) return false;
        Link link = first;
        if (link.before != null) return false;
        for (int i = 1; i < count; i++) {
            if (link.after.before != link) return false;
            link = link.after;
        }
        return link == last && last.after == null;
    }
}
