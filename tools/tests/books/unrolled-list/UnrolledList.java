package books;

public class UnrolledList {
    private static final int CAPACITY = 2;

    private static final class Block {
        private int used;
        private final Integer[] items = new Integer[CAPACITY];
        private Block next;

        private boolean isFilledInFront() {
            for (int i = 0; i < items.length; i++) {
                if (i < used && items[i] == null) return false;
                if (i >= used && items[i] != null) return false;
            }
            return true;
        }
    }

    private Block first;
    private int size;

    public void add(int item) {
        Block last = first;
        while (last != null && last.next != null) last = last.next;
        if (last == null || last.used == CAPACITY) {
            Block block = new Block();
            if (last == null) first = block;
            else last.next = block;
            last = block;
        }
        last.items[last.used++] = item;
        size++;
    }

    public boolean repOk() {
        int total = 0;
        Block before = null;
        for (Block b = first; b != null; b = b.next) {
            if (b.items.length != CAPACITY || !b.isFilledInFront()) return false;
            if (before != null && b.items == before.items) return false;
            total += b.used;
            if (total > size) return false;
            before = b;
        }
        return total == size;
    }
}
