package books;

public class Sequence {
    sealed interface Items permits Empty, Cons { }

    record Empty() implements Items { }

    record Cons(int head, Items tail) implements Items { }

    private Items items;
    private int length;

    static int length(Items items) {
        return items instanceof Cons cons ? 1 + length(cons.tail()) : 0;
    }

    boolean repOk() {
        if (length(items) != length) return false;
        Items rest = items;
        Integer last = null;
        while (rest instanceof Cons cons) {
            if (last != null && last > cons.head()) return false;
            last = cons.head();
            rest = cons.tail();
        }
        return true;
    }
}
