package books;

import java.util.HashMap;
import java.util.Map;

/** A bag that knows an element of which it has most. */
public class MultiSet {
    private static class Item {
        int value;
        Item next;
    }

    private Item items;
    private Integer most;

    private Map<Integer, Integer> counts() {
        Map<Integer, Integer> counts = new HashMap<>();
        int steps = 0;
        for (Item i = items; i != null; i = i.next) {
            counts.put(i.value, counts.getOrDefault(i.value, 0) + 1);
            if (++steps > 3) throw new IllegalStateException("a cycle");
        }
        return counts;
    }

    boolean repOk() {
        Map<Integer, Integer> counts = counts();
        if (counts.isEmpty()) return most == null;
        if (most == null || !counts.containsKey(most)) return false;
        int greatest = counts.get(most);
        for (Map.Entry<Integer, Integer> entry : counts.entrySet()) {
            if (entry.getValue() > greatest) return false;
        }
        return true;
    }
}
