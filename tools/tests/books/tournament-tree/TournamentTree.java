package books;

import java.util.Comparator;

public class TournamentTree {
    static class Player {
        int strength;
    }

    private static final Comparator<Player> BY_STRENGTH = Comparator.comparingInt(p -> p.strength);

    private Player[] slots;

    private Player winner(Player a, Player b) {
        if (a == null) return b;
        if (b == null) return a;
        return BY_STRENGTH.compare(a, b) >= 0 ? a : b;
    }

    boolean repOk() {
        for (int i = 1; 2 * i + 1 < slots.length; i++) {
            if (slots[i] != winner(slots[2 * i], slots[2 * i + 1])) return false;
        }
        return slots[0] == null;
    }
}
