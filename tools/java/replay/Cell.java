package replay;

import java.util.List;

/** An object of the candidates, and what its slots hold now. */
final class Cell {
    final Name name;
    final Object real;
    final List<Slot> slots;
    final Object[] told;
    final Cell[] held;
    final boolean[] decided;
    /** What the slots of a collection hold, from which it is filled anew. */
    final Object[] members;
    private boolean whole;

    Cell(Name name, Object real, List<Slot> slots) {
        this.name = name;
        this.members = name.isCollection() ? new Object[slots.size()] : null;
        this.real = real;
        this.slots = slots;
        this.told = new Object[slots.size()];
        this.held = new Cell[slots.size()];
        this.decided = new boolean[slots.size()];
    }

    /** Sets a slot of a collection; true once all are set. */
    boolean isWhole(int slot, Object member) {
        members[slot] = member;
        whole |= slot + 1 == members.length;
        return whole;
    }
}
