package replay;

import java.util.List;

/** A slot whose value was chosen, and the values that it may have with those chosen before. */
final class Decision {
    final Cell cell;
    final int slot;
    final List<Value> values;
    int index;

    Decision(Cell cell, int slot, List<Value> values) {
        this.cell = cell;
        this.slot = slot;
        this.values = values;
    }
}
