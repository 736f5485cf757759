package books;

import java.util.BitSet;
import java.util.Objects;

public class SmallBitSet {
    private int word;
    private byte cardinality;
    private short highest = -1;

    public void add(int bit) {
        Objects.checkIndex(bit, 32);
        if ((word & 1 << bit) == 0) {
            word |= 1 << bit;
            cardinality++;
            highest = (short) Math.max(highest, bit);
        }
    }

    public boolean repOk() {
        if (Integer.bitCount(word) != cardinality) return false;
        byte seen = 0;
        int last = -1;
        for (int bits = word, bit = 0; bits != 0; bits >>>= 1, ++bit) {
            if ((bits & 0x1) == 0) continue;
            last = bit;
            seen += 1;
        }
        assert seen == cardinality : "miscounted";
        return last == highest && highest == 31 - Integer.numberOfLeadingZeros(word);
    }
}
