/** An open addressed set of ints, with a state for each slot (as in Trove and other collections of primitives). */
public class IntHashSet {
    /** flag indicating that a slot in the hashtable is available */
    public static final byte FREE = 0;
    /** flag indicating that a slot in the hashtable is occupied */
    public static final byte FULL = 1;
    /** flag indicating that the value of a slot in the hashtable was deleted */
    public static final byte REMOVED = 2;

    protected int[] _set;
    protected byte[] _states;
    protected int _size;
    protected int _free;

    public IntHashSet(int capacity) {
        _set = new int[capacity];
        _states = new byte[capacity];
        _free = capacity;
    }

    protected int index(int val) {
        final byte[] states = _states;
        final int[] set = _set;
        int length = states.length;
        int hash = (val * 31) & 0x7fffffff;
        int index = hash % length;
        for (int probes = 0; probes < length; probes++) {
            if (states[index] == FREE) return -1;
            if (states[index] == FULL && set[index] == val) return index;
            if (--index < 0) index += length;
        }
        return -1;
    }

    public boolean contains(int val) {
        return index(val) >= 0;
    }

    public boolean add(int val) {
        if (contains(val)) return false;
        int index = ((val * 31) & 0x7fffffff) % _set.length;
        for (int probes = 0; _states[index] == FULL; probes++) {
            if (probes == _set.length) throw new IllegalStateException("full");
            if (--index < 0) index += _set.length;
        }
        if (_states[index] == FREE) _free--;
        _set[index] = val;
        _states[index] = FULL;
        _size++;
        return true;
    }

    public boolean remove(int val) {
        int index = index(val);
        if (index < 0) return false;
        _set[index] = 0;
        _states[index] = REMOVED;
        _size--;
        return true;
    }

    boolean repOk() {
        if (_set == null || _states == null || _set.length != _states.length || _set.length == 0) return false;
        int full = 0, free = 0;
        for (int i = _states.length; i-- > 0; ) {
            switch (_states[i]) {
                case FREE:
                    free++;
                    // fall through: nothing is kept in either
                case REMOVED:
                    if (_set[i] != 0) return false;
                    break;
                case FULL:
                    full++;
                    if (index(_set[i]) != i) return false;
                    break;
                default:
                    return false;
            }
        }
        return full == _size && free == _free;
    }
}
