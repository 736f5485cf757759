package adapt;

import java.util.Map;

/** The texts of added classes. */
final class Templates {
    private Templates() {}

    static String fill(String template, Map<String, String> words) {
        for (Map.Entry<String, String> word : words.entrySet()) template = template.replace(word.getKey(), word.getValue());
        return template;
    }

    static final String CELL = """
            // A member of a collection, and the cell after it.
            class $C {
                $X item;
                $C next;

                $C($X item, $C next) { this.item = item; this.next = next; }
            }
            """;
    static final String LIST = """
            // A list; what Java answers by an exception ends in a trap: of the same kind, or ArithmeticException.
            class $L {
                $C first;
                int size;

                $C missing() { return new LinkedList<$C>().removeFirst(); }
                boolean isRefused() { $C none = null; return none.next == none; }
                $C cell(int index) { if (index < 0 || index >= size) index = 1 / 0; $C cell = first; for (int i = 0; i < index; i++) cell = cell.next; return cell; }
                boolean add($X item) { if (size == 0) first = new $C(item, null); else cell(size - 1).next = new $C(item, null); size++; return true; }
                void addFirst($X item) { first = new $C(item, first); size++; }
                void insert(int index, $X item) { if (index == 0) addFirst(item); else { $C before = cell(index - 1); before.next = new $C(item, before.next); size++; } }
                boolean addAll($L items) { boolean changed = false; $C cell = items.first; for (int left = items.size; left > 0; left--) { if (add(cell.item)) changed = true; cell = cell.next; } return changed; }
                int size() { return size; }
                boolean isEmpty() { return size == 0; }
                int indexOf($X item) { int index = 0; for ($C cell = first; cell != null; cell = cell.next) { if ($E) return index; index++; } return -1; }
                int lastIndexOf($X item) { int index = 0, last = -1; for ($C cell = first; cell != null; cell = cell.next) { if ($E) last = index; index++; } return last; }
                int search($X item) { int last = lastIndexOf(item); return last < 0 ? -1 : size - last; }
                boolean contains($X item) { return indexOf(item) >= 0; }
                boolean containsAll($L items) { for ($C cell = items.first; cell != null; cell = cell.next) if (!contains(cell.item)) return false; return true; }
                $X get(int index) { return cell(index).item; }
                $X set(int index, $X item) { $C cell = cell(index); $X before = cell.item; cell.item = item; return before; }
                $X getFirst() { return (size == 0 ? missing() : first).item; }
                $X getLast() { return (size == 0 ? missing() : cell(size - 1)).item; }
                $X removeFirst() { $X item = getFirst(); first = first.next; size--; return item; }
                $X removeAt(int index) { $X item = cell(index).item; if (index == 0) return removeFirst(); $C before = cell(index - 1); before.next = before.next.next; size--; return item; }
                $X removeLast() { return size == 0 ? removeFirst() : removeAt(size - 1); }
                $X topOfStack() { return cell(size - 1).item; }
                $X popOfStack() { return removeAt(size - 1); }
                boolean remove($X item) { int index = indexOf(item); if (index < 0) return false; removeAt(index); return true; }
                $P peekFirst() { return size == 0 ? $0 : $Ofirst.item); }
                $P peekLast() { return size == 0 ? $0 : $OgetLast()); }
                $P pollFirst() { return size == 0 ? $0 : $OremoveFirst()); }
                $P pollLast() { return size == 0 ? $0 : $OremoveLast()); }
                void clear() { first = null; size = 0; }
                $I iterator() { return new $I(first); }
                $L with($X item) { add(item); return this; }
                $L withAll($L items) { addAll(items); return this; }
                $L sized(int capacity) { if (capacity < 0) size = 1 / 0; return this; }
            }
            """;
    static final String ITERATOR = """
            // Goes through a collection.
            class $I {
                $C cell;

                $I($C cell) { this.cell = cell; }
                boolean hasNext() { return cell != null; }
                $X next() { if (cell == null) cell = new LinkedList<$C>().removeFirst(); $X item = cell.item; cell = cell.next; return item; }
            }
            """;
    static final String SET = """
            // A set, in the order in which its members came.
            class $N extends $L {
            $F
                boolean add($X item) { return !contains(item) && super.add(item); }
                $N distinct($X item) { if ($A && isRefused() || !add(item)) size = 1 / 0; return this; }
                $N sized(int capacity) { if (capacity < 0) size = 1 / 0; return this; }
                $N with($X item) { add(item); return this; }
                $N withAll($L items) { addAll(items); return this; }
            }
            """;
    /** How a set gets a member at its end, and how one does whose members stand in ascending order. */
    static final String APPENDING = "boolean add($X item) { return !contains(item) && super.add(item); }";
    static final String INSERTING = "boolean add($X item) { if (contains(item)) return false; int index = 0; for ($C after = first; after != null && $D; after = after.next) index++; insert(index, item); return true; }";
    static final String INSERTING_PAIR = "    void append($K key, $V value) { $Q last = null; for ($Q pair = first; pair != null && $D; pair = pair.next) last = pair; if (last == null) first = new $Q(key, value, first); else last.next = new $Q(key, value, last.next); }";
    static final String FIND = """
                int indexOf($X item) { int index = 0; for ($C cell = first; cell != null; cell = cell.next) { if ($H) return index; index++; } return -1; }
            """;
    static final String LINKED_SET = """
            // A set.
            class $N extends $B {
                $N sized(int capacity) { if (capacity < 0) size = 1 / 0; return this; }
                $N with($X item) { add(item); return this; }
                $N withAll($L items) { addAll(items); return this; }
            }
            """;
    static final String DEQUE = """
            // A deque without null.
            class $N extends $L {
                boolean add($X item) { return $A ? isRefused() : super.add(item); }
                void addFirst($X item) { if ($A && isRefused()) return; super.addFirst(item); }
                $N sized(int capacity) { if (capacity < 0) size = 1 / 0; return this; }
                $N with($X item) { add(item); return this; }
                $N withAll($L items) { addAll(items); return this; }
            }
            """;
    static final String SORTED = """
            // A set in ascending order.
            class $N extends $B {
                boolean add($X item) { int index = $A && isRefused() ? 1 : 0; for ($C after = first; after != null && $D; after = after.next) index++; if (contains(item)) return false; insert(index, item); return true; }
                int indexOf($X item) { int index = $A && isRefused() ? 1 : 0; for ($C after = first; after != null; after = after.next) { if ($S) return index; index++; } return -1; }
                $N sized(int capacity) { if (capacity < 0) size = 1 / 0; return this; }
                $N with($X item) { add(item); return this; }
                $N withAll($L items) { addAll(items); return this; }
            }
            """;
    static final String PAIR = """
            // A key, its value, and the pair after it.
            class $Q {
                $K key;
                $V value;
                $Q next;

                $Q($K key, $V value, $Q next) { this.key = key; this.value = value; this.next = next; }
                $K getKey() { return key; }
                $V getValue() { return value; }
                $V setValue($V item) { $V before = value; value = item; return before; }
            }
            """;
    static final String MAP = """
            // A map, in the order in which its keys came.
            class $N {
                $Q first;
                int size;

                $Q find($K key) { for ($Q pair = first; pair != null; pair = pair.next) if ($E) return pair; return null; }
                $P get($K key) { $Q pair = find(key); return pair == null ? $0 : $Opair.value); }
                $V getOrDefault($K key, $V other) { $Q pair = find(key); return pair == null ? other : pair.value; }
                boolean containsKey($K key) { return find(key) != null; }
                void append($K key, $V value) { $Q made = new $Q(key, value, null); if (first == null) first = made; else { $Q last = first; while (last.next != null) last = last.next; last.next = made; } }
                $P put($K key, $V value) { $Q pair = find(key); if (pair != null) return $Opair.setValue(value)); append(key, value); size++; return $0; }
                $P putIfAbsent($K key, $V value) { $P before = get(key); if (before == $0) put(key, value); return before; }
                $P remove($K key) { $Q gone = find(key); if (gone == null) return $0; if (gone == first) first = first.next; for ($Q pair = first; pair != null; pair = pair.next) if (pair.next == gone) pair.next = gone.next; size--; return $Ogone.value); }
                int size() { return size; }
                boolean isEmpty() { return size == 0; }
                void clear() { first = null; size = 0; }
            """;
    static final String SORTED_MAP = """
            // A map in the order of its keys.
            class $M extends $N {
                boolean isRefused() { $Q none = null; return none.next == none; }
                $Q missing() { return new LinkedList<$Q>().removeFirst(); }
                $Q find($K key) { if ($A && isRefused()) return null; for ($Q pair = first; pair != null; pair = pair.next) if ($S) return pair; return null; }
                void append($K key, $V value) { $Q last = null; for ($Q pair = first; pair != null && $D; pair = pair.next) last = pair; if (last == null) first = new $Q(key, value, first); else last.next = new $Q(key, value, last.next); }
                $K firstKey() { return (first == null ? missing() : first).key; }
                $K lastKey() { $Q last = first == null ? missing() : first; while (last.next != null) last = last.next; return last.key; }
            }
            """;
    static final String SUM = """
                $V addTo($K key, $V value) { $Q pair = find(key); if (pair == null) put(key, value); else pair.value += value; return find(key).value; }
            """;
    static final String SLOT = """
            // An element of a long array that was met.
            class $C {
                int index;
                $X item;
                $C next;

                $C(int index, $C next) { this.index = index; this.next = next;$Z }
            }
            """;
    static final String ARRAY = """
            // An array of the predicate's own, of any length.
            class $N {
                int length;
                $C first;

                $N(int length) { this.length = length < 0 ? new $C[length].length : length; }
                int outside() { $C[] none = new $C[0]; return none[0].index; }
                $C slot(int index) { if (index < 0 || index >= length) index = outside(); for ($C slot = first; slot != null; slot = slot.next) if (slot.index == index) return slot; first = new $C(index, first); return first; }
                $X get(int index) { return slot(index).item; }
                $X set(int index, $X item) { slot(index).item = item; return item; }
                $N with(int index, $X item) { set(index, item); return this; }
                void fill($X item) { for (int i = 0; i < length; i++) set(i, item); }
            """;
    static final String ROWS = """
                static $N rows(int length, int width) { $N rows = new $N(length); for (int i = 0; i < length; i++) rows.set(i, new $X(width)); return rows; }
            """;
    static final String SORT = """
                void sort() { for (int i = 1; i < length; i++) for (int j = i; j > 0 && get(j - 1) > get(j); j--) { $X item = get(j); set(j, get(j - 1)); set(j - 1, item); } }
            """;
}
