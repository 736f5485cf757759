import java.util.Iterator;
import java.util.NoSuchElementException;
import java.util.Objects;
import java.util.stream.Collectors;
import java.util.stream.StreamSupport;

/** A set of numbers as ascending, disjoint intervals that don't touch each other. */
public class IntervalList implements Iterable<IntervalList.Interval> {

    public static final class Interval implements Comparable<Interval> {
        private final int low;
        private final int high;
        private Interval next;

        public Interval(int low, int high) {
            if (low > high) throw new IllegalArgumentException(low + " > " + high);
            this.low = low;
            this.high = high;
        }

        public int low() { return low; }
        public int high() { return high; }

        public boolean intersects(Interval that) {
            return !(this.high < that.low || that.high < this.low);
        }

        @Override public int compareTo(Interval that) {
            return low != that.low ? Integer.compare(low, that.low) : Integer.compare(high, that.high);
        }

        @Override public boolean equals(Object o) {
            if (this == o) return true;
            if (!(o instanceof Interval)) return false;
            Interval that = (Interval) o;
            return low == that.low && high == that.high;
        }

        @Override public int hashCode() { return Objects.hash(low, high); }

        @Override public String toString() { return "[" + low + ", " + high + "]"; }
    }

    private Interval first;
    private int length;

    @Override
    public Iterator<Interval> iterator() {
        return new Iterator<Interval>() {
            private Interval at = first;

            @Override public boolean hasNext() { return at != null; }

            @Override public Interval next() {
                if (at == null) throw new NoSuchElementException();
                Interval found = at;
                at = at.next;
                return found;
            }
        };
    }

    public boolean contains(int x) {
        for (Interval i : this)
            if (i.low <= x && x <= i.high) return true;
        return false;
    }

    @Override public String toString() {
        return StreamSupport.stream(spliterator(), false).map(Interval::toString).collect(Collectors.joining(" "));
    }

    boolean repOk() {
        Interval before = null;
        int sum = 0;
        for (Interval i : this) {
            if (i.low > i.high) return false;
            if (before != null) {
                if (before.compareTo(i) >= 0 || before.intersects(i) || before.high + 1 == i.low) return false;
            }
            sum += i.high - i.low + 1;
            before = i;
        }
        return sum == length;
    }
}
