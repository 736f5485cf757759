import java.util.Iterator;
import java.util.NoSuchElementException;
import java.util.TreeSet;

/** A polynomial as a list of terms, the highest exponent first; no coefficient is zero. */
public final class Polynomial implements Iterable<Polynomial.Term> {

    public static final Polynomial ZERO = new Polynomial();

    /** A coefficient and an exponent. */
    static final class Term {
        short coefficient;
        short exponent;
        Term next;

        Term(int coefficient, int exponent, Term next) {
            this.coefficient = (short) coefficient;
            this.exponent = (short) exponent;
            this.next = next;
        }

        @Override
        public String toString() {
            return coefficient + "x^" + exponent;
        }
    }

    private static final class TermIterator implements Iterator<Term> {
        private Term term;

        TermIterator(Term first) {
            term = first;
        }

        @Override
        public boolean hasNext() {
            return term != null;
        }

        @Override
        public Term next() {
            if (!hasNext()) throw new NoSuchElementException();
            Term current = term;
            term = term.next;
            return current;
        }
    }

    private Term first;
    private int degree = -1;

    private Polynomial() {
    }

    public static Polynomial monomial(int coefficient, int exponent) {
        if (coefficient == 0) return ZERO;
        Polynomial result = new Polynomial();
        result.first = new Term(coefficient, exponent, null);
        result.degree = exponent;
        return result;
    }

    @Override
    public Iterator<Term> iterator() {
        return new TermIterator(first);
    }

    public int at(int x) {
        int sum = 0;
        for (Term term : this) {
            int power = 1;
            for (int i = 0; i < term.exponent; i++) power *= x;
            sum += term.coefficient * power;
        }
        return sum;
    }

    @Override
    public boolean equals(Object object) {
        if (!(object instanceof Polynomial)) return false;
        Term a = first;
        Term b = ((Polynomial) object).first;
        while (a != null && b != null) {
            if (a.coefficient != b.coefficient || a.exponent != b.exponent) return false;
            a = a.next;
            b = b.next;
        }
        return a == b;
    }

    @Override
    public int hashCode() {
        int hash = 0;
        for (Term term : this) hash = hash * 31 + (term.coefficient << 16 ^ term.exponent);
        return hash;
    }

    boolean repOk() {
        TreeSet<Integer> exponents = new TreeSet<>();
        int last = Short.MAX_VALUE + 1;
        short highest = -1;
        for (Term term : this) {
            if (term.coefficient == 0 || term.exponent < 0 || term.exponent >= last) return false;
            if (!exponents.add((int) term.exponent)) return false;
            last = term.exponent;
            if (highest < 0) highest = term.exponent;
        }
        assert exponents.isEmpty() || exponents.first() == last && exponents.last() == highest;
        return degree == highest;
    }
}
