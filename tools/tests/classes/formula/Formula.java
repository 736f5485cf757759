import java.util.*;

/** Boolean formulas in negation normal form: a negation stands before a variable alone. */
public class Formula {
    enum Op { AND, OR, NOT, VAR }

    static abstract class Term {
        protected Op op;

        abstract boolean isNormal();
        abstract int depth();
        abstract <R> R accept(Visitor<R> visitor);
    }

    interface Visitor<R> {
        R binary(Binary t);
        R variable(Variable t);
        R negation(Not t);
    }

    static class Binary extends Term {
        Term left, right;

        @Override boolean isNormal() {
            switch (op) {
                case AND:
                case OR:
                    return left != null && right != null && left.isNormal() && right.isNormal();
                default:
                    return false;
            }
        }
        @Override int depth() { return Math.max(left.depth(), right.depth()) + 1; }
        @Override <R> R accept(Visitor<R> visitor) { return visitor.binary(this); }
    }

    static class Not extends Term {
        Term inner;

        @Override boolean isNormal() { return op == Op.NOT && inner instanceof Variable && inner.isNormal(); }
        @Override int depth() { return inner.depth() + 1; }
        @Override <R> R accept(Visitor<R> visitor) { return visitor.negation(this); }
    }

    static class Variable extends Term {
        byte index;

        @Override boolean isNormal() { return op == Op.VAR && index >= 0; }
        @Override int depth() { return 0; }
        @Override <R> R accept(Visitor<R> visitor) { return visitor.variable(this); }
    }

    private static class Counter implements Visitor<Integer> {
        public Integer binary(Binary t) { return t.left.accept(this) + t.right.accept(this); }
        public Integer variable(Variable t) { return 1; }
        public Integer negation(Not t) { return t.inner.accept(this); }
    }

    private Term term;
    private int variables;

    boolean repOk() {
        if (term == null) return false;
        if (isCyclic(term, new ArrayDeque<>())) return false;
        return term.isNormal() && term.depth() <= 2 && term.accept(new Counter()) == variables;
    }

    private boolean isCyclic(Term t, Deque<Term> path) {
        if (t == null || t instanceof Variable) return false;
        if (path.contains(t)) return true;
        path.push(t);
        boolean found = t instanceof Not
            ? isCyclic(((Not) t).inner, path)
            : isCyclic(((Binary) t).left, path) || isCyclic(((Binary) t).right, path);
        path.pop();
        return found;
    }
}
