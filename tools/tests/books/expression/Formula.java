package books;

import java.util.Collections;
import java.util.IdentityHashMap;
import java.util.Set;

public class Formula {
    interface Expression {
        int evaluate();

        default boolean isConstant() {
            return false;
        }

        boolean isTree(Set<Expression> seen);
    }

    static final class Constant implements Expression {
        private final int value;

        Constant(int value) {
            this.value = value;
        }

        @Override
        public int evaluate() {
            return value;
        }

        @Override
        public boolean isConstant() {
            return true;
        }

        @Override
        public boolean isTree(Set<Expression> seen) {
            return seen.add(this);
        }
    }

    static final class Sum implements Expression {
        private final Expression left, right;

        Sum(Expression left, Expression right) {
            this.left = left;
            this.right = right;
        }

        @Override
        public int evaluate() {
            return left.evaluate() + right.evaluate();
        }

        @Override
        public boolean isTree(Set<Expression> seen) {
            return seen.add(this) && left.isTree(seen) && right.isTree(seen);
        }
    }

    static final class Negation implements Expression {
        private final Expression inner;

        Negation(Expression inner) {
            this.inner = inner;
        }

        @Override
        public int evaluate() {
            return -inner.evaluate();
        }

        @Override
        public boolean isTree(Set<Expression> seen) {
            return seen.add(this) && inner.isTree(seen);
        }
    }

    private Expression top;
    private int value;

    boolean repOk() {
        Set<Expression> seen = Collections.newSetFromMap(new IdentityHashMap<>());
        return top.isTree(seen) && !top.isConstant() && top.evaluate() == value;
    }
}
