package adapt;

import com.sun.source.tree.BinaryTree;
import com.sun.source.tree.ExpressionTree;
import com.sun.source.tree.LiteralTree;
import javax.lang.model.element.VariableElement;

/** Numbers that the compiler knows. */
final class Numbers {
    private Numbers() {}

    /** The value of an expression where it is a literal or a constant, 0 elsewhere. */
    static long of(Program program, ExpressionTree tree) {
        ExpressionTree bare = Program.bare(tree);
        Object value = bare instanceof LiteralTree literal ? literal.getValue()
                : program.element(bare) instanceof VariableElement variable ? variable.getConstantValue() : null;
        if (value instanceof Number number) return number.longValue();
        if (!(bare instanceof BinaryTree binary)) return 0;
        long left = of(program, binary.getLeftOperand());
        long right = of(program, binary.getRightOperand());
        if (left == 0 || right == 0) return 0;
        switch (binary.getKind()) {
            case PLUS: return left + right;
            case MINUS: return left - right;
            case MULTIPLY: return left * right;
            default: return 0;
        }
    }
}
