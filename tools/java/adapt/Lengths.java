package adapt;

import com.sun.source.tree.BinaryTree;
import com.sun.source.tree.ConditionalExpressionTree;
import com.sun.source.tree.ExpressionTree;
import com.sun.source.tree.IdentifierTree;
import com.sun.source.tree.MemberSelectTree;
import com.sun.source.tree.MethodInvocationTree;
import com.sun.source.tree.VariableTree;
import java.util.HashSet;
import java.util.List;
import java.util.Map;
import java.util.Set;
import javax.lang.model.element.Element;
import javax.lang.model.element.ElementKind;
import javax.lang.model.element.ExecutableElement;
import javax.lang.model.element.Modifier;

/** How much an expression can be at most. */
final class Lengths {
    private static final long UNKNOWN = -1;
    private final Program program;
    private final Kinds kinds;
    private final Set<Element> asked = new HashSet<>();

    Lengths(Program program, Kinds kinds) {
        this.program = program;
        this.kinds = kinds;
    }

    /** A bound of an int, or below 0 where none is known. */
    long most(ExpressionTree tree, ExecutableElement method) {
        ExpressionTree bare = Program.bare(tree);
        long known = Numbers.of(program, bare);
        if (known > 0 || bare.toString().equals("0")) return known;
        if (bare instanceof BinaryTree binary) return ofBinary(binary, method);
        if (bare instanceof ConditionalExpressionTree choice)
                return greater(most(choice.getTrueExpression(), method), most(choice.getFalseExpression(), method));
        if (bare instanceof MethodInvocationTree call) return ofCall(call, method);
        if (bare instanceof MemberSelectTree select && select.getIdentifier().contentEquals("length")
                && kinds.of(select.getExpression()).endsWith("[]")) return 64;
        Element element = bare instanceof IdentifierTree || bare instanceof MemberSelectTree ? program.element(bare) : null;
        return element == null ? UNKNOWN : ofElement(element, method);
    }

    private static long greater(long a, long b) {
        return a < 0 || b < 0 ? UNKNOWN : Math.max(a, b);
    }

    private long ofBinary(BinaryTree tree, ExecutableElement method) {
        long left = most(tree.getLeftOperand(), method);
        long right = most(tree.getRightOperand(), method);
        switch (tree.getKind()) {
            case PLUS: return left < 0 || right < 0 ? UNKNOWN : left + right;
            case MULTIPLY: return left < 0 || right < 0 ? UNKNOWN : left * right;
            case MINUS: return Numbers.of(program, tree.getRightOperand()) > 0 || right == 0 ? left : UNKNOWN;
            case DIVIDE: case RIGHT_SHIFT: return Numbers.of(program, tree.getRightOperand()) > 0 ? left : UNKNOWN;
            case REMAINDER: return right > 0 ? right - 1 : UNKNOWN;
            case AND: return left >= 0 && right >= 0 ? Math.min(left, right) : Math.max(left, right);
            case LEFT_SHIFT: return left >= 0 && right >= 0 && right < 20 ? left << right : UNKNOWN;
            default: return UNKNOWN;
        }
    }

    private long ofCall(MethodInvocationTree tree, ExecutableElement method) {
        String call = tree.getMethodSelect().toString();
        if (call.equals("Math.max")) return greater(most(tree.getArguments().get(0), method), most(tree.getArguments().get(1), method));
        if (!call.equals("Math.min")) return UNKNOWN;
        long left = most(tree.getArguments().get(0), method);
        long right = most(tree.getArguments().get(1), method);
        return left < 0 || right < 0 ? Math.max(left, right) : Math.min(left, right);
    }

    private long ofElement(Element element, ExecutableElement method) {
        if (element.getKind() == ElementKind.FIELD) return ofField(element);
        if (!asked.add(element)) return UNKNOWN;
        try {
            List<ExpressionTree> into = kinds.flow.into(element);
            boolean whole = element.getKind() == ElementKind.PARAMETER || program.trees.getTree(element) instanceof VariableTree variable
                    && variable.getInitializer() != null;
            if (!whole || into.isEmpty() || kinds.flow.isStepped(element)) return UNKNOWN;
            long most = 0;
            for (ExpressionTree from : into) most = greater(most, most(from, method));
            return most;
        } finally {
            asked.remove(element);
        }
    }

    /** The greatest number in the domain of a candidate's field. */
    private long ofField(Element field) {
        String key = Program.classOf(field).getSimpleName() + "." + field.getSimpleName();
        List<Object> domain = kinds.fin.fields().get(key);
        if (domain == null || !kinds.fin.counts(program, Program.classOf(field)) || field.getModifiers().contains(Modifier.STATIC)) return UNKNOWN;
        long most = 0;
        for (Object item : domain) {
            if (item instanceof Long number) most = Math.max(most, number);
            if (item instanceof Map<?, ?> range) most = Math.max(most, (Long) range.get("to"));
        }
        return most;
    }
}
