package adapt;

import com.sun.source.tree.AssertTree;
import com.sun.source.tree.CaseTree;
import com.sun.source.tree.CatchTree;
import com.sun.source.tree.ExpressionTree;
import com.sun.source.tree.MethodInvocationTree;
import com.sun.source.tree.NewClassTree;
import com.sun.source.tree.SwitchExpressionTree;
import com.sun.source.tree.ThrowTree;
import com.sun.source.tree.Tree;
import com.sun.source.tree.UnionTypeTree;
import com.sun.source.util.TreeScanner;
import java.util.List;
import javax.lang.model.element.ExecutableElement;
import javax.lang.model.element.TypeElement;
import javax.lang.model.type.TypeKind;

/** Where a test's verdict has another exception than Java: korat knows six kinds. */
final class Exceptions extends TreeScanner<Void, Void> {
    private final Program program;
    private final Kinds kinds;
    private final Reach reach;
    private final Notes notes;

    Exceptions(Program program, Kinds kinds, Reach reach, Notes notes) {
        this.program = program;
        this.kinds = kinds;
        this.reach = reach;
        this.notes = notes;
    }

    /** Warns of all that the method under test, its contract and the predicate reach. */
    void warn() {
        for (Tree code : reach.trees()) scan(code, null);
    }

    private void warn(Tree tree, String exception) {
        warn(tree, "ArithmeticException", exception);
    }

    private void warn(Tree tree, String kind, String exception) {
        notes.warn(program.place(tree), "korat's verdict is `trap " + kind + "` where Java throws " + exception);
    }

    @Override
    public Void visitThrow(ThrowTree thrown, Void nothing) {
        ExpressionTree made = Program.bare(thrown.getExpression());
        if (program.parent(thrown) instanceof CaseTree one && program.parent(one) instanceof SwitchExpressionTree) warn(thrown, program.type(made).toString());
        else if (made instanceof NewClassTree && Thrown.isError(program, program.type(made))) warnOfError(thrown, program.type(made).toString());
        else if (made instanceof NewClassTree && Thrown.replaced(program, program.type(made)) != null)
            warn(thrown, Thrown.nearest(program, (TypeElement) program.types.asElement(program.type(made))), program.type(made).toString());
        return super.visitThrow(thrown, nothing);
    }

    @Override
    public Void visitAssert(AssertTree test, Void nothing) {
        warnOfError(test, "an AssertionError");
        return super.visitAssert(test, nothing);
    }

    private void warnOfError(Tree tree, String error) {
        warn(tree, reach.error(), error);
    }

    @Override
    public Void visitCatch(CatchTree tree, Void nothing) {
        Tree declared = tree.getParameter().getType();
        List<? extends Tree> types = declared instanceof UnionTypeTree union ? union.getTypeAlternatives() : List.of(declared);
        for (Tree type : types) {
            TypeElement replaced = Thrown.replaced(program, program.type(type));
            if (replaced != null && !Thrown.isOfMachine(program, replaced))
                notes.warn(program.place(type), "korat's `catch` takes each " + Thrown.nearest(program, replaced) + " where Java's takes " + replaced.getSimpleName());
        }
        return super.visitCatch(tree, nothing);
    }

    @Override
    public Void visitMethodInvocation(MethodInvocationTree call, Void nothing) {
        if (program.element(call) instanceof ExecutableElement called && !program.isOwn(called)) {
            String exception = thrownBy(call, called);
            if (exception != null) warn(call, exception);
        }
        return super.visitMethodInvocation(call, nothing);
    }

    @Override
    public Void visitNewClass(NewClassTree made, Void nothing) {
        if (program.element(made) instanceof ExecutableElement maker && Thrown.dropsArguments(program, maker)) return null;
        boolean sized = program.element(made) instanceof ExecutableElement maker && !program.isOwn(maker) && !maker.getParameters().isEmpty()
                && maker.getParameters().get(0).asType().getKind() == TypeKind.INT;
        if (sized && Numbers.of(program, made.getArguments().get(0)) <= 0 && !made.getArguments().get(0).toString().equals("0"))
                warn(made, "IllegalArgumentException");
        return super.visitNewClass(made, nothing);
    }

    /** The exception of a library's method that korat has no kind of, or none. */
    private String thrownBy(MethodInvocationTree call, ExecutableElement called) {
        String name = called.getSimpleName().toString();
        String owner = ((TypeElement) called.getEnclosingElement()).getQualifiedName().toString();
        boolean byIndex = !called.getParameters().isEmpty() && called.getParameters().get(0).asType().getKind() == TypeKind.INT;
        ExpressionTree receiver = kinds.receiver(call);
        if (owner.equals("java.util.Stack") && name.matches("pop|peek")) return "EmptyStackException";
        if (receiver != null && byIndex && name.matches("get|set|remove|add|elementAt") && kinds.isList(kinds.of(receiver))) return "IndexOutOfBoundsException";
        if (owner.equals("java.util.Set") && name.equals("of") && call.getArguments().size() > 1) return "IllegalArgumentException";
        if (owner.equals("java.util.Arrays") && (name.equals("copyOfRange") || name.equals("fill") && call.getArguments().size() == 4)) return "IllegalArgumentException";
        return null;
    }
}
