package adapt;

import com.sun.source.tree.ExpressionStatementTree;
import com.sun.source.tree.MethodInvocationTree;
import com.sun.source.tree.MethodTree;
import com.sun.source.tree.StatementTree;
import java.util.List;
import java.util.Set;
import javax.lang.model.element.ExecutableElement;
import javax.lang.model.element.TypeElement;
import javax.lang.model.type.TypeMirror;

/** Classes of exceptions: korat has thirteen of the library's, and each other one becomes the nearest of them above it. */
final class Thrown {
    static final Set<String> PREDEFINED =
            Set.of("java.lang.Throwable", "java.lang.Exception", "java.lang.RuntimeException", "java.lang.NullPointerException", "java.lang.ArithmeticException",
            "java.lang.IndexOutOfBoundsException", "java.lang.NegativeArraySizeException", "java.lang.ClassCastException", "java.util.NoSuchElementException",
            "java.lang.IllegalStateException", "java.lang.IllegalArgumentException", "java.lang.UnsupportedOperationException",
            "java.lang.ArrayIndexOutOfBoundsException");

    private Thrown() {}

    /** The nearest class that korat has, of an exception's class or a class above it; null where it is no exception. */
    static String nearest(Program program, TypeElement type) {
        for (TypeElement at = type; at != null; at = program.superclass(at))
            if (PREDEFINED.contains(at.getQualifiedName().toString())) return at.getSimpleName().toString();
        return null;
    }

    /** The class of the library that korat doesn't have, by which a type is an exception; null where there is none. */
    static TypeElement replaced(Program program, TypeMirror type) {
        if (!(program.types.asElement(type) instanceof TypeElement element) || program.isOwn(element) || nearest(program, element) == null) return null;
        return PREDEFINED.contains(element.getQualifiedName().toString()) ? null : element;
    }

    /** Whether a type is one of the library's that isn't below Exception. */
    static boolean isError(Program program, TypeMirror type) {
        TypeElement replaced = replaced(program, type);
        return replaced != null && nearest(program, replaced).equals("Throwable");
    }

    /** Whether a class is of errors of the machine, as those of the stack and of memory, which no code of korat's catches. */
    static boolean isOfMachine(Program program, TypeElement type) {
        for (TypeElement at = type; at != null; at = program.superclass(at))
            if (at.getQualifiedName().contentEquals("java.lang.VirtualMachineError")) return true;
        return false;
    }

    /** Whether a constructor of an exception only hands its arguments on, as a message: they are dropped. */
    static boolean dropsArguments(Program program, ExecutableElement constructor) {
        TypeElement type = Program.classOf(constructor);
        if (nearest(program, type) == null) return false;
        if (!program.isOwn(type)) return true;
        MethodTree tree = program.trees.getTree(constructor);
        if (tree == null || tree.getBody() == null) return false;
        List<? extends StatementTree> statements = tree.getBody().getStatements();
        if (statements.size() != 1 || !(statements.get(0) instanceof ExpressionStatementTree first) || !(first.getExpression() instanceof MethodInvocationTree call)
                || !List.of("super", "this").contains(call.getMethodSelect().toString())) return false;
        return program.element(call) instanceof ExecutableElement called && !called.equals(constructor) && dropsArguments(program, called);
    }
}
