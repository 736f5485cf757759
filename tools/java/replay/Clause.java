package replay;

import com.sun.source.tree.ArrayAccessTree;
import com.sun.source.tree.BinaryTree;
import com.sun.source.tree.ConditionalExpressionTree;
import com.sun.source.tree.ExpressionTree;
import com.sun.source.tree.IdentifierTree;
import com.sun.source.tree.InstanceOfTree;
import com.sun.source.tree.LiteralTree;
import com.sun.source.tree.MemberSelectTree;
import com.sun.source.tree.MethodInvocationTree;
import com.sun.source.tree.ParenthesizedTree;
import com.sun.source.tree.Tree;
import com.sun.source.tree.TypeCastTree;
import com.sun.source.tree.UnaryTree;
import com.sun.source.util.TreePath;
import java.util.stream.Collectors;
import javax.lang.model.element.Element;
import javax.lang.model.element.ElementKind;
import javax.lang.model.element.Modifier;
import javax.lang.model.element.TypeElement;
import javax.lang.model.element.VariableElement;
import javax.lang.model.type.TypeKind;
import javax.lang.model.type.TypeMirror;
import sources.Program;

/** An expression of a contract as a test of another class writes it: members by reflection, so that private ones are there too. */
final class Clause {
    private static final String SUBJECT = "subject";
    private final Program program;
    private final TreePath method;

    Clause(Program program, TreePath method) {
        this.program = program;
        this.method = method;
    }

    String text(ExpressionTree tree) throws Fault {
        if (tree instanceof ParenthesizedTree inner) {
            return "(" + text(inner.getExpression()) + ")";
        } else if (tree instanceof BinaryTree binary) {
            return text(binary.getLeftOperand()) + sign(binary) + text(binary.getRightOperand());
        } else if (tree instanceof UnaryTree unary && !unary.getKind().name().contains("CREMENT")) {
            return source(unary).charAt(0) + text(unary.getExpression());
        } else if (tree instanceof ConditionalExpressionTree choice) {
            return text(choice.getCondition()) + " ? " + text(choice.getTrueExpression()) + " : " + text(choice.getFalseExpression());
        } else if (tree instanceof LiteralTree literal) {
            return source(literal);
        } else if (tree instanceof ArrayAccessTree access) {
            return typed(access, "Array.get(" + text(access.getExpression()) + ", " + text(access.getIndex()) + ")");
        } else if (tree instanceof TypeCastTree cast && !type(cast).getKind().isPrimitive()) {
            return text(cast.getExpression());
        } else if (tree instanceof InstanceOfTree test && test.getPattern() == null) {
            return "Class.forName(\"" + binaryName(test.getType()) + "\").isInstance(" + text(test.getExpression()) + ")";
        } else if (tree instanceof MethodInvocationTree call) {
            return call(call);
        } else if (tree instanceof IdentifierTree name) {
            return name.getName().contentEquals("this") ? SUBJECT : variable(name, SUBJECT);
        } else if (tree instanceof MemberSelectTree select) {
            return selected(select);
        }
        throw refused(tree);
    }

    private Fault refused(Tree tree) {
        return new Fault("the contract's `" + source(tree) + "` can't be written as a test");
    }

    private String selected(MemberSelectTree select) throws Fault {
        if (!(element(select) instanceof VariableElement field)) {
            throw refused(select);
        }
        if (select.getIdentifier().contentEquals("length") && type(select.getExpression()).getKind() == TypeKind.ARRAY) {
            return "Array.getLength(" + text(select.getExpression()) + ")";
        }
        return variable(select, field.getModifiers().contains(Modifier.STATIC) ? SUBJECT : text(select.getExpression()));
    }

    private String variable(ExpressionTree tree, String holder) throws Fault {
        if (!(element(tree) instanceof VariableElement variable)) {
            throw refused(tree);
        }
        if (variable.getKind() == ElementKind.ENUM_CONSTANT) {
            TypeElement type = (TypeElement) variable.getEnclosingElement();
            return "Enum.valueOf((Class) Class.forName(\"" + program.elements.getBinaryName(type) + "\"), \"" + variable.getSimpleName() + "\")";
        } else if (variable.getKind() != ElementKind.FIELD) {
            return variable.getSimpleName().toString();
        } else if (variable.getConstantValue() != null) {
            return "(" + variable.getConstantValue() + ")";
        } else if (variable.getModifiers().contains(Modifier.STATIC)) {
            throw refused(tree);
        }
        return typed(tree, "get(" + holder + ", \"" + variable.getSimpleName() + "\")");
    }

    private String call(MethodInvocationTree call) throws Fault {
        ExpressionTree select = call.getMethodSelect();
        Element called = element(select);
        StringBuilder arguments = new StringBuilder();
        for (ExpressionTree argument : call.getArguments()) {
            arguments.append(arguments.length() > 0 ? ", " : "").append(text(argument));
        }
        if (!program.isOwn(called)) {
            if (!called.getModifiers().contains(Modifier.STATIC)) {
                throw refused(call);
            }
            return source(select) + "(" + arguments + ")";
        }
        String holder = select instanceof MemberSelectTree member ? text(member.getExpression()) : SUBJECT;
        return typed(call, "call(" + holder + ", \"" + called.getSimpleName() + "\"" + (arguments.length() > 0 ? ", " : "") + arguments + ")");
    }

    /** A value of reflection as a value of its type, where operators need that. */
    private String typed(ExpressionTree tree, String value) {
        String cast = castOf(type(tree));
        return cast.isEmpty() ? value : "((" + cast + ") " + value + ")";
    }

    /** The type that a value of reflection is cast to: a primitive one or its box; nothing for others. */
    static String castOf(TypeMirror type) {
        boolean plain = type.getKind().isPrimitive() || type.toString().matches("java\\.lang\\.(Integer|Boolean|Character|Byte|Short|Long)");
        return plain ? type.toString() : "";
    }

    private String sign(BinaryTree tree) {
        String text = program.sourceOf(method.getCompilationUnit()).text();
        return " " + text.substring(end(tree.getLeftOperand()), start(tree.getRightOperand())).strip() + " ";
    }

    private String binaryName(Tree type) throws Fault {
        if (program.trees.getElement(path(type)) instanceof TypeElement named) {
            return program.elements.getBinaryName(named).toString();
        }
        throw refused(type);
    }

    private String source(Tree tree) {
        return program.sourceOf(method.getCompilationUnit()).text().substring(start(tree), end(tree)).lines().map(String::strip)
                .collect(Collectors.joining(" "));
    }

    private int start(Tree tree) {
        return program.start(method.getCompilationUnit(), tree);
    }

    private int end(Tree tree) {
        return program.end(method.getCompilationUnit(), tree);
    }

    private TreePath path(Tree tree) {
        return TreePath.getPath(method, tree);
    }

    private Element element(Tree tree) {
        return program.trees.getElement(path(tree));
    }

    private TypeMirror type(Tree tree) {
        return program.trees.getTypeMirror(path(tree));
    }
}
