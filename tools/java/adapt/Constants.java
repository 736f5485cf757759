package adapt;

import com.sun.source.tree.AssignmentTree;
import com.sun.source.tree.ClassTree;
import com.sun.source.tree.ExpressionStatementTree;
import com.sun.source.tree.ExpressionTree;
import com.sun.source.tree.MethodTree;
import com.sun.source.tree.NewClassTree;
import com.sun.source.tree.StatementTree;
import com.sun.source.tree.Tree;
import com.sun.source.tree.VariableTree;
import java.util.List;
import javax.lang.model.element.Element;
import javax.lang.model.element.ElementKind;
import javax.lang.model.element.ExecutableElement;
import javax.lang.model.element.Modifier;
import javax.lang.model.element.TypeElement;
import javax.lang.model.element.VariableElement;

/** The members of an enum: methods get the constant as a parameter, and a field becomes a method that chooses by the constant. */
final class Constants {
    private final Rewriter rewriter;
    private final Expressions expressions;
    private final Program program;
    private final Kinds kinds;
    private final Reach reach;

    Constants(Rewriter rewriter, Expressions expressions, Program program, Kinds kinds, Reach reach) {
        this.rewriter = rewriter;
        this.expressions = expressions;
        this.program = program;
        this.kinds = kinds;
        this.reach = reach;
    }

    String members(ClassTree tree, TypeElement type) {
        StringBuilder text = new StringBuilder();
        for (Element member : type.getEnclosedElements()) {
            Tree one = program.trees.getTree(member);
            if (!reach.kept.contains(member) || one == null || member.getKind() == ElementKind.ENUM_CONSTANT || member.getKind() == ElementKind.CONSTRUCTOR) continue;
            if (hasBodies(tree)) return rewriter.refused(one, "a member of an enum whose constants have bodies", "write a method with a `switch`");
            if (type.getInterfaces().stream().anyMatch(face -> reach.kept.contains(program.types.asElement(face))))
                    return rewriter.refused(tree, "an enum that implements an interface of the sources", "write a class for each constant");
            if (member instanceof ExecutableElement method && program.isWritten(method)) text.append(" ").append(rewriter.method((MethodTree) one));
            if (member instanceof VariableElement field) text.append(" ").append(field(tree, type, field, one));
        }
        return text.toString();
    }

    private static boolean hasBodies(ClassTree tree) {
        return tree.getMembers().stream().anyMatch(member -> member instanceof VariableTree variable && variable.getInitializer() instanceof NewClassTree made
                && made.getClassBody() != null);
    }

    private String field(ClassTree tree, TypeElement type, VariableElement field, Tree at) {
        if (field.getModifiers().contains(Modifier.STATIC)) return rewriter.refused(at, "a static field of an enum", "write a constant in another class");
        String kind = kinds.of(field);
        StringBuilder text = new StringBuilder();
        int number = 0;
        String last = null;
        for (Tree member : tree.getMembers()) {
            if (!(program.element(member) instanceof VariableElement constant) || constant.getKind() != ElementKind.ENUM_CONSTANT) continue;
            ExpressionTree value = valueOf(field, (VariableTree) member);
            if (value == null || !isConstant(value))
                    return rewriter.refused(at, "a field of an enum that isn't a constructor's constant argument", "write a method with a `switch`");
            last = expressions.value(value, kind);
            text.append(expressions.self()).append(" == ").append(number++).append(" ? ").append(last).append(" : ");
        }
        return "static " + rewriter.type(at, kind) + " " + expressions.accessor(field) + "(int " + expressions.self() + ") { return " + text + last + "; }";
    }

    /** What a constant's creation gives a field: the argument that the constructor assigns to it. */
    private ExpressionTree valueOf(VariableElement field, VariableTree constant) {
        NewClassTree made = (NewClassTree) constant.getInitializer();
        VariableTree declaration = (VariableTree) program.trees.getTree(field);
        if (declaration.getInitializer() != null) return declaration.getInitializer();
        ExecutableElement constructor = (ExecutableElement) program.element(made);
        MethodTree tree = program.trees.getTree(constructor);
        if (tree == null || constructor.isVarArgs()) return null;
        for (StatementTree statement : tree.getBody().getStatements()) {
            if (statement.toString().startsWith("super(")) continue;
            if (!(statement instanceof ExpressionStatementTree one) || !(one.getExpression() instanceof AssignmentTree assignment)) return null;
            if (!field.equals(program.element(assignment.getVariable()))) continue;
            int place = constructor.getParameters().indexOf(program.element(assignment.getExpression()));
            return place < 0 ? assignment.getExpression() : made.getArguments().get(place);
        }
        return null;
    }

    private boolean isConstant(ExpressionTree tree) {
        Element element = program.element(Program.bare(tree));
        boolean constant = element instanceof VariableElement variable && (variable.getConstantValue() != null || variable.getKind() == ElementKind.ENUM_CONSTANT);
        return constant || Numbers.of(program, tree) != 0 || List.of("true", "false", "null").contains(tree.toString())
                || tree.getKind() == Tree.Kind.CHAR_LITERAL || tree.toString().matches("-?[0-9]+[lL]?");
    }
}
