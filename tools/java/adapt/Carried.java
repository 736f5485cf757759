package adapt;

import com.sun.source.tree.BlockTree;
import com.sun.source.tree.ClassTree;
import com.sun.source.tree.ExpressionTree;
import com.sun.source.tree.LambdaExpressionTree;
import com.sun.source.tree.MethodTree;
import com.sun.source.tree.NewClassTree;
import com.sun.source.tree.Tree;
import com.sun.source.tree.VariableTree;
import java.util.ArrayList;
import java.util.List;
import javax.lang.model.element.Element;
import javax.lang.model.element.ExecutableElement;
import javax.lang.model.element.Modifier;
import javax.lang.model.element.TypeElement;
import javax.lang.model.element.VariableElement;
import javax.lang.model.type.TypeKind;

/** Fields, parameters and arguments by which inner classes and lambdas have the object and the variables around them. */
final class Carried {
    private final Rewriter rewriter;
    private final Expressions expressions;
    private final Program program;
    private final Kinds kinds;
    private final Reach reach;
    private final Outers outers;

    Carried(Rewriter rewriter, Expressions expressions, Program program, Kinds kinds, Reach reach, Outers outers) {
        this.rewriter = rewriter;
        this.expressions = expressions;
        this.program = program;
        this.kinds = kinds;
        this.reach = reach;
        this.outers = outers;
    }

    /** Each with its type. */
    List<String> parameters(TypeElement type) {
        return parameters(program.trees.getTree(type), outers.has(type) ? Outers.enclosing(type) : null);
    }

    private List<String> parameters(Tree tree, TypeElement around) {
        List<String> result = new ArrayList<>();
        if (around != null) result.add(program.nameOf(around) + " " + outers.name());
        for (VariableElement variable : outers.captured(tree)) result.add(rewriter.type(tree, kinds.of(variable)) + " " + variable.getSimpleName());
        return result;
    }

    /** What is given where an object of a class, or a lambda, is made. */
    List<String> arguments(Tree at, TypeElement type) {
        List<String> result = new ArrayList<>();
        if (at instanceof LambdaExpressionTree lambda) {
            if (outers.has(lambda)) result.add(outers.instance(at, program.classAround(at)));
            for (VariableElement variable : outers.captured(at)) result.add(expressions.nameOf(variable));
            return result;
        }
        NewClassTree made = (NewClassTree) at;
        if (outers.has(type)) result.add(made.getEnclosingExpression() != null ? expressions.receiver(made.getEnclosingExpression())
                : outers.instance(at, Outers.enclosing(type)));
        for (VariableElement variable : outers.captured(program.trees.getTree(type))) result.add(expressions.nameOf(variable));
        return result;
    }

    /** The names of what is given, which a constructor hands on to another one. */
    List<String> names(TypeElement type) {
        return parameters(type).stream().map(text -> text.substring(text.lastIndexOf(' ') + 1)).toList();
    }

    /** The added fields, and the constructor where the class has none. */
    String members(ClassTree tree, TypeElement type, boolean made) {
        StringBuilder text = new StringBuilder();
        for (String parameter : parameters(type)) text.append(" ").append(parameter).append(";");
        boolean has = tree.getMembers().stream().anyMatch(member -> member instanceof MethodTree method && method.getReturnType() == null
                && program.end(method) > program.start(method) && program.text(method).matches("(?s)(\\w+\\s+)*" + type.getSimpleName() + "\\s*\\(.*"));
        if (made && !has) {
            text.append(" ").append(program.nameOf(type)).append("(").append(String.join(", ", parameters(type))).append(") { ")
                    .append(settings(null, type)).append("}");
        }
        return text.toString();
    }

    /** The statements that set the added fields, and then the initial values of the class. */
    String settings(MethodTree constructor, TypeElement type) {
        StringBuilder text = new StringBuilder();
        for (String name : names(type)) text.append("this.").append(name).append(" = ").append(name).append("; ");
        for (Tree member : program.trees.getTree(type).getMembers()) {
            if (member instanceof BlockTree block && !block.isStatic()) text.append(rewriter.of(block)).append(" ");
            if (member instanceof VariableTree variable) text.append(initial(variable));
        }
        if (constructor != null && constructor.getBody().getStatements().stream().limit(1)
                .anyMatch(first -> program.end(first) > program.start(first) && first.toString().startsWith("super(")))
                rewriter.refused(constructor, "a constructor of a class that uses the object around it, with `super(..)`", "make the class static");
        return text.toString();
    }

    private String initial(VariableTree tree) {
        Element field = program.element(tree);
        if (!reach.kept.contains(field) || field.getModifiers().contains(Modifier.STATIC) || Bounds.isConstant((VariableElement) field)) return "";
        String kind = kinds.of(field);
        String value = tree.getInitializer() != null ? expressions.value(tree.getInitializer(), kind)
                : Kinds.isEnum(kind) ? "-1" : Kinds.isStored(kind) ? Expressions.number(Kinds.none(kind)) : null;
        return value == null ? "" : "this." + field.getSimpleName() + " = " + value + "; ";
    }

    /** The class that a lambda becomes. */
    String lambda(LambdaExpressionTree tree, MethodNames names) {
        ExecutableElement function = program.functionOf(tree);
        boolean own = program.isOwn(function);
        String name = program.nameOf(tree);
        List<String> around = parameters(tree, outers.has(tree) ? program.classAround(tree) : null);
        StringBuilder text = new StringBuilder("static class " + name + (own ? " extends " + Program.classOf(function).getSimpleName() : "") + " {");
        for (String parameter : around) text.append(" ").append(parameter).append(";");
        if (!around.isEmpty()) {
            text.append(" ").append(name).append("(").append(String.join(", ", around)).append(") {");
            for (String parameter : around) {
                String field = parameter.substring(parameter.lastIndexOf(' ') + 1);
                text.append(" this.").append(field).append(" = ").append(field).append(";");
            }
            text.append(" }");
        }
        List<String> parameters = new ArrayList<>();
        for (VariableTree parameter : tree.getParameters())
            parameters.add(rewriter.type(parameter, kinds.of(program.element(parameter))) + " " + parameter.getName());
        String result = kinds.resultOf(tree);
        text.append(own ? " @Override " : " ").append(rewriter.type(tree, result)).append(" ").append(own ? names.of(function) : function.getSimpleName())
                .append("(").append(String.join(", ", parameters)).append(") ");
        if (tree.getBody() instanceof ExpressionTree body) {
            boolean nothing = function.getReturnType().getKind() == TypeKind.VOID;
            text.append(nothing ? "{ " + rewriter.of(body) + "; }" : "{ return " + expressions.value(body, result) + "; }");
        } else {
            text.append(rewriter.of(tree.getBody()));
        }
        return text.append(" }").toString();
    }
}
