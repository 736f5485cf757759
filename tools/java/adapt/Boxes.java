package adapt;

import com.sun.source.tree.ConditionalExpressionTree;
import com.sun.source.tree.ExpressionTree;
import com.sun.source.tree.TypeCastTree;
import java.util.Set;
import java.util.TreeSet;
import javax.lang.model.element.Element;
import javax.lang.model.element.ExecutableElement;
import javax.lang.model.element.VariableElement;
import javax.lang.model.type.ArrayType;
import javax.lang.model.type.TypeKind;
import javax.lang.model.type.TypeMirror;

/** Of which classes numbers are where a type says nothing of it, as in an `Object` or a `T`: those that flow into any such place. */
final class Boxes {
    private static final String NUMBERS = "Integer|Long|Character|Byte|Short";
    private final Program program;
    private final Kinds kinds;
    private Set<String> all;

    Boxes(Program program, Kinds kinds) {
        this.program = program;
        this.kinds = kinds;
    }

    /** The classes that an expression's number may have. */
    Set<String> of(ExpressionTree tree) {
        Set<String> found = new TreeSet<>();
        collect(tree, found);
        return found;
    }

    /** Whether two expressions' numbers are of one class. */
    boolean areOne(ExpressionTree left, ExpressionTree right) {
        Set<String> both = of(left);
        both.addAll(of(right));
        return both.size() <= 1;
    }

    private void collect(ExpressionTree tree, Set<String> found) {
        ExpressionTree bare = Program.bare(tree);
        if (Program.isNull(bare)) return;
        String box = of(program.type(bare));
        if (!box.isEmpty()) found.add(box);
        else if (bare instanceof TypeCastTree cast) collect(cast.getExpression(), found);
        else if (bare instanceof ConditionalExpressionTree choice) {
            collect(choice.getTrueExpression(), found);
            collect(choice.getFalseExpression(), found);
        } else found.addAll(all());
    }

    static String of(TypeMirror type) {
        String box = type == null ? "" : Calls.box(type);
        return box.matches(NUMBERS) ? box : "";
    }

    Set<String> all() {
        if (all != null) return all;
        all = new TreeSet<>();
        for (Flow.Edge edge : kinds.flow.edges) if (isAny(typeOf(edge.to()))) add(edge.from());
        for (String key : kinds.fin.fields().keySet()) addCandidates(kinds.field(key));
        if (kinds.held.hasNumbersOfAny("int")) all.add("Integer");
        if (kinds.held.hasNumbersOfAny("long")) all.add("Long");
        return all;
    }

    private void add(ExpressionTree from) {
        ExpressionTree bare = Program.bare(from);
        if (bare instanceof TypeCastTree cast && of(program.type(bare)).isEmpty()) add(cast.getExpression());
        else if (bare instanceof ConditionalExpressionTree choice && of(program.type(bare)).isEmpty()) {
            add(choice.getTrueExpression());
            add(choice.getFalseExpression());
        } else if (!of(program.type(bare)).isEmpty()) all.add(of(program.type(bare)));
    }

    /** A candidate's number is an Integer or a Long where its type doesn't say it. */
    private void addCandidates(VariableElement field) {
        if (field == null) return;
        TypeMirror type = field.asType();
        while (type instanceof ArrayType array) type = array.getComponentType();
        String kind = kinds.of(field).replaceAll("\\[]|~", "");
        if (isAny(type) && Kinds.isNumber(kind)) all.add(Kinds.isInt(kind) ? "Integer" : "Long");
    }

    private TypeMirror typeOf(Object place) {
        if (place instanceof VariableElement variable) return variable.asType();
        if (place instanceof ExecutableElement method) return method.getReturnType();
        if (!(place instanceof Flow.ElementOf part)) return null;
        TypeMirror array = part.array() instanceof ExpressionTree tree ? program.type(tree) : part.array() instanceof Element element ? element.asType() : null;
        return array instanceof ArrayType whole ? whole.getComponentType() : null;
    }

    /** Whether a type says nothing of a number's class. A place that isn't known is taken for one. */
    static boolean isAny(TypeMirror type) {
        return type == null || !type.getKind().isPrimitive() && type.getKind() != TypeKind.ARRAY && type.getKind() != TypeKind.VOID && of(type).isEmpty();
    }
}
