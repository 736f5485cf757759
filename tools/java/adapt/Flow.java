package adapt;

import com.sun.source.tree.ArrayAccessTree;
import com.sun.source.tree.AssignmentTree;
import com.sun.source.tree.ConditionalExpressionTree;
import com.sun.source.tree.ExpressionTree;
import com.sun.source.tree.MethodInvocationTree;
import com.sun.source.tree.NewArrayTree;
import com.sun.source.tree.TypeCastTree;
import java.util.ArrayList;
import java.util.HashMap;
import java.util.HashSet;
import java.util.List;
import java.util.Map;
import java.util.Set;
import javax.lang.model.element.Element;

/** What flows where in the code that is reached: from an expression to a variable or a method's result. */
final class Flow {
    /** From an expression to a variable, a method's result, or (as ElementOf) an array's element. */
    record Edge(ExpressionTree from, Object to) {}

    /** The elements of what an expression or a variable holds. */
    record ElementOf(Object array) {}

    private final Program program;
    final List<Edge> edges = new ArrayList<>();
    private final Map<Object, Object> above = new HashMap<>();
    private final Map<Object, Object> parts = new HashMap<>();
    private final Set<Object> scratch = new HashSet<>();
    private final Set<Element> stepped = new HashSet<>();

    Flow(Program program) {
        this.program = program;
    }

    void add(ExpressionTree from, Object to) {
        edges.add(new Edge(from, to));
    }

    List<ExpressionTree> into(Object target) {
        return edges.stream().filter(edge -> edge.to.equals(target)).map(Edge::from).toList();
    }

    /** Joins what one array may stand in, and marks what is made by one of the creations given. */
    void settle(List<ExpressionTree> creations, java.util.Collection<Set<Element>> linked) {
        for (Set<Element> one : linked) one.forEach(element -> join(element, one.iterator().next()));
        for (Edge edge : edges) join(node(edge.from), edge.to instanceof ElementOf part ? element(part.array) : edge.to);
        for (ExpressionTree creation : creations) mark(find(node(creation)));
        List<Object> roots = List.copyOf(scratch);
        scratch.clear();
        for (Object root : roots) scratch.add(find(root));
    }

    private void mark(Object root) {
        scratch.add(root);
        if (parts.containsKey(root)) mark(find(parts.get(root)));
    }

    boolean isScratch(Object node) {
        return node != null && scratch.contains(find(node));
    }

    boolean isScratch(ExpressionTree tree) {
        return isScratch(node(tree));
    }

    /** The variables that may hold the same arrays as a creation. */
    List<Element> sharing(ExpressionTree creation) {
        Object root = find(node(creation));
        return above.keySet().stream().filter(Element.class::isInstance).map(Element.class::cast).filter(e -> find(e) == root)
                .toList();
    }

    /** What stands for a variable and all that flows together with it. */
    Object root(Element element) {
        return find(element);
    }

    /** What stands for an expression and all that flows together with it. */
    Object root(ExpressionTree tree) {
        return find(node(tree));
    }

    /** The variables that may hold the same as one. */
    List<Element> sharing(Element element) {
        Object root = find(element);
        List<Element> all = above.keySet().stream().filter(Element.class::isInstance).map(Element.class::cast).filter(e -> find(e) == root).toList();
        return all.isEmpty() ? List.of(element) : all;
    }

    void step(Element element) {
        stepped.add(element);
    }

    /** Whether a variable is changed by `++`, `+=` and the like. */
    boolean isStepped(Element element) {
        return stepped.contains(element);
    }

    private Object node(ExpressionTree tree) {
        ExpressionTree bare = Program.bare(tree);
        if (bare instanceof TypeCastTree cast) return node(cast.getExpression());
        if (bare instanceof AssignmentTree assignment) return node(assignment.getVariable());
        if (bare instanceof ArrayAccessTree access) return element(access.getExpression());
        if (bare instanceof NewArrayTree || bare instanceof com.sun.source.tree.NewClassTree) return bare;
        if (bare instanceof ConditionalExpressionTree choice) {
            join(node(choice.getTrueExpression()), node(choice.getFalseExpression()));
            return node(choice.getTrueExpression());
        }
        Element element = program.element(bare);
        if (bare instanceof MethodInvocationTree) return program.isOwn(element) ? element : bare;
        return element == null ? bare : element;
    }

    private Object element(Object array) {
        Object root = find(array instanceof ExpressionTree tree ? node(tree) : array);
        return parts.computeIfAbsent(root, key -> new ElementOf(key));
    }

    private Object find(Object node) {
        Object root = node;
        while (above.containsKey(root) && above.get(root) != root) root = above.get(root);
        return root;
    }

    private void join(Object left, Object right) {
        Object a = find(left);
        Object b = find(right);
        above.putIfAbsent(a, a);
        above.putIfAbsent(b, b);
        above.putIfAbsent(left, a);
        above.putIfAbsent(right, b);
        if (a.equals(b)) return;
        above.put(a, b);
        Object part = parts.remove(a);
        if (part == null) return;
        if (parts.putIfAbsent(b, part) != null) join(part, parts.get(b));
    }
}
