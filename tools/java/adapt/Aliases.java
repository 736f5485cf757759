package adapt;

import com.sun.source.tree.ConditionalExpressionTree;
import com.sun.source.tree.ExpressionTree;
import com.sun.source.tree.MemberSelectTree;
import com.sun.source.tree.MethodInvocationTree;
import com.sun.source.tree.MethodTree;
import com.sun.source.tree.NewClassTree;
import com.sun.source.tree.TypeCastTree;
import com.sun.source.util.TreeScanner;
import java.util.HashMap;
import java.util.HashSet;
import java.util.List;
import java.util.Map;
import java.util.Set;
import javax.lang.model.element.Element;
import javax.lang.model.element.ElementKind;
import javax.lang.model.element.ExecutableElement;
import javax.lang.model.element.VariableElement;

/** Which expressions may be one collection, where collections are made, and which calls change one. */
final class Aliases {
    private final Program program;
    private final Kinds kinds;
    private final Reach reach;
    /** For each method the collections that it changes, itself or by what it calls. */
    private final Map<ExecutableElement, Set<Object>> changed = new HashMap<>();

    Aliases(Program program, Kinds kinds, Reach reach) {
        this.program = program;
        this.kinds = kinds;
        this.reach = reach;
        for (Element element : reach.kept) if (element instanceof ExecutableElement method && program.isOwn(method)) changed.put(method, new HashSet<>());
        boolean more = true;
        while (more) {
            more = false;
            for (ExecutableElement method : changed.keySet()) more |= collect(method);
        }
    }

    private boolean collect(ExecutableElement method) {
        MethodTree tree = program.trees.getTree(method);
        if (tree == null || tree.getBody() == null) return false;
        Set<Object> found = changed.get(method);
        int before = found.size();
        new TreeScanner<Void, Void>() {
            @Override
            public Void visitMethodInvocation(MethodInvocationTree call, Void nothing) {
                found.addAll(changedBy(call));
                return super.visitMethodInvocation(call, nothing);
            }

            @Override
            public Void visitNewClass(NewClassTree call, Void nothing) {
                if (program.element(call) instanceof ExecutableElement made) found.addAll(changed.getOrDefault(made, Set.of()));
                return super.visitNewClass(call, nothing);
            }
        }.scan(tree.getBody(), null);
        return found.size() > before;
    }

    private Set<Object> changedBy(MethodInvocationTree call) {
        ExecutableElement called = (ExecutableElement) program.element(call);
        if (called == null) return Set.of();
        if (!program.isOwn(called)) {
            ExpressionTree receiver = kinds.receiver(call);
            boolean collection = receiver != null && Checks.isChange(called) && isCollection(receiver);
            return collection ? Set.of(rootOf(receiver)) : Set.of();
        }
        Set<Object> result = new HashSet<>();
        changed.forEach((method, roots) -> {
            if (method.equals(called) || program.elements.overrides(method, called, Program.classOf(method))) result.addAll(roots);
        });
        return result;
    }

    private boolean isCollection(ExpressionTree tree) {
        String kind = kinds.of(tree);
        return kinds.isList(kind) || kinds.isMap(kind) || kind.startsWith("DequeOf");
    }

    /** What a collection may be the same as: its variable's class of what flows together, or else all of its kind. */
    private Object rootOf(ExpressionTree tree) {
        ExpressionTree bare = Program.bare(tree);
        while (bare instanceof TypeCastTree cast) bare = Program.bare(cast.getExpression());
        Element element = program.element(bare);
        if (kinds.held.ofKind(kinds.of(bare)) != null) return Kinds.partOf(kinds.of(bare));
        if (element instanceof VariableElement) return kinds.flow.root(element);
        if (bare instanceof MethodInvocationTree call && program.isOwn(element)) return kinds.flow.root(element);
        return kinds.of(tree).replaceAll("^(Linked|Sorted|Deque)?(List|Set|Map|Deque)?Of", "");
    }

    /** Whether two may be the same. */
    private boolean meet(Object left, Object right, ExpressionTree collection) {
        if (left.equals(right)) return true;
        String kind = kinds.of(collection).replaceAll("^(Linked|Sorted|Deque)?(List|Set|Map|Deque)?Of", "");
        return left.equals(kind) || right instanceof String && left instanceof String;
    }

    /** Whether a call may change a collection of the code around it. */
    boolean changes(MethodInvocationTree call, ExpressionTree collection, ExecutableElement around) {
        Object root = rootOf(collection);
        boolean own = program.isOwn(program.element(call));
        if (own && isOfOneActivation(collection, around)) return false;
        return changedBy(call).stream().anyMatch(one -> meet(one, root, collection));
    }

    /** Whether a collection is in local variables of one method alone, so that another call has another one. */
    private boolean isOfOneActivation(ExpressionTree collection, ExecutableElement around) {
        if (!(program.element(Program.bare(collection)) instanceof VariableElement variable)) return false;
        List<Element> sharing = kinds.flow.sharing(variable);
        return variable.getKind() == ElementKind.LOCAL_VARIABLE
                && sharing.stream().allMatch(one -> one.getKind() == ElementKind.LOCAL_VARIABLE && one.getEnclosingElement().equals(around));
    }

    /** The collection that a `for` goes through, which of a map's view is the map. */
    ExpressionTree collection(ExpressionTree tree) {
        ExpressionTree bare = Program.bare(tree);
        if (bare instanceof MethodInvocationTree call && call.getMethodSelect() instanceof MemberSelectTree select
                && select.getIdentifier().toString().matches("keySet|entrySet|values") && kinds.isMap(kinds.of(select.getExpression()))) {
            return Program.bare(select.getExpression());
        }
        return isCollection(bare) ? bare : null;
    }

    // ---- where a collection is made

    /** Whether a collection may be one in the order of hashes. */
    boolean isHashed(ExpressionTree tree) {
        String kind = kinds.of(tree);
        if (kinds.held.ofKind(kind) != null) return kinds.held.ofKind(kind).type().startsWith("Hash");
        if (!kind.matches("HashSet<.*|SetOf.*|MapOf.*")) return kind.matches("LinkedList<.*|ListOf.*") && madeBy(tree, "HashSet|Set.of", false);
        return madeBy(tree, "LinkedHashSet|LinkedHashMap|TreeSet|TreeMap", true);
    }

    /** Whether a collection can't be changed, or may be such a one. */
    boolean isFixed(ExpressionTree tree) {
        return isCollection(tree) && madeBy(tree, "List.of|Set.of|Arrays.asList|Collections.singleton|Collections.singletonList|Map.of"
                + "|Collections.emptyList|Collections.emptySet|Collections.emptyMap", false);
    }

    /** Whether a collection may be one that can't be asked for null. */
    boolean refusesNull(ExpressionTree tree) {
        return isCollection(tree) && madeBy(tree, "List.of|Set.of", false);
    }

    /** Whether something that flows into an expression is made by one of these, or (other) by anything else. */
    private boolean madeBy(ExpressionTree tree, String makers, boolean other) {
        return madeBy(tree, makers, other, new HashSet<>());
    }

    private boolean madeBy(ExpressionTree tree, String makers, boolean other, Set<Object> seen) {
        ExpressionTree bare = Program.bare(tree);
        if (Program.isNull(bare) || !seen.add(bare)) return false;
        if (bare instanceof TypeCastTree cast) return madeBy(cast.getExpression(), makers, other, seen);
        if (bare instanceof ConditionalExpressionTree choice)
                return madeBy(choice.getTrueExpression(), makers, other, seen) || madeBy(choice.getFalseExpression(), makers, other, seen);
        Element element = program.element(bare);
        if (bare instanceof NewClassTree made) return Program.classOf(element).getSimpleName().toString().matches(makers) != other;
        boolean own = program.isOwn(element) && (element instanceof VariableElement || bare instanceof MethodInvocationTree);
        if (own) {
            if (!seen.add(element)) return false;
            List<ExpressionTree> into = kinds.flowingInto(element);
            return into.isEmpty() ? other : into.stream().anyMatch(from -> madeBy(from, makers, other, seen));
        }
        if (element instanceof ExecutableElement method)
                return (Program.classOf(method).getSimpleName() + "." + method.getSimpleName()).matches(makers) != other;
        return other;
    }
}
