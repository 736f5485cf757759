package replay;

import com.sun.source.tree.AnnotationTree;
import com.sun.source.tree.ArrayAccessTree;
import com.sun.source.tree.AssignmentTree;
import com.sun.source.tree.BlockTree;
import com.sun.source.tree.ClassTree;
import com.sun.source.tree.CompilationUnitTree;
import com.sun.source.tree.CompoundAssignmentTree;
import com.sun.source.tree.DoWhileLoopTree;
import com.sun.source.tree.EnhancedForLoopTree;
import com.sun.source.tree.ExpressionStatementTree;
import com.sun.source.tree.ExpressionTree;
import com.sun.source.tree.ForLoopTree;
import com.sun.source.tree.IdentifierTree;
import com.sun.source.tree.MemberSelectTree;
import com.sun.source.tree.MethodInvocationTree;
import com.sun.source.tree.MethodTree;
import com.sun.source.tree.NewArrayTree;
import com.sun.source.tree.ParenthesizedTree;
import com.sun.source.tree.StatementTree;
import com.sun.source.tree.Tree;
import com.sun.source.tree.UnaryTree;
import com.sun.source.tree.VariableTree;
import com.sun.source.tree.WhileLoopTree;
import com.sun.source.util.SourcePositions;
import com.sun.source.util.TreePath;
import com.sun.source.util.TreePathScanner;
import java.util.ArrayList;
import java.util.HashMap;
import java.util.List;
import java.util.Map;
import java.util.Set;
import java.util.TreeMap;
import javax.lang.model.element.Element;
import javax.lang.model.element.ExecutableElement;
import javax.lang.model.element.TypeElement;
import javax.lang.model.type.TypeKind;
import javax.lang.model.type.TypeMirror;

/** What is put into one source, by its places. */
final class Insertions extends TreePathScanner<Void, Void> {
    private static final Set<Tree.Kind> UNCHANGING =
            Set.of(Tree.Kind.UNARY_MINUS, Tree.Kind.UNARY_PLUS, Tree.Kind.BITWISE_COMPLEMENT, Tree.Kind.LOGICAL_COMPLEMENT);
    private final Rewriting whole;
    private final CompilationUnitTree unit;
    private final SourcePositions places;
    private final boolean noting;
    final TreeMap<Integer, String> added = new TreeMap<>();
    final Map<Integer, Character> changed = new HashMap<>();
    boolean unnoted;

    Insertions(Rewriting whole, CompilationUnitTree unit, boolean noting) {
        this.whole = whole;
        this.unit = unit;
        this.noting = noting;
        this.places = whole.trees.getSourcePositions();
    }

    private void add(long place, String text) {
        added.merge((int) place, text, String::concat);
    }

    private void guard(StatementTree body) {
        long start = places.getStartPosition(unit, body);
        if (body instanceof BlockTree) {
            add(start + 1, Rewriting.STEP);
        } else {
            add(start, "{" + Rewriting.STEP);
            add(places.getEndPosition(unit, body), " }");
        }
    }

    @Override
    public Void visitMethod(MethodTree method, Void none) {
        boolean constructor = method.getReturnType() == null;
        if (method.getBody() != null && !constructor) {
            guard(method.getBody());
        }
        return super.visitMethod(method, none);
    }

    /** The methods that a record has of itself read its fields unseen: they are written out. */
    @Override
    public Void visitClass(ClassTree tree, Void none) {
        if (noting && tree.getKind() == Tree.Kind.RECORD) {
            add(open(tree) + 1, ofRecord(tree));
        }
        return super.visitClass(tree, none);
    }

    private int open(ClassTree tree) {
        String text = sourceOf(unit);
        long at = places.getStartPosition(unit, tree);
        List<Tree> parts = new ArrayList<>(tree.getTypeParameters());
        parts.addAll(tree.getImplementsClause());
        parts.addAll(components(tree));
        parts.add(tree.getModifiers());
        for (Tree part : parts) {
            at = Math.max(at, places.getEndPosition(unit, part));
        }
        return text.indexOf('{', (int) at);
    }

    private List<VariableTree> components(ClassTree tree) {
        List<VariableTree> result = new ArrayList<>();
        for (Tree member : tree.getMembers()) {
            if (member instanceof VariableTree field && !field.getModifiers().getFlags().contains(javax.lang.model.element.Modifier.STATIC)) {
                result.add(field);
            }
        }
        return result;
    }

    private boolean declares(ClassTree tree, String name, int parameters) {
        return tree.getMembers().stream().anyMatch(member -> member instanceof MethodTree method && method.getName().contentEquals(name)
                && method.getParameters().size() == parameters && places.getEndPosition(unit, method.getBody()) > places.getStartPosition(unit, method.getBody()));
    }

    private String ofRecord(ClassTree tree) {
        StringBuilder text = new StringBuilder();
        StringBuilder equal = new StringBuilder("true");
        String hash = "0";
        for (VariableTree component : components(tree)) {
            String name = component.getName().toString();
            int number = whole.number(whole.trees.getElement(new TreePath(getCurrentPath(), component)));
            String type = sourceOf(unit).substring((int) places.getStartPosition(unit, component.getType()), (int) places.getEndPosition(unit, component.getType()));
            String own = Rewriting.READ + "this, " + number + ")." + name;
            String other = Rewriting.READ + "that, " + number + ")." + name;
            if (!declares(tree, name, 0)) {
                text.append(" public ").append(type).append(" ").append(name).append("() { return ").append(own).append("; }");
            }
            equal.append(" && java.util.Objects.equals(").append(own).append(", ").append(other).append(")");
            hash = "31 * (" + hash + ") + java.util.Objects.hashCode(" + own + ")";
        }
        if (!declares(tree, "equals", 1)) {
            String name = tree.getSimpleName().toString();
            text.append(" public boolean equals(Object other) { if (!(other instanceof ").append(name).append(")) return false; ").append(name)
                    .append(" that = (").append(name).append(") other; return ").append(equal).append("; }");
        }
        if (!declares(tree, "hashCode", 0)) {
            text.append(" public int hashCode() { return ").append(hash).append("; }");
        }
        return text.toString();
    }

    @Override
    public Void visitWhileLoop(WhileLoopTree loop, Void none) {
        guard(loop.getStatement());
        return super.visitWhileLoop(loop, none);
    }

    @Override
    public Void visitDoWhileLoop(DoWhileLoopTree loop, Void none) {
        guard(loop.getStatement());
        return super.visitDoWhileLoop(loop, none);
    }

    @Override
    public Void visitForLoop(ForLoopTree loop, Void none) {
        guard(loop.getStatement());
        return super.visitForLoop(loop, none);
    }

    @Override
    public Void visitEnhancedForLoop(EnhancedForLoopTree loop, Void none) {
        guard(loop.getStatement());
        return super.visitEnhancedForLoop(loop, none);
    }

    @Override
    public Void scan(Tree tree, Void none) {
        if (noting && tree instanceof ExpressionTree && !(tree instanceof NewArrayTree) && getCurrentPath() != null) {
            TypeMirror type = whole.trees.getTypeMirror(new TreePath(getCurrentPath(), tree));
            if (type != null && type.getKind() == TypeKind.ARRAY && !staysInSight(tree)) {
                add(places.getStartPosition(unit, tree), Rewriting.WHOLE);
                add(places.getEndPosition(unit, tree), ")");
            }
        }
        return super.scan(tree, none);
    }

    /** Whether the elements of an array that stands here can be read by noted reads alone. */
    private boolean staysInSight(Tree array) {
        Tree parent = getCurrentPath().getLeaf();
        if (parent instanceof VariableTree variable) {
            return isArray(variable.getType());
        } else if (parent instanceof AssignmentTree assignment) {
            return assignment.getVariable() == array || isArray(assignment.getVariable());
        } else if (parent instanceof MethodInvocationTree call) {
            return isOwnParameter(call, call.getArguments().indexOf(array));
        }
        return parent instanceof ArrayAccessTree
                || parent instanceof ParenthesizedTree
                || parent instanceof ExpressionStatementTree
                || parent instanceof MemberSelectTree select && select.getIdentifier().contentEquals("length")
                || parent.getKind() == Tree.Kind.EQUAL_TO
                || parent.getKind() == Tree.Kind.NOT_EQUAL_TO;
    }

    private boolean isArray(Tree tree) {
        TypeMirror type = tree == null ? null : whole.trees.getTypeMirror(new TreePath(getCurrentPath(), tree));
        return type != null && type.getKind() == TypeKind.ARRAY;
    }

    /** Whether this argument goes to an array of a method of the sources. */
    private boolean isOwnParameter(MethodInvocationTree call, int index) {
        Element called = whole.trees.getElement(getCurrentPath());
        return index >= 0
                && called instanceof ExecutableElement method
                && whole.trees.getTree(method) != null
                && !method.isVarArgs()
                && method.getParameters().get(index).asType().getKind() == TypeKind.ARRAY;
    }

    @Override
    public Void visitAnnotation(AnnotationTree annotation, Void none) {
        return null;
    }

    @Override
    public Void visitArrayAccess(ArrayAccessTree access, Void none) {
        if (noting && !isTarget(access)) {
            int open = sourceOf(unit).indexOf("[", (int) places.getEndPosition(unit, access.getExpression()));
            add(places.getStartPosition(unit, access), Rewriting.GET);
            changed.put(open, ',');
            changed.put((int) places.getEndPosition(unit, access) - 1, ')');
        }
        return super.visitArrayAccess(access, none);
    }

    private String sourceOf(CompilationUnitTree unit) {
        return whole.sources.get(unit.getSourceFile().getName());
    }

    @Override
    public Void visitMemberSelect(MemberSelectTree select, Void none) {
        int number = noting && !isTarget(select) ? whole.number(whole.trees.getElement(getCurrentPath())) : -1;
        if (number >= 0) {
            unnoted |= select.getExpression().toString().equals("super");
            add(places.getStartPosition(unit, select.getExpression()), Rewriting.READ);
            add(places.getEndPosition(unit, select.getExpression()), ", " + number + ")");
        }
        return super.visitMemberSelect(select, none);
    }

    @Override
    public Void visitIdentifier(IdentifierTree name, Void none) {
        Element element = whole.trees.getElement(getCurrentPath());
        int number = noting && !isTarget(name) ? whole.number(element) : -1;
        if (number >= 0) {
            String holder = holder(element.getEnclosingElement());
            add(places.getStartPosition(unit, name), Rewriting.READ + holder + ", " + number + ").");
        }
        return super.visitIdentifier(name, none);
    }

    /** The object that a field named alone belongs to: `this`, or an outer object. */
    private String holder(Element declaring) {
        String holder = "this";
        for (TreePath path = getCurrentPath(); path != null; path = path.getParentPath()) {
            if (path.getLeaf() instanceof ClassTree tree) {
                if (whole.inherits((TypeElement) whole.trees.getElement(path), declaring)) {
                    return holder.equals("this") ? holder : tree.getSimpleName() + ".this";
                }
                holder = "";
            }
        }
        unnoted = true;
        return "this";
    }

    /** Whether this is what an assignment writes, which is no read that a candidate's field could have. */
    private boolean isTarget(Tree tree) {
        Tree parent = getCurrentPath().getParentPath().getLeaf();
        return parent instanceof AssignmentTree assignment && assignment.getVariable() == tree
                || parent instanceof CompoundAssignmentTree compound && compound.getVariable() == tree
                || parent instanceof UnaryTree step && !UNCHANGING.contains(step.getKind());
    }
}
