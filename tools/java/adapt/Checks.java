package adapt;

import com.sun.source.tree.AnnotationTree;
import com.sun.source.tree.AssertTree;
import com.sun.source.tree.AssignmentTree;
import com.sun.source.tree.BlockTree;
import com.sun.source.tree.BreakTree;
import com.sun.source.tree.CompoundAssignmentTree;
import com.sun.source.tree.EnhancedForLoopTree;
import com.sun.source.tree.ExpressionStatementTree;
import com.sun.source.tree.ExpressionTree;
import com.sun.source.tree.MethodInvocationTree;
import com.sun.source.tree.MethodTree;
import com.sun.source.tree.NewArrayTree;
import com.sun.source.tree.NewClassTree;
import com.sun.source.tree.ReturnTree;
import com.sun.source.tree.StatementTree;
import com.sun.source.tree.Tree;
import com.sun.source.tree.UnaryTree;
import com.sun.source.util.TreeScanner;
import java.util.ArrayList;
import java.util.HashMap;
import java.util.HashSet;
import java.util.List;
import java.util.Map;
import java.util.Set;
import javax.lang.model.element.Element;
import javax.lang.model.element.ElementKind;
import javax.lang.model.element.ExecutableElement;
import javax.lang.model.element.TypeElement;
import javax.lang.model.element.VariableElement;
import javax.lang.model.type.ArrayType;
import javax.lang.model.type.DeclaredType;
import javax.lang.model.type.TypeMirror;

/** What the adapted classes would do otherwise than the sources: refused, or warned of where it needn't matter. */
final class Checks {
    private static final String CHANGES = "add|addAll|addFirst|addLast|addElement|offer|offerFirst|offerLast|push|pop|poll|pollFirst|pollLast|remove"
            + "|removeAll|removeFirst|removeLast|removeIf|retainAll|clear|put|putAll|putIfAbsent|merge|insert|sort|set|setValue|replaceAll";
    private static final String HASHED = "(Linked)?Hash(Set|Map)|IdentityHashMap|Hashtable";

    private final Program program;
    private final Kinds kinds;
    private final Reach reach;
    private final Notes notes;
    private final Aliases aliases;
    private final Lengths lengths;
    private final Set<TypeElement> keys = new HashSet<>();
    private final List<ExpressionTree> writes = new ArrayList<>();
    private ExecutableElement method;

    Checks(Program program, Kinds kinds, Reach reach, Notes notes) {
        this.program = program;
        this.kinds = kinds;
        this.reach = reach;
        this.notes = notes;
        aliases = new Aliases(program, kinds, reach);
        lengths = new Lengths(program, kinds);
    }

    void all() {
        for (Element element : reach.kept) {
            if (!(element instanceof ExecutableElement one) || !program.isOwn(one)) continue;
            MethodTree tree = program.trees.getTree(one);
            if (tree == null || tree.getBody() == null) continue;
            method = one;
            scanner.scan(tree.getBody(), null);
        }
        writes.forEach(this::refuseChangedKey);
        refuseTwoArrayTypes();
        if (reach.tested != null) new Exceptions(program, kinds, reach, notes).warn();
    }

    private boolean mayBeNull(ExpressionTree tree) {
        ExpressionTree bare = Program.bare(tree);
        boolean constant = program.element(bare) != null && program.element(bare).getKind() == javax.lang.model.element.ElementKind.ENUM_CONSTANT;
        return !program.type(bare).getKind().isPrimitive() && !constant && !(bare instanceof NewClassTree) && !bare.toString().equals("this");
    }

    private void warnOfLength(Tree creation, ExpressionTree length) {
        long most = lengths.most(length, method);
        if (most < 0 || most > 64) {
            notes.warn(program.place(creation), "an array longer than 64 traps in korat, and nothing says that `" + program.text(length) + "` is at most 64");
        }
    }

    private void refuse(Tree tree, String what, String rewrite) {
        notes.refuse(program.place(tree), what, rewrite);
    }

    private final TreeScanner<Void, Void> scanner = new TreeScanner<>() {
        @Override
        public Void visitEnhancedForLoop(EnhancedForLoopTree tree, Void nothing) {
            ExpressionTree collection = aliases.collection(tree.getExpression());
            if (collection != null) {
                warnOfOrder(tree, collection);
                refuseChange(tree, collection);
            }
            return super.visitEnhancedForLoop(tree, nothing);
        }

        @Override
        public Void visitNewClass(NewClassTree tree, Void nothing) {
            if (program.element(tree) instanceof ExecutableElement maker && Thrown.dropsArguments(program, maker)) return null;
            checkMembers(tree, program.type(tree), Program.classOf(program.element(tree)).getSimpleName().toString());
            for (ExpressionTree argument : tree.getArguments()) if (!program.isOwn(program.element(tree))) warnOfOrder(tree, aliases.collection(argument));
            return super.visitNewClass(tree, nothing);
        }

        @Override
        public Void visitMethodInvocation(MethodInvocationTree tree, Void nothing) {
            ExecutableElement called = (ExecutableElement) program.element(tree);
            if (called != null && called.getKind() == ElementKind.CONSTRUCTOR && Thrown.dropsArguments(program, called)) return null;
            if (called != null && !program.isOwn(called)) {
                ExpressionTree receiver = kinds.receiver(tree);
                if (called.getSimpleName().contentEquals("iterator") && receiver != null) {
                    ExpressionTree collection = aliases.collection(receiver);
                    warnOfOrder(tree, collection);
                    if (collection != null) refuseLaterChange(tree, collection);
                }
                if (called.getSimpleName().contentEquals("addAll")) warnOfOrder(tree, aliases.collection(tree.getArguments().get(0)));
                if (Collected.isCopy(called) && tree.getArguments().size() > 1 && !kinds.isAdded(kinds.of(tree)))
                        warnOfLength(tree, tree.getArguments().get(tree.getArguments().size() - 1));
                if (Collected.makes(called)) checkMembers(tree, program.type(tree), Collected.qualified(called).equals("java.util.Set.of") ? "HashSet" : "");
                if (receiver != null && called.getSimpleName().toString().matches("contains|indexOf|lastIndexOf") && mayBeNull(tree.getArguments().get(0)) && aliases.refusesNull(receiver))
                        refuse(tree, "`" + called.getSimpleName() + "` of what `List.of` or `Set.of` made, which ends by an exception where null is looked for", "make it by `new`");
                if (receiver != null && isChange(called) && aliases.isFixed(receiver))
                        refuse(tree, "a change of a collection that can't be changed", "make it by `new`");
            }
            return super.visitMethodInvocation(tree, nothing);
        }

        @Override
        public Void visitNewArray(NewArrayTree tree, Void nothing) {
            if (!kinds.flow.isScratch(tree)) tree.getDimensions().forEach(length -> warnOfLength(tree, length));
            return super.visitNewArray(tree, nothing);
        }

        @Override
        public Void visitAssignment(AssignmentTree tree, Void nothing) {
            writes.add(Program.bare(tree.getVariable()));
            return super.visitAssignment(tree, nothing);
        }

        @Override
        public Void visitCompoundAssignment(CompoundAssignmentTree tree, Void nothing) {
            writes.add(Program.bare(tree.getVariable()));
            return super.visitCompoundAssignment(tree, nothing);
        }

        @Override
        public Void visitUnary(UnaryTree tree, Void nothing) {
            if (tree.getKind().toString().matches("(PRE|POST)FIX.*")) writes.add(Program.bare(tree.getExpression()));
            return super.visitUnary(tree, nothing);
        }

        @Override
        public Void visitAssert(AssertTree tree, Void nothing) {
            return scan(tree.getCondition(), nothing);
        }

        @Override
        public Void visitExpressionStatement(ExpressionStatementTree tree, Void nothing) {
            return Reach.isPrint(tree) ? null : super.visitExpressionStatement(tree, nothing);
        }

        @Override
        public Void visitAnnotation(AnnotationTree tree, Void nothing) {
            return null;
        }
    };

    static boolean isChange(ExecutableElement method) {
        return method.getSimpleName().toString().matches(CHANGES);
    }

    // ---- order

    private void warnOfOrder(Tree at, ExpressionTree collection) {
        if (collection == null || !aliases.isHashed(collection)) return;
        notes.warn(program.place(at), "Java goes through `" + program.text(collection)
                + "` in the order of hashes, the adapted class in that of insertion: nothing may depend on it");
    }

    // ---- changes of a collection while it is gone through

    private void refuseChange(EnhancedForLoopTree loop, ExpressionTree collection) {
        ExecutableElement around = method;
        new TreeScanner<Void, Void>() {
            @Override
            public Void visitMethodInvocation(MethodInvocationTree tree, Void nothing) {
                if (aliases.changes(tree, collection, around) && !isLast(tree, loop) && !isOwnKey(tree, loop))
                        refuse(tree, "a loop over `" + program.text(collection) + "` changes it", "collect the changes, and make them after the loop");
                return super.visitMethodInvocation(tree, nothing);
            }
        }.scan(loop.getStatement(), null);
    }

    /** Changes behind the creation of an iterator, in the same method. */
    private void refuseLaterChange(MethodInvocationTree creation, ExpressionTree collection) {
        ExecutableElement around = method;
        MethodTree whole = program.trees.getTree(method);
        new TreeScanner<Void, Void>() {
            @Override
            public Void visitMethodInvocation(MethodInvocationTree tree, Void nothing) {
                if (program.start(tree) > program.start(creation) && aliases.changes(tree, collection, around))
                        refuse(tree, "`" + program.text(collection) + "` is changed while an iterator goes through it", "make the changes after it");
                return super.visitMethodInvocation(tree, nothing);
            }
        }.scan(whole.getBody(), null);
    }

    /** Whether the loop is left at once after a statement. */
    private boolean isLast(Tree tree, Tree loop) {
        Tree at = tree;
        while (at != loop && !(at instanceof StatementTree)) at = program.parent(at);
        if (at instanceof ReturnTree) return true;
        if (!(program.parent(at) instanceof BlockTree block)) return false;
        int place = block.getStatements().indexOf(at);
        if (place + 1 >= block.getStatements().size()) return false;
        StatementTree next = block.getStatements().get(place + 1);
        return next instanceof ReturnTree || next instanceof BreakTree;
    }

    /** Whether a map is given another value for the key that the loop is at. */
    private boolean isOwnKey(MethodInvocationTree tree, EnhancedForLoopTree loop) {
        boolean put = tree.getMethodSelect().toString().endsWith(".put");
        String key = put ? tree.getArguments().get(0).toString() : "";
        String variable = loop.getVariable().getName().toString();
        return put && (key.equals(variable) && loop.getExpression().toString().endsWith(".keySet()") || key.equals(variable + ".getKey()"));
    }

    // ---- members of hash tables

    private void checkMembers(Tree at, TypeMirror type, String name) {
        if (!name.matches(HASHED) || !(type instanceof DeclaredType declared) || declared.getTypeArguments().isEmpty()) return;
        TypeMirror key = declared.getTypeArguments().get(0);
        String kind = kinds.kind(key);
        TypeElement member = program.classes.get(kind);
        boolean identity = name.startsWith("Identity");
        if (identity && (Kinds.isBoxable(Kinds.unboxOf(kind)) || kinds.hasEquals(kind)))
                refuse(at, "a map that compares its keys by identity, of keys with an `equals`", "use keys without one");
        if (kinds.isList(kind) || kinds.isMap(kind)) refuse(at, "members of a hash table that are collections", "use members of a class of your own");
        if (member == null || identity) return;
        boolean equals = program.equality(member) != null;
        if (equals && member.getKind() == ElementKind.RECORD && program.isWritten(program.equality(member)) != program.isWritten(program.hashing(member)))
                refuse(at, member.getSimpleName() + " has one of `equals` and `hashCode` alone, and is a member of a hash table", "declare both or none");
        if (equals != (program.hashing(member) != null) && member.getKind() != ElementKind.RECORD)
                refuse(at, member.getSimpleName() + " has " + (equals ? "`equals` and no `hashCode`" : "`hashCode` and no `equals`")
                        + ", and is a member of a hash table", "declare both or none");
        if (equals) keys.add(member);
    }

    private void refuseChangedKey(ExpressionTree target) {
        Element field = program.element(target);
        if (field == null || field.getKind() != ElementKind.FIELD) return;
        TypeElement type = Program.classOf(field);
        ExecutableElement around = program.methodAround(target);
        boolean inConstructor = around != null && around.getKind() == ElementKind.CONSTRUCTOR && Program.classOf(around).equals(type);
        if (inConstructor || keys.stream().noneMatch(key -> program.isBelow(key, type))) return;
        refuse(target, "the field `" + field + "` of members of a hash table is changed", "make members that don't change");
    }

    // ---- arrays that become one type

    private void refuseTwoArrayTypes() {
        Map<String, String> before = new HashMap<>();
        for (Element element : reach.kept) {
            if (element.getKind() != ElementKind.FIELD || !kinds.fin.counts(program, Program.classOf(element))) continue;
            for (TypeMirror type = element.asType(); type instanceof ArrayType array; type = array.getComponentType()) {
                String name = program.types.erasure(type).toString().replaceAll(".*\\.", "");
                String kind = Kinds.printed(kinds.of((VariableElement) element).substring(0, kinds.of((VariableElement) element).length()
                        - (type == element.asType() ? 0 : 2)));
                String other = before.putIfAbsent(kind, name);
                if (other == null || other.equals(name)) continue;
                refuse(program.trees.getTree(element), "the arrays " + other + " and " + name + " become one type, " + kind
                        + ", whose arrays can't be told apart", "make the elements of one of them objects of a class of your own");
            }
        }
    }
}
