package adapt;

import com.sun.source.tree.AnnotationTree;
import com.sun.source.tree.ArrayAccessTree;
import com.sun.source.tree.AssertTree;
import com.sun.source.tree.AssignmentTree;
import com.sun.source.tree.CatchTree;
import com.sun.source.tree.CompoundAssignmentTree;
import com.sun.source.tree.EnhancedForLoopTree;
import com.sun.source.tree.ExpressionStatementTree;
import com.sun.source.tree.ExpressionTree;
import com.sun.source.tree.IdentifierTree;
import com.sun.source.tree.IfTree;
import com.sun.source.tree.LambdaExpressionTree;
import com.sun.source.tree.MemberSelectTree;
import com.sun.source.tree.MethodInvocationTree;
import com.sun.source.tree.MethodTree;
import com.sun.source.tree.NewArrayTree;
import com.sun.source.tree.NewClassTree;
import com.sun.source.tree.ReturnTree;
import com.sun.source.tree.Tree;
import com.sun.source.tree.TreeVisitor;
import com.sun.source.tree.UnaryTree;
import com.sun.source.tree.UnionTypeTree;
import com.sun.source.tree.VariableTree;
import com.sun.source.util.TreeScanner;
import java.util.ArrayList;
import java.util.HashSet;
import java.util.LinkedHashSet;
import java.util.List;
import java.util.Objects;
import java.util.Set;
import javax.lang.model.element.Element;
import javax.lang.model.element.ElementKind;
import javax.lang.model.element.ExecutableElement;
import javax.lang.model.element.Modifier;
import javax.lang.model.element.TypeElement;
import javax.lang.model.element.VariableElement;
import javax.lang.model.type.ArrayType;
import javax.lang.model.type.DeclaredType;
import javax.lang.model.type.TypeKind;
import javax.lang.model.type.TypeMirror;

/** What the predicate, and the method under test with its contract, reach. */
final class Reach {
    private final Program program;
    private final Kinds kinds;
    private final Finitization fin;
    private final Notes notes;
    final Set<Element> kept = new LinkedHashSet<>();
    /** Classes of which the reached code makes objects. */
    final Set<TypeElement> made = new LinkedHashSet<>();
    private final List<MethodInvocationTree> calls = new ArrayList<>();
    private final Set<Tree> followed = new HashSet<>();
    private final List<EnhancedForLoopTree> loops = new ArrayList<>();
    private final List<ExpressionTree> creations = new ArrayList<>();
    private final List<Tree> writes = new ArrayList<>();
    private final List<NewClassTree> collections = new ArrayList<>();
    ExecutableElement predicate;
    ExecutableElement tested;

    Reach(Program program, Kinds kinds, Finitization fin, Notes notes) {
        this.program = program;
        this.kinds = kinds;
        this.fin = fin;
        this.notes = notes;
    }

    void from(String method) {
        TypeElement root = program.classes.get(fin.root());
        predicate = root == null ? null : program.method(root, "repOk", 0);
        if (root == null) notes.refuse(fin.name(), "the root " + fin.root() + " is no class of the sources",
                "name one of " + program.classes.keySet());
        else if (predicate == null) notes.refuse(program.place(program.trees.getTree(root)),
                root.getSimpleName() + " has no `boolean repOk()`", "write one");
        if (predicate == null) return;
        for (TypeElement type : program.classes.values()) {
            String name = program.nameOf(type);
            boolean taken = Thrown.PREDEFINED.stream().anyMatch(one -> one.endsWith("." + name));
            if (taken || name.matches("HashSet|LinkedList|Object|BoxedInt|BoxedLong|BoxedBoolean")) notes.refuse(program.place(program.trees.getTree(type)),
                    "a class named " + name + ", which korat or Adapt has another one for", "rename it");
        }
        fin.objects().forEach((name, count) -> refuseAbstract(program.classes.get(name), count));
        if (!fin.counts(fin.root())) refuseAbstract(root, 1);
        keepClass(root);
        fin.objects().keySet().stream().map(program.classes::get).filter(Objects::nonNull).forEach(this::keepClass);
        fin.fields().keySet().stream().map(kinds::field).filter(Objects::nonNull).forEach(this::keepField);
        reach(predicate);
        close();
        if (method != null) reachContract(root, method);
        List<TypeElement> pureMade = List.copyOf(made);
        List<Tree> pureWrites = List.copyOf(writes);
        List<ExpressionTree> pureCreations = List.copyOf(creations);
        List<MethodInvocationTree> pureCalls = List.copyOf(calls);
        List<NewClassTree> pureCollections = List.copyOf(collections);
        if (method != null) {
            reachTested(root, method);
            close();
        }
        link();
        boxMembers();
        kinds.flow.settle(creations.stream().filter(creation -> isScratch(creation, pureCreations.contains(creation)))
                .toList(), kinds.linked());
        kinds.settleHeld();
        refuseImpure(pureMade, pureWrites);
        kinds.held.check(notes);
        pureCalls.forEach(this::refuseChange);
        calls.forEach(this::refuseNumbersOrNull);
        calls.stream().filter(call -> kinds.heldBy(call) != null).forEach(call -> refuseOther(call, call.getMethodSelect().toString()));
        for (NewClassTree made : collections) refuseMade(made, pureCollections.contains(made));
        if (tested != null) tested.getParameters().stream().filter(parameter -> kinds.heldBy(parameter) != null).forEach(parameter ->
                notes.refuse(program.place(program.trees.getTree(parameter)), "the parameter `" + parameter + "` is a collection", "pass its members one by one"));
    }

    // ---- the collections of candidates

    private void refuseChange(MethodInvocationTree call) {
        ExpressionTree receiver = kinds.receiver(call);
        if (receiver == null || !Checks.isChange((ExecutableElement) program.element(call)) || !kinds.held.isPart(kinds.of(receiver))) return;
        notes.refuse(program.place(call), "the predicate changes the collection `" + program.text(receiver) + "` of a candidate", "let repOk leave the candidate as it is");
    }

    /** Refuses null where a candidate's collection has numbers. */
    private void refuseNumbersOrNull(MethodInvocationTree call) {
        ExpressionTree receiver = kinds.receiver(call);
        Held.One one = receiver == null ? null : kinds.held.ofKind(kinds.of(receiver));
        if (one == null || one.members().stream().noneMatch(Kinds::isBoxable)) return;
        for (ExpressionTree argument : call.getArguments()) {
            String kind = kinds.of(argument);
            if (Kinds.isBox(kind) || kind.equals("null") && Kinds.isBoxable(one.members().get(Math.min(call.getArguments().indexOf(argument), one.members().size() - 1))))
                notes.refuse(program.place(call), "a number that may be null, given to the collection " + one.name() + " of a candidate", "test it before, and take its value");
        }
    }

    private void refuseMade(NewClassTree made, boolean pure) {
        Held.One one = kinds.heldBy(made);
        if (one == null) return;
        if (pure) notes.refuse(program.place(made), "this collection and the field `" + one.field() + "` meet in one variable", "use a variable for each");
        else if (!Program.classOf(program.element(made)).getSimpleName().contentEquals(one.type())) refuseOther(made, "new " + Program.classOf(program.element(made)).getSimpleName());
    }

    private void refuseOther(ExpressionTree tree, String what) {
        Held.One one = kinds.heldBy(tree);
        notes.refuse(program.place(tree), "`" + what + "` where the finitization has " + one.name(), "make it by `new " + one.type() + "`");
    }

    /** Tells the kinds which methods override others. */
    private void link() {
        List<ExecutableElement> methods = kept.stream().filter(ExecutableElement.class::isInstance).map(ExecutableElement.class::cast)
                .filter(program::isOwn).toList();
        for (ExecutableElement method : methods) {
            for (ExecutableElement above : methods) {
                if (method != above && program.elements.overrides(method, above, Program.classOf(method))) kinds.link(method, above);
            }
        }
    }

    /** Tells the kinds which collections may have null among numbers. */
    private void boxMembers() {
        for (MethodInvocationTree call : calls) {
            ExecutableElement method = (ExecutableElement) program.element(call);
            ExpressionTree receiver = kinds.receiver(call);
            String kind = Collected.makes(method) ? kinds.kind(program.type(call)) : receiver == null ? "?" : kinds.of(receiver);
            if (!kinds.isList(kind) && !kinds.isMap(kind) && !kind.startsWith("PairOf")) continue;
            for (int i = 0; i < call.getArguments().size(); i++) {
                String argument = kinds.of(call.getArguments().get(i));
                boolean index = i == 0 && method.getParameters().get(0).asType().getKind() == TypeKind.INT;
                if (index || !argument.equals("null") && !Kinds.isBox(argument)) continue;
                String[] parts = kinds.elementOf(kind).split(" ");
                String member = parts[Math.min(i, parts.length - 1)];
                if (Kinds.isBoxable(member)) kinds.boxMembers(member);
            }
        }
    }

    /** Reaches what follows from what is reached. */
    private void close() {
        int before;
        do {
            before = kept.size() + calls.size();
            overriding();
            List.copyOf(calls).forEach(this::follow);
            List.copyOf(loops).forEach(this::follow);
        } while (kept.size() + calls.size() > before);
    }

    /** Refuses objects of a class that has none of its own. */
    private void refuseAbstract(TypeElement type, long count) {
        if (type == null || count == 0 || !type.getModifiers().contains(Modifier.ABSTRACT) || type.getKind() == ElementKind.ENUM) return;
        notes.refuse(program.place(program.trees.getTree(type)), type.getSimpleName() + " is abstract, so that no object is one of its own",
                "count the classes below it, and name one of them where it is the root");
    }

    /** What a contract reaches is as free of effects as the predicate. */
    private void reachContract(TypeElement root, String name) {
        ExecutableElement method = Clauses.tested(program, root, name);
        MethodTree tree = method == null ? null : program.trees.getTree(method);
        if (tree == null || tree.getBody() == null) return;
        Clauses.conditions(program, tree).forEach(condition -> scanner.scan(condition, null));
        close();
    }

    private void reachTested(TypeElement root, String name) {
        tested = Clauses.tested(program, root, name);
        if (tested == null) {
            notes.refuse(fin.name(), fin.root() + " has no method " + name, "name one that it has");
            return;
        }
        reach(tested);
        Set<String> words = new HashSet<>(List.of(Contracts.before(program, tested).split("[^\\p{L}\\p{N}_$]+")));
        for (TypeElement type : program.classes.values()) {
            for (Element member : type.getEnclosedElements()) {
                if (!words.contains(member.getSimpleName().toString())) continue;
                if (member instanceof ExecutableElement method) reach(method);
                if (member.getKind() == ElementKind.FIELD) keepField(member);
            }
        }
    }

    /** The code that is reached: bodies of methods, and initial values. */
    List<Tree> trees() {
        List<Tree> result = new ArrayList<>();
        for (Element element : kept) {
            Tree tree = program.isOwn(element) ? program.trees.getTree(element) : null;
            if (tree instanceof MethodTree method && method.getBody() != null) result.add(method.getBody());
            if (tree instanceof VariableTree variable && variable.getInitializer() != null && made.contains(Program.classOf(element))) result.add(variable.getInitializer());
        }
        return result;
    }

    // ---- what is kept

    private void keepClass(TypeElement type) {
        if (!program.isOwn(type) || !kept.add(type)) return;
        kinds.learn(type.getSuperclass());
        type.getInterfaces().forEach(kinds::learn);
        TypeElement above = program.superclass(type);
        if (above != null) keepClass(above);
    }

    private void keepType(TypeMirror type) {
        kinds.learn(type);
        if (type instanceof ArrayType array) keepType(array.getComponentType());
        if (!(type instanceof DeclaredType declared)) return;
        keepClass((TypeElement) declared.asElement());
        declared.getTypeArguments().forEach(this::keepType);
    }

    private void keepField(Element field) {
        if (!program.isOwn(field) || !kept.add(field)) return;
        keepClass(Program.classOf(field));
        keepType(field.asType());
        TypeElement type = program.classes.get(kinds.of(field));
        if (type != null) keepClass(type);
        if (field.getModifiers().contains(Modifier.STATIC) || made.contains(Program.classOf(field))) scanInitializer(field);
    }

    private void scanInitializer(Element field) {
        VariableTree tree = (VariableTree) program.trees.getTree(field);
        if (tree == null || tree.getInitializer() == null || ((VariableElement) field).getConstantValue() != null) return;
        kinds.flow.add(tree.getInitializer(), field);
        scanner.scan(tree.getInitializer(), null);
    }

    private void make(TypeElement type) {
        if (!program.isOwn(type) || !made.add(type)) return;
        keepClass(type);
        for (Element member : type.getEnclosedElements()) {
            if (member.getKind() == ElementKind.FIELD && kept.contains(member)) scanInitializer(member);
        }
        if (program.superclass(type) != null) make(program.superclass(type));
    }

    private void reach(ExecutableElement method) {
        if (!program.isOwn(method) || !kept.add(method)) return;
        keepClass(Program.classOf(method));
        if (method.getKind() == ElementKind.CONSTRUCTOR) make(Program.classOf(method));
        else keepType(method.getReturnType());
        method.getParameters().forEach(parameter -> keepType(parameter.asType()));
        if (Program.classOf(method).getKind() == ElementKind.RECORD) Program.fieldsOf(Program.classOf(method)).forEach(this::keepField);
        if (Program.classOf(method).getKind() == ElementKind.RECORD && method.getSimpleName().contentEquals("equals") && !program.isWritten(method))
                Program.fieldsOf(Program.classOf(method)).forEach(field -> reachMember(kinds.of(field), "equals"));
        MethodTree tree = program.trees.getTree(method);
        if (tree == null || program.path(tree) == null) return;
        scanner.scan(tree.getParameters(), null);
        scanner.scan(tree.getBody(), null);
    }

    /** In kept classes, and interfaces between kept ones, what overrides a kept method is kept. */
    private void overriding() {
        program.classes.values().stream().filter(this::isBetween).forEach(this::keepClass);
        for (TypeElement type : program.classes.values()) {
            if (!kept.contains(type)) continue;
            for (Element member : type.getEnclosedElements()) {
                if (member instanceof ExecutableElement method && !kept.contains(member) && overridesKept(method))
                        reach(method);
            }
        }
    }

    /** Whether an interface is one by which a kept class has another, kept one. */
    private boolean isBetween(TypeElement face) {
        return face.getKind() == ElementKind.INTERFACE && !kept.contains(face)
                && program.classes.values().stream().anyMatch(type -> type != face && kept.contains(type) && program.isBelow(type, face))
                && program.classes.values().stream().anyMatch(type -> type != face && kept.contains(type) && program.isBelow(face, type));
    }

    private boolean overridesKept(ExecutableElement method) {
        return kept.stream().anyMatch(e -> e instanceof ExecutableElement above
                && program.elements.overrides(method, above, Program.classOf(method)));
    }

    // ---- calls of libraries that come back to the sources

    private void follow(MethodInvocationTree call) {
        ExecutableElement method = (ExecutableElement) program.element(call);
        ExecutableElement own = kinds.target(call);
        LambdaExpressionTree lambda = own == null ? kinds.lambda(call) : null;
        if (lambda != null) {
            if (!followed.add(call)) return;
            for (int i = 0; i < call.getArguments().size(); i++) kinds.flow.add(call.getArguments().get(i), program.element(lambda.getParameters().get(i)));
            return;
        }
        if (own != null) {
            if (kept.contains(own)) return;
            flowArguments(own, call.getArguments());
            reach(own);
            return;
        }
        ExpressionTree receiver = kinds.receiver(call);
        if (method == null || receiver == null) return;
        if (Collected.qualified(method).equals("java.util.Arrays.equals")) {
            reachMember(kinds.elementOf(kinds.of(call.getArguments().get(0))), "equals");
            return;
        }
        if (Program.classOf(method).getQualifiedName().contentEquals("java.util.Objects")) {
            if (!call.getArguments().isEmpty())
                    reachMember(kinds.of(call.getArguments().get(0)),
                    method.getSimpleName().contentEquals("equals") ? "equals" : "");
            return;
        }
        String kind = kinds.of(receiver);
        if (!kinds.isList(kind) && !kinds.isMap(kind)) return;
        String element = kinds.isMap(kind) ? kinds.elementOf(kind).split(" ")[0] : kinds.elementOf(kind);
        reachMember(element, "equals");
        if (kind.startsWith("Sorted")) reachMember(element, "compareTo");
        boolean builtIn = Collected.isBuiltIn(method, kind);
        if (kinds.isList(kind) && !builtIn && kinds.own(element)) kept.add(method);
    }

    private void reachMember(String kind, String name) {
        TypeElement type = program.classes.get(kind);
        if (type != null && name.equals("equals") && program.isComparedBelow(type)) {
            notes.refuse(program.place(program.trees.getTree(type)),
                    "objects of " + type.getSimpleName() + " are compared by the `equals` of classes below it", "declare `equals` in it");
        }
        ExecutableElement method = type == null ? null : name.equals("equals") ? program.equality(type) : program.method(type, name, 1);
        if (method != null && name.equals("equals") && program.hashing(type) != null) reach(program.hashing(type));
        if (method == null || kept.contains(method)) return;
        kinds.give(method.getParameters().get(0), kind);
        reach(method);
    }

    private void follow(EnhancedForLoopTree loop) {
        String kind = kinds.of(loop.getExpression());
        if (kinds.isList(kind) && kinds.own(kinds.elementOf(kind))) kept.add(program.element(loop.getVariable()));
        TypeElement type = program.classes.get(kind);
        ExecutableElement iterator = type == null ? null : program.method(type, "iterator", 0);
        if (iterator == null) return;
        reach(iterator);
        TypeElement steps = program.classes.get(kinds.of(iterator));
        if (steps == null) return;
        for (String name : List.of("hasNext", "next")) {
            ExecutableElement step = program.method(steps, name, 0);
            if (step != null) reach(step);
            if (step != null && name.equals("next")) kinds.link(program.element(loop.getVariable()), step);
        }
    }

    private void flowArguments(ExecutableElement method, List<? extends ExpressionTree> arguments) {
        List<? extends VariableElement> parameters = method.getParameters();
        for (int i = 0; i < arguments.size(); i++) {
            boolean packed = method.isVarArgs() && i >= parameters.size() - 1 && !kinds.of(arguments.get(i)).endsWith("[]");
            if (packed) kinds.flow.add(arguments.get(i), new Flow.ElementOf(parameters.get(parameters.size() - 1)));
            else kinds.flow.add(arguments.get(i), parameters.get(i));
        }
        if (!method.getTypeParameters().isEmpty()) kinds.learn(method, arguments);
    }

    // ---- the code

    /**
     * The class of korat's in place of an error: one that Java takes without `throws`, unless that one is caught where Java's
     * error isn't. The clauses of a contract count as catches.
     */
    String error() {
        Set<String> caught = new HashSet<>();
        TreeScanner<Void, Void> clauses = new TreeScanner<>() {
            @Override
            public Void visitCatch(CatchTree tree, Void nothing) {
                Tree declared = tree.getParameter().getType();
                if (declared instanceof UnionTypeTree union) union.getTypeAlternatives().forEach(this::add);
                else add(declared);
                return super.visitCatch(tree, nothing);
            }

            @Override
            public Void visitIf(IfTree tree, Void nothing) {
                if (Clauses.isBlock(program, tree)) Clauses.signalled(tree).forEach(this::add);
                return super.visitIf(tree, nothing);
            }

            private void add(Tree type) {
                if (program.types.asElement(program.type(type)) instanceof TypeElement element && !program.isOwn(element)) caught.add(Thrown.nearest(program, element));
            }
        };
        for (Tree code : trees()) clauses.scan(code, null);
        return caught.contains("Exception") || caught.contains("RuntimeException") ? "Throwable" : "RuntimeException";
    }

    static boolean isPrint(ExpressionStatementTree tree) {
        return tree.getExpression() instanceof MethodInvocationTree call
                && call.getMethodSelect().toString().matches("(java\\.lang\\.)?System\\.(out|err)\\.\\w+");
    }

    private final TreeScanner<Void, Void> scanner = new TreeScanner<>() {
        @Override
        public Void visitIdentifier(IdentifierTree tree, Void nothing) {
            use(program.element(tree));
            return null;
        }

        @Override
        public Void visitMemberSelect(MemberSelectTree tree, Void nothing) {
            use(program.element(tree));
            return super.visitMemberSelect(tree, nothing);
        }

        @Override
        public Void visitVariable(VariableTree tree, Void nothing) {
            Element variable = program.element(tree);
            keepType(variable.asType());
            if (tree.getInitializer() != null) kinds.flow.add(tree.getInitializer(), variable);
            return super.visitVariable(tree, nothing);
        }

        @Override
        public Void visitAssignment(AssignmentTree tree, Void nothing) {
            write(tree.getVariable());
            if (Program.bare(tree.getVariable()) instanceof ArrayAccessTree access) {
                kinds.flow.add(tree.getExpression(), new Flow.ElementOf(access.getExpression()));
            } else if (program.element(Program.bare(tree.getVariable())) != null) {
                kinds.flow.add(tree.getExpression(), program.element(Program.bare(tree.getVariable())));
            }
            return super.visitAssignment(tree, nothing);
        }

        @Override
        public Void visitCompoundAssignment(CompoundAssignmentTree tree, Void nothing) {
            write(tree.getVariable());
            step(tree.getVariable());
            return super.visitCompoundAssignment(tree, nothing);
        }

        @Override
        public Void visitUnary(UnaryTree tree, Void nothing) {
            if (tree.getKind().toString().matches("(PRE|POST)FIX.*")) {
                write(tree.getExpression());
                step(tree.getExpression());
            }
            return super.visitUnary(tree, nothing);
        }

        @Override
        public Void visitReturn(ReturnTree tree, Void nothing) {
            List<LambdaExpressionTree> lambdas = program.lambdasAround(tree);
            if (tree.getExpression() != null) kinds.flow.add(tree.getExpression(), lambdas.isEmpty() ? program.methodAround(tree) : lambdas.get(0));
            return super.visitReturn(tree, nothing);
        }

        @Override
        public Void visitClass(com.sun.source.tree.ClassTree tree, Void nothing) {
            return null;
        }

        @Override
        public Void visitLambdaExpression(LambdaExpressionTree tree, Void nothing) {
            ExecutableElement function = program.functionOf(tree);
            if (tree.getBody() instanceof ExpressionTree body) kinds.flow.add(body, tree);
            if (program.isOwn(function)) {
                reach(function);
                for (int i = 0; i < tree.getParameters().size(); i++)
                    kinds.link(program.element(tree.getParameters().get(i)), function.getParameters().get(i));
                if (tree.getBody() instanceof ExpressionTree body) kinds.flow.add(body, function);
            }
            return super.visitLambdaExpression(tree, nothing);
        }

        @Override
        public Void visitInstanceOf(com.sun.source.tree.InstanceOfTree tree, Void nothing) {
            if (tree.getPattern() instanceof com.sun.source.tree.BindingPatternTree pattern)
                kinds.flow.add(tree.getExpression(), program.element(pattern.getVariable()));
            return super.visitInstanceOf(tree, nothing);
        }

        @Override
        public Void visitNewArray(NewArrayTree tree, Void nothing) {
            creations.add(tree);
            if (tree.getInitializers() != null)
                    tree.getInitializers().forEach(item -> kinds.flow.add(item, new Flow.ElementOf(tree)));
            return super.visitNewArray(tree, nothing);
        }

        @Override
        public Void visitNewClass(NewClassTree tree, Void nothing) {
            ExecutableElement constructor = (ExecutableElement) program.element(tree);
            keepType(program.type(tree));
            if (tree.getClassBody() == null && Thrown.dropsArguments(program, constructor)) {
                make(Program.classOf(constructor));
                return null;
            }
            if (program.isOwn(constructor) && tree.getClassBody() == null) {
                flowArguments(constructor, tree.getArguments());
                reach(constructor);
                make(Program.classOf(constructor));
            } else if (tree.getClassBody() == null && Held.isKnown(Program.classOf(constructor).getSimpleName().toString())) {
                collections.add(tree);
            }
            if (!program.isOwn(constructor) && Collected.needsOwn(tree)) {
                kinds.own(kinds.elementOf(kinds.kind(program.type(tree))).replaceFirst(" .*", ""));
            }
            if (tree.getClassBody() == null) return super.visitNewClass(tree, nothing);
            TypeElement anonymous = (TypeElement) program.element(tree.getClassBody());
            keepClass(anonymous);
            make(anonymous);
            return scan(tree.getArguments(), nothing);
        }

        @Override
        public Void visitMethodInvocation(MethodInvocationTree tree, Void nothing) {
            ExecutableElement method = (ExecutableElement) program.element(tree);
            if (method != null && method.getKind() == ElementKind.CONSTRUCTOR && Thrown.dropsArguments(program, method)) return null;
            if (program.isOwn(method)) {
                flowArguments(method, tree.getArguments());
                if (method.isVarArgs()) creations.add(tree);
            } else if (method != null) {
                calls.add(tree);
                if (Collected.isCopy(method)) creations.add(tree);
                if (Collected.makes(method)) kinds.own(kinds.elementOf(kinds.kind(program.type(tree))));
            }
            return super.visitMethodInvocation(tree, nothing);
        }

        @Override
        public Void visitEnhancedForLoop(EnhancedForLoopTree tree, Void nothing) {
            loops.add(tree);
            super.visitEnhancedForLoop(tree, nothing);
            kinds.loop(program.element(tree.getVariable()), tree.getExpression());
            if (program.type(tree.getExpression()) instanceof ArrayType) {
                kinds.flow.add(new Item(tree.getExpression()), program.element(tree.getVariable()));
            }
            return null;
        }

        @Override
        public Void visitAssert(AssertTree tree, Void nothing) {
            return scan(tree.getCondition(), nothing);
        }

        @Override
        public Void visitCatch(CatchTree tree, Void nothing) {
            Tree type = tree.getParameter().getType();
            List<? extends Tree> types = type instanceof UnionTypeTree union ? union.getTypeAlternatives() : List.of(type);
            types.forEach(one -> keepType(program.type(one)));
            return scan(tree.getBlock(), nothing);
        }

        @Override
        public Void visitExpressionStatement(ExpressionStatementTree tree, Void nothing) {
            return isPrint(tree) ? null : super.visitExpressionStatement(tree, nothing);
        }

        @Override
        public Void visitAnnotation(AnnotationTree tree, Void nothing) {
            return null;
        }
    };

    /** An element of an array, as a loop over it takes it. */
    private record Item(ExpressionTree array) implements ArrayAccessTree {
        @Override public Tree.Kind getKind() { return Tree.Kind.ARRAY_ACCESS; }
        @Override public <R, D> R accept(TreeVisitor<R, D> visitor, D data) { return visitor.visitArrayAccess(this, data); }
        @Override public ExpressionTree getExpression() { return array; }
        @Override public ExpressionTree getIndex() { return null; }
    }

    private void use(Element element) {
        if (!program.isOwn(element)) return;
        if (element instanceof TypeElement type) keepClass(type);
        else if (element.getKind() == ElementKind.ENUM_CONSTANT) keepClass(Program.classOf(element));
        else if (element.getKind() == ElementKind.FIELD) keepField(element);
        else if (element.getKind() == ElementKind.METHOD
                || element.getKind() == ElementKind.CONSTRUCTOR) reach((ExecutableElement) element);
    }

    private void step(ExpressionTree target) {
        if (program.element(Program.bare(target)) != null) kinds.flow.step(program.element(Program.bare(target)));
    }

    private void write(ExpressionTree target) {
        writes.add(Program.bare(target));
    }

    // ---- arrays and objects of the predicate's own

    /** Whether an array that the code makes can be none of the subset, or none that its predicate may make. */
    private boolean isScratch(ExpressionTree creation, boolean pure) {
        if (creation instanceof MethodInvocationTree) return pure && kinds.countsArray(kinds.kind(creationType(creation)));
        NewArrayTree array = (NewArrayTree) creation;
        String kind = kinds.kind(program.type(array));
        boolean nested = array.getDimensions().size() > 1 || kinds.elementOf(kind).endsWith("[]");
        if (nested || pure && kinds.countsArray(kind)) return true;
        boolean isLong = array.getDimensions().size() == 1 && Numbers.of(program, array.getDimensions().get(0)) > 64
                || array.getInitializers() != null && array.getInitializers().size() > 64;
        if (isLong) notes.warn(program.place(array),
                "an array longer than 64 traps in korat, and a trap counts as false: it becomes an object of an added class");
        return isLong;
    }

    private TypeMirror creationType(ExpressionTree creation) {
        ExecutableElement method = (ExecutableElement) program.element(creation);
        return program.isOwn(method) ? method.getParameters().get(method.getParameters().size() - 1).asType()
                : program.type(creation);
    }

    private void refuseImpure(List<TypeElement> pureMade, List<Tree> pureWrites) {
        for (TypeElement type : pureMade) {
            if (fin.counts(type.getSimpleName().toString())) {
                notes.refuse(program.place(program.trees.getTree(type)),
                        "the predicate makes objects of " + type.getSimpleName() + ", which the finitization counts",
                        "let repOk make objects of another class");
            }
        }
        for (Tree target : pureWrites) {
            if (target instanceof ArrayAccessTree access && !kinds.flow.isScratch(access.getExpression())
                    && kinds.countsArray(kinds.of(access.getExpression()))) {
                notes.refuse(program.place(target), "the predicate changes an array that the finitization counts",
                        "let repOk leave the candidate as it is");
            }
            Element field = target instanceof ArrayAccessTree ? null : program.element(target);
            if (field != null && field.getKind() == ElementKind.FIELD && program.isOwn(field)
                    && fin.counts(program, Program.classOf(field))) {
                notes.refuse(program.place(target), "the predicate changes the field `" + field + "` of a candidate",
                        "let repOk leave the candidate as it is");
            }
        }
        for (ExpressionTree creation : creations) {
            if (!kinds.flow.isScratch(creation)) continue;
            for (Element element : kinds.flow.sharing(creation)) {
                if (element.getKind() != ElementKind.FIELD || !fin.counts(program, Program.classOf(element)))
                        continue;
                notes.refuse(program.place(creation), "this array and the field `" + element + "` meet in one variable",
                        "use a variable for each");
            }
        }
    }
}
