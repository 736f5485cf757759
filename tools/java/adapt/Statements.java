package adapt;

import com.sun.source.tree.ArrayAccessTree;
import com.sun.source.tree.AssertTree;
import com.sun.source.tree.AssignmentTree;
import com.sun.source.tree.BlockTree;
import com.sun.source.tree.BreakTree;
import com.sun.source.tree.CaseTree;
import com.sun.source.tree.CatchTree;
import com.sun.source.tree.CompoundAssignmentTree;
import com.sun.source.tree.ContinueTree;
import com.sun.source.tree.DoWhileLoopTree;
import com.sun.source.tree.EnhancedForLoopTree;
import com.sun.source.tree.ExpressionStatementTree;
import com.sun.source.tree.ExpressionTree;
import com.sun.source.tree.ForLoopTree;
import com.sun.source.tree.IdentifierTree;
import com.sun.source.tree.IfTree;
import com.sun.source.tree.LabeledStatementTree;
import com.sun.source.tree.LambdaExpressionTree;
import com.sun.source.tree.MemberSelectTree;
import com.sun.source.tree.MethodInvocationTree;
import com.sun.source.tree.MethodTree;
import com.sun.source.tree.NewClassTree;
import com.sun.source.tree.ReturnTree;
import com.sun.source.tree.StatementTree;
import com.sun.source.tree.SwitchTree;
import com.sun.source.tree.SynchronizedTree;
import com.sun.source.tree.ThrowTree;
import com.sun.source.tree.Tree;
import com.sun.source.tree.TryTree;
import com.sun.source.tree.UnionTypeTree;
import com.sun.source.tree.VariableTree;
import com.sun.source.tree.WhileLoopTree;
import com.sun.source.tree.YieldTree;
import com.sun.source.util.SimpleTreeVisitor;
import com.sun.source.util.TreeScanner;
import java.util.ArrayList;
import java.util.HashMap;
import java.util.List;
import java.util.Map;
import java.util.stream.Collectors;
import javax.lang.model.element.Element;
import javax.lang.model.element.ElementKind;
import javax.lang.model.element.ExecutableElement;
import javax.lang.model.element.TypeElement;
import javax.lang.model.type.TypeMirror;

/** Writes statements. */
final class Statements extends SimpleTreeVisitor<String, Void> {
    private final Rewriter rewriter;
    private final Expressions expressions;
    private final Program program;
    private final Kinds kinds;
    private final Reach reach;
    private final Library library;
    private final Notes notes;
    /** For each label the names of the flags of `break` and `continue`, and its statement. */
    private final Map<String, Label> labels = new HashMap<>();

    private final List<String> declared = new ArrayList<>();
    final Clauses clauses = new Clauses();

    private record Label(StatementTree loop, String leave, String next) {}

    Statements(Rewriter rewriter, Expressions expressions, Program program, Kinds kinds, Reach reach, Library library,
            Notes notes) {
        this.rewriter = rewriter;
        this.expressions = expressions;
        this.program = program;
        this.kinds = kinds;
        this.reach = reach;
        this.library = library;
        this.notes = notes;
    }

    @Override
    protected String defaultAction(Tree tree, Void nothing) {
        return rewriter.plain(tree);
    }

    /** A method's body, with what its statements need declared in front of them. */
    String body(BlockTree tree, ExecutableElement method) {
        List<String> before = new ArrayList<>(declared);
        declared.clear();
        String text = rewriter.of(tree);
        if (!declared.isEmpty()) {
            boolean chained = method.getKind() == ElementKind.CONSTRUCTOR && tree.getStatements().stream().limit(1)
                    .anyMatch(first -> first.toString().matches("(?s)(this|super)\\(.*"));
            text = chained ? rewriter.refused(tree, "`instanceof` with a variable in a constructor that calls another", "write `instanceof` and a cast")
                    : "{ " + String.join(" ", declared) + text.substring(1);
        }
        declared.clear();
        declared.addAll(before);
        return text;
    }

    void declare(String text) {
        if (!declared.contains(text)) declared.add(text);
    }

    /** A statement that ends the run, where Java has an exception. */
    String trap(ExecutableElement method) {
        boolean constructor = method.getKind() == ElementKind.CONSTRUCTOR;
        String kind = !constructor ? kinds.of(method) : expressions.isMethod(method) ? "" : "void";
        if (kind.equals("void")) return "if (1 / 0 == 0) return;";
        if (Kinds.isPlainNumber(kind) || Kinds.isEnum(kind)) return "return 1 / 0;";
        return "return 1 / 0 == 0" + (kind.equals("boolean") ? ";" : " ? null : null;");
    }

    // ---- declarations

    String variables(List<Tree> group) {
        if (expressions.isRenamed(program.element(group.get(0)))) {
            StringBuilder text = new StringBuilder();
            for (Tree tree : group) {
                ExpressionTree value = ((VariableTree) tree).getInitializer();
                Element variable = program.element(tree);
                if (!expressions.isRenamed(variable)) text.append(variables(List.of(tree))).append(" ");
                else if (value != null) text.append(expressions.nameOf(variable)).append(" = ").append(expressions.value(value, kinds.of(variable))).append("; ");
            }
            return text.length() == 0 ? ";" : text.toString().strip();
        }
        if (group.size() == 1 && isOnlyPrinted(program.element(group.get(0)))) return ";";
        List<String> texts = new ArrayList<>();
        for (Tree tree : group) texts.add(variable((VariableTree) tree));
        String text = Rewriter.joined(texts);
        boolean closed = program.source(group.get(0)).text().substring(program.start(group.get(0)),
                program.end(group.get(group.size() - 1))).endsWith(";");
        return closed ? text : text.substring(0, text.length() - 1);
    }

    /** Whether a variable is a StringBuilder of a method that is filled and printed, and nothing else. */
    private boolean isOnlyPrinted(Element variable) {
        if (variable.getKind() != ElementKind.LOCAL_VARIABLE || !variable.asType().toString().equals("java.lang.StringBuilder")) return false;
        VariableTree declaration = (VariableTree) program.declaration(variable);
        if (declaration == null || declaration.getInitializer() == null || program.methodAround(declaration) == null
                || !declaration.getInitializer().toString().matches("new StringBuilder\\((\"[^\"]*\")?\\)")) return false;
        boolean[] only = {true};
        new TreeScanner<Void, Void>() {
            @Override
            public Void visitIdentifier(IdentifierTree tree, Void nothing) {
                if (variable.equals(program.element(tree))) only[0] &= isAppended(tree) || isPrinted(tree);
                return null;
            }
        }.scan(program.trees.getTree(program.methodAround(declaration)).getBody(), null);
        return only[0];
    }

    /** Whether a StringBuilder is only appended to in a statement, what neither fails nor changes anything. */
    private boolean isAppended(Tree tree) {
        Tree at = tree;
        while (program.parent(at) instanceof MemberSelectTree select && select.getIdentifier().contentEquals("append")
                && program.parent(select) instanceof MethodInvocationTree call) {
            if (mayFail(call.getArguments())) return false;
            at = call;
        }
        return at != tree && program.parent(at) instanceof ExpressionStatementTree;
    }

    private boolean isPrinted(Tree tree) {
        return program.parent(tree) instanceof MethodInvocationTree call && program.parent(call) instanceof ExpressionStatementTree statement
                && Reach.isPrint(statement);
    }

    private String variable(VariableTree tree) {
        Element variable = program.element(tree);
        String kind = kinds.of(variable);
        rewriter.noteType(tree, variable, kind);
        String start = rewriter.type(tree, kind) + "\t" + variable.getSimpleName();
        return tree.getInitializer() == null ? start : start + " = " + expressions.value(tree.getInitializer(), kind);
    }

    @Override
    public String visitVariable(VariableTree tree, Void nothing) {
        return variables(List.of(tree));
    }

    // ---- loops

    @Override
    public String visitEnhancedForLoop(EnhancedForLoopTree tree, Void nothing) {
        ExpressionTree over = Program.bare(tree.getExpression());
        String kind = kinds.of(over);
        if (over instanceof MethodInvocationTree call && kinds.target(call) == null
                && call.getMethodSelect() instanceof MemberSelectTree select && select.getExpression() != null) {
            String map = kinds.of(select.getExpression());
            if (kinds.isMap(map)) return withJumps(tree, loopOverMap(tree, select, map));
        }
        if (over instanceof MethodInvocationTree call && isValues(call)) return withJumps(tree, loopOverEnum(tree, call));
        boolean array = kind.endsWith("[]") || kinds.isAdded(kind) && kind.startsWith("ArrayOf");
        TypeElement type = program.classes.get(kind);
        if (!array && !kinds.isList(kind) && (type == null || program.method(type, "iterator", 0) == null)) {
            return rewriter.refused(tree, "a `for` over a " + kind.replace("?", ""), "write a `for` with an index or a node");
        }
        notes.changed(program.place(tree), "`for` over " + (array ? "an array" : "a collection") + " became a loop");
        if (array) return withJumps(tree, loopOverArray(tree, kind));
        return withJumps(tree, kinds.isList(kind) ? loopOverList(tree, kind) : loopOverOwn(tree, type));
    }

    static long constants(Program program, MethodInvocationTree call) {
        return Program.classOf(program.element(call)).getEnclosedElements().stream().filter(e -> e.getKind() == ElementKind.ENUM_CONSTANT).count();
    }

    static boolean isValues(MethodInvocationTree call) {
        return call.getMethodSelect().toString().matches("(.*\\.)?values") && call.getArguments().isEmpty();
    }

    private String loopOverEnum(EnhancedForLoopTree tree, MethodInvocationTree call) {
        long count = constants(program, call);
        String name = tree.getVariable().getName().toString();
        return "for (int " + name + " = 0; " + name + " < " + count + "; " + name + "++) " + block(tree.getStatement());
    }

    private String loopOverArray(EnhancedForLoopTree tree, String kind) {
        String array = program.freshName("array");
        String index = program.freshName("index");
        String item = kind.endsWith("[]") ? array + "[" + index + "]" : array + ".get(" + index + ")";
        return "{ " + rewriter.type(tree, kind) + " " + array + " = " + expressions.value(tree.getExpression(), kind)
                + "; for (int " + index + " = 0; " + index + " < " + array
                + ".length; " + index + "++) " + body(tree, item, kinds.elementOf(kind)) + " }";
    }

    private String loopOverList(EnhancedForLoopTree tree, String kind) {
        String cell = program.freshName("cell");
        String element = kinds.elementOf(kind);
        library.need(kinds, kind, expressions);
        return "for (" + kinds.cellOf(kind) + " " + cell + " = " + expressions.operand(tree.getExpression())
                + ".first; " + cell + " != null; " + cell + " = " + cell + ".next) "
                + body(tree, cell + ".item", element);
    }

    private String loopOverOwn(EnhancedForLoopTree tree, TypeElement type) {
        ExecutableElement iterator = program.method(type, "iterator", 0);
        String steps = kinds.of(iterator);
        TypeElement stepper = program.classes.get(steps);
        if (stepper == null)
                return rewriter.refused(tree,
                "a `for` over " + type.getSimpleName() + ", whose iterator is of no class of the sources",
                "write a `for` over its nodes");
        String name = program.freshName("steps");
        ExecutableElement next = program.method(stepper, "next", 0);
        return "for (" + steps + " " + name + " = " + expressions.operand(tree.getExpression()) + "."
                + expressions.name(iterator) + "(); " + name + "."
                + expressions.name(program.method(stepper, "hasNext", 0)) + "(); ) "
                        + body(tree, name + "." + expressions.name(next) + "()", kinds.of(next));
    }

    private String loopOverMap(EnhancedForLoopTree tree, MemberSelectTree select, String map) {
        String part = select.getIdentifier().toString();
        if (!part.matches("entrySet|keySet|values"))
                return rewriter.refused(tree, "a `for` over `" + part + "` of a map", "write it over its entrySet");
        String pair = program.freshName("pair");
        String[] sides = kinds.elementOf(map).split(" ");
        String type = kinds.cellOf(map);
        library.need(kinds, map, expressions);
        notes.changed(program.place(tree), "`for` over a map became a loop");
        String item = part.equals("entrySet") ? pair : pair + (part.equals("keySet") ? ".key" : ".value");
        String kind = part.equals("entrySet") ? type : sides[part.equals("keySet") ? 0 : 1];
        return "for (" + type + " " + pair + " = " + expressions.operand(select.getExpression()) + ".first; " + pair
                + " != null; " + pair + " = " + pair + ".next) " + body(tree, item, kind);
    }

    /** The body of a loop over elements, each of which its variable gets first. */
    private String body(EnhancedForLoopTree tree, String item, String from) {
        Element variable = program.element(tree.getVariable());
        String kind = kinds.of(variable);
        String read = expressions.read(item, from);
        String held = Kinds.read(from);
        String value = Kinds.isBox(kind) && Kinds.isBoxable(held) ? "new " + library.box(kind) + "(" + read + ")"
                : Kinds.isBoxable(kind) && Kinds.isBox(held) ? read + ".value" : read;
        String text = block(tree.getStatement());
        return "{ " + rewriter.type(tree.getVariable(), kind) + " " + variable.getSimpleName() + " = " + value + ";"
                + text.substring(1);
    }

    private String block(StatementTree tree) {
        String text = statement(tree);
        return tree instanceof BlockTree ? text : "{ " + text + " }";
    }

    private String statement(StatementTree tree) {
        return rewriter.of(tree);
    }

    // ---- labels

    @Override
    public String visitLabeledStatement(LabeledStatementTree tree, Void nothing) {
        String name = tree.getLabel().toString();
        boolean loop = tree.getStatement() instanceof WhileLoopTree || tree.getStatement() instanceof ForLoopTree
                || tree.getStatement() instanceof DoWhileLoopTree
                || tree.getStatement() instanceof EnhancedForLoopTree;
        if (!loop) return rewriter.refused(tree, "a label of a statement that is no loop",
                "write the statement as a method and return from it");
        Label label = new Label(tree.getStatement(), program.freshName("leave" + name), program.freshName("next" + name));
        labels.put(name, label);
        String text = rewriter.of(tree.getStatement());
        notes.changed(program.place(tree), "the label " + name + " became a flag");
        return "{ boolean " + label.leave + " = false, " + label.next + " = false; " + text + " }";
    }

    @Override
    public String visitBreak(BreakTree tree, Void nothing) {
        if (tree.getLabel() == null) return rewriter.plain(tree);
        return jump(tree, labels.get(tree.getLabel().toString()), true);
    }

    @Override
    public String visitContinue(ContinueTree tree, Void nothing) {
        if (tree.getLabel() == null) return rewriter.plain(tree);
        return jump(tree, labels.get(tree.getLabel().toString()), false);
    }

    private String jump(Tree tree, Label label, boolean leave) {
        if (label == null) return rewriter.refused(tree, "a jump to a label", "write the loops as a method and return from it");
        if (around(tree) == label.loop) return leave ? "break;" : "continue;";
        return "{ " + (leave ? label.leave : label.next) + " = true; break; }";
    }

    /** The loop that a statement stands in. */
    private StatementTree around(Tree tree) {
        for (Tree at = program.parent(tree); at != null; at = program.parent(at)) {
            if (at instanceof WhileLoopTree || at instanceof ForLoopTree || at instanceof DoWhileLoopTree
                    || at instanceof EnhancedForLoopTree) return (StatementTree) at;
            if (at instanceof MethodTree) return null;
        }
        return null;
    }

    /** A loop within a labelled one, and behind it what a jump out of it goes on to. */
    private String withJumps(StatementTree tree, String text) {
        StringBuilder behind = new StringBuilder();
        for (Label label : labels.values()) {
            if (label.loop == tree || !isWithin(tree, label.loop)) continue;
            behind.append(" if (").append(label.leave).append(") break;");
            boolean direct = around(tree) == label.loop;
            behind.append(" if (").append(label.next).append(direct ? ") { " + label.next + " = false; continue; }"
                    : ") break;");
        }
        return behind.length() == 0 ? text : "{ " + text + behind + " }";
    }

    private boolean isWithin(Tree tree, Tree loop) {
        for (Tree at = tree; at != null && !(at instanceof MethodTree); at = program.parent(at)) if (at == loop) return true;
        return false;
    }

    @Override
    public String visitForLoop(ForLoopTree tree, Void nothing) {
        return withJumps(tree, rewriter.composed(tree, condition(tree.getCondition())));
    }

    @Override
    public String visitWhileLoop(WhileLoopTree tree, Void nothing) {
        return withJumps(tree, rewriter.composed(tree, condition(tree.getCondition())));
    }

    @Override
    public String visitDoWhileLoop(DoWhileLoopTree tree, Void nothing) {
        return withJumps(tree, rewriter.composed(tree, condition(tree.getCondition())));
    }

    @Override
    public String visitIf(IfTree tree, Void nothing) {
        if (Clauses.isBlock(program, tree)) {
            int before = declared.size();
            clauses.take(tree, rewriter, expressions, program, library);
            return declared.size() == before ? "" : rewriter.refused(tree, "a contract that needs a variable", "write a method of the class that it calls");
        }
        return rewriter.composed(tree, condition(tree.getCondition()));
    }

    /** The text of a condition that is a box. */
    private Map<Tree, String> condition(ExpressionTree tree) {
        return tree == null || !Kinds.isBox(kinds.of(tree)) ? Map.of() : Map.of(tree, "(" + expressions.value(tree, "boolean") + ")");
    }

    // ---- switch

    @Override
    public String visitSwitch(SwitchTree tree, Void nothing) {
        String kind = kinds.of(tree.getExpression());
        if (!Kinds.isInt(kind) && !Kinds.isEnum(kind))
                return rewriter.refused(tree, "a `switch` over " + kind.replace("?", ""), "write it as ifs");
        String chosen = program.freshName("chosen");
        declareShared(tree);
        StringBuilder text = new StringBuilder();
        String last = "";
        boolean jumps = false;
        for (int i = 0; i < tree.getCases().size(); i++) {
            CaseTree one = tree.getCases().get(i);
            jumps |= hasInnerBreak(one);
            String test = test(tree, i, chosen);
            if (isJoined(tree, i)) continue;
            String body = groupBody(tree, i);
            if (test.isEmpty()) last = body;
            else text.append(text.length() == 0 ? ""
                    : " else ").append("if (").append(test).append(") { ").append(body).append(" }");
        }
        if (jumps && hasContinue(tree))
                return rewriter.refused(tree, "a `switch` with an inner `break` and a `continue`", "write it as ifs");
        notes.changed(program.place(tree), "`switch` became ifs");
        String whole = text.length() == 0 ? "{ " + last + " }" : text + (last.isEmpty() ? "" : " else { " + last + " }");
        String value = "int " + chosen + " = " + expressions.chosen(tree.getExpression()) + ";";
        return "{ " + value + " " + (jumps ? "do { " + whole + " } while (false);" : whole) + " }";
    }

    /** Variables of one case that another one uses are declared at the method's beginning. */
    private void declareShared(SwitchTree tree) {
        for (CaseTree one : tree.getCases()) {
            if (one.getStatements() == null) continue;
            for (StatementTree statement : one.getStatements()) {
                if (!(statement instanceof VariableTree variable)) continue;
                Element element = program.element(variable);
                boolean[] used = new boolean[1];
                new TreeScanner<Void, Void>() {
                    @Override
                    public Void visitIdentifier(IdentifierTree use, Void nothing) {
                        used[0] |= element.equals(program.element(use));
                        return null;
                    }
                }.scan(tree.getCases().stream().filter(other -> other != one).toList(), null);
                if (!used[0]) continue;
                String name = program.freshName(variable.getName() + "Shared");
                expressions.rename(element, name);
                declare(rewriter.type(variable, kinds.of(element)) + " " + name + ";");
            }
        }
    }

    /** Whether the labels of a case belong to the next one that has statements. */
    private boolean isJoined(SwitchTree tree, int index) {
        CaseTree one = tree.getCases().get(index);
        return one.getStatements() != null && one.getStatements().isEmpty() && index + 1 < tree.getCases().size();
    }

    /** When a case and the empty ones in front of it are taken; nothing where it is the default. */
    private String test(SwitchTree tree, int index, String chosen) {
        List<String> tests = new ArrayList<>();
        for (int i = index; i >= 0 && (i == index || isJoined(tree, i)); i--) {
            CaseTree one = tree.getCases().get(i);
            if (one.getExpressions().isEmpty()) return "";
            for (ExpressionTree label : one.getExpressions()) tests.add(0, chosen + " == " + expressions.label(label));
        }
        return String.join(" || ", tests);
    }

    /** The statements of a case, and where it goes on into the next those too. */
    private String groupBody(SwitchTree tree, int index) {
        StringBuilder text = new StringBuilder();
        for (int i = index; i < tree.getCases().size(); i++) {
            CaseTree one = tree.getCases().get(i);
            if (one.getStatements() == null) return bodyOfArrow(one);
            boolean ended = false;
            for (List<Tree> group : rewriter.groups(one.getStatements())) {
                Tree statement = group.get(0);
                boolean leaves = statement instanceof BreakTree jump && jump.getLabel() == null;
                if (!leaves) text.append(text.length() == 0 ? "" : " ").append(statement instanceof VariableTree
                        ? variables(group) : rewriter.of(statement));
                ended = leaves || statement instanceof ReturnTree || statement instanceof ThrowTree
                        || statement instanceof ContinueTree || statement instanceof BreakTree;
            }
            if (ended) break;
        }
        return text.toString();
    }

    private String bodyOfArrow(CaseTree one) {
        return one.getBody() instanceof ExpressionTree expression ? rewriter.of(expression) + ";" : rewriter.of(one.getBody());
    }

    /** Whether a case has a `break` of the switch that isn't its last statement. */
    private boolean hasInnerBreak(CaseTree one) {
        List<? extends StatementTree> statements = one.getStatements() == null ? one.getBody() instanceof StatementTree body
                ? List.of(body) : List.of() : one.getStatements();
        return statements.stream().filter(statement -> !(statement instanceof BreakTree))
                .anyMatch(statement -> holds(statement, Tree.Kind.BREAK));
    }

    private boolean hasContinue(SwitchTree tree) {
        return tree.getCases().stream().anyMatch(one -> holds(one, Tree.Kind.CONTINUE));
    }

    /** Whether a jump stands in a tree and not in a loop or a switch within it. */
    private static boolean holds(Tree tree, Tree.Kind kind) {
        boolean[] found = new boolean[1];
        new TreeScanner<Void, Void>() {
            @Override
            public Void scan(Tree part, Void nothing) {
                if (part == null) return null;
                found[0] |= part.getKind() == kind;
                boolean closed = part != tree
                        && (part instanceof WhileLoopTree || part instanceof ForLoopTree || part instanceof DoWhileLoopTree
                        || part instanceof EnhancedForLoopTree || part instanceof SwitchTree && kind == Tree.Kind.BREAK);
                return closed ? null : super.scan(part, nothing);
            }
        }.scan(tree, null);
        return found[0];
    }

    // ---- what may end by an exception

    @Override
    public String visitThrow(ThrowTree tree, Void nothing) {
        ExpressionTree made = Program.bare(tree.getExpression());
        if (!(made instanceof NewClassTree) || !Thrown.isError(program, program.type(made))) return rewriter.plain(tree);
        notes.changed(program.place(tree), "the error became a " + reach.error() + ", which counts as false too");
        return "throw new " + reach.error() + "();";
    }

    @Override
    public String visitAssert(AssertTree tree, Void nothing) {
        notes.changed(program.place(tree), "`assert` became a test");
        String text = "if (!(" + expressions.value(tree.getCondition(), "boolean") + ")) throw new " + reach.error() + "();";
        return program.parent(tree) instanceof IfTree ? "{ " + text + " }" : text;
    }

    @Override
    public String visitTry(TryTree tree, Void nothing) {
        if (!tree.getResources().isEmpty()) return rewriter.refused(tree, "`try` with resources", "write them into the block");
        if (tree.getFinallyBlock() != null) return rewriter.refused(tree.getFinallyBlock(), "`finally`", "write it where the block and each `catch` end");
        Map<Tree, String> clauses = new HashMap<>();
        tree.getCatches().forEach(clause -> clauses.put(clause, clauses(clause)));
        boolean none = clauses.values().stream().allMatch(String::isEmpty);
        return none ? rewriter.of(tree.getBlock()) : rewriter.composed(tree, clauses);
    }

    /** A `catch` for each of its classes; none of errors that no code of korat's catches. */
    private String clauses(CatchTree tree) {
        Tree declared = tree.getParameter().getType();
        List<? extends Tree> types = declared instanceof UnionTypeTree union ? union.getTypeAlternatives() : List.of(declared);
        List<? extends Tree> kept = types.stream().filter(type -> !Thrown.isOfMachine(program, (TypeElement) program.types.asElement(program.type(type)))).toList();
        if (kept.size() < types.size()) notes.changed(program.place(tree), "the `catch` of an error of the machine is gone: no code of korat's catches one");
        if (kept.size() > 1) notes.changed(program.place(tree), "the `catch` became one for each of its classes");
        String body = kept.isEmpty() ? "" : rewriter.of(tree.getBlock());
        List<String> names = kept.stream().map(rewriter::exception).distinct().toList();
        return names.stream().map(name -> "catch (" + name + " " + tree.getParameter().getName() + ") " + body).collect(Collectors.joining(" "));
    }

    @Override
    public String visitSynchronized(SynchronizedTree tree, Void nothing) {
        ExpressionTree lock = Program.bare(tree.getExpression());
        if (lock.toString().equals("this") || lock.toString().endsWith(".class")) return rewriter.of(tree.getBlock());
        String kind = kinds.of(lock);
        if (!program.classes.containsKey(kind)) return rewriter.refused(tree, "`synchronized` on " + program.text(lock), "lock `this`");
        return "{ " + library.method("nonNull@", kind, "") + "(" + rewriter.of(lock) + "); " + rewriter.of(tree.getBlock()) + " }";
    }

    @Override
    public String visitReturn(ReturnTree tree, Void nothing) {
        ExecutableElement method = program.methodAround(tree);
        List<LambdaExpressionTree> lambdas = program.lambdasAround(tree);
        if (!lambdas.isEmpty())
                return tree.getExpression() == null ? rewriter.plain(tree) : "return " + expressions.value(tree.getExpression(), kinds.resultOf(lambdas.get(0))) + ";";
        if (tree.getExpression() == null)
                return method.getKind() == ElementKind.CONSTRUCTOR
                && expressions.isMethod(method) ? "return this;" : rewriter.plain(tree);
        String value = expressions.value(tree.getExpression(), kinds.of(method));
        boolean judges = method.equals(reach.predicate) && !kinds.held.fields().isEmpty() && !value.equals("false");
        return "return " + (judges ? Expressions.tight(value) + " && " + expressions.wholeness.all() + "(this)" : value) + ";";
    }

    @Override
    public String visitExpressionStatement(ExpressionStatementTree tree, Void nothing) {
        if (Reach.isPrint(tree)) {
            return mayFail(((MethodInvocationTree) tree.getExpression()).getArguments()) ? rewriter.refused(tree, "a print that may end by an exception, or changes something", "leave it out") : ";";
        }
        ExpressionTree receiver = tree.getExpression();
        while (receiver instanceof MethodInvocationTree call && call.getMethodSelect() instanceof MemberSelectTree select) receiver = select.getExpression();
        if (receiver instanceof IdentifierTree && receiver != tree.getExpression() && program.element(receiver) != null && isOnlyPrinted(program.element(receiver))) return ";";
        if (tree.getExpression() instanceof MethodInvocationTree call
                && List.of("this", "super").contains(call.getMethodSelect().toString())) return expressions.chained(call);
        String text = rewriter.plain(tree);
        return text.equals(";") ? text : text.startsWith("(") ? text.replaceFirst("^\\((.*)\\);$", "$1;") : text;
    }

    /** Whether what a call prints may end by an exception. */
    private boolean mayFail(List<? extends ExpressionTree> trees) {
        boolean[] found = new boolean[1];
        new TreeScanner<Void, Void>() {
            @Override
            public Void scan(Tree part, Void nothing) {
                TypeMirror type = part instanceof IdentifierTree ? program.type(part) : null;
                found[0] |= type != null && program.isOwn(program.types.asElement(type))
                        || part instanceof MethodInvocationTree || part instanceof MemberSelectTree || part instanceof ArrayAccessTree
                        || part instanceof NewClassTree
                        || part instanceof AssignmentTree || part instanceof CompoundAssignmentTree
                        || part != null && part.getKind().toString().matches("DIVIDE|REMAINDER|(PRE|POST)FIX.*");
                return super.scan(part, nothing);
            }
        }.scan(trees, null);
        return found[0];
    }

    @Override
    public String visitYield(YieldTree tree, Void nothing) {
        return rewriter.refused(tree, "`yield`", "write ifs with returns in a method of their own");
    }
}
