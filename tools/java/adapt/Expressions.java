package adapt;

import com.sun.source.tree.ArrayAccessTree;
import com.sun.source.tree.AssignmentTree;
import com.sun.source.tree.BinaryTree;
import com.sun.source.tree.CaseTree;
import com.sun.source.tree.CompoundAssignmentTree;
import com.sun.source.tree.ConditionalExpressionTree;
import com.sun.source.tree.ExpressionStatementTree;
import com.sun.source.tree.ExpressionTree;
import com.sun.source.tree.ForLoopTree;
import com.sun.source.tree.IdentifierTree;
import com.sun.source.tree.InstanceOfTree;
import com.sun.source.tree.LambdaExpressionTree;
import com.sun.source.tree.LiteralTree;
import com.sun.source.tree.MemberReferenceTree;
import com.sun.source.tree.MemberSelectTree;
import com.sun.source.tree.MethodInvocationTree;
import com.sun.source.tree.NewArrayTree;
import com.sun.source.tree.NewClassTree;
import com.sun.source.tree.SwitchExpressionTree;
import com.sun.source.tree.SwitchTree;
import com.sun.source.tree.Tree;
import com.sun.source.tree.TypeCastTree;
import com.sun.source.tree.UnaryTree;
import com.sun.source.util.SimpleTreeVisitor;
import java.util.ArrayList;
import java.util.HashMap;
import java.util.List;
import java.util.Map;
import java.util.stream.Collectors;
import javax.lang.model.element.Element;
import javax.lang.model.element.ElementKind;
import javax.lang.model.element.ExecutableElement;
import javax.lang.model.element.Modifier;
import javax.lang.model.element.TypeElement;
import javax.lang.model.element.VariableElement;
import javax.lang.model.type.ArrayType;
import javax.lang.model.type.TypeMirror;

/** Writes expressions. */
final class Expressions extends SimpleTreeVisitor<String, Void> {
    private static final Map<String, String> OPERATORS = Map.ofEntries(Map.entry("PLUS", "+"), Map.entry("MINUS", "-"), Map.entry("MULTIPLY", "*"),
            Map.entry("DIVIDE", "/"), Map.entry("REMAINDER", "%"), Map.entry("AND", "&"), Map.entry("OR", "|"),
                    Map.entry("XOR", "^"),
            Map.entry("LEFT_SHIFT", "<<"), Map.entry("RIGHT_SHIFT", ">>"), Map.entry("UNSIGNED_RIGHT_SHIFT", ">>>"));

    private final Rewriter rewriter;
    private final Program program;
    private final Kinds kinds;
    private final Reach reach;
    private final Library library;
    private final Notes notes;
    private final MethodNames names;
    private final Outers outers;
    private String self;
    private final Map<Element, String> accessors = new HashMap<>();
    /** The variables of patterns by their names in the adapted code. */
    private final Map<Element, String> patterns = new HashMap<>();
    private final Calls calls;
    final Wholeness wholeness;

    Expressions(Rewriter rewriter, Program program, Kinds kinds, Reach reach, Library library, Notes notes, MethodNames names, Outers outers) {
        this.outers = outers;
        this.rewriter = rewriter;
        this.program = program;
        this.kinds = kinds;
        this.reach = reach;
        this.library = library;
        this.notes = notes;
        this.names = names;
        calls = new Calls(rewriter, this, program, kinds, library, notes);
        wholeness = new Wholeness(this, program, kinds, reach, library);
    }

    @Override
    protected String defaultAction(Tree tree, Void nothing) {
        return rewriter.plain(tree);
    }

    String name(ExecutableElement method) {
        return names.of(method);
    }

    /** An expression as a value of a kind: boxed and unboxed where the two differ. */
    String value(ExpressionTree tree, String wanted) {
        if (Program.isNull(tree)) {
            if (Kinds.isEnum(wanted)) return "(-1)";
            if (Kinds.isStored(wanted)) return number(Kinds.none(wanted));
            if (Kinds.isBoxable(wanted))
                    return rewriter.refused(tree, "null where the values are numbers", "use a number that stands for none");
        }
        String kind = kinds.of(tree);
        boolean other = !kind.equals(wanted) && (kinds.isList(wanted) || kinds.isMap(wanted)) && (kinds.isList(kind) || kinds.isMap(kind))
                && kinds.held.ofKind(kind) != kinds.held.ofKind(wanted);
        if (other) return rewriter.refused(tree, "a candidate's collection `" + program.text(tree) + "` among others", "copy it by `new`");
        return converted(rewriter.of(tree), kind, wanted);
    }

    /** A text of a kind as a value of another. */
    String converted(String text, String kind, String wanted) {
        if (Kinds.isStored(wanted)) return stored(text, kind);
        if (Kinds.isBox(wanted) && Kinds.isBoxable(kind)) return "new " + library.box(wanted) + "(" + text + ")";
        return Kinds.isBox(kind) && !Kinds.isBox(wanted) ? unboxed(text) : text;
    }

    /** The parameter that a method of an enum has its constant in. */
    String self() {
        if (self == null) self = program.freshName("self");
        return self;
    }

    /** The method that a field of an enum becomes. */
    String accessor(VariableElement field) {
        return accessors.computeIfAbsent(field, key -> program.freshName(key.getSimpleName() + "Of"));
    }

    private static boolean isOfConstant(Element member) {
        boolean kind = member.getKind() == ElementKind.FIELD || member.getKind() == ElementKind.METHOD;
        return kind && Program.classOf(member).getKind() == ElementKind.ENUM && !member.getModifiers().contains(Modifier.STATIC);
    }

    void rename(Element variable, String name) {
        patterns.putIfAbsent(variable, name);
    }

    boolean isRenamed(Element variable) {
        return variable != null && patterns.containsKey(variable) && variable.getKind() == ElementKind.LOCAL_VARIABLE;
    }

    /** A local variable's name. */
    String nameOf(Element variable) {
        if (patterns.containsKey(variable)) return patterns.get(variable);
        if (variable.getKind() != ElementKind.BINDING_VARIABLE) return variable.getSimpleName().toString();
        return patterns.computeIfAbsent(variable, key -> program.freshName(key.getSimpleName() + "Seen"));
    }

    /** A value as it is kept in a candidate's place where it may be null. */
    private String stored(String text, String kind) {
        if (Kinds.isBox(kind)) return library.method("numberOf" + Kinds.suffix(kind)) + "(" + text + ")";
        return kind.equals("boolean") ? "(" + tight(text) + " ? 1 : 0)" : text;
    }

    /** A place of a candidate as it is read. */
    String read(String text, String place) {
        if (!Kinds.isStored(place)) return text;
        library.box(Kinds.read(place));
        return library.method("boxed" + Kinds.suffix(place)) + "(" + text + ")";
    }

    private static String unboxed(String text) {
        return (isTight(text) ? text : "(" + text + ")") + ".value";
    }

    /** An expression as the operand of another. */
    String operand(ExpressionTree tree) {
        String text = value(tree, Kinds.isBox(kinds.of(tree)) ? Kinds.unboxOf(kinds.of(tree)) : "");
        return isTight(text) ? text : "(" + text + ")";
    }

    /** An expression as the operand of another, or of a call: as it is, even where it is a box. */
    String receiver(ExpressionTree tree) {
        String text = rewriter.of(tree);
        return isTight(text) ? text : "(" + text + ")";
    }

    /** Whether a text may stand as an operand without brackets around it. */
    static boolean isTight(String text) {
        String rest = text.startsWith("new ") ? text.substring(4) : text;
        int depth = 0;
        for (int i = 0; i < rest.length(); i++) {
            char c = rest.charAt(i);
            if (c == '(' || c == '[') depth++;
            else if (c == ')' || c == ']') depth--;
            else if (depth == 0 && !Character.isJavaIdentifierPart(c) && c != '.' && !(rest != text && (c == '<' || c == '>'))) return false;
        }
        return !rest.isEmpty() && !rest.startsWith("(") || rest.startsWith("(") && closes(rest);
    }

    /** Whether the first bracket closes at the end, or behind it follow members alone, so that it is no cast. */
    private static boolean closes(String text) {
        int depth = 0;
        for (int i = 0; i < text.length(); i++) {
            if (text.charAt(i) == '(') depth++;
            if (text.charAt(i) == ')' && --depth == 0) return i + 1 == text.length() || text.charAt(i + 1) == '.';
        }
        return false;
    }

    /** A text with brackets around it where an operand needs them. */
    static String tight(String text) {
        return isTight(text) ? text : "(" + text + ")";
    }

    /** When two members of a kind are equal, `a` and `b`. */
    String equality(String kind) {
        if (Kinds.isBox(kind)) {
            library.box(kind);
            return library.method("holdSame" + Kinds.suffix(kind)) + "(a, b)";
        }
        if (!kinds.hasEquals(kind)) return "a == b";
        return "(a == null ? b == null : a." + names.of(program.equality(program.classes.get(kind))) + "(b))";
    }

    /** When two members of a hash table of a kind are the same. */
    String hashEquality(String kind) {
        if (!kinds.hasEquals(kind)) return equality(kind);
        TypeElement type = program.classes.get(kind);
        if (!program.isWritten(program.hashing(type))) return equality(kind);
        return "(a == b || a != null && b != null && a." + names.of(program.hashing(type)) + "() == b." + names.of(program.hashing(type)) + "() && a."
                + names.of(program.equality(type)) + "(b))";
    }

    static String number(Object value) {
        long number = value instanceof Character c ? c : ((Number) value).longValue();
        String text = number + (value instanceof Long ? "L" : "");
        return number < 0 ? "(" + text + ")" : text;
    }

    // ---- literals and names

    @Override
    public String visitLiteral(LiteralTree tree, Void nothing) {
        switch (tree.getKind()) {
            case NULL_LITERAL: case BOOLEAN_LITERAL: return program.text(tree);
            case INT_LITERAL: case LONG_LITERAL:
                String text = program.text(tree);
                boolean plain = text.matches("(0|-?\\s*[1-9][0-9]*)[lL]?");
                if (!plain) notes.changed(program.place(tree), text + " became " + number(tree.getValue()));
                return plain ? text : number(tree.getValue());
            case CHAR_LITERAL:
                notes.changed(program.place(tree), program.text(tree) + " became " + number(tree.getValue()));
                return number(tree.getValue());
            default: return rewriter.type(tree, kinds.kind(program.type(tree)));
        }
    }

    @Override
    public String visitIdentifier(IdentifierTree tree, Void nothing) {
        Element element = program.element(tree);
        if (element instanceof VariableElement variable) {
            if (variable.getKind() == ElementKind.ENUM_CONSTANT)
                    return Program.classOf(variable).getSimpleName() + "." + tree.getName();
            boolean constant = variable.getKind() == ElementKind.FIELD && variable.getModifiers().contains(Modifier.STATIC);
            if (constant && !program.isOwn(variable)) return libraryConstant(tree, variable);
            if (constant && !rewriter.seesByName(program.classAround(tree), Program.classOf(variable)))
                    return Program.classOf(variable).getSimpleName() + "." + tree.getName();
            if (List.of("this", "super").contains(tree.getName().toString())) {
                if (program.classAround(tree).getKind() == ElementKind.ENUM && tree.getName().contentEquals("this")) return self();
                if (program.lambdasAround(tree).isEmpty()) return tree.getName().toString();
                return tree.getName().contentEquals("this") ? outers.name() : rewriter.refused(tree, "`super` in a lambda", "write a method that calls it");
            }
            refuseForeign(tree, variable);
            if (program.isOwn(variable) && isOfConstant(variable)) return accessor(variable) + "(" + self() + ")";
            if (variable.getKind() != ElementKind.FIELD) return nameOf(variable);
            return from(tree, variable) + tree.getName();
        }
        return tree.getName().toString();
    }

    /** What is in front of a member that is named without an object: nothing, or the way to the object around. */
    private String from(Tree tree, Element member) {
        if (!program.isOwn(member) || member.getModifiers().contains(Modifier.STATIC) || member instanceof VariableElement field && Bounds.isConstant(field)) return "";
        String path = outers.path(tree, Program.classOf(member));
        return path.isEmpty() ? "" : path + ".";
    }

    private void refuseForeign(IdentifierTree tree, Element member) {
        boolean field = member.getKind() == ElementKind.FIELD;
        if (!field && member.getKind() != ElementKind.METHOD || List.of("this", "super").contains(tree.getName().toString()))
                return;
        if (!program.isOwn(member))
                rewriter.refused(tree,
                "`" + tree.getName() + "` is inherited from " + Program.classOf(member).getSimpleName()
                + ", which is none of the sources", "declare it in your class");
    }

    private String libraryConstant(Tree tree, VariableElement variable) {
        if (Program.classOf(variable).getQualifiedName().contentEquals("java.lang.Boolean") && variable.getSimpleName().toString().matches("TRUE|FALSE"))
                return variable.getSimpleName().toString().toLowerCase(java.util.Locale.ROOT);
        Object value = variable.getConstantValue();
        if (!(value instanceof Number || value instanceof Character) || value instanceof Double || value instanceof Float) {
            return rewriter.refused(tree, "`" + variable.getSimpleName() + "` of " + Program.classOf(variable).getSimpleName(),
                    "write the value as an int or a long");
        }
        notes.changed(program.place(tree), program.text(tree) + " became " + number(value));
        return number(value);
    }

    @Override
    public String visitMemberSelect(MemberSelectTree tree, Void nothing) {
        Element element = program.element(tree);
        if (element instanceof TypeElement type) return type.getSimpleName().toString();
        String name = tree.getIdentifier().toString();
        if (name.equals("this")) return outers.instance(tree, (TypeElement) program.element(tree.getExpression()));
        if (element instanceof VariableElement variable
                && (variable.getModifiers().contains(Modifier.STATIC) || variable.getKind() == ElementKind.FIELD
                && program.isOwn(variable) && Bounds.isConstant(variable))) {
            return program.isOwn(variable) ? Program.classOf(variable).getSimpleName() + "." + name
                    : libraryConstant(tree, variable);
        }
        if (name.equals("length") && Program.bare(tree.getExpression()) instanceof MethodInvocationTree call
                && Statements.isValues(call)
                && program.element(call) instanceof ExecutableElement method
                        && Program.classOf(method).getKind() == ElementKind.ENUM) {
            return String.valueOf(Program.classOf(method).getEnclosedElements().stream()
                    .filter(e -> e.getKind() == ElementKind.ENUM_CONSTANT).count());
        }
        if (element instanceof VariableElement variable && program.isOwn(variable) && isOfConstant(variable))
                return Program.classOf(variable).getSimpleName() + "." + accessor(variable) + "(" + library.method("ordinal") + "(" + rewriter.of(tree.getExpression()) + "))";
        return rewriter.composed(tree, Map.of(tree.getExpression(), operand(tree.getExpression())));
    }

    /** The label of a `case`. */
    String label(ExpressionTree tree) {
        if (program.element(tree) instanceof VariableElement variable && variable.getKind() == ElementKind.ENUM_CONSTANT)
                return Program.classOf(variable).getSimpleName() + "." + variable.getSimpleName();
        if (tree instanceof IdentifierTree name && program.element(tree) == null) {
            for (Tree at = program.parent(tree); at != null; at = program.parent(at)) {
                if (at instanceof SwitchTree one
                        && program.types.asElement(program.type(Program.bare(one.getExpression()))) instanceof TypeElement type) return type.getSimpleName() + "." + name.getName();
            }
        }
        return rewriter.of(tree);
    }

    // ---- operators

    @Override
    public String visitBinary(BinaryTree tree, Void nothing) {
        ExpressionTree left = tree.getLeftOperand();
        ExpressionTree right = tree.getRightOperand();
        boolean equality = tree.getKind() == Tree.Kind.EQUAL_TO || tree.getKind() == Tree.Kind.NOT_EQUAL_TO;
        if (equality && isClassOf(left) && isClassOf(right)) return classes(tree, (MethodInvocationTree) Program.bare(left), (MethodInvocationTree) Program.bare(right));
        if (equality && (Program.isNull(left) || Program.isNull(right)))
                return comparedToNull(tree, Program.isNull(left) ? right : left);
        for (ExpressionTree side : List.of(left, right)) {
            String kind = kinds.of(side);
            if (!equality && kind.startsWith("?")) return isDeclared(side) ? program.text(tree) : rewriter.type(side, kind);
        }
        String kind = Kinds.unboxOf(kinds.of(left));
        String other = Kinds.unboxOf(kinds.of(right));
        boolean numbers = Kinds.isPlainNumber(kind) && Kinds.isPlainNumber(other);
        if (!numbers && (!Kinds.isBoxable(kind) || !kind.equals(other))) return rewriter.plain(tree);
        boolean boxes = equality && !program.type(left).getKind().isPrimitive() && !program.type(right).getKind().isPrimitive();
        if (boxes && !kind.equals(other)) return rewriter.refused(tree, "a comparison of boxes of an int and a long, which are never the same object", "compare their values");
        if (boxes) {
            if (numbers) notes.warn(program.place(tree),
                    "Java compares the objects here, and korat their numbers: the two agree from -128 to 127");
            boolean nullable = Kinds.isBox(kinds.of(left)) || Kinds.isBox(kinds.of(right));
            if (nullable) return (tree.getKind() == Tree.Kind.EQUAL_TO ? "" : "!") + areEqual(left, right, Kinds.boxOf(kind));
        }
        return rewriter.composed(tree, Map.of(left, value(left, kind), right, value(right, other)));
    }

    /** Whether an expression is a variable of the sources, whose declaration is refused already. */
    boolean isDeclared(ExpressionTree tree) {
        return program.element(Program.bare(tree)) instanceof VariableElement variable && program.isOwn(variable);
    }

    /** The text of a place that is written, without the box that reading it would make. */
    String raw(ExpressionTree tree) {
        return Program.bare(tree).accept(this, null);
    }

    /** Whether two boxes, of which each may be null, hold the same. */
    String areEqual(ExpressionTree left, ExpressionTree right, String box) {
        library.box(box);
        return library.method("holdSame" + Kinds.suffix(box)) + "(" + value(left, box) + ", " + value(right, box) + ")";
    }

    private static boolean isClassOf(ExpressionTree tree) {
        return Program.bare(tree) instanceof MethodInvocationTree call && call.getMethodSelect().toString().matches("(.*\\.)?getClass") && call.getArguments().isEmpty();
    }

    /** Whether two objects are of one class, where theirs has none below it. */
    private String classes(BinaryTree tree, MethodInvocationTree left, MethodInvocationTree right) {
        String[] texts = new String[2];
        String kind = null;
        for (MethodInvocationTree one : List.of(left, right)) {
            ExpressionTree of = kinds.receiver(one);
            String kindOfOne = of == null ? program.nameOf(program.classAround(tree)) : kinds.of(of);
            TypeElement type = program.classes.get(kindOfOne);
            boolean alone = type != null && program.classes.values().stream().noneMatch(below -> below != type && program.isBelow(below, type));
            if (!alone || kind != null && !kind.equals(kindOfOne))
                    return rewriter.refused(tree, "`getClass` of objects that may be of several classes", "write `instanceof`");
            kind = kindOfOne;
            texts[one == left ? 0 : 1] = of == null ? "this" : rewriter.of(of);
        }
        String same = library.method("areThere@", kind, "") + "(" + texts[0] + ", " + texts[1] + ")";
        return tree.getKind() == Tree.Kind.EQUAL_TO ? same : "!" + same;
    }

    private String comparedToNull(BinaryTree tree, ExpressionTree other) {
        String kind = kinds.of(other);
        if (Kinds.isEnum(kind)) return rewriter.composed(tree, Map.of(tree.getLeftOperand(), value(tree.getLeftOperand(), kind),
                tree.getRightOperand(), value(tree.getRightOperand(), kind)));
        if (kinds.placeOf(other).matches("~(int|long)"))
                return "(" + raw(other) + (tree.getKind() == Tree.Kind.EQUAL_TO ? " == " : " != ") + number(Kinds.none(kinds.placeOf(other))) + ")";
        if (!Kinds.isBoxable(kind)) return rewriter.plain(tree);
        boolean equal = tree.getKind() == Tree.Kind.EQUAL_TO;
        notes.changed(program.place(tree), "`" + program.text(tree) + "` became " + !equal + ", since numbers are never null");
        return (equal ? "" : "!") + absent(other, kind);
    }

    /** That a number is null, which it never is; what may end by a trap is evaluated. */
    String absent(ExpressionTree tree, String kind) {
        String text = value(tree, kind);
        if (Program.bare(tree) instanceof IdentifierTree) return "false";
        return library.method("isAbsent@", kind, "") + "(" + text + ")";
    }

    @Override
    public String visitUnary(UnaryTree tree, Void nothing) {
        ExpressionTree target = Program.bare(tree.getExpression());
        String kind = tree.getKind().toString();
        if (!kind.matches("(PRE|POST)FIX.*"))
                return rewriter.composed(tree,
                Map.of(tree.getExpression(),
                value(tree.getExpression(), Kinds.unboxOf(kinds.of(tree.getExpression())))));
        boolean scratch = isScratchElement(target);
        String range = narrow(program.type(target));
        if (!scratch && range == null && !Kinds.isBox(kinds.of(target))) return rewriter.plain(tree);
        Tree parent = program.parent(tree);
        boolean valueUsed = !(parent instanceof ExpressionStatementTree) && kind.startsWith("POST");
        if (valueUsed || !isPlain(target))
                return rewriter.refused(tree, "a step within an expression, of " + program.text(target),
                "write the step as a statement of its own");
        return written(tree, target, kind.endsWith("INCREMENT") ? "+" : "-", "1", false);
    }

    @Override
    public String visitCompoundAssignment(CompoundAssignmentTree tree, Void nothing) {
        ExpressionTree target = Program.bare(tree.getVariable());
        if (kinds.of(tree.getExpression()).startsWith("?"))
                return rewriter.type(tree.getExpression(), kinds.of(tree.getExpression()));
        boolean isLong = Kinds.unboxOf(kinds.of(tree.getExpression())).equals("long");
        String text = value(tree.getExpression(), isLong ? "long" : Kinds.unboxOf(kinds.of(target)));
        if (!isScratchElement(target) && narrow(program.type(target)) == null && !Kinds.isBox(kinds.of(target)))
                return rewriter.composed(tree, Map.of(tree.getExpression(), text));
        if (!isPlain(target))
                return rewriter.refused(tree, "a compound assignment to " + program.text(target),
                "write `a = a + b` with a plain a");
        return written(tree, target, OPERATORS.get(tree.getKind().toString().replace("_ASSIGNMENT", "")),
                isTight(text) ? text : "(" + text + ")", isLong);
    }

    /** A step or compound assignment as an assignment, within the range of the target's type. */
    private String written(Tree tree, ExpressionTree target, String operator, String operand, boolean isLong) {
        String range = narrow(program.type(target));
        String before = operand(target);
        String value = before + " " + operator + " " + operand;
        if (isLong && Kinds.isInt(kinds.of(target))) value = "(int) (" + value + ")";
        String text = range == null ? value : range.replace("#", "(" + value + ")");
        if (Kinds.isBox(kinds.placeOf(target))) text = "new " + library.box(kinds.of(target)) + "(" + text + ")";
        boolean statement = program.parent(tree) instanceof ExpressionStatementTree
                || program.parent(tree) instanceof ForLoopTree;
        if (isScratchElement(target)) return setter((ArrayAccessTree) target, text);
        String assignment = raw(target) + " = " + text;
        return statement ? assignment : "(" + assignment + ")";
    }

    private boolean isScratchElement(ExpressionTree target) {
        return target instanceof ArrayAccessTree access && kinds.of(access.getExpression()).startsWith("ArrayOf");
    }

    private String setter(ArrayAccessTree target, String value) {
        return operand(target.getExpression()) + ".set(" + value(target.getIndex(), "int") + ", " + value + ")";
    }

    /** Whether an expression may be written twice. */
    private boolean isPlain(ExpressionTree tree) {
        ExpressionTree bare = Program.bare(tree);
        if (bare instanceof MemberSelectTree select) return isPlain(select.getExpression());
        if (bare instanceof ArrayAccessTree access) return isPlain(access.getExpression()) && isPlain(access.getIndex());
        if (bare instanceof BinaryTree binary) return isPlain(binary.getLeftOperand()) && isPlain(binary.getRightOperand());
        if (bare instanceof MethodInvocationTree call)
                return call.getArguments().isEmpty() && !program.isOwn(program.element(call)) && kinds.receiver(call) != null
                && isPlain(kinds.receiver(call));
        return bare instanceof IdentifierTree || bare instanceof LiteralTree;
    }

    /** How a number is brought into the range of a small type; nothing for others. */
    private static String narrow(TypeMirror type) {
        switch (type.getKind()) {
            case BYTE: return "(# << 24 >> 24)";
            case SHORT: return "(# << 16 >> 16)";
            case CHAR: return "(# & 65535)";
            default: return null;
        }
    }

    @Override
    public String visitAssignment(AssignmentTree tree, Void nothing) {
        ExpressionTree target = Program.bare(tree.getVariable());
        String place = kinds.placeOf(target);
        boolean boxes = target instanceof ArrayAccessTree && !program.type(target).getKind().isPrimitive() && !isScratchElement(target);
        if (boxes && Kinds.isBoxable(place) && Kinds.isBox(kinds.of(tree.getExpression())))
                return rewriter.refused(tree, "null may come into an array whose elements are numbers", "give the elements null in their domain");
        String value = value(tree.getExpression(), place);
        if (isScratchElement(target)) return setter((ArrayAccessTree) target, value);
        String text = rewriter.composed(tree, Map.of(tree.getExpression(), value, tree.getVariable(), raw(target)));
        boolean statement = program.parent(tree) instanceof ExpressionStatementTree || program.parent(tree) instanceof ForLoopTree;
        return statement || !Kinds.isStored(place) ? text : read(text, place);
    }

    @Override
    public String visitArrayAccess(ArrayAccessTree tree, Void nothing) {
        if (Program.bare(tree.getExpression()) instanceof MethodInvocationTree call && Statements.isValues(call))
                return library.method("constantAt") + "(" + value(tree.getIndex(), "int") + ", " + Statements.constants(program, call) + ")";
        if (isScratchElement(tree)) return operand(tree.getExpression()) + ".get(" + value(tree.getIndex(), "int") + ")";
        return rewriter.composed(tree,
                Map.of(tree.getIndex(), value(tree.getIndex(), "int"), tree.getExpression(), operand(tree.getExpression())));
    }

    @Override
    public String visitConditionalExpression(ConditionalExpressionTree tree, Void nothing) {
        String kind = kinds.of(tree);
        List<String> both = List.of(Kinds.unboxOf(kinds.of(tree.getTrueExpression())), Kinds.unboxOf(kinds.of(tree.getFalseExpression())));
        if (both.contains("boolean") && both.stream().anyMatch(Kinds::isPlainNumber)) return rewriter.refused(tree, "a choice between a number and a truth value", "use variables of one type");
        return rewriter.composed(tree,
                Map.of(tree.getCondition(), value(tree.getCondition(), "boolean"), tree.getTrueExpression(), common(tree) + value(tree.getTrueExpression(), kind), tree.getFalseExpression(),
                value(tree.getFalseExpression(), kind)));
    }

    /** A cast of the first of two to a class above both, where neither is above the other. */
    private String common(ConditionalExpressionTree tree) {
        TypeElement first = program.classes.get(kinds.of(tree.getTrueExpression()));
        TypeElement second = program.classes.get(kinds.of(tree.getFalseExpression()));
        if (first == null || second == null || program.isBelow(first, second) || program.isBelow(second, first)) return "";
        TypeElement wanted = program.classes.get(kinds.kind(program.type(tree)));
        for (TypeElement type : program.classes.values())
            if (wanted == null && rewriter.reach.kept.contains(type) && program.isBelow(first, type) && program.isBelow(second, type)) wanted = type;
        return wanted == null ? "" : "(" + rewriter.type(tree, wanted.getSimpleName().toString()) + ") ";
    }

    @Override
    public String visitTypeCast(TypeCastTree tree, Void nothing) {
        TypeMirror type = program.type(tree);
        String kind = kinds.kind(type);
        String from = kinds.of(tree.getExpression());
        if (type.getKind().isPrimitive() && (kind.startsWith("?") || from.startsWith("?")))
                return rewriter.type(tree, kind.startsWith("?") ? kind : from);
        if (Boxes.isAny(program.type(Program.bare(tree.getExpression()))) && Kinds.isNumber(from) && !isOfBox(tree.getExpression(), type))
                return rewriter.refused(tree, "a cast to " + type + " of numbers of two types", "use variables of one");
        String range = narrow(type);
        if (range != null) {
            notes.changed(program.place(tree), "the cast to " + type + " became arithmetic");
            return range.replace("#", (Kinds.isInt(from) ? "" : "(int) ") + operand(tree.getExpression()));
        }
        boolean collection = kinds.isList(kind) || kinds.isMap(kind);
        if (collection && !program.types.isSubtype(program.types.erasure(program.type(tree.getExpression())), program.types.erasure(type)))
                return rewriter.refused(tree, "a cast of a collection to " + type, "declare the variable with its own class");
        if (kind.startsWith("?") || kind.equals(from) && !type.getKind().isPrimitive())
                return rewriter.of(tree.getExpression());
        if (kinds.isAdded(kind) || kind.endsWith(">") || kind.endsWith("[]")) return rewriter.of(tree.getExpression());
        return "(" + rewriter.type(tree, kind) + ") " + value(tree.getExpression(), kind);
    }

    @Override
    public String visitInstanceOf(InstanceOfTree tree, Void nothing) {
        if (tree.getPattern() != null) return pattern(tree);
        String kind = kinds.kind(program.type(tree.getType()));
        String from = kinds.of(tree.getExpression());
        if (kinds.isList(kind) || kinds.isMap(kind)) return rewriter.refused(tree, "`instanceof` of a collection", "leave it out");
        if (Kinds.isBoxable(kind) && !isOfBox(tree.getExpression(), program.type(tree.getType())))
                return rewriter.refused(tree, "`instanceof` of numbers of two types", "use variables of one");
        if (Kinds.isBoxable(kind) && kind.equals(from)) return "!" + absent(tree.getExpression(), from);
        if (Kinds.isBoxable(kind) && Kinds.boxOf(kind).equals(from) || Kinds.isEnum(kind) && kind.equals(from))
                return "(" + rewriter.of(tree.getExpression()) + (Kinds.isEnum(kind) ? " >= 0)" : " != null)");
        if (Kinds.isBoxable(kind) || Kinds.isEnum(kind)) return rewriter.refused(tree, "`instanceof` between " + program.type(tree.getExpression()) + " and " + program.type(tree.getType()), "leave it out where it is always false");
        if (kind.startsWith("?") && program.classes.containsKey(from)
                && program.types.isSubtype(program.types.erasure(program.classes.get(from).asType()),
                program.types.erasure(program.type(tree.getType())))) {
            return "(" + rewriter.of(tree.getExpression()) + " != null)";
        }
        return operand(tree.getExpression()) + " instanceof " + rewriter.type(tree.getType(), kind);
    }

    /** Whether an expression's number is of this class, or of none where it isn't a number. */
    private boolean isOfBox(ExpressionTree tree, TypeMirror type) {
        String box = Boxes.of(type);
        return box.isEmpty() || List.of(box).containsAll(kinds.boxes.of(tree));
    }

    /** `instanceof` with a variable, which is declared at the method's beginning and assigned here. */
    private String pattern(InstanceOfTree tree) {
        VariableElement variable = tree.getPattern() instanceof com.sun.source.tree.BindingPatternTree pattern
                ? (VariableElement) program.element(pattern.getVariable()) : null;
        String kind = variable == null ? "?" : kinds.kind(variable.asType());
        boolean plain = isPlain(Program.bare(tree.getExpression()));
        if (!program.classes.containsKey(kind) || program.methodAround(tree) == null || !program.lambdasAround(tree).isEmpty())
                return rewriter.refused(tree, "`instanceof` with a variable of " + program.type(tree.getType() != null ? tree.getType() : tree.getExpression()), "write `instanceof` and a cast");
        String name = nameOf(variable);
        rewriter.declare(rewriter.type(tree, kind) + " " + name + " = null;");
        String from = kinds.of(tree.getExpression());
        String value = rewriter.of(tree.getExpression());
        if (!plain) {
            String held = program.freshName("held");
            rewriter.declare(rewriter.type(tree.getExpression(), from) + " " + held + " = null;");
            notes.changed(program.place(tree), "`instanceof` with a variable became an assignment");
            return "((" + held + " = " + value + ") instanceof " + rewriter.type(tree, kind) + " && (" + name + " = (" + rewriter.type(tree, kind) + ") " + held + ") != null)";
        }
        notes.changed(program.place(tree), "`instanceof` with a variable became an assignment");
        return "(" + value + " instanceof " + rewriter.type(tree, kind) + " && (" + name + " = (" + rewriter.type(tree, kind) + ") " + value + ") != null)";
    }

    @Override
    public String visitSwitchExpression(SwitchExpressionTree tree, Void nothing) {
        ExpressionTree chosen = Program.bare(tree.getExpression());
        String last = null;
        StringBuilder text = new StringBuilder();
        for (CaseTree one : tree.getCases()) {
            if (one.getBody() instanceof com.sun.source.tree.ThrowTree && isPlain(chosen)) {
                String kind = kinds.kind(program.type(tree));
                String trap = Kinds.isPlainNumber(kind) || Kinds.isEnum(kind) ? "1 / 0" : kind.equals("boolean") ? "1 / 0 == 0" : "(1 / 0 == 0 ? null : null)";
                if (one.getExpressions().isEmpty()) last = trap;
                else text.append(one.getExpressions().stream().map(label -> chosen(chosen) + " == " + switchLabel(tree, label))
                        .collect(Collectors.joining(" || "))).append(" ? ").append(trap).append(" : ");
                continue;
            }
            if (!(one.getBody() instanceof ExpressionTree result) || !isPlain(chosen))
                    return rewriter.refused(tree, "a `switch` with more than values",
                    "write ifs with returns in a method of their own");
            String value = value(result, kinds.kind(program.type(tree)));
            if (one.getExpressions().isEmpty()) last = value;
            else text.append(one.getExpressions().stream()
                    .map(label -> chosen(chosen) + " == " + switchLabel(tree, label))
                    .collect(Collectors.joining(" || "))).append(" ? ").append(value).append(" : ");
        }
        String kind = kinds.kind(program.type(tree));
        String trap = Kinds.isPlainNumber(kind) || Kinds.isEnum(kind) ? "1 / 0" : kind.equals("boolean") ? "1 / 0 == 0" : "1 / 0 == 0 ? null : null";
        notes.changed(program.place(tree), "`switch` became `?:`");
        return "(" + text + (last == null ? trap : last) + ")";
    }

    /** What a `switch` chooses by: null traps. */
    String chosen(ExpressionTree tree) {
        String kind = kinds.of(tree);
        return Kinds.isEnum(kind) ? library.method("ordinal") + "(" + rewriter.of(tree) + ")" : value(tree, "int");
    }

    private String switchLabel(SwitchExpressionTree tree, ExpressionTree label) {
        boolean constant = label instanceof IdentifierTree
                && program.types.asElement(program.type(Program.bare(tree.getExpression()))) instanceof TypeElement type
                && type.getKind() == ElementKind.ENUM;
        return constant ? program.types.asElement(program.type(Program.bare(tree.getExpression()))).getSimpleName() + "."
                + label : label(label);
    }

    @Override
    public String visitLambdaExpression(LambdaExpressionTree tree, Void nothing) {
        return rewriter.lambda(tree);
    }

    @Override
    public String visitMemberReference(MemberReferenceTree tree, Void nothing) {
        return rewriter.refused(tree, "`" + program.text(tree) + "`", "write a loop or a call in its place");
    }

    // ---- creations

    @Override
    public String visitNewArray(NewArrayTree tree, Void nothing) {
        String kind = kinds.of(tree);
        String element = kinds.elementOf(kind);
        List<? extends ExpressionTree> items = tree.getInitializers();
        if (items == null && Kinds.isBoxable(element) && !kinds.isAdded(kind)
                && !((ArrayType) program.type(tree)).getComponentType().getKind().isPrimitive()) {
            return rewriter.refused(tree,
                    "an array of " + ((ArrayType) program.type(tree)).getComponentType() + ", which begins with null",
                    "write int[]");
        }
        if (kinds.isAdded(kind)) return scratch(tree, kind, element);
        if (items == null) {
            String length = value(tree.getDimensions().get(0), "int");
            if (Kinds.isStored(element) || Kinds.isEnum(element)) {
                rewriter.type(tree, element);
                return library.method(Kinds.isEnum(element) ? "constants" : "numbers" + (element.equals("~long") ? "Long" : "")) + "(" + length + ")";
            }
            return "new " + rewriter.type(tree, element) + "[" + length + "]";
        }
        notes.changed(program.place(tree), "the array's initial values became assignments of an added method");
        return library.arrayOf(rewriter.type(tree, element), items.size()) + "(" + items.stream()
                .map(item -> value(item, element)).collect(Collectors.joining(", ")) + ")";
    }

    private String scratch(NewArrayTree tree, String kind, String element) {
        rewriter.type(tree, kind);
        notes.changed(program.place(tree), "an array of the predicate's own became an object of the added class " + kind);
        if (tree.getInitializers() != null) {
            StringBuilder text = new StringBuilder("new " + kind + "(" + tree.getInitializers().size() + ")");
            for (int i = 0; i < tree.getInitializers().size(); i++)
                    text.append(".with(").append(i).append(", ").append(value(tree.getInitializers().get(i),
                    element)).append(")");
            return text.toString();
        }
        List<String> lengths = tree.getDimensions().stream().map(length -> value(length, "int")).toList();
        if (lengths.size() > 2)
                return rewriter.refused(tree, "an array of three dimensions", "write an array of one with computed indices");
        if (lengths.size() == 1) return "new " + kind + "(" + lengths.get(0) + ")";
        rewriter.type(tree, element);
        return kind + ".rows(" + String.join(", ", lengths) + ")";
    }

    @Override
    public String visitNewClass(NewClassTree tree, Void nothing) {
        if (tree.getClassBody() != null) return anonymous(tree);
        ExecutableElement constructor = (ExecutableElement) program.element(tree);
        TypeElement type = Program.classOf(constructor);
        if (Thrown.dropsArguments(program, constructor)) return exception(tree);
        if (!program.isOwn(type)) return calls.newCollection(tree, type);
        String arguments = arguments(constructor, tree.getArguments());
        if (outers.isExtended(type)) {
            String around = String.join(", ", rewriter.carried().arguments(tree, type));
            arguments = around + (arguments.isEmpty() ? "" : ", " + arguments);
        }
        String name = rewriter.type(tree, kinds.kind(program.type(tree)));
        return names.hasSeveral(type) ? "new " + name + "()." + names.of(constructor) + "(" + arguments + ")" : "new " + name
                + "(" + arguments + ")";
    }

    private String exception(NewClassTree tree) {
        if (!tree.getArguments().isEmpty()) notes.changed(program.place(tree), "the arguments of `new " + program.text(tree.getIdentifier()) + "` are gone: korat has no messages");
        return "new " + rewriter.exception(tree.getIdentifier()) + "()";
    }

    private String anonymous(NewClassTree tree) {
        TypeElement type = (TypeElement) program.element(tree.getClassBody());
        TypeElement above = program.superclass(type);
        boolean constructed = above != null && program.isOwn(above) && above.getEnclosedElements().stream()
                .anyMatch(one -> one.getKind() == ElementKind.CONSTRUCTOR && program.isWritten((ExecutableElement) one));
        if (!tree.getArguments().isEmpty() || constructed)
                return rewriter.refused(tree, "an anonymous class of a class with a constructor", "write it as a static class of its own");
        rewriter.local(tree.getClassBody());
        notes.changed(program.place(tree), "the anonymous class became the class " + program.nameOf(type));
        return "new " + program.nameOf(type) + "(" + String.join(", ", rewriter.carried().arguments(tree, type)) + ")";
    }

    boolean isMethod(ExecutableElement constructor) {
        return names.hasSeveral(Program.classOf(constructor));
    }

    /** `this(..)` or `super(..)`. */
    String chained(MethodInvocationTree call) {
        ExecutableElement called = (ExecutableElement) program.element(call);
        ExecutableElement from = program.methodAround(call);
        if (!program.isOwn(called) || program.trees.getTree(called) == null || Thrown.dropsArguments(program, called)) return ";";
        String arguments = arguments(called, call.getArguments());
        if (outers.isExtended(Program.classOf(called))) {
            String around = String.join(", ", rewriter.carried().names(Program.classOf(called)));
            arguments = around + (arguments.isEmpty() ? "" : ", " + arguments);
        }
        if (isMethod(called)) return names.of(called) + "(" + arguments + ");";
        if (!isMethod(from)) return "super(" + arguments + ");";
        return arguments.isEmpty() ? ";"
                : rewriter.refused(call, "a second constructor that hands arguments to its superclass",
                "give the class one constructor");
    }

    // ---- calls

    String arguments(ExecutableElement method, List<? extends ExpressionTree> arguments) {
        List<? extends VariableElement> parameters = method.getParameters();
        int fixed = method.isVarArgs() && isPacked(method, arguments) ? parameters.size() - 1 : arguments.size();
        List<String> texts = new ArrayList<>();
        for (int i = 0; i < fixed; i++) texts.add(value(arguments.get(i), kinds.of(parameters.get(i))));
        if (fixed < arguments.size() || fixed < parameters.size())
                texts.add(packed(parameters.get(fixed), arguments.subList(fixed, arguments.size())));
        return String.join(", ", texts);
    }

    private boolean isPacked(ExecutableElement method, List<? extends ExpressionTree> arguments) {
        int last = method.getParameters().size() - 1;
        return arguments.size() != last + 1 || !kinds.of(arguments.get(last)).matches(".*\\[]|ArrayOf.*|null");
    }

    private String packed(VariableElement parameter, List<? extends ExpressionTree> arguments) {
        String kind = kinds.of(parameter);
        String element = kinds.elementOf(kind);
        List<String> texts = arguments.stream().map(argument -> value(argument, element)).toList();
        if (!kinds.isAdded(kind)) return library.arrayOf(element, texts.size()) + "(" + String.join(", ", texts) + ")";
        StringBuilder text = new StringBuilder("new " + kind + "(" + texts.size() + ")");
        for (int i = 0; i < texts.size(); i++) text.append(".with(").append(i).append(", ").append(texts.get(i)).append(")");
        return text.toString();
    }

    @Override
    public String visitMethodInvocation(MethodInvocationTree tree, Void nothing) {
        ExecutableElement own = kinds.target(tree);
        LambdaExpressionTree lambda = own == null ? kinds.lambda(tree) : null;
        if (lambda != null) return function(tree, lambda);
        return own == null ? tight(calls.library(tree)) : own(tree, own);
    }

    /** A call of an enum's method. */
    private String ofConstant(MethodInvocationTree tree, ExecutableElement method) {
        String arguments = arguments(method, tree.getArguments());
        String constant = tree.getMethodSelect() instanceof MemberSelectTree select
                ? library.method("ordinal") + "(" + rewriter.of(select.getExpression()) + ")" : self();
        return Program.classOf(method).getSimpleName() + "." + names.of(method) + "(" + constant + (arguments.isEmpty() ? "" : ", " + arguments) + ")";
    }

    private String function(MethodInvocationTree tree, LambdaExpressionTree lambda) {
        List<String> texts = new ArrayList<>();
        for (int i = 0; i < tree.getArguments().size(); i++)
            texts.add(value(tree.getArguments().get(i), kinds.of(program.element(lambda.getParameters().get(i)))));
        return receiver(kinds.receiver(tree)) + "." + program.functionOf(lambda).getSimpleName() + "(" + String.join(", ", texts) + ")";
    }

    private String own(MethodInvocationTree tree, ExecutableElement method) {
        if (method.getSimpleName().toString().matches("hashCode|toString") && !program.isWritten(method) && Program.classOf(method).getKind() == ElementKind.RECORD)
                return rewriter.refused(tree, "`" + method.getSimpleName() + "` of a record", "declare it");
        if (isOfConstant(method)) return ofConstant(tree, method);
        String call = names.of(method) + "(" + arguments(method, tree.getArguments()) + ")";
        if (tree.getMethodSelect() instanceof MemberSelectTree select) {
            if (select.getExpression().toString().endsWith(".super"))
                    return rewriter.refused(tree, "a call of an interface's method by `super`", "write the method anew");
            boolean isType = program.element(select.getExpression()) instanceof TypeElement;
            return (isType ? Program.classOf(method).getSimpleName().toString() : operand(select.getExpression())) + "." + call;
        }
        IdentifierTree name = (IdentifierTree) tree.getMethodSelect();
        refuseForeign(name, method);
        if (!method.getModifiers().contains(Modifier.STATIC)) return from(name, method) + call;
        boolean seen = rewriter.seesByName(program.classAround(tree), Program.classOf(method));
        return seen ? call : Program.classOf(method).getSimpleName() + "." + call;
    }
}
