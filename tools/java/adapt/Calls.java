package adapt;

import com.sun.source.tree.ExpressionStatementTree;
import com.sun.source.tree.ExpressionTree;
import com.sun.source.tree.IdentifierTree;
import com.sun.source.tree.LiteralTree;
import com.sun.source.tree.MethodInvocationTree;
import com.sun.source.tree.NewClassTree;
import java.util.ArrayList;
import java.util.IdentityHashMap;
import java.util.Iterator;
import java.util.List;
import java.util.Map;
import java.util.stream.Collectors;
import javax.lang.model.element.ElementKind;
import javax.lang.model.element.ExecutableElement;
import javax.lang.model.element.Modifier;
import javax.lang.model.element.TypeElement;
import javax.lang.model.type.TypeKind;

/** Writes calls of libraries. */
final class Calls {
    private final Rewriter rewriter;
    private final Expressions expressions;
    private final Program program;
    private final Kinds kinds;
    private final Library library;
    private final Notes notes;

    Calls(Rewriter rewriter, Expressions expressions, Program program, Kinds kinds, Library library, Notes notes) {
        this.rewriter = rewriter;
        this.expressions = expressions;
        this.program = program;
        this.kinds = kinds;
        this.library = library;
        this.notes = notes;
    }

    String library(MethodInvocationTree tree) {
        ExecutableElement method = (ExecutableElement) program.element(tree);
        if (method == null) return rewriter.refused(tree, "this call", "write it in other words");
        String owner = Program.classOf(method).getQualifiedName().toString();
        if (owner.equals("java.lang.Enum") && kinds.receiver(tree) == null && method.getSimpleName().contentEquals("ordinal")) return expressions.self();
        if (owner.equals("java.lang.Enum") && kinds.receiver(tree) == null && method.getSimpleName().contentEquals("compareTo"))
                return "(" + expressions.self() + " - " + library.method("ordinal") + "(" + argument(tree, 0, kinds.of(tree.getArguments().get(0))) + "))";
        String text = switch (owner) {
            case "java.lang.Math", "java.lang.StrictMath" -> helper(tree, method, "max|min|abs|floorMod|floorDiv|(add|subtract|multiply|increment|decrement|negate|toInt)Exact");
            case "java.util.Objects" -> objects(tree, method);
            case "java.util.Arrays" -> arrays(tree, method);
            case "java.util.Collections", "java.util.List", "java.util.Set" -> collected(tree, method);
            case "java.lang.System" -> system(tree, method);
            case "java.util.Optional" -> optional(tree, method);
            default -> method.getModifiers().contains(Modifier.STATIC) ? numbers(tree, method, owner) : instance(tree, method);
        };
        return text != null ? text : refused(tree, method);
    }

    private String refused(MethodInvocationTree tree, ExecutableElement method) {
        String owner = Program.classOf(method).getSimpleName().toString();
        return rewriter.refused(tree, "`" + method.getSimpleName() + "` of " + owner,
                "write what it does as a method of your own");
    }

    private String argument(MethodInvocationTree tree, int index, String kind) {
        return expressions.value(tree.getArguments().get(index), kind);
    }

    private String operand(MethodInvocationTree tree, int index, String kind) {
        return Expressions.tight(argument(tree, index, kind));
    }

    private List<String> arguments(MethodInvocationTree tree, String kind) {
        return tree.getArguments().stream().map(argument -> expressions.value(argument, kind)).toList();
    }

    /** A call of an added method over ints, or over longs where the library's is. */
    private String helper(MethodInvocationTree tree, ExecutableElement method, String known) {
        String name = method.getSimpleName().toString();
        if (!name.matches(known) || tree.getArguments().stream().anyMatch(argument -> !Kinds.isNumber(kinds.of(argument)))) return null;
        notes.changed(program.place(tree), Program.classOf(method).getSimpleName() + "." + name + " became an added method");
        boolean isLong = method.getParameters().stream().anyMatch(parameter -> parameter.asType().getKind() == TypeKind.LONG);
        String call = library.method(name + (isLong && !name.startsWith("to") ? "Long" : "")) + "(" + String.join(", ", numbers(tree)) + ")";
        return isLong && name.equals("floorMod") && method.getReturnType().getKind() == TypeKind.INT ? "(int) " + call : call;
    }

    /** The arguments of a call as numbers of their own width. */
    private List<String> numbers(MethodInvocationTree tree) {
        return tree.getArguments().stream().map(argument -> expressions.value(argument, Kinds.unboxOf(kinds.of(argument)))).toList();
    }

    private String numbers(MethodInvocationTree tree, ExecutableElement method, String owner) {
        String name = method.getSimpleName().toString();
        if (name.equals("valueOf") && Program.classOf(method).getKind() == ElementKind.ENUM || !owner.matches("java\\.lang\\.(Integer|Long|Short|Byte|Character|Boolean)"))
                return null;
        boolean one = tree.getArguments().size() == 1;
        if (owner.endsWith("Boolean"))
                return name.equals("compare") ? library.method("compareBoolean") + "("
                + String.join(", ", arguments(tree, "boolean")) + ")" : name.equals("valueOf") ? argument(tree, 0, "boolean")
                : null;
        if (one && owner.endsWith("Long") && name.matches("valueOf|hashCode") && Kinds.isNumber(kinds.of(tree.getArguments().get(0)))) {
            String value = "(long) " + operand(tree, 0, Kinds.unboxOf(kinds.of(tree.getArguments().get(0))));
            return name.equals("valueOf") ? "(" + value + ")" : library.method("hashOfLong") + "(" + argument(tree, 0, "long") + ")";
        }
        if (one && name.matches("valueOf|hashCode") && Kinds.isNumber(kinds.of(tree.getArguments().get(0))))
                return "(" + argument(tree, 0, "int") + ")";
        if (name.equals("compare") && !owner.matches(".*(Integer|Long)"))
                return library.method("difference") + "(" + String.join(", ", arguments(tree, "int")) + ")";
        boolean letters = owner.endsWith("Character");
        if (letters && name.startsWith("is"))
                notes.warn(program.place(tree), name + " knows the letters and digits of ASCII alone");
        return helper(tree, method,
                letters ? "isDigit|isLetter|isLowerCase|isUpperCase"
                : "max|min|sum|compare|signum|bitCount|numberOfTrailingZeros|numberOfLeadingZeros|highestOneBit|lowestOneBit" + (owner.endsWith("Integer") ? "|toUnsignedLong" : ""));
    }

    // ---- methods of objects

    private String instance(MethodInvocationTree tree, ExecutableElement method) {
        ExpressionTree receiver = kinds.receiver(tree);
        String name = method.getSimpleName().toString();
        if (receiver == null || receiver.toString().equals("super")) return null;
        String kind = kinds.of(receiver);
        if (kinds.isList(kind)) return onList(tree, method, kind);
        if (kinds.isMap(kind)) return onMap(tree, method, kind);
        if (kinds.isAdded(kind) && kind.matches("(Pair|Iterator)Of.*"))
                return name.matches("getKey|getValue|setValue|hasNext|next")
                ? called(tree, kind, name, kinds.elementOf(kind).replaceFirst(".* ", "")) : null;
        if (Kinds.isBoxable(Kinds.unboxOf(kind))) return onNumber(tree, name, receiver);
        if (Kinds.isEnum(kind)) return onConstant(tree, name, receiver, kind);
        if (name.equals("clone") && kind.endsWith("[]"))
                return copy(tree, rewriter.of(receiver), "0", rewriter.of(receiver) + ".length");
        if (name.equals("equals") && program.classes.containsKey(kind) && !program.isComparedBelow(program.classes.get(kind))) {
            return library.method("isSame@", kind, "") + "(" + rewriter.of(receiver) + ", " + argument(tree, 0, kind) + ")";
        }
        return kind.startsWith("?") ? rewriter.type(receiver, kind) : null;
    }

    private String onNumber(MethodInvocationTree tree, String name, ExpressionTree receiver) {
        String value = expressions.operand(receiver);
        String kind = Kinds.unboxOf(kinds.of(receiver));
        String narrowed = kind.equals("long") ? "(int) " + value : value;
        switch (name) {
            case "intValue": case "charValue": return kind.equals("long") ? "(" + narrowed + ")" : value;
            case "longValue": return kind.equals("long") ? value : "((long) " + value + ")";
            case "shortValue": return "(" + narrowed + " << 16 >> 16)";
            case "byteValue": return "(" + narrowed + " << 24 >> 24)";
            case "booleanValue": return value;
            case "hashCode": return kind.equals("int") ? value : kind.equals("long") ? library.method("hashOfLong") + "(" + value + ")" : null;
            case "equals":
                ExpressionTree other = tree.getArguments().get(0);
                if (!Program.isNull(other) && !isSameBox(receiver, other)) return differing(tree, receiver, other);
                if (!Program.isNull(other) && !Kinds.isBox(kinds.of(other)))
                        return "(" + value + " == " + expressions.operand(other) + ")";
                library.box(Kinds.boxOf(kind));
                return library.method("isBoxOf" + Kinds.suffix(kind)) + "(" + value + ", " + rewriter.of(other) + ")";
            case "compareTo":
                String order = compared(tree, receiver);
                return order == null ? null : library.method(kind.equals("boolean") ? "compareBoolean" : order + Kinds.suffix(kind)) + "(" + value + ", " + argument(tree, 0, kind) + ")";
            default: return null;
        }
    }

    /** How two numbers are compared: a Character, a Byte and a Short by their difference. */
    private String compared(MethodInvocationTree tree, ExpressionTree receiver) {
        if (box(receiver).equals("Boolean")) return "compare";
        java.util.Set<String> found = kinds.boxes.of(receiver);
        boolean sign = program.parent(tree) instanceof com.sun.source.tree.BinaryTree test
                && (test.getRightOperand().toString().equals("0") || test.getLeftOperand().toString().equals("0"));
        boolean same = kinds.boxes.areOne(receiver, tree.getArguments().get(0));
        if (!same || box(receiver).isEmpty() && kinds.hasSmallBoxes() && !sign)
                return rewriter.refused(tree, "`compareTo` of a type that stands for numbers of two types", "compare numbers of one, and the result with 0 at once") == null ? "" : "compare";
        return found.size() == 1 && !found.contains("Integer") && !found.contains("Long") ? "difference" : "compare";
    }

    /** The class of a number's box, or nothing where the type doesn't say it. */
    private String box(ExpressionTree tree) {
        return box(program.type(Program.bare(tree)));
    }

    static String box(javax.lang.model.type.TypeMirror type) {
        switch (type.getKind()) {
            case INT: return "Integer";
            case LONG: return "Long";
            case CHAR: return "Character";
            case BYTE: return "Byte";
            case SHORT: return "Short";
            case BOOLEAN: return "Boolean";
            default:
                String name = type.toString();
                return name.matches("java\\.lang\\.(Integer|Long|Character|Byte|Short|Boolean)") ? name.substring(10) : "";
        }
    }

    /** Whether two expressions are numbers of one class, so that their boxes can be equal. */
    private boolean isSameBox(ExpressionTree left, ExpressionTree right) {
        return isOfKind(box(left), right) && (isTruth(right) || kinds.boxes.areOne(left, right));
    }

    /** As `isSameBox`, with members of a collection, whose box has no name where their type doesn't say it. */
    private boolean isSameBox(String box, ExpressionTree right) {
        if (!isOfKind(box, right)) return false;
        java.util.Set<String> both = kinds.boxes.of(right);
        both.addAll(box.isEmpty() ? kinds.boxes.all() : List.of(box));
        return isTruth(right) || both.size() <= 1;
    }

    private boolean isTruth(ExpressionTree tree) {
        return Kinds.unboxOf(kinds.of(tree)).equals("boolean");
    }

    /** Whether both are numbers, or both truth values. */
    private boolean isOfKind(String box, ExpressionTree right) {
        String kind = Kinds.unboxOf(kinds.of(right));
        return Kinds.isBoxable(kind) && (box.isEmpty() || isTruth(right) == box.equals("Boolean"));
    }

    private String differing(MethodInvocationTree tree, ExpressionTree left, ExpressionTree right) {
        return rewriter.refused(tree, "`equals` between " + program.type(Program.bare(left)) + " and " + program.type(Program.bare(right)),
                "compare values of one type");
    }

    private String onConstant(MethodInvocationTree tree, String name, ExpressionTree receiver, String kind) {
        String place = library.method("ordinal") + "(" + rewriter.of(receiver) + ")";
        switch (name) {
            case "ordinal": return place;
            case "equals":
                ExpressionTree other = tree.getArguments().get(0);
                if (!Program.isNull(other) && !kinds.of(other).equals(kind)) return differing(tree, receiver, other);
                return "(" + place + " == " + operand(tree, 0, kind) + ")";
            case "compareTo": return "(" + place + " - " + library.method("ordinal") + "(" + argument(tree, 0, kind) + "))";
            default: return null;
        }
    }

    /** Whether what is looked for is of another type than the members, so that it equals none. */
    private boolean isForeign(MethodInvocationTree tree, String member) {
        ExpressionTree argument = tree.getArguments().get(0);
        if (Program.isNull(argument)) return false;
        String kind = kinds.of(argument);
        if (Kinds.isBoxable(Kinds.unboxOf(member))) {
            java.util.List<? extends javax.lang.model.type.TypeMirror> types = program.type(Program.bare(kinds.receiver(tree))) instanceof javax.lang.model.type.DeclaredType type
                    ? type.getTypeArguments() : List.of();
            return !isSameBox(types.isEmpty() ? "" : box(types.get(0)), argument);
        }
        boolean related = program.classes.containsKey(kind) && program.classes.containsKey(member)
                && (program.isBelow(program.classes.get(kind), program.classes.get(member)) || program.isBelow(program.classes.get(member), program.classes.get(kind)));
        return !kind.equals(member) && !related;
    }

    private String foreign(MethodInvocationTree tree) {
        return rewriter.refused(tree, "a " + program.type(Program.bare(tree.getArguments().get(0))) + " looked for among members of another type", "look for one of theirs");
    }

    private String called(MethodInvocationTree tree, String kind, String name, String argumentKind) {
        library.need(kinds, kind, expressions);
        return expressions.operand(kinds.receiver(tree)) + "." + name + "(" + String.join(", ", arguments(tree, argumentKind))
                + ")";
    }

    private String onList(MethodInvocationTree tree, ExecutableElement method, String kind) {
        String element = kinds.elementOf(kind);
        boolean stack = Program.classOf(method).getSimpleName().contentEquals("Stack");
        String call = method.getSimpleName() + "/" + method.getParameters().size();
        boolean byIndex = !method.getParameters().isEmpty() && method.getParameters().get(0).asType().getKind() == TypeKind.INT;
        String name = stack && call.matches("pop/0|peek/0|push/1")
                ? Map.of("pop/0", "popOfStack", "peek/0", "topOfStack", "push/1", "add").get(call) : onList(call, byIndex);
        if (name == null) return null;
        boolean all = name.matches("addAll|containsAll");
        boolean adds = name.equals("add") && Kinds.isBoxable(Kinds.unboxOf(element)) && program.types.erasure(program.type(Program.bare(kinds.receiver(tree)))).toString().endsWith("Set");
        if ((adds || name.matches("contains|indexOf|lastIndexOf|search|remove")) && isForeign(tree, element)) return foreign(tree);
        if (name.matches("contains|indexOf|lastIndexOf|search|remove|containsAll") && (kinds.isList(element) || kinds.isMap(element)))
                return rewriter.refused(tree, "`" + name + "` of members that are collections", "write a loop");
        if (!kind.endsWith(">")) library.need(kinds, kind, expressions);
        List<String> texts = new ArrayList<>();
        for (int i = 0; i < tree.getArguments().size(); i++) {
            boolean number = byIndex && i == 0;
            texts.add(all ? members(tree.getArguments().get(i), name.equals("addAll") ? kind : kinds.list(element)) : argument(tree, i, number ? "int" : element));
        }
        String receiver = name.equals("containsAll") ? Expressions.tight(members(kinds.receiver(tree), kinds.list(element))) : expressions.operand(kinds.receiver(tree));
        String result = receiver + "." + name + "(" + String.join(", ", texts) + ")";
        if (name.equals("add") && stack && !(program.parent(tree) instanceof ExpressionStatementTree)) return null;
        return result;
    }

    /** A collection as one of the same classes as another: the same, or its members in a new one. */
    private String members(ExpressionTree tree, String like) {
        String kind = kinds.of(tree);
        Held.One from = kinds.held.ofKind(kind);
        Held.One to = kinds.held.ofKind(like);
        String member = kinds.elementOf(kind);
        String wanted = kinds.elementOf(like);
        boolean boxed = Kinds.isBox(wanted) && Kinds.unboxOf(wanted).equals(member);
        boolean mayBeNull = Kinds.isBox(member) && Kinds.isBoxable(wanted);
        if ((from != null || to != null || mayBeNull) && !member.equals(wanted) && !boxed)
                return rewriter.refused(tree, "members that may be null, given to the collection of a candidate or looked for in it", "go through them by a loop");
        if (from == to) return rewriter.of(tree);
        library.need(kinds, kind, expressions);
        String made = to == null ? rewriter.type(tree, like) : to.made();
        if (to != null) library.need(kinds, made, expressions);
        return library.copyOfMembers(from == null ? "ListOf" + Kinds.partOf(kind) : from.base(), kinds.cellOf(kind), made, boxed ? "new " + library.box(wanted) + "(cell.item)" : "cell.item") + "(" + rewriter.of(tree) + ")";
    }

    private static String onList(String call, boolean byIndex) {
        switch (call) {
            case "add/1": case "addLast/1": case "offer/1": case "offerLast/1": case "addElement/1": return "add";
            case "add/2": return "insert";
            case "push/1": case "addFirst/1": case "offerFirst/1": return "addFirst";
            case "remove/0": case "pop/0": case "removeFirst/0": return "removeFirst";
            case "remove/1": return byIndex ? "removeAt" : "remove";
            case "removeLast/0": return "removeLast";
            case "peek/0": case "peekFirst/0": return "peekFirst";
            case "poll/0": case "pollFirst/0": return "pollFirst";
            case "element/0": case "getFirst/0": case "first/0": case "firstElement/0": return "getFirst";
            case "empty/0": return "isEmpty";
            case "getLast/0": case "last/0": case "lastElement/0": return "getLast";
            case "get/1": case "elementAt/1": return "get";
            case "set/2": case "size/0": case "isEmpty/0": case "contains/1": case "indexOf/1": case "clear/0": case "iterator/0": case "addAll/1":
            case "containsAll/1": case "lastIndexOf/1": case "search/1": case "peekLast/0": case "pollLast/0": return call.substring(0, call.indexOf('/'));
            default: return null;
        }
    }

    private String onMap(MethodInvocationTree tree, ExecutableElement method, String kind) {
        String name = method.getSimpleName().toString();
        String[] sides = kinds.elementOf(kind).split(" ");
        library.need(kinds, kind, expressions);
        String receiver = expressions.operand(kinds.receiver(tree));
        if (name.equals("merge") && tree.getArguments().get(2).toString().matches("(Integer|Long)::sum") && Kinds.isPlainNumber(sides[1]))
                return receiver + ".addTo(" + argument(tree, 0, sides[0]) + ", " + argument(tree, 1, sides[1]) + ")";
        if (name.matches("firstKey|lastKey") && kind.startsWith("Sorted")) return receiver + "." + name + "()";
        if (!name.matches("get|getOrDefault|containsKey|put|putIfAbsent|remove|size|isEmpty|clear") || name.equals("remove")
                && tree.getArguments().size() > 1) return null;
        if ((name.matches("get|getOrDefault|containsKey|remove") || name.startsWith("put") && Kinds.isBoxable(Kinds.unboxOf(sides[0]))) && isForeign(tree, sides[0])) return foreign(tree);
        List<String> texts = new ArrayList<>();
        for (int i = 0; i < tree.getArguments().size(); i++) texts.add(argument(tree, i, sides[i]));
        return receiver + "." + name + "(" + String.join(", ", texts) + ")";
    }

    // ---- an Optional is its value, or null

    private String optional(MethodInvocationTree tree, ExecutableElement method) {
        boolean made = method.getModifiers().contains(Modifier.STATIC);
        String kind = made ? kinds.kind(program.type(tree)) : kinds.of(kinds.receiver(tree));
        if (!made && Program.isNull(kinds.receiver(tree)) || kind.startsWith("?")) return null;
        boolean constant = Kinds.isEnum(kind);
        String value = made ? tree.getArguments().isEmpty() ? "" : argument(tree, 0, kind) : expressions.receiver(kinds.receiver(tree));
        switch (method.getSimpleName().toString()) {
            case "empty": return constant ? "(-1)" : "null";
            case "ofNullable": return value;
            case "of": return present(tree, value, kind);
            case "isPresent": return "(" + value + (constant ? " >= 0)" : " != null)");
            case "isEmpty": return "(" + value + (constant ? " < 0)" : " == null)");
            case "get": case "orElseThrow":
                if (!tree.getArguments().isEmpty()) return null;
                String there = Kinds.isEnum(kind) ? library.presentConstant() : library.method("present@", rewriter.type(tree, kind), "");
                return there + "(" + value + ")" + (Kinds.isBox(kind) ? ".value" : "");
            case "orElse": return library.method(constant ? "orElseConstant" : "orElse@", constant ? "" : rewriter.type(tree, kind), "") + "(" + value + ", " + argument(tree, 0, kind) + ")";
            default: return null;
        }
    }

    private String present(MethodInvocationTree tree, String value, String kind) {
        return Kinds.isEnum(kind) ? library.method("ordinal") + "(" + value + ")"
                : library.method("nonNull@", rewriter.type(tree, kind), "") + "(" + value + ")";
    }

    // ---- collections that are made

    String newCollection(NewClassTree tree, TypeElement type) {
        Held.One held = kinds.heldBy(tree);
        String kind = held != null ? held.kind() : kinds.kind(program.type(tree));
        if (!kinds.isList(kind) && !kinds.isMap(kind))
                return rewriter.type(tree, kind.startsWith("?") ? kind : "?" + type.getSimpleName());
        String element = kinds.elementOf(kind);
        if (held != null) kind = held.made();
        else if (type.getSimpleName().contentEquals("ArrayDeque") && !Kinds.isPlainNumber(element)) kind = kinds.added("DequeOf", element);
        rewriter.type(tree, kind);
        if (tree.getArguments().size() > 2 || tree.getArguments().size() == 2 && !(tree.getArguments().get(1) instanceof LiteralTree))
                return rewriter.refused(tree, "`new " + type.getSimpleName() + "` with these arguments", "make it without them");
        notes.changed(program.place(tree), "new " + type.getSimpleName() + " became new " + kind);
        if (!Collected.needsOwn(tree) || tree.getArguments().isEmpty()) return "new " + kind + "()";
        String argument = kinds.of(tree.getArguments().get(0));
        if (tree.getArguments().size() > 2 || tree.getArguments().size() == 2 && !(tree.getArguments().get(1) instanceof LiteralTree))
                return rewriter.refused(tree, "`new " + type.getSimpleName() + "` with these arguments", "make it without them");
        if (Kinds.isInt(argument)) return sized(tree, kind, type);
        if (!kinds.isList(argument) || kinds.isMap(kind))
                return rewriter.refused(tree, "a collection made of " + program.text(tree.getArguments().get(0)),
                "add the members one by one");
        return "new " + kind + "().withAll(" + members(tree.getArguments().get(0), held != null ? held.kind() : kinds.kind(program.type(tree))) + ")";
    }

    /** A collection that is made with a capacity, which may not be negative but for an ArrayDeque. */
    private String sized(NewClassTree tree, String kind, TypeElement type) {
        ExpressionTree capacity = tree.getArguments().get(0);
        if (Numbers.of(program, capacity) > 0 || capacity.toString().equals("0") || Program.bare(capacity) instanceof IdentifierTree
                && type.getSimpleName().contentEquals("ArrayDeque")) return "new " + kind + "()";
        if (kind.endsWith(">") || kinds.isMap(kind) || type.getSimpleName().contentEquals("ArrayDeque"))
                return rewriter.refused(tree, "a capacity that is no constant", "leave it out");
        return "new " + kind + "().sized(" + expressions.value(capacity, "int") + ")";
    }

    private String collected(MethodInvocationTree tree, ExecutableElement method) {
        String name = method.getSimpleName().toString();
        if (!method.getModifiers().contains(Modifier.STATIC)) return instance(tree, method);
        String kind = kinds.kind(program.type(tree));
        if (name.equals("newSetFromMap") && tree.getArguments().get(0).toString().contains("IdentityHashMap")
                && !kinds.hasEquals(kinds.elementOf(kind))) return "new " + rewriter.type(tree, kind) + "()";
        if (!Collected.makes(method)) return null;
        return made(tree, kind, name.equals("of"));
    }

    private String made(MethodInvocationTree tree, String kind, boolean withoutNull) {
        String element = kinds.elementOf(kind);
        if (withoutNull && kind.startsWith("ListOf") && !Kinds.isPlainNumber(element)) kind = kinds.added("DequeOf", element);
        if (tree.getArguments().size() == 1 && kinds.of(tree.getArguments().get(0)).endsWith("[]")) return null;
        rewriter.type(tree, kind);
        notes.changed(program.place(tree), "`" + tree.getMethodSelect() + "` became new " + kind);
        String with = withoutNull && kind.startsWith("SetOf") ? ".distinct(" : ".with(";
        return "new " + kind + "()" + arguments(tree, element).stream().map(text -> with + text + ")")
                .collect(Collectors.joining());
    }

    // ---- static methods of java.util and java.lang

    private String objects(MethodInvocationTree tree, ExecutableElement method) {
        String kind = tree.getArguments().isEmpty() ? "?" : kinds.of(tree.getArguments().get(0));
        boolean number = Kinds.isBoxable(kind);
        switch (method.getSimpleName().toString()) {
            case "equals": return equalObjects(tree, kind);
            case "requireNonNull":
                if (tree.getArguments().size() > 1 && !(tree.getArguments().get(1) instanceof LiteralTree)) return null;
                return number ? argument(tree, 0, kind) : Kinds.isEnum(kind) ? library.method("ordinal") + "(" + argument(tree, 0, kind) + ")"
                    : library.method("nonNull@", rewriter.type(tree, kind), "") + "(" + argument(tree, 0, kind) + ")";
            case "isNull": return number ? expressions.absent(tree.getArguments().get(0), kind)
                    : "(" + operand(tree, 0, kind) + (Kinds.isEnum(kind) ? " < 0)" : " == null)");
            case "nonNull": return number ? "!" + expressions.absent(tree.getArguments().get(0), kind)
                    : "(" + operand(tree, 0, kind) + (Kinds.isEnum(kind) ? " >= 0)" : " != null)");
            case "hashCode": return hash(tree.getArguments().get(0));
            case "hash":
                String text = "1";
                for (ExpressionTree argument : tree.getArguments()) {
                    String hash = kinds.of(argument).endsWith("[]") ? null : hash(argument);
                    if (hash == null) return null;
                    text = "31 * " + (text.equals("1") ? text : "(" + text + ")") + " + " + hash;
                }
                return "(" + text + ")";
            default: return null;
        }
    }

    /** The hash of a value, 0 of null; nothing where it is one of the machine's own. */
    private String hash(ExpressionTree tree) {
        String kind = kinds.of(tree);
        String text = rewriter.of(tree);
        if (kind.equals("int")) return "(" + text + ")";
        if (kind.equals("boolean")) return "(" + Expressions.tight(text) + " ? 1231 : 1237)";
        if (kind.equals("long")) return library.method("hashOfLong") + "(" + text + ")";
        if (kind.equals(Kinds.BOX) || kind.equals(Kinds.LONG_BOX)) return library.method("hashOfBox" + Kinds.suffix(kind)) + "(" + text + ")";
        return kinds.hasEquals(kind) && program.hashing(program.classes.get(kind)) != null && program.isWritten(program.hashing(program.classes.get(kind)))
                ? library.method("hashOf@", kind, "") + "(" + text + ")" : null;
    }

    private String equalObjects(MethodInvocationTree tree, String first) {
        ExpressionTree left = tree.getArguments().get(0);
        ExpressionTree right = tree.getArguments().get(1);
        String kind = first.equals("null") ? kinds.of(right) : first;
        if (Kinds.isBoxable(Kinds.unboxOf(kind))) {
            if (!Program.isNull(left) && !Program.isNull(right) && !isSameBox(left, right)) return differing(tree, left, right);
            return expressions.areEqual(left, right, Kinds.boxOf(Kinds.unboxOf(kind)));
        }
        if (Kinds.isEnum(kind) && !Program.isNull(right) && !Program.isNull(left) && !kinds.of(right).equals(kind)) return differing(tree, left, right);
        if (kinds.hasEquals(kind))
                return library.method("areEqual@", kind, "(a == b || a != null && " + expressions.equality(kind) + ")") + "(" + String.join(", ", arguments(tree, kind)) + ")";
        if (kind.startsWith("?") || kinds.isList(kind) || kinds.isMap(kind)) return null;
        return "(" + operand(tree, 0, kind) + " == " + operand(tree, 1, kind) + ")";
    }

    private String arrays(MethodInvocationTree tree, ExecutableElement method) {
        String name = method.getSimpleName().toString();
        if (Collected.makes(method)) return made(tree, kinds.kind(program.type(tree)), false);
        String kind = tree.getArguments().isEmpty() ? "?" : kinds.of(tree.getArguments().get(0));
        String element = kinds.elementOf(kind);
        int count = tree.getArguments().size();
        if (kind.startsWith("ArrayOf") && name.equals("fill") && count == 2)
                return expressions.operand(tree.getArguments().get(0)) + ".fill(" + argument(tree, 1, element) + ")";
        if (kind.startsWith("ArrayOf") && name.equals("sort") && count == 1 && Kinds.isPlainNumber(element))
                return expressions.operand(tree.getArguments().get(0)) + ".sort()";
        if (name.equals("equals") && count == 2) return equalArrays(tree, kind, element);
        if (!kind.endsWith("[]")) return null;
        if (name.equals("fill"))
                return library.method(count == 2 ? "fill@" : "fillRange@", element, "") + "("
                + String.join(", ", withLast(tree, element)) + ")";
        if (name.equals("sort") && count == 1 && Kinds.isPlainNumber(element))
                return library.method("sort@", element, "") + "(" + argument(tree, 0, kind) + ")";
        if (name.equals("copyOf")) return copy(tree, argument(tree, 0, kind), "0", argument(tree, 1, "int"));
        return name.equals("copyOfRange")
                ? copy(tree, argument(tree, 0, kind), argument(tree, 1, "int"), argument(tree, 2, "int")) : null;
    }

    /** `Arrays.equals`, of which each may be an array of the subset or an object of an added class. */
    private String equalArrays(MethodInvocationTree tree, String first, String element) {
        String second = kinds.of(tree.getArguments().get(1));
        String[] texts = new String[2];
        String[] types = {rewriter.type(tree, first), rewriter.type(tree, second)};
        for (int i = 0; i < 2; i++) {
            String kind = i == 0 ? first : second;
            if (!kind.endsWith("[]") && !kind.startsWith("ArrayOf") || !kinds.elementOf(kind).equals(element) || Kinds.isStored(element)) return null;
            texts[i] = (i == 0 ? "a" : "b") + (kind.endsWith("[]") ? "[i]" : ".get(i)");
        }
        String equal = kinds.hasEquals(element) ? "(a == b || a != null && " + expressions.equality(element) + ")" : expressions.equality(element);
        String equality = equal.replaceAll("\\ba\\b", texts[0]).replaceAll("\\bb\\b", texts[1]);
        return library.areEqual(types[0], types[1], equality) + "(" + argument(tree, 0, first) + ", " + argument(tree, 1, second) + ")";
    }

    private List<String> withLast(MethodInvocationTree tree, String kind) {
        List<String> texts = new ArrayList<>();
        int last = tree.getArguments().size() - 1;
        for (int i = 0; i <= last; i++) texts.add(argument(tree, i, i == last ? kind : i == 0 ? "" : "int"));
        return texts;
    }

    private String copy(MethodInvocationTree tree, String from, String start, String end) {
        ExpressionTree source = tree.getArguments().isEmpty() ? kinds.receiver(tree) : tree.getArguments().get(0);
        String element = kinds.elementOf(kinds.of(source));
        String kind = kinds.of(tree);
        notes.changed(program.place(tree), "a copy of an array became a call of an added method");
        if (!kinds.isAdded(kind)) return library.method("copyOf@", element, "") + "(" + from + ", " + start + ", " + end + ")";
        return library.copyTo(rewriter.type(tree, kind), element) + "(" + from + ", " + start + ", " + end + ")";
    }

    private String system(MethodInvocationTree tree, ExecutableElement method) {
        if (!method.getSimpleName().contentEquals("arraycopy")) return null;
        String kind = kinds.of(tree.getArguments().get(0));
        if (!kind.endsWith("[]") || !kind.equals(kinds.of(tree.getArguments().get(2)))) return null;
        return library.method("arrayCopy@", kinds.elementOf(kind), "") + "(" + String.join(", ", arguments(tree, "")) + ")";
    }
}
