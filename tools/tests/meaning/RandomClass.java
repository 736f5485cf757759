package meaning;

import java.util.ArrayList;
import java.util.List;
import java.util.Random;

/** A class made at random: fields, locals of every kind that Adapt knows, collections, enums, boxes, arrays, loops, methods. */
final class RandomClass {
    private static final List<String> TYPES = List.of("int", "boolean", "Integer", "Boolean", "E", "byte", "char", "short", "long", "Long");
    private final long seed;
    private final Random random;
    /** Locals and fields that are seen, by their types; those of the innermost block are last. */
    private final List<String[]> variables = new ArrayList<>();
    private final List<String> methods = new ArrayList<>();
    /** Collections that a loop goes through, which it may not change. */
    private final List<String> open = new ArrayList<>();
    private int names;
    private int depth;
    private int loops;
    /** Whether a method under test is made, and whether it is being made: it may write fields. */
    private final boolean isTested;
    private boolean writes;
    /** Whether fields of candidates hold collections. */
    private final boolean isHeld;

    RandomClass(long seed, boolean isTested, boolean isHeld) {
        this.seed = seed;
        this.isTested = isTested;
        this.isHeld = isHeld;
        random = new Random(seed * 7919 + 17);
    }

    Case made() {
        StringBuilder fields = new StringBuilder();
        StringBuilder bounds = new StringBuilder();
        field(fields, bounds, "int", "w", "[0, 1, 5]");
        if (random.nextBoolean()) field(fields, bounds, "Integer", "x", random.nextBoolean() ? "[\"null\", 1, 2]" : "[1, 2]");
        if (random.nextBoolean()) field(fields, bounds, "E", "e", random.nextBoolean() ? "[\"null\", \"E\"]" : "[\"A\", \"C\"]");
        if (random.nextInt(3) == 0) field(fields, bounds, "Boolean", "t", random.nextBoolean() ? "[\"null\", true, false]" : "[true, false]");
        if (random.nextInt(3) == 0) field(fields, bounds, "long", "u", "[0, 4294967297]");
        if (random.nextInt(3) == 0) field(fields, bounds, "Long", "n", random.nextBoolean() ? "[\"null\", 1, -4294967296]" : "[1, 4294967297]");
        if (random.nextInt(3) == 0) field(fields, bounds, "Cell", "o", "[\"null\", \"Cell\"]");
        if (random.nextInt(3) == 0) {
            field(fields, bounds, "Integer[]", "b", "[\"Integer[]\"]");
            bounds.append("arrays.\"Integer[]\" = { count = 1, lengths = [2] }\nfields.\"Integer[].*\" = [\"null\", 1]\n");
        }
        if (isHeld) held(fields, bounds);
        variables.add(new String[] {"int", "v"});
        StringBuilder helpers = new StringBuilder();
        for (int i = random.nextInt(3); i > 0; i--) helpers.append(method());
        String text = "enum E { A, B, C }\n" + fields + helpers + "boolean repOk() " + body("boolean") + "\n";
        if (!isTested) return Case.of("random-" + (isHeld ? "held-" : "") + seed, "any", "", null, bounds.toString(), text);
        return Case.of("random-" + (isHeld ? "held-" : "") + "tested-" + seed, "any", "", "act", bounds + "params.\"act.p\" = [0, 1]\nparams.\"act.q\" = [\"A\", \"B\"]\n", text + tested());
    }

    /** Fields that hold collections, one or two of them. */
    private void held(StringBuilder fields, StringBuilder bounds) {
        List<String[]> all = new ArrayList<>(List.of(new String[] {"List<Integer>", "hl", pick(List.of("ArrayList", "LinkedList", "Vector"))},
                new String[] {"Set<Integer>", "hs", pick(List.of("LinkedHashSet", "TreeSet"))}, new String[] {"Deque<Integer>", "hd", pick(List.of("ArrayDeque", "LinkedList"))},
                new String[] {"Map<Integer, Integer>", "hm", pick(List.of("LinkedHashMap", "TreeMap"))}, new String[] {"List<E>", "he", pick(List.of("ArrayList", "LinkedList"))}));
        for (int i = 1 + random.nextInt(2); i > 0; i--) {
            String[] one = all.remove(random.nextInt(all.size()));
            String name = one[2] + "<" + one[1] + ">";
            String key = "fields.\"" + name + ".";
            bounds.append("collections.\"").append(name).append("\" = { count = 1, sizes = ").append(pick(List.of("[0, 1, 2]", "[0, 2]", "[1, 3]"))).append(" }\n");
            if (one[1].equals("hm")) bounds.append(key).append("key\" = [0, 1, 3]\n").append(key).append("value\" = [1, 2]\n");
            else bounds.append(key).append("*\" = ").append(one[1].equals("he") ? "[\"null\", \"A\", \"C\"]" : "[0, 1, 3]").append("\n");
            field(fields, bounds, one[0], one[1], "[" + (random.nextInt(4) == 0 ? "\"null\", " : "") + "\"" + name + "\"]");
        }
    }

    /** A member for a collection: of a candidate's never null among numbers. */
    private String member(String name) {
        return name.matches("h[lsdm]") ? number(1) : box();
    }

    /** A method under test with a contract, which writes fields. */
    private String tested() {
        writes = true;
        String type = pick(List.of("int", "long", "boolean", "Integer", "E", "void"));
        int before = variables.size();
        variables.add(new String[] {"int", "p"});
        variables.add(new String[] {"E", "q"});
        String body = body(type);
        while (variables.size() > before) variables.remove(variables.size() - 1);
        writes = false;
        StringBuilder contract = new StringBuilder();
        for (int i = random.nextInt(3); i > 0; i--) contract.append("//@ ensures ").append(clause(type)).append(";\n");
        return contract + type + " act(int p, E q) " + body + "\n";
    }

    private String clause(String type) {
        switch (random.nextInt(type.matches("int|boolean") ? 7 : 5)) {
            case 0: return "v >= \\old(v)";
            case 1: return "w == \\old(w) || v != p";
            case 2: return variable("E", () -> "q") + " != E.B || w > 0";
            case 3: return methods.stream().anyMatch(one -> one.startsWith("boolean ")) ? call("boolean", 0).replaceAll("\\(.*", "") + "(p, q) || v == 1" : "v < 4";
            case 4: return "v * 2 - w < 6 == (\\old(v) < 3 || p == 0)";
            case 5: return type.equals("int") ? "\\result >= 0 || \\old(w) == w" : "\\result == (v > w)";
            default: return type.equals("int") ? "\\result != v" : "!\\result || v >= 0";
        }
    }

    private void field(StringBuilder fields, StringBuilder bounds, String type, String name, String domain) {
        fields.append(type).append(" ").append(name).append(";\n");
        bounds.append("fields.\"Cell.").append(name).append("\" = ").append(domain).append("\n");
        variables.add(new String[] {type, name});
    }

    private String method() {
        String type = pick(List.of("int", "Integer", "E", "boolean", "Boolean", "long", "Long"));
        int before = variables.size();
        String a = "p" + names++;
        String b = "p" + names++;
        variables.add(new String[] {"Integer", a});
        variables.add(new String[] {"E", b});
        String text = type + " m" + methods.size() + "(Integer " + a + ", E " + b + ") " + body(type) + "\n";
        while (variables.size() > before) variables.remove(variables.size() - 1);
        methods.add(type + " m" + methods.size());
        return text;
    }

    private String body(String type) {
        int before = variables.size();
        StringBuilder text = new StringBuilder("{\n");
        for (int i = 3 + random.nextInt(5); i > 0; i--) text.append(declaration());
        for (int i = 2 + random.nextInt(5); i > 0; i--) text.append(statement(3, type));
        if (type.equals("void")) text.append("}");
        else text.append("return ").append(of(type, 3)).append(";\n}");
        while (variables.size() > before) variables.remove(variables.size() - 1);
        return text.toString();
    }

    // ---- statements

    private String declaration() {
        String name = "x" + names++;
        String type;
        String value;
        switch (random.nextInt(4)) {
            case 0 -> {
                type = pick(List.of("List<Integer>", "Set<Integer>", "Deque<Integer>", "Map<Integer, Integer>", "Map<Integer, E>", "List<E>", "List<Boolean>", "List<Long>"));
                value = "new " + switch (type.substring(0, type.indexOf('<'))) {
                    case "List" -> pick(List.of("ArrayList", "LinkedList"));
                    case "Set" -> pick(List.of("LinkedHashSet", "TreeSet"));
                    case "Deque" -> pick(List.of("ArrayDeque", "LinkedList"));
                    default -> pick(List.of("LinkedHashMap", "TreeMap"));
                } + "<>()";
            }
            case 1 -> {
                type = pick(List.of("int[]", "E[]", "boolean[]", "byte[]", "long[]"));
                String element = type.substring(0, type.length() - 2);
                value = random.nextBoolean() ? "new " + element + "[3]" : "{ " + of(element, 1) + ", " + of(element, 1) + " }";
            }
            default -> {
                type = pick(TYPES);
                value = of(type, 2);
            }
        }
        variables.add(new String[] {type, name});
        return type + " " + name + " = " + value + ";\n";
    }

    private String block(int deep, String result) {
        int before = variables.size();
        StringBuilder text = new StringBuilder("{ ");
        for (int i = 1 + random.nextInt(2); i > 0; i--) text.append(random.nextInt(4) == 0 ? declaration() : statement(deep - 1, result));
        while (variables.size() > before) variables.remove(variables.size() - 1);
        return text.append("}").toString();
    }

    private String statement(int deep, String result) {
        switch (random.nextInt(deep <= 0 ? 7 : 13)) {
            case 0: case 1: return assignment();
            case 2: case 3: return change();
            case 4: return "if (" + of("boolean", 2) + ") " + (random.nextInt(4) == 0 ? returned(result) : assignment());
            case 5: return random.nextInt(4) == 0 ? "assert " + of("boolean", 2) + ";\n" : assignment();
            case 6: return loops > 0 && random.nextBoolean() ? "if (" + of("boolean", 1) + ") " + pick(List.of("break", "continue")) + ";\n" : assignment();
            case 7: return "if (" + of("boolean", 2) + ") " + block(deep, result) + (random.nextBoolean() ? " else " + block(deep, result) : "") + "\n";
            case 8: return counted(deep, result);
            case 9: case 10: return over(deep, result);
            case 11: return chosen(deep, result);
            default: return random.nextInt(3) == 0 ? "if (" + of("boolean", 2) + ") throw new IllegalStateException();\n" : over(deep, result);
        }
    }

    private String returned(String result) {
        return result.equals("void") ? "return;\n" : "return " + of(result, 2) + ";\n";
    }

    private String assignment() {
        String[] one = variable(TYPES);
        if (one == null || isField(one[1]) && !writes) return ";\n";
        String small = "byte|char|short|int|long";
        if (one[0].matches(small) && random.nextInt(3) == 0)
                return one[1] + pick(List.of(" += ", " -= ", " *= ", " &= ", " |= ", " ^= ", " <<= ", " >>= ", " >>>= ", " /= ")) + of(random.nextInt(3) == 0 ? "long" : "int", 1) + ";\n";
        if (one[0].matches(small + "|Integer|Long") && random.nextInt(4) == 0) return one[1] + pick(List.of("++", "--")) + ";\n";
        return one[1] + " = " + of(one[0], 2) + ";\n";
    }

    private static boolean isField(String name) {
        return name.matches("[a-w]|o|t|x|e|b|h[lsdme]");
    }

    private String change() {
        String[] one = variable(List.of("List<Integer>", "Set<Integer>", "Deque<Integer>", "Map<Integer, Integer>", "Map<Integer, E>", "List<E>", "List<Boolean>",
                "int[]", "E[]", "boolean[]", "byte[]", "long[]", "List<Long>"));
        if (one == null || open.contains(one[1]) || isHeld && isField(one[1]) && !writes) return assignment();
        String name = one[1];
        switch (one[0]) {
            case "List<Integer>": return name + pick(List.of(".add(" + member(name) + ")", ".remove(" + of("int", 1) + ")", ".add(0, " + of("int", 1) + ")",
                    ".remove(Integer.valueOf(" + of("int", 1) + "))", ".set(" + of("int", 1) + ", " + of("int", 1) + ")", ".clear()")) + ";\n";
            case "List<E>": return name + ".add(" + of("E", 1) + ");\n";
            case "List<Long>": return name + pick(List.of(".add(" + wide(1) + ")", ".set(" + index() + ", " + wide(1) + ")", ".remove(" + wide(1) + ")")) + ";\n";
            case "List<Boolean>": return name + ".add(" + of("Boolean", 1) + ");\n";
            case "Set<Integer>": return name + pick(List.of(".add(" + member(name) + ")", ".remove(" + of("int", 1) + ")")) + ";\n";
            case "Deque<Integer>": return name + pick(List.of(".push(" + member(name) + ")", ".addLast(" + of("int", 1) + ")", ".poll()", ".pollLast()", ".pop()")) + ";\n";
            case "Map<Integer, Integer>": return name + pick(List.of(".put(" + of("int", 1) + ", " + member(name) + ")", ".remove(" + of("int", 1) + ")",
                    ".putIfAbsent(" + of("int", 1) + ", " + of("int", 1) + ")")) + ";\n";
            case "Map<Integer, E>": return name + ".put(" + of("int", 1) + ", " + of("E", 1) + ");\n";
            default:
                String element = one[0].substring(0, one[0].length() - 2);
                return name + "[" + index() + "] = " + of(element, 1) + ";\n";
        }
    }

    private String counted(int deep, String result) {
        String name = "i" + names++;
        variables.add(new String[] {"int", name});
        loops++;
        String text = "for (int " + name + " = 0, k" + names + " = 0; " + name + " < 3 && k" + names + "++ < 4; " + name + "++) ";
        names++;
        text += block(deep, result) + "\n";
        loops--;
        variables.removeIf(one -> one[1].equals(name));
        return text;
    }

    private String over(int deep, String result) {
        String[] one = variable(List.of("List<Integer>", "Set<Integer>", "Deque<Integer>", "Map<Integer, Integer>", "List<E>", "int[]", "E[]", "byte[]", "long[]", "List<Long>"));
        if (one == null) return counted(deep, result);
        String name = "y" + names++;
        String element = one[0].startsWith("Map") ? "Integer" : one[0].contains("<") ? one[0].substring(one[0].indexOf('<') + 1, one[0].length() - 1)
                : one[0].substring(0, one[0].length() - 2);
        if (element.equals("Integer") && random.nextInt(3) == 0) element = "int";
        if (element.equals("Long") && random.nextInt(3) == 0) element = "long";
        open.add(one[1]);
        variables.add(new String[] {element, name});
        loops++;
        String what = one[0].startsWith("Map") ? one[1] + pick(List.of(".keySet()", ".values()")) : one[1];
        String text = "for (" + element + " " + name + " : " + what + ") " + block(deep, result) + "\n";
        loops--;
        variables.removeIf(two -> two[1].equals(name));
        open.remove(one[1]);
        return text;
    }

    private String chosen(int deep, String result) {
        boolean constants = random.nextBoolean();
        int kept = loops;
        loops = 0;
        StringBuilder text = new StringBuilder("switch (" + (constants ? variable("E", () -> "E.B") : number(2)) + ") {\n");
        for (int i = 0; i < 2; i++) text.append("case ").append(constants ? i == 0 ? "B" : "A" : String.valueOf(i + 1)).append(": ")
                .append(block(deep - 1, result)).append(random.nextInt(3) > 0 ? " break;\n" : "\n");
        if (random.nextBoolean()) text.append("default: ").append(block(deep - 1, result)).append("\n");
        loops = kept;
        return text.append("}\n").toString();
    }

    // ---- expressions

    private String of(String type, int deep) {
        switch (type) {
            case "int": return number(deep);
            case "long": return wide(deep);
            case "Long": return boxedLong(deep);
            case "boolean": return truth(deep);
            case "Integer": return boxed(deep);
            case "Boolean": return random.nextInt(4) == 0 ? "null" : variable(type, () -> "Boolean.valueOf(" + truth(deep - 1) + ")");
            case "E": return constant(deep);
            case "byte": case "short": case "char":
                return random.nextInt(3) == 0 ? variable(type, () -> "(" + type + ") " + random.nextInt(200)) : "(" + type + ") (" + number(deep - 1) + ")";
            default: return "null";
        }
    }

    private String box() {
        return random.nextInt(3) == 0 ? boxed(1) : number(1);
    }

    private String number(int deep) {
        if (deep <= 0) return random.nextInt(3) == 0 ? String.valueOf(random.nextInt(5)) : variable("int", () -> "v");
        switch (random.nextInt(23)) {
            case 20: return "(int) (" + wide(deep - 1) + ")";
            case 21: return "Long." + pick(List.of("compare(" + wide(deep - 1) + ", ", "signum(0L + ")) + wide(deep - 1) + ")";
            case 22: return collection("List<Long>", ".size()", ".indexOf(" + wide(0) + ")");
            case 0: case 1: case 2: return "(" + number(deep - 1) + pick(List.of(" + ", " - ", " * ", " & ", " | ", " ^ ", " << ", " >> ", " >>> ")) + number(deep - 1) + ")";
            case 3: return "(" + number(deep - 1) + pick(List.of(" / ", " % ")) + number(deep - 1) + ")";
            case 4: return "(0 + (" + truth(deep - 1) + " ? " + number(deep - 1) + " : " + box() + "))";
            case 5: return "Math." + pick(List.of("max", "min")) + "(" + number(deep - 1) + ", " + number(deep - 1) + ")";
            case 6: return "Math.abs(" + number(deep - 1) + ")";
            case 7: return "(0 + " + variable("Integer", () -> "v") + ")";
            case 8: return collection("List<Integer>", ".size()", ".indexOf(" + number(0) + ")");
            case 9: return "(0 + " + collection("List<Integer>", ".get(" + index() + ")") + ")";
            case 10: return "(0 + " + collection("Map<Integer, Integer>", ".getOrDefault(" + number(0) + ", 1)", ".size()") + ")";
            case 11: return variable("E", () -> "E.B") + pick(List.of(".ordinal()", ".compareTo(E.B)"));
            case 12: return collection("int[]", "[" + index() + "]", ".length");
            case 13: return "(0 + " + variable("byte", () -> variable("char", () -> "v")) + ")";
            case 14: return call("int", deep);
            case 15: return "-(" + number(deep - 1) + ")";
            case 16: return stepped();
            case 17: return "Integer." + pick(List.of("compare", "sum", "max")) + "(" + number(deep - 1) + ", " + number(deep - 1) + ")";
            case 18: return "(0 + (" + pick(List.of("byte", "short", "char")) + ") (" + number(deep - 1) + "))";
            default: return "(" + number(deep - 1) + ")";
        }
    }

    /** A number of type `long`. */
    private String wide(int deep) {
        if (deep <= 0) return variable("long", () -> pick(List.of("4294967297L", "1L", "-9223372036854775808L", "(long) v")));
        String other = random.nextBoolean() ? wide(deep - 1) : number(deep - 1);
        switch (random.nextInt(14)) {
            case 0: case 1: case 2: return "(" + wide(deep - 1) + pick(List.of(" + ", " - ", " * ", " & ", " | ", " ^ ", " << ", " >> ", " >>> ")) + other + ")";
            case 3: return "(" + wide(deep - 1) + pick(List.of(" / ", " % ")) + other + ")";
            case 4: return "(0L + (" + truth(deep - 1) + " ? " + wide(deep - 1) + " : " + other + "))";
            case 5: return "Math." + pick(List.of("max", "min")) + "(" + wide(deep - 1) + ", " + other + ")";
            case 6: return "Math.abs(" + wide(deep - 1) + ")";
            case 7: return "(0L + " + variable("Long", () -> "v") + ")";
            case 8: return "(0L + " + collection("long[]", "[" + index() + "]") + ")";
            case 9: return "(0L + " + collection("List<Long>", ".get(" + index() + ")") + ")";
            case 10: return pick(List.of("-(", "~(")) + wide(deep - 1) + ")";
            case 11: return "(0L + " + call("long", deep) + ")";
            default: return "((long) (" + number(deep - 1) + ")" + pick(List.of("", " * 4294967297L", " << 33")) + ")";
        }
    }

    private String boxedLong(int deep) {
        switch (random.nextInt(5)) {
            case 0: return "null";
            case 1: return "Long.valueOf(" + wide(deep - 1) + ")";
            case 2: return deep <= 0 ? "null" : orNull(call("Long", deep));
            case 3: return "(" + truth(deep - 1) + " ? " + variable("Long", () -> "null") + " : null)";
            default: return variable("Long", () -> "null");
        }
    }

    private String stepped() {
        String[] one = variable(List.of("int"));
        if (one == null || isField(one[1]) || one[1].startsWith("i")) return "v";
        return pick(List.of(one[1] + "++", "++" + one[1], one[1] + "--", "(" + one[1] + " = " + number(1) + ")", "(" + one[1] + " += " + number(0) + ")"));
    }

    private String index() {
        return random.nextInt(4) == 0 ? number(1) : String.valueOf(random.nextInt(3));
    }

    private String truth(int deep) {
        if (deep <= 0) return random.nextInt(3) == 0 ? pick(List.of("true", "false")) : variable("boolean", () -> "v > 1");
        switch (random.nextInt(17)) {
            case 14: return "(" + wide(deep - 1) + pick(List.of(" < ", " <= ", " > ", " >= ", " == ", " != ")) + (random.nextBoolean() ? wide(deep - 1) : number(deep - 1)) + ")";
            case 15: return "(" + boxedLong(deep - 1) + pick(List.of(" == ", " != ")) + "null)";
            case 16: return "Objects.equals(" + boxedLong(deep - 1) + ", " + boxedLong(deep - 1) + ")";
            case 0: case 1: return "(" + number(deep - 1) + pick(List.of(" < ", " <= ", " > ", " >= ", " == ", " != ")) + number(deep - 1) + ")";
            case 2: return "(" + truth(deep - 1) + pick(List.of(" && ", " || ", " & ", " | ", " ^ ", " == ", " != ")) + truth(deep - 1) + ")";
            case 3: return "!(" + truth(deep - 1) + ")";
            case 4: return "(" + boxed(deep - 1) + pick(List.of(" == ", " != ")) + "null)";
            case 5: return "(" + constant(deep - 1) + pick(List.of(" == ", " != ")) + constant(deep - 1) + ")";
            case 6: return "Objects.equals(" + boxed(deep - 1) + ", " + boxed(deep - 1) + ")";
            case 7: return collectionTruth();
            case 8: return variable("Boolean", () -> truth(deep - 1));
            case 9: return call("boolean", deep);
            case 10: return "Objects.equals(" + constant(deep - 1) + ", " + constant(deep - 1) + ")";
            case 11: return variable("Integer", () -> "Integer.valueOf(v)") + ".equals(" + number(deep - 1) + ")";
            case 12: return "(" + truth(deep - 1) + " ? " + truth(deep - 1) + " : " + truth(deep - 1) + ")";
            default: return "(o0() == null)".replace("o0()", variable("Cell", () -> "this"));
        }
    }

    private String collectionTruth() {
        String[] one = variable(List.of("List<Integer>", "Set<Integer>", "Deque<Integer>", "Map<Integer, Integer>", "List<E>"));
        if (one == null) return "true";
        String name = one[1];
        switch (one[0]) {
            case "Map<Integer, Integer>": return name + ".containsKey(" + number(1) + ")";
            case "List<E>": return name + ".contains(" + constant(1) + ")";
            case "Set<Integer>": return open.contains(name) || name.equals("hs") ? name + ".isEmpty()" : name + pick(List.of(".add(", ".contains(", ".remove(")) + number(1) + ")";
            default: return pick(List.of(name + ".contains(" + member(name) + ")", name + ".isEmpty()"));
        }
    }

    private String boxed(int deep) {
        switch (random.nextInt(8)) {
            case 0: return "null";
            case 1: return "Integer.valueOf(" + number(deep - 1) + ")";
            case 2: return orNull(collection("Map<Integer, Integer>", ".get(" + number(0) + ")"));
            case 3: return orNull(collection("Deque<Integer>", ".peek()", ".peekLast()"));
            case 4: return orNull(collection("List<Integer>", ".get(" + index() + ")"));
            case 5: return deep <= 0 ? variable("Integer", () -> "null") : orNull(call("Integer", deep));
            case 6: return "(" + truth(deep - 1) + " ? " + variable("Integer", () -> "null") + " : null)";
            default: return variable("Integer", () -> "null");
        }
    }

    private static String orNull(String text) {
        return text.equals("v") ? "null" : text;
    }

    private String constant(int deep) {
        switch (random.nextInt(9)) {
            case 0: return "null";
            case 1: case 2: return "E." + pick(List.of("A", "B", "C"));
            case 3: return "E.values()[" + index() + "]";
            case 4: return collection("E[]", "[" + index() + "]").replaceAll("^v$", "E.A");
            case 5: return collection("Map<Integer, E>", ".get(" + number(0) + ")").replaceAll("^v$", "E.B");
            case 6: return deep <= 0 ? "E.C" : "(" + truth(deep - 1) + " ? " + constant(deep - 1).replaceAll("^null$", "E.C") + " : " + constant(deep - 1) + ")";
            case 7: return deep <= 0 ? "E.C" : call("E", deep).replaceAll("^v$", "E.A");
            default: return variable("E", () -> "E.A");
        }
    }

    private String call(String type, int deep) {
        List<String> fitting = methods.stream().filter(one -> one.startsWith(type + " ")).toList();
        if (fitting.isEmpty() || depth > 1) return type.equals("boolean") ? "(v == 2)" : "v";
        depth++;
        String text = pick(fitting).substring(type.length() + 1) + "(" + box() + ", " + constant(deep - 1) + ")";
        depth--;
        return text;
    }

    private String collection(String type, String... uses) {
        String[] one = variable(List.of(type));
        return one == null ? "v" : one[1] + pick(List.of(uses));
    }

    private String[] variable(List<String> types) {
        List<String[]> fitting = variables.stream().filter(one -> types.contains(one[0])).toList();
        return fitting.isEmpty() ? null : fitting.get(random.nextInt(fitting.size()));
    }

    private String variable(String type) {
        String[] one = variable(List.of(type));
        return one == null ? null : one[1];
    }

    private String variable(String type, java.util.function.Supplier<String> other) {
        String name = variable(type);
        return name == null ? other.get() : name;
    }

    private String pick(List<String> from) {
        return from.get(random.nextInt(from.size()));
    }
}
