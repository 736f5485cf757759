package adapt;

import java.util.ArrayList;
import java.util.Collection;
import java.util.HashMap;
import java.util.HashSet;
import java.util.LinkedHashMap;
import java.util.List;
import java.util.Map;
import java.util.Set;
import java.util.TreeMap;
import java.util.function.Function;
import java.util.regex.Matcher;
import java.util.regex.Pattern;
import java.util.stream.Collectors;
import javax.lang.model.element.Element;
import javax.lang.model.element.ExecutableElement;
import javax.lang.model.element.TypeElement;

/** Methods and classes that the adapted sources need beside their own. */
final class Library {
    /** Methods, in which `$` is the name, `#` an element's kind and `@` that kind within a name. */
    private static final Map<String, String> METHODS = Map.ofEntries(
            Map.entry("max", "static int $(int a, int b) { return a >= b ? a : b; }"),
            Map.entry("min", "static int $(int a, int b) { return a <= b ? a : b; }"),
            Map.entry("abs", "static int $(int a) { return a < 0 ? -a : a; }"),
            Map.entry("sum", "static int $(int a, int b) { return a + b; }"),
            Map.entry("signum", "static int $(int a) { return a < 0 ? -1 : a > 0 ? 1 : 0; }"),
            Map.entry("compare", "static int $(int a, int b) { return a < b ? -1 : a == b ? 0 : 1; }"),
            Map.entry("compareBoolean", "static int $(boolean a, boolean b) { return a == b ? 0 : a ? 1 : -1; }"),
            Map.entry("floorMod", "static int $(int a, int b) { int rest = a % b; return rest != 0 && (rest ^ b) < 0 ? rest + b : rest; }"),
            Map.entry("floorDiv", "static int $(int a, int b) { int part = a / b; return (a ^ b) < 0 && part * b != a ? part - 1 : part; }"),
            Map.entry("bitCount", "static int $(int a) { int count = 0; for (int rest = a; rest != 0; rest &= rest - 1) count++; return count; }"),
            Map.entry("highestOneBit", "static int $(int a) { int bits = a; while ((bits & bits - 1) != 0) bits &= bits - 1; return bits; }"),
            Map.entry("lowestOneBit", "static int $(int a) { return a & -a; }"),
            Map.entry("numberOfTrailingZeros", "static int $(int a) { int count = 0; while (count < 32 && (a >>> count & 1) == 0) count++; return count; }"),
            Map.entry("numberOfLeadingZeros", "static int $(int a) { int count = 0; while (count < 32 && (a << count) >= 0) count++; return a == 0 ? 32 : count; }"),
            Map.entry("addExact", "static int $(int a, int b) { int sum = a + b; return ((a ^ sum) & (b ^ sum)) < 0 ? 1 / 0 : sum; }"),
            Map.entry("subtractExact", "static int $(int a, int b) { int rest = a - b; return ((a ^ b) & (a ^ rest)) < 0 ? 1 / 0 : rest; }"),
            Map.entry("multiplyExact", "static int $(int a, int b) { int product = a * b; return a != 0 && (product / a != b || a == -1 && b == -b && b != 0) ? 1 / 0 : product; }"),
            Map.entry("incrementExact", "static int $(int a) { return a + 1 < a ? 1 / 0 : a + 1; }"),
            Map.entry("decrementExact", "static int $(int a) { return a - 1 > a ? 1 / 0 : a - 1; }"),
            Map.entry("negateExact", "static int $(int a) { return a == -a && a != 0 ? 1 / 0 : -a; }"),
            Map.entry("toIntExact", "static int $(long a) { return a == (int) a ? (int) a : 1 / 0; }"),
            Map.entry("toUnsignedLong", "static long $(int a) { return a & 4294967295L; }"),
            Map.entry("signumLong", "static int $(long a) { return a < 0 ? -1 : a > 0 ? 1 : 0; }"),
            Map.entry("compareLong", "static int $(long a, long b) { return a < b ? -1 : a == b ? 0 : 1; }"),
            Map.entry("bitCountLong", "static int $(long a) { int count = 0; for (long rest = a; rest != 0; rest &= rest - 1) count++; return count; }"),
            Map.entry("numberOfTrailingZerosLong", "static int $(long a) { int count = 0; while (count < 64 && (a >>> count & 1) == 0) count++; return count; }"),
            Map.entry("numberOfLeadingZerosLong", "static int $(long a) { int count = 0; while (count < 64 && (a << count) >= 0) count++; return a == 0 ? 64 : count; }"),
            Map.entry("hashOfLong", "static int $(long a) { return (int) (a ^ a >>> 32); }"),
            Map.entry("hashOfBoxLong", "static int $(BoxedLong box) { return box == null ? 0 : (int) (box.value ^ box.value >>> 32); }"),
            Map.entry("isDigit", "static boolean $(int c) { return c >= 48 && c <= 57; }"),
            Map.entry("isLowerCase", "static boolean $(int c) { return c >= 97 && c <= 122; }"),
            Map.entry("isUpperCase", "static boolean $(int c) { return c >= 65 && c <= 90; }"),
            Map.entry("isLetter", "static boolean $(int c) { return c >= 97 && c <= 122 || c >= 65 && c <= 90; }"),
            Map.entry("fill@", "static void $(#[] array, # item) { for (int i = 0; i < array.length; i++) array[i] = item; }"),
            Map.entry("fillRange@", "static void $(#[] array, int from, int to, # item) { if (from > to) from = 1 / 0; if (from < 0 || to > array.length) array[-1] = item; for (int i = from; i < to; i++) array[i] = item; }"),
            Map.entry("copyOf@", "static #[] $(#[] from, int start, int end) { BoxedInt[] none = new BoxedInt[0]; if (start > end && start > 0) end = 1 / 0; if (start < 0 || start > from.length) end = none[0].value; #[] made = new #[end - start]; for (int i = start; i < end && i < from.length; i++) made[i - start] = from[i]; return made; }"),
            Map.entry("arrayCopy@", "static void $(#[] from, int start, #[] to, int at, int count) { BoxedInt[] none = new BoxedInt[0]; if (start < 0 || at < 0 || count < 0 || start + count > from.length || at + count > to.length) count = none[0].value; if (from == to && start < at) { for (int i = count - 1; i >= 0; i--) to[at + i] = from[start + i]; } else { for (int i = 0; i < count; i++) to[at + i] = from[start + i]; } }"),
            Map.entry("sort@", "static void $(#[] array) { for (int i = 1; i < array.length; i++) { for (int j = i; j > 0 && array[j - 1] > array[j]; j--) { # item = array[j]; array[j] = array[j - 1]; array[j - 1] = item; } } }"),
            Map.entry("boxed", "static BoxedInt $(int number) { return number == -2147483648 ? null : new BoxedInt(number); }"),
            Map.entry("boxedTruth", "static BoxedBoolean $(int number) { return number < 0 ? null : new BoxedBoolean(number == 1); }"),
            Map.entry("newBoxedInt", "static BoxedInt $(int number) { return new BoxedInt(number); }"),
            Map.entry("newBoxedLong", "static BoxedLong $(long number) { return new BoxedLong(number); }"),
            Map.entry("newBoxedBoolean", "static BoxedBoolean $(boolean truth) { return new BoxedBoolean(truth); }"),
            Map.entry("numberOf", "static int $(BoxedInt box) { return box == null ? -2147483648 : box.value == -2147483648 ? 1 / 0 : box.value; }"),
            Map.entry("numberOfTruth", "static int $(BoxedBoolean box) { return box == null ? -2147483648 : box.value ? 1 : 0; }"),
            Map.entry("holdSame", "static boolean $(BoxedInt a, BoxedInt b) { return a == null || b == null ? a == b : a.value == b.value; }"),
            Map.entry("holdSameTruth", "static boolean $(BoxedBoolean a, BoxedBoolean b) { return a == null || b == null ? a == b : a.value == b.value; }"),
            Map.entry("isBoxOf", "static boolean $(int number, BoxedInt box) { return box != null && number == box.value; }"),
            Map.entry("isBoxOfTruth", "static boolean $(boolean truth, BoxedBoolean box) { return box != null && truth == box.value; }"),
            Map.entry("numbers", "static int[] $(int length) { int[] made = new int[length]; for (int i = 0; i < length; i++) made[i] = -2147483648; return made; }"),
            Map.entry("numbersLong", "static long[] $(int length) { long[] made = new long[length]; for (int i = 0; i < length; i++) made[i] = -9223372036854775808L; return made; }"),
            Map.entry("constants", "static int[] $(int length) { int[] made = new int[length]; for (int i = 0; i < length; i++) made[i] = -1; return made; }"),
            Map.entry("ordinal", "static int $(int constant) { int[] none = null; return constant < 0 ? none.length : constant; }"),
            Map.entry("constantAt", "static int $(int index, int count) { BoxedInt[] none = new BoxedInt[0]; return index < 0 || index >= count ? none[0].value : index; }"),
            Map.entry("difference", "static int $(int a, int b) { return a - b; }"),
            Map.entry("noNegative", "static int $(int capacity) { return capacity < 0 ? 1 / 0 : capacity; }"),
            Map.entry("hashOfBox", "static int $(BoxedInt box) { return box == null ? 0 : box.value; }"),
            Map.entry("orElse@", "static # $(# a, # b) { return a == null ? b : a; }"),
            Map.entry("orElseConstant", "static int $(int a, int b) { return a < 0 ? b : a; }"),
            Map.entry("areThere@", "static boolean $(# a, # b) { int[] none = null; return a == null || b == null ? none.length == 0 : true; }"),
            Map.entry("isSame@", "static boolean $(# a, # b) { int[] none = null; return a == null ? none.length == 0 : a == b; }"),
            Map.entry("isAbsent@", "static boolean $(# item) { return false; }"),
            Map.entry("areEqual@", "static boolean $(# a, # b) { return =; }"),
            Map.entry("hashOf@", "static int $(# a) { return a == null ? 0 : a.hash(); }"),
            Map.entry("present@", "static # $(# a) { return a == null && new LinkedList<#>().removeFirst() == a ? null : a; }"),
            Map.entry("nonNull@", "static # $(# a) { int[] none = null; return a == null && none.length == 0 ? null : a; }"));

    /** Stands where the added methods will. */
    static final String PLACE = "\0";
    /** A method of an added class, in a line. */
    private static final Pattern METHOD = Pattern.compile("^ {4}(?:static )?[\\w$.\\[\\]]+ (\\w+)\\(.*\\{.*}$");

    private final Program program;
    private final Map<String, String> names = new HashMap<>();
    private final Map<String, String> methods = new LinkedHashMap<>();
    private final Map<String, String> classes = new TreeMap<>();
    private final Set<String> taken = new HashSet<>();
    private final Set<String> kept = new HashSet<>();
    TypeElement host;

    Library(Program program) {
        this.program = program;
        for (TypeElement type : program.classes.values()) {
            for (Element member : type.getEnclosedElements()) if (member instanceof ExecutableElement)
                    taken.add(member.getSimpleName().toString());
        }
    }

    /** Names that added methods may not have. */
    void take(Collection<String> names) {
        taken.addAll(names);
    }

    /** How an added method is called. */
    String method(String key, String kind, String equal) {
        String of = kind.isEmpty() ? "" : Kinds.mangled(kind);
        String text = METHODS.containsKey(key) ? METHODS.get(key) : ofLongs(key);
        return add(key.replace("@", of),
                text.replace("@", of).replace("#", Kinds.printed(kind)).replace("(=)", "(" + equal + ")").replace("return =;",
                "return " + equal + ";"));
    }

    /** A method over longs where there is one over ints alone: it differs in the types. */
    private static String ofLongs(String key) {
        return METHODS.get(key.substring(0, key.length() - "Long".length())).replace("int", "long").replace("BoxedInt", Kinds.LONG_BOX).replace("2147483648", "9223372036854775808L");
    }

    String method(String key) {
        return method(key, "", "");
    }

    private String add(String wanted, String text) {
        String name = names.get(wanted);
        if (name == null) {
            name = wanted;
            for (int i = 2; !taken.add(name); i++) name = wanted + i;
            names.put(wanted, name);
            methods.put(wanted, text.replace("$", name));
            for (String box : List.of(Kinds.BOX, Kinds.LONG_BOX, Kinds.BOOLEAN_BOX)) if (text.contains(box)) box(box);
        }
        return Program.outermost(host).getSimpleName() + "." + name;
    }

    /** A method that makes an array of its arguments. */
    String arrayOf(String kind, int length) {
        List<String> parameters = new ArrayList<>();
        StringBuilder writes = new StringBuilder();
        for (int i = 0; i < length; i++) {
            parameters.add(kind + " item" + i);
            writes.append(" made[").append(i).append("] = item").append(i).append(";");
        }
        return add("arrayOf" + length + Kinds.mangled(kind),
                "static " + kind + "[] $(" + String.join(", ", parameters) + ") { " + kind + "[] made = new " + kind
                + "[" + length + "];" + writes + " return made; }");
    }

    /** A method that compares two arrays. */
    String areEqual(String first, String second, String equality) {
        return add("areEqual" + Kinds.mangled(first) + (first.equals(second) ? "" : Kinds.mangled(second)), "static boolean $(" + first + " a, " + second
                + " b) { if (a == null || b == null) return a == null && b == null; if (a.length != b.length) return false;"
                + " for (int i = 0; i < a.length; i++) if (!(" + equality + ")) return false; return true; }");
    }

    /** A method that copies a part of an array into an object of an added class. */
    String copyTo(String array, String element) {
        return add("copyTo" + array,
                "static " + array + " $(" + element
                + "[] from, int start, int end) { BoxedInt[] none = new BoxedInt[0]; if (start > end && start > 0) end = 1 / 0; if (start < 0 || start > from.length) end = none[0].value; "
                + array + " made = new " + array
                        + "(end - start); for (int i = start; i < end && i < from.length; i++) made.set(i - start, from[i]); return made; }");
    }

    /** A method that gives the members of a collection in one of another class. */
    String copyOfMembers(String from, String cell, String made, String member) {
        return add("membersOf" + from + "In" + made, "static " + made + " $(" + from + " from) { " + made + " made = new " + made + "(); for (" + cell
                + " cell = from.first; cell != null; cell = cell.next) made.add(" + member + "); return made; }");
    }

    /** A method of its own text, in which `$` is its name. */
    String own(String wanted, String text) {
        return add(wanted, text);
    }

    /** A method that gives a constant that has to be there. */
    String presentConstant() {
        String type = Program.outermost(host).getSimpleName().toString();
        return add("presentConstant", "static int $(int a) { return a < 0 && new LinkedList<" + type + ">().removeFirst() == null ? a : a; }");
    }

    String methods() {
        return methods.isEmpty() ? "" : "    " + String.join("\n    ", methods.values()) + "\n";
    }

    /** Adds a class once, whose text is made only then. */
    void add(String name, Function<String, String> text) {
        if (classes.containsKey(name)) return;
        classes.put(name, "");
        classes.put(name, text.apply(name));
    }

    /** Keeps a class that the finitization alone names. */
    void keep(String type) {
        kept.add(type);
    }

    /** The added classes, with those of their methods that the sources come to use. */
    String classes(Collection<String> sources) {
        StringBuilder used = new StringBuilder(String.join("\n", sources) + "\n" + String.join("\n", this.kept));
        Map<String, List<String>> kept = new TreeMap<>();
        boolean more = true;
        while (more) {
            more = false;
            for (Map.Entry<String, String> entry : classes.entrySet()) {
                if (!Pattern.compile("\\b" + Pattern.quote(entry.getKey()) + "\\b").matcher(used).find()) continue;
                List<String> lines = kept.computeIfAbsent(entry.getKey(), name -> new ArrayList<>());
                List<String> next = entry.getValue().lines().filter(line -> isUsed(line, used)).toList();
                more |= next.size() > lines.size();
                lines.clear();
                lines.addAll(next);
            }
            kept.values().forEach(lines -> used.append(String.join("\n", lines)));
        }
        return kept.values().stream().map(lines -> "\n" + String.join("\n", lines) + "\n").collect(Collectors.joining());
    }

    /** Whether a line of a class is no method or one whose name is called. */
    private static boolean isUsed(String line, CharSequence text) {
        Matcher method = METHOD.matcher(line);
        return !method.find() || Pattern.compile("[^\\w$]" + method.group(1) + "\\((?![^()]*\\) \\{)").matcher(text).find();
    }

    /** The class of a number or a truth value that may be null. */
    String box(String kind) {
        String value = Kinds.unboxOf(kind);
        add(kind, name -> "// A value, or null.\nclass " + name + " {\n    " + value + " value;\n\n    " + name + "(" + value
                + " value) { this.value = value; }\n}\n");
        return kind;
    }

    /** The class of an added kind. */
    void need(Kinds kinds, String kind, Expressions expressions) {
        String element = kinds.elementOf(kind);
        if (kind.matches("(Sorted|Linked)?(Map|Pair)Of.*")) map(kinds, kind, element.split(" "), expressions);
        else if (kind.startsWith("ArrayOf")) array(kind, element, kinds);
        else collection(kinds, kind, element, expressions);
    }

    private void collection(Kinds kinds, String kind, String element, Expressions expressions) {
        String of = Kinds.partOf(kind);
        Held.One held = kinds.held.ofKind(kind);
        String equality = expressions.equality(element);
        Map<String, String> words = of("$L", "ListOf" + of, "$C", "CellOf" + of, "$X", kinds.qualified(element), "$E",
                names(equality, "item", "cell.item"), "$H", names(expressions.hashEquality(element), "item", "cell.item"),
                "$I", "IteratorOf" + of, "$N", kind, "$A", isNull("item", element), "$D", isLess(element, "after.item", "item"),
                "$S", isLevel(element, "after.item", "item"));
        words.putAll(absence(kinds, element));
        add("CellOf" + of, name -> Templates.fill(Templates.CELL, words));
        add("ListOf" + of, name -> Templates.fill(Templates.LIST, words));
        add("IteratorOf" + of, name -> Templates.fill(Templates.ITERATOR, words));
        if (kind.matches("(Sorted|Linked)?SetOf.*")) {
            boolean hashed = kinds.hasEquals(element);
            String set = held != null && held.isAscending() ? Templates.SET.replace(Templates.APPENDING, Templates.INSERTING) : Templates.SET;
            add("SetOf" + of, name -> Templates.fill(set.replace("$N", name).replace("$F\n", hashed ? Templates.FIND : ""), words));
        }
        if (kind.startsWith("LinkedSetOf")) add(kind, name -> Templates.fill(Templates.LINKED_SET.replace("$B", "SetOf" + of), words));
        if (kind.startsWith("SortedSetOf")) add(kind, name -> Templates.fill(Templates.SORTED.replace("$B", "SetOf" + of), words));
        if (kind.startsWith("DequeOf")) add(kind, name -> Templates.fill(Templates.DEQUE, words));
    }

    private static String names(String text, String a, String b) {
        return text.replaceAll("\\ba\\b", a).replaceAll("\\bb\\b", b);
    }

    /** What a method answers where there is no element, of which type, and what is in front of an element that there is. */
    private Map<String, String> absence(Kinds kinds, String element) {
        boolean boxed = Kinds.isBoxable(element);
        String type = boxed ? box(Kinds.boxOf(element)) : kinds.qualified(element);
        return Map.of("$P", type, "$O", boxed ? "new " + type + "(" : "(", "$0", Kinds.isEnum(element) ? "-1" : "null");
    }

    /** Whether an element is null, so that a sorted collection traps. */
    private static String isNull(String item, String element) {
        return Kinds.isBoxable(element) ? "false" : Kinds.isEnum(element) ? item + " < 0" : item + " == null";
    }

    /** Whether the first of two comes before the second in a sorted collection. */
    static String isLess(String element, String a, String b) {
        String value = Kinds.isBox(element) ? ".value" : "";
        String plain = Kinds.unboxOf(element);
        if (Kinds.isPlainNumber(plain) || Kinds.isEnum(element)) return a + value + " < " + b + value;
        return plain.equals("boolean") ? "!" + a + value + " && " + b + value : b + ".compareTo(" + a + ") > 0";
    }

    /** Whether a sorted collection has two for one. */
    private static String isLevel(String element, String a, String b) {
        String value = Kinds.isBox(element) ? ".value" : "";
        if (Kinds.isBoxable(Kinds.unboxOf(element)) || Kinds.isEnum(element)) return a + value + " == " + b + value;
        return b + ".compareTo(" + a + ") == 0";
    }

    private static Map<String, String> of(String... pairs) {
        Map<String, String> words = new HashMap<>();
        for (int i = 0; i < pairs.length; i += 2) words.put(pairs[i], pairs[i + 1]);
        return words;
    }

    private void map(Kinds kinds, String kind, String[] sides, Expressions expressions) {
        String of = kind.substring(kind.indexOf("Of") + 2);
        Map<String, String> words = of("$N", "MapOf" + of, "$M", kind, "$Q", "PairOf" + of, "$K", kinds.qualified(sides[0]), "$V",
                kinds.qualified(sides[1]), "$E", names(expressions.hashEquality(sides[0]), "key", "pair.key"), "$A", isNull("key", sides[0]),
                "$D", isLess(sides[0], "pair.key", "key"), "$S", isLevel(sides[0], "pair.key", "key"));
        words.putAll(absence(kinds, sides[1]));
        add("PairOf" + of, name -> Templates.fill(Templates.PAIR, words));
        Held.One held = kinds.held.ofKind(kind);
        String plain = held != null && held.isAscending() ? Templates.MAP.replaceFirst("(?m)^ *void append.*$", java.util.regex.Matcher.quoteReplacement(Templates.INSERTING_PAIR)) : Templates.MAP;
        add("MapOf" + of, name -> Templates.fill(plain, words)
                + (Kinds.isPlainNumber(sides[1]) ? Templates.fill(Templates.SUM, words) : "") + "}\n");
        if (kind.startsWith("LinkedMapOf")) add(kind, name -> "// A map.\nclass " + name + " extends MapOf" + of + " { }\n");
        if (kind.startsWith("SortedMapOf")) add(kind, name -> Templates.fill(Templates.SORTED_MAP, words));
    }

    private void array(String kind, String element, Kinds kinds) {
        Map<String, String> words = of("$N", kind, "$C", kind.replaceFirst("Array", "Slot"), "$X", kinds.qualified(element), "$Z",
                Kinds.isEnum(element) ? " item = -1;" : "");
        add(kind.replaceFirst("Array", "Slot"), name -> Templates.fill(Templates.SLOT, words));
        add(kind, name -> Templates.fill(Templates.ARRAY, words)
                + (element.startsWith("ArrayOf") ? Templates.fill(Templates.ROWS, words) : "")
                + (Kinds.isPlainNumber(element) ? Templates.fill(Templates.SORT, words) : "") + "}\n");
    }
}
