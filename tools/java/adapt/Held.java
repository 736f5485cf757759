package adapt;

import com.sun.source.tree.NewClassTree;
import com.sun.source.util.TreeScanner;
import java.util.LinkedHashMap;
import java.util.List;
import java.util.Map;
import java.util.Set;
import javax.lang.model.element.ExecutableElement;
import javax.lang.model.element.TypeElement;
import javax.lang.model.element.VariableElement;
import javax.lang.model.type.DeclaredType;
import javax.lang.model.type.TypeKind;
import javax.lang.model.type.TypeMirror;
import javax.lang.model.type.WildcardType;

/**
 * The library's collections that candidates have. Each that the finitization counts becomes a class of its own with cells for its members,
 * of which each collection has one chain, and each chain one collection: of a table of hashes the one in ascending order.
 */
final class Held {
    private static final Set<String> LISTS = Set.of("ArrayList", "LinkedList", "Vector", "Stack", "ArrayDeque");
    private static final Set<String> SETS = Set.of("HashSet", "LinkedHashSet", "TreeSet");
    private static final Set<String> MAPS = Set.of("HashMap", "LinkedHashMap", "TreeMap");

    /** A collection as the finitization names it: its class, what its members are, and the classes that it and they become. */
    record One(String name, String type, List<String> members, List<String> real, String kind, String part, VariableElement field) {
        boolean isMap() {
            return MAPS.contains(type);
        }

        /** The class of its objects. */
        String made() {
            return type.equals("ArrayDeque") && !Kinds.isPlainNumber(members.get(0)) ? "DequeOf" + part : kind;
        }

        /** The class that has its first member and its size. */
        String base() {
            return (isMap() ? "MapOf" : "ListOf") + part;
        }

        String cell() {
            return (isMap() ? "PairOf" : "CellOf") + part;
        }

        /** The keys in the finitization of what it has. */
        List<String> keys() {
            return isMap() ? List.of(name + ".key", name + ".value") : List.of(name + ".*");
        }

        /** Whether its members stand in ascending order. */
        boolean isAscending() {
            return type.matches("(Tree|Hash)(Set|Map)");
        }

        /** Whether no two of its members, or keys, are the same. */
        boolean isDistinct() {
            return SETS.contains(type) || isMap();
        }
    }

    private final Program program;
    private final Kinds kinds;
    private final Finitization fin;
    private final Map<String, One> known = new LinkedHashMap<>();
    private final Map<VariableElement, String> names = new LinkedHashMap<>();

    Held(Program program, Kinds kinds, Finitization fin) {
        this.program = program;
        this.kinds = kinds;
        this.fin = fin;
        fin.fields().forEach((key, domain) -> {
            VariableElement field = kinds.field(key);
            List<String> held = Finitization.names(domain).stream().filter(fin.collections()::containsKey).toList();
            if (field != null && !held.isEmpty() && fin.counts(program, Program.classOf(field))) names.put(field, held.get(0));
        });
    }

    /** The class of the library that a name begins with. */
    static String typeOf(String name) {
        return name.replaceFirst("<.*", "");
    }

    static boolean isKnown(String type) {
        return LISTS.contains(type) || SETS.contains(type) || MAPS.contains(type);
    }

    boolean has(Object field) {
        return field instanceof VariableElement && names.containsKey(field);
    }

    Map<VariableElement, String> fields() {
        return names;
    }

    /** Whether members are numbers, and their type doesn't say of which class. */
    boolean hasNumbersOfAny(String kind) {
        return names.keySet().stream().anyMatch(field -> argumentsOf(field).stream().anyMatch(argument -> Boxes.isAny(argument) && kinds.kind(argument).equals(kind)));
    }

    /** The collections whose members are known. */
    List<One> all() {
        names.forEach((field, name) -> of(name));
        return List.copyOf(known.values());
    }

    /** The collection of a field, or null where it has none, or its members aren't known. */
    One of(VariableElement field) {
        return names.containsKey(field) ? of(names.get(field)) : null;
    }

    /** The collection of a class that it became, or null. */
    One ofKind(String kind) {
        return known.values().stream().filter(one -> one.kind.equals(kind) || one.made().equals(kind)).findFirst().orElse(null);
    }

    /** Whether a class is that of a collection or of its cells. */
    boolean isPart(String kind) {
        return ofKind(kind) != null || known.values().stream().anyMatch(one -> one.cell().equals(kind));
    }

    One of(String name) {
        if (known.containsKey(name)) return known.get(name);
        VariableElement field = names.entrySet().stream().filter(entry -> entry.getValue().equals(name)).map(Map.Entry::getKey)
                .min(java.util.Comparator.comparing(one -> Program.classOf(one) + "." + one)).orElse(null);
        String type = typeOf(name);
        List<? extends TypeMirror> arguments = field == null ? List.of() : argumentsOf(field);
        if (!isKnown(type) || arguments.size() != (MAPS.contains(type) ? 2 : 1)) return null;
        List<String> members = arguments.stream().map(kinds::kind).toList();
        if (members.stream().anyMatch(member -> member.startsWith("?"))) return null;
        String prefix = MAPS.contains(type) ? "MapOf" : SETS.contains(type) ? "SetOf" : "ListOf";
        String order = type.startsWith("Tree") ? "Sorted" : type.matches("LinkedHash.*") ? "Linked" : "";
        String part = kinds.heldPart(members);
        One one = new One(name, type, members, real(arguments, members), order + prefix + part, part, field);
        known.put(name, one);
        kinds.register(one);
        return one;
    }

    /** What the field's type says of the members. */
    List<? extends TypeMirror> argumentsOf(VariableElement field) {
        return field.asType() instanceof DeclaredType declared ? declared.getTypeArguments() : List.of();
    }

    /** The classes of members on a virtual machine. */
    private List<String> real(List<? extends TypeMirror> arguments, List<String> members) {
        List<String> result = new java.util.ArrayList<>();
        for (int i = 0; i < members.size(); i++) result.add(real(arguments.get(i), members.get(i)));
        return result;
    }

    private String real(TypeMirror argument, String member) {
        TypeMirror type = argument instanceof WildcardType wild && wild.getExtendsBound() != null ? wild.getExtendsBound() : argument;
        String whole = program.types.erasure(type).toString();
        if (type.getKind() == TypeKind.DECLARED && whole.matches("java\\.lang\\.(Integer|Long|Character|Byte|Short|Boolean)")) return whole;
        if (Kinds.isPlainNumber(member)) return member.equals("int") ? "java.lang.Integer" : "java.lang.Long";
        return member.equals("boolean") ? "java.lang.Boolean" : member.replace("#", "");
    }

    /** The number of cells that all collections of a name have at most. */
    long cells(One one) {
        long most = 0;
        for (Object size : sizes(one)) most = Math.max(most, size instanceof Map<?, ?> range ? (Long) range.get("to") : size instanceof Long number ? number : 0);
        return most * count(one);
    }

    long count(One one) {
        return fin.collections().get(one.name).get("count") instanceof Long count ? count : 0;
    }

    List<?> sizes(One one) {
        return fin.collections().get(one.name).get("sizes") instanceof List<?> sizes ? sizes : List.of();
    }

    // ---- what is refused

    /** Refuses what has no one chain, or what the adapted classes can't tell apart. */
    void check(Notes notes) {
        fin.collections().forEach((name, bound) -> {
            One one = of(name);
            if (!bound.keySet().equals(Set.of("count", "sizes")) || !(bound.get("count") instanceof Long) || !areSizes(bound.get("sizes")))
                notes.refuse(fin.name(), "collections." + name + " is no collection's bound", "write { count = 1, sizes = [{ from = 0, to = 3 }] }");
            else if (!isKnown(typeOf(name))) notes.refuse(fin.name(), "a collection of the class " + typeOf(name) + ", which no candidate has",
                    "name one of ArrayList, LinkedList, ArrayDeque, Stack, Vector, HashSet, LinkedHashSet, TreeSet, HashMap, LinkedHashMap, TreeMap");
            else if (one != null) check(one, notes);
            else if (names.containsValue(name)) notes.refuse(fin.name(), "nothing says what the members of " + name + " are",
                    "declare the field with their class, or give their values in [fields], as \"" + name + (MAPS.contains(typeOf(name)) ? ".key\"" : ".*\"") + " = [1, 2]");
        });
        names.forEach((field, name) -> checkField(field, name, notes));
        Set<String> types = new java.util.HashSet<>();
        names.values().forEach(name -> types.add(typeOf(name)));
        for (Program.Source source : program.sources) creations(types, notes).scan(source.unit(), null);
    }

    private static boolean areSizes(Object sizes) {
        return sizes instanceof List<?> list && list.stream().allMatch(size -> size instanceof Long number && number >= 0 && number <= 64
                || size instanceof Map<?, ?> range && range.get("from") instanceof Long from && from >= 0 && range.get("to") instanceof Long to && to <= 64);
    }

    /** Refuses creations of collections that behave in a way that their class doesn't say. */
    private TreeScanner<Void, Void> creations(Set<String> types, Notes notes) {
        return new TreeScanner<>() {
            @Override
            public Void visitNewClass(NewClassTree tree, Void nothing) {
                TypeMirror made = program.type(tree.getIdentifier());
                String type = made == null ? "" : program.types.erasure(made).toString().replaceFirst("^java\\.util\\.", "");
                boolean ordered = tree.getClassBody() != null || tree.getArguments().size() == 3
                        || program.element(tree) instanceof ExecutableElement constructor && constructor.getParameters().size() == 1
                        && constructor.getParameters().get(0).asType().toString().startsWith("java.util.Comparator");
                if (types.contains(type) && ordered) notes.refuse(program.place(tree), "a " + type + " with a behaviour of its own", "make it without arguments, or write linked nodes");
                return super.visitNewClass(tree, nothing);
            }
        };
    }

    private void checkField(VariableElement field, String name, Notes notes) {
        String key = Program.classOf(field).getSimpleName() + "." + field.getSimpleName();
        List<String> others = Finitization.names(fin.fields().get(key)).stream().filter(other -> !other.equals(name)).toList();
        if (!others.isEmpty()) notes.refuse(fin.name(), key + " has collections of two names, " + name + " and " + others.get(0), "give it one of them");
        TypeElement type = program.elements.getTypeElement("java.util." + typeOf(name));
        if (type != null && !program.types.isAssignable(program.types.erasure(type.asType()), program.types.erasure(field.asType())))
            notes.refuse(fin.name(), key + ": " + typeOf(name) + " is no " + field.asType(), "name a class that the field may hold");
        One one = of(name);
        if (one == null) return;
        List<? extends TypeMirror> arguments = argumentsOf(field);
        List<String> members = arguments.stream().map(kinds::kind).toList();
        boolean open = arguments.stream().anyMatch(argument -> argument.getKind() == TypeKind.TYPEVAR && Kinds.isPlainNumber(kinds.kind(argument)));
        if (open && kinds.hasSmallBoxes())
            notes.refuse(program.place(program.trees.getTree(field)), "members of `" + field + "` of a type that stands for numbers of two types", "declare the field with their class");
        if (!members.equals(one.members) || !real(arguments, members).equals(one.real))
            notes.refuse(program.place(program.trees.getTree(field)), name + " has other members than in the field `" + one.field + "`", "count it under another name, as \"" + typeOf(name) + "<T>\"");
    }

    private void check(One one, Notes notes) {
        for (int i = 0; i < one.members.size(); i++) {
            String member = one.members.get(i);
            String key = one.keys().get(i);
            boolean plain = Kinds.isBoxable(member) || Kinds.isEnum(member);
            boolean hasNull = Finitization.hasNull(fin.fields().getOrDefault(key, List.of()));
            boolean isKey = i == 0 && one.isDistinct();
            if (hasNull && Kinds.isBoxable(member))
                notes.refuse(fin.name(), "null among the numbers or truth values of " + one.name, "leave it out, or write a class of its own around the value");
            else if (hasNull && (one.type.equals("ArrayDeque") || isKey && one.isAscending()))
                notes.refuse(fin.name(), "null among the values of " + key, "leave it out: " + (one.type.startsWith("Hash") ? "such members are listed in ascending order" : one.type + " takes none"));
            if (member.endsWith("]") || kinds.isList(member) || kinds.isMap(member))
                notes.refuse(place(one), one.name + " has members that are arrays or collections", "put them into a field of a class of your own");
            if (isKey && !plain && one.type.startsWith("Hash"))
                notes.refuse(place(one), "the members of " + one.name + " have no order in which a row could list them", "write Linked" + one.type + ", or numbers");
            else if (isKey && !plain && one.type.startsWith("Tree"))
                notes.refuse(place(one), one.name + " goes by the `compareTo` of its members, which their fields may change", "use members that are numbers or of an enum");
            else if (isKey && !plain && kinds.hasEquals(member))
                notes.refuse(place(one), one.name + " goes by the `equals` of its members, which their fields may change", "use members without an `equals`");
            if (!fin.fields().containsKey(key)) notes.refuse(fin.name(), "no values of " + key, "give them in [fields]");
        }
        if (cells(one) > 64) notes.refuse(fin.name(), one.name + " has " + cells(one) + " members in all, and korat 64 objects of a class at most", "lower its count or its sizes");
    }

    private String place(One one) {
        return program.place(program.trees.getTree(one.field));
    }
}
