package adapt;

import com.sun.source.tree.ArrayAccessTree;
import com.sun.source.tree.AssignmentTree;
import com.sun.source.tree.ConditionalExpressionTree;
import com.sun.source.tree.ExpressionTree;
import com.sun.source.tree.IdentifierTree;
import com.sun.source.tree.LambdaExpressionTree;
import com.sun.source.tree.MemberSelectTree;
import com.sun.source.tree.MethodInvocationTree;
import com.sun.source.tree.NewArrayTree;
import com.sun.source.tree.TypeCastTree;
import java.util.ArrayList;
import java.util.Collection;
import java.util.HashMap;
import java.util.HashSet;
import java.util.IdentityHashMap;
import java.util.Iterator;
import java.util.LinkedHashMap;
import java.util.LinkedHashSet;
import java.util.List;
import java.util.Map;
import java.util.Objects;
import java.util.Optional;
import java.util.Set;
import javax.lang.model.element.Element;
import javax.lang.model.element.ElementKind;
import javax.lang.model.element.ExecutableElement;
import javax.lang.model.element.Modifier;
import javax.lang.model.element.TypeElement;
import javax.lang.model.element.VariableElement;
import javax.lang.model.type.ArrayType;
import javax.lang.model.type.DeclaredType;
import javax.lang.model.type.IntersectionType;
import javax.lang.model.type.TypeKind;
import javax.lang.model.type.TypeMirror;
import javax.lang.model.type.TypeVariable;
import javax.lang.model.type.UnionType;
import javax.lang.model.type.WildcardType;

/**
 * The types of the subset that the types of the sources become, as they are written. A `?` begins one that there is not, `#` an enum,
 * whose constants are ints from 0 and whose null is -1, and `~` a number of a candidate that may be null, which then is {@link #none}.
 */
final class Kinds {
    static final String BOX = "BoxedInt";
    static final String LONG_BOX = "BoxedLong";
    static final String BOOLEAN_BOX = "BoxedBoolean";
    private static final Set<String> LISTS =
            Set.of("Collection", "AbstractCollection", "Iterable", "List", "AbstractList", "ArrayList",
            "LinkedList", "Vector", "Stack", "Queue", "Deque", "ArrayDeque");
    private static final Set<String> SETS = Set.of("Set", "AbstractSet", "HashSet");
    private static final Set<String> SORTED = Set.of("SortedSet", "NavigableSet", "TreeSet");
    private static final Set<String> MAPS = Set.of("Map", "AbstractMap", "HashMap", "IdentityHashMap", "Hashtable");
    private static final Set<String> SORTED_MAPS = Set.of("SortedMap", "NavigableMap", "TreeMap");
    private static final Set<String> MAY_GIVE_NULL =
            Set.of("poll", "pollFirst", "pollLast", "peek", "peekFirst", "peekLast", "get", "put",
            "remove", "putIfAbsent");

    final Program program;
    final Finitization fin;
    final Flow flow;
    final Held held;
    final Boxes boxes;
    private final Notes notes;
    /** What the finitization says of fields whose declared types don't tell. */
    private final Map<Element, String> given = new HashMap<>();
    private final Map<Element, Element> alias = new HashMap<>();
    private final Map<Element, String> bound = new HashMap<>();
    /** The members of collections that need a class of their own. */
    private final Set<String> owned = new HashSet<>();
    /** The elements of added classes; of maps the keys and the values, parted by a space. */
    private final Map<String, String> elements = new HashMap<>();
    private final Set<Object> asked = new HashSet<>();
    private boolean smallBoxes;
    private final Map<Element, ExpressionTree> loops = new HashMap<>();
    private final Set<String> boxedMembers = new HashSet<>();
    private final Map<Element, Set<Element>> linked = new HashMap<>();
    /** What stands for the variables that hold a candidate's collection, with its name. */
    private final Map<Object, String> heldRoots = new HashMap<>();

    Kinds(Program program, Finitization fin, Notes notes) {
        this.program = program;
        this.fin = fin;
        this.notes = notes;
        flow = new Flow(program);
        held = new Held(program, this, fin);
        boxes = new Boxes(program, this);
        fin.fields().forEach(this::learnField);
        held.all();
    }

    // ---- what the finitization tells

    VariableElement field(String key) {
        int dot = key.lastIndexOf('.');
        TypeElement type = dot < 0 ? null : program.classes.get(key.substring(0, dot));
        if (type == null) return null;
        return (VariableElement) type.getEnclosedElements().stream().filter(e -> e.getKind() == ElementKind.FIELD
                && e.getSimpleName().contentEquals(key.substring(dot + 1))).findFirst().orElse(null);
    }

    private void learnField(String key, List<Object> domain) {
        VariableElement field = field(key);
        if (field == null) return;
        TypeMirror type = field.asType();
        if (held.has(field)) learnMembers(field, held.fields().get(field));
        String kind = ofDomain(domain);
        if (domain.equals(List.of("null")) && type instanceof DeclaredType && kind(type).startsWith("?")) given.put(field, fin.root());
        if (kind.startsWith("?") || !isOpen(type)) return;
        boolean number = isBoxable(kind) || kind.matches("~?(int|long|boolean)\\[]");
        if (number && !type.toString().replaceAll("<.*>|\\[]", "").matches("[\\w$]+|java\\.lang\\.(Object|Comparable)|java\\.io\\.Serializable")) return;
        if (type.getKind() == TypeKind.TYPEVAR) bind(program.types.asElement(type), kind);
        else if (type instanceof ArrayType array && array.getComponentType().getKind() == TypeKind.TYPEVAR
                && kind.endsWith("[]")) {
            bind(program.types.asElement(array.getComponentType()), kind.substring(0, kind.length() - 2).replace("~", ""));
        } else if (kind(type).startsWith("?")) given.put(field, kind);
    }

    /** Learns what type parameters are from the members of a collection. */
    private void learnMembers(VariableElement field, String name) {
        List<? extends TypeMirror> arguments = held.argumentsOf(field);
        for (int i = 0; i < arguments.size(); i++) {
            String key = name + (arguments.size() == 1 ? ".*" : i == 0 ? ".key" : ".value");
            String kind = ofDomain(fin.fields().getOrDefault(key, List.of()));
            if (arguments.get(i).getKind() == TypeKind.TYPEVAR && !kind.startsWith("?")) bind(program.types.asElement(arguments.get(i)), kind);
        }
    }

    /** What the values of a domain are. */
    private String ofDomain(List<Object> domain) {
        List<String> names = Finitization.names(domain);
        if (Finitization.hasNumbers(domain)) return Finitization.hasLongs(domain) ? "long" : "int";
        if (domain.stream().anyMatch(Boolean.class::isInstance)) return "boolean";
        if (names.isEmpty()) return "?";
        if (names.get(0).endsWith("[]")) return arrayKind(names.get(0));
        return names.stream().map(program.classes::get).allMatch(Objects::nonNull) ? common(names) : "?";
    }

    /** The lowest class that all of these are. */
    private String common(List<String> names) {
        TypeElement type = program.classes.get(names.get(0));
        while (type != null && program.isOwn(type)) {
            TypeElement above = type;
            if (names.stream().allMatch(name -> program.isBelow(program.classes.get(name), above))) return kind(type.asType());
            type = program.superclass(type);
        }
        return "?";
    }

    /** What an array type that the finitization names becomes. */
    String arrayKind(String name) {
        String element = name.substring(0, name.length() - 2);
        if (element.endsWith("[]")) return arrayKind(element) + "[]";
        TypeElement type = program.classes.get(element);
        if (type != null) return kind(type.asType()) + "[]";
        if (Set.of("int", "byte", "short", "char").contains(element)) return "int[]";
        if (Set.of("long", "boolean").contains(element)) return element + "[]";
        if (Set.of("float", "double", "String", "Float", "Double").contains(element)) return "?" + name;
        List<Object> domain = fin.fields().getOrDefault(name + ".*", List.of());
        boolean number = Set.of("Integer", "Byte", "Short", "Character").contains(element);
        String kind = number ? "int" : element.equals("Long") ? "long" : element.equals("Boolean") ? "boolean" : ofDomain(domain);
        return (isPlainNumber(kind) && Finitization.hasNull(domain) ? "~" : "") + kind + "[]";
    }

    /** What the elements of arrays of objects are that become numbers: of a candidate as the finitization says, else boxes. */
    private String boxesIn(String kind) {
        if (!isBoxable(kind)) return kind;
        for (String name : fin.arrays().keySet()) {
            boolean primitive = Set.of("int", "byte", "short", "char", "long", "boolean").contains(name.substring(0, name.length() - 2));
            String counted = arrayKind(name);
            if (!primitive && (counted.equals(kind + "[]") || counted.equals("~" + kind + "[]"))) return elementOf(counted);
        }
        return boxOf(kind);
    }

    /** Numbers and truth values, which have boxes. */
    static boolean isBoxable(String kind) {
        return isPlainNumber(kind) || kind.equals("boolean");
    }

    static String boxOf(String kind) {
        return kind.equals("int") ? BOX : kind.equals("long") ? LONG_BOX : kind.equals("boolean") ? BOOLEAN_BOX : kind;
    }

    static boolean isBox(String kind) {
        return kind.equals(BOX) || kind.equals(LONG_BOX) || kind.equals(BOOLEAN_BOX);
    }

    /** The number or truth value in a box, as a kind. */
    static String unboxOf(String kind) {
        return kind.equals(BOX) ? "int" : kind.equals(LONG_BOX) ? "long" : kind.equals(BOOLEAN_BOX) ? "boolean" : kind;
    }

    /** An int, or a box of one. */
    static boolean isInt(String kind) {
        return unboxOf(kind).equals("int");
    }

    /** A number of either width, or a box of one. */
    static boolean isNumber(String kind) {
        return isPlainNumber(unboxOf(kind));
    }

    /** A number of either width that is no box. */
    static boolean isPlainNumber(String kind) {
        return kind.equals("int") || kind.equals("long");
    }

    /** The number that null is where a candidate has it among numbers or truth values. */
    static Number none(String kind) {
        return kind.equals("~long") ? (Number) Long.MIN_VALUE : (Number) Integer.MIN_VALUE;
    }

    /** What follows the name of an added method, of which there is one for ints, one for longs and one for truth values. */
    static String suffix(String kind) {
        return unboxOf(read(kind)).equals("long") ? "Long" : unboxOf(read(kind)).equals("boolean") ? "Truth" : "";
    }

    static boolean isEnum(String kind) {
        return kind.startsWith("#") && !kind.endsWith("]");
    }

    /** How a kind is written. */
    static String printed(String kind) {
        return kind.replaceAll("#[\\p{L}\\p{N}_$]+", "int").replace("~boolean", "int").replace("~", "");
    }

    boolean countsArray(String kind) {
        return fin.arrays().entrySet().stream()
                .anyMatch(entry -> !Long.valueOf(0).equals(entry.getValue().get("count"))
                && printed(arrayKind(entry.getKey())).equals(printed(kind)));
    }

    /** Says what a parameter is that the sources declare as Object. */
    void give(VariableElement parameter, String kind) {
        if (kind(parameter.asType()).startsWith("?")) given.put(parameter, kind);
    }

    // ---- type parameters

    private void bind(Element parameter, String kind) {
        Element root = root(parameter);
        String before = bound.putIfAbsent(root, kind);
        if (before != null && !before.equals(kind) && program.isOwn(parameter)) {
            notes.refuse(program.place(program.trees.getTree(Program.classOf(parameter))),
                    "`" + parameter + "` is both " + before + " and " + kind,
                    "write a class for each");
        }
    }

    private Element root(Element parameter) {
        while (alias.containsKey(parameter)) parameter = alias.get(parameter);
        return parameter;
    }

    private void join(Element left, Element right) {
        Element a = root(left);
        Element b = root(right);
        if (a.equals(b)) return;
        String kind = bound.remove(a);
        alias.put(a, b);
        if (kind != null) bind(b, kind);
    }

    /** Whether a type parameter stands for numbers of a small type, whose boxes equal no Integer. */
    boolean hasSmallBoxes() {
        return smallBoxes;
    }

    /** Learns from the arguments of a type what the parameters of the sources' classes are. */
    void learn(TypeMirror type) {
        if (type instanceof ArrayType array) learn(array.getComponentType());
        if (!(type instanceof DeclaredType declared)) return;
        TypeElement element = (TypeElement) declared.asElement();
        for (int i = 0; i < declared.getTypeArguments().size(); i++) {
            TypeMirror argument = declared.getTypeArguments().get(i);
            learn(argument);
            smallBoxes |= argument.toString().matches("java\\.lang\\.(Character|Byte|Short)");
            if (program.isOwn(element)) meet(element.getTypeParameters().get(i), argument);
        }
        if (declared.getEnclosingType().getKind() == TypeKind.DECLARED) learn(declared.getEnclosingType());
    }

    private void meet(Element parameter, TypeMirror argument) {
        if (argument.getKind() == TypeKind.TYPEVAR && program.isOwn(program.types.asElement(argument)))
                join(parameter, program.types.asElement(argument));
        else if (argument.getKind() != TypeKind.TYPEVAR && !kind(argument).startsWith("?")) bind(parameter, kind(argument));
    }

    /** Learns what the type parameters of a generic method are where it is called. */
    void learn(ExecutableElement method, List<? extends ExpressionTree> arguments) {
        for (int i = 0; i < Math.min(arguments.size(), method.getParameters().size()); i++) {
            TypeMirror type = method.getParameters().get(i).asType();
            String kind = of(arguments.get(i));
            boolean array = type instanceof ArrayType && kind.endsWith("[]");
            if (array) type = ((ArrayType) type).getComponentType();
            Element parameter = type.getKind() == TypeKind.TYPEVAR ? program.types.asElement(type) : null;
            if (parameter == null || parameter.getEnclosingElement() != method || kind.startsWith("?") || kind.equals("null"))
                    continue;
            bind(parameter, array ? elementOf(kind) : kind);
        }
    }

    // ---- kinds of types

    String kind(TypeMirror type) {
        switch (type.getKind()) {
            case BOOLEAN: return "boolean";
            case INT: case SHORT: case BYTE: case CHAR: return "int";
            case LONG: return "long";
            case VOID: return "void";
            case NULL: return "null";
            case ARRAY:
                TypeMirror component = ((ArrayType) type).getComponentType();
                String element = kind(component);
                return (component.getKind().isPrimitive() ? element : boxesIn(element)) + "[]";
            case DECLARED: return declared((DeclaredType) type);
            case TYPEVAR: return variable((TypeVariable) type);
            case WILDCARD:
                WildcardType wild = (WildcardType) type;
                return wild.getExtendsBound() != null ? kind(wild.getExtendsBound()) : wild.getSuperBound() != null
                        ? kind(wild.getSuperBound()) : "?";
            case UNION: return kind(((UnionType) type).getAlternatives().get(0));
            case INTERSECTION: return kind(((IntersectionType) type).getBounds().get(0));
            default: return "?" + type;
        }
    }

    private String variable(TypeVariable type) {
        Element parameter = type.asElement();
        String kind = bound.get(root(parameter));
        if (kind != null) return kind;
        TypeMirror bound = type.getUpperBound();
        String above = bound.getKind() == TypeKind.TYPEVAR || program.isOwn(program.types.asElement(bound)) ? kind(bound) : "?";
        return above.startsWith("?") ? "?" + parameter.getSimpleName() : above;
    }

    private String declared(DeclaredType type) {
        TypeElement element = (TypeElement) type.asElement();
        String name = element.getSimpleName().toString();
        if (program.isOwn(element)) {
            return element.getKind() == ElementKind.ENUM ? "#" + name : program.nameOf(element);
        }
        String thrown = Thrown.nearest(program, element);
        if (thrown != null) return thrown;
        String whole = element.getQualifiedName().toString();
        if (Set.of("java.lang.Integer", "java.lang.Short", "java.lang.Byte", "java.lang.Character").contains(whole))
                return "int";
        if (whole.equals("java.lang.Long")) return "long";
        if (whole.equals("java.lang.Boolean")) return "boolean";
        List<String> arguments = type.getTypeArguments().stream().map(this::member).toList();
        if (!whole.matches("java\\.(util|lang)\\..*") || arguments.isEmpty()) return "?" + name;
        Optional<String> missing = arguments.stream().filter(kind -> kind.startsWith("?")).findFirst();
        if (missing.isPresent() && !name.equals("Comparable")) return missing.get();
        if (whole.equals("java.util.Optional")) return boxOf(arguments.get(0));
        if (LISTS.contains(name)) return list(arguments.get(0));
        if (SETS.contains(name))
                return isOwned(arguments.get(0)) ? added("SetOf", arguments.get(0)) : "HashSet<" + arguments.get(0) + ">";
        if (name.equals("LinkedHashSet")) return added("LinkedSetOf", arguments.get(0));
        if (SORTED.contains(name)) return added("SortedSetOf", arguments.get(0));
        if (name.equals("Iterator")) return added("IteratorOf", arguments.get(0));
        if (name.equals("LinkedHashMap")) return pair("LinkedMap", arguments);
        if (SORTED_MAPS.contains(name)) return pair("SortedMap", arguments);
        if (MAPS.contains(name)) return pair("Map", arguments);
        return whole.equals("java.util.Map.Entry") ? pair("Pair", arguments) : "?" + name;
    }

    /** The kind of a collection's members. */
    String member(TypeMirror type) {
        String kind = kind(type);
        return boxedMembers.contains(kind) ? boxOf(kind) : kind;
    }

    String list(String element) {
        return isOwned(element) ? added("ListOf", element) : "LinkedList<" + element + ">";
    }

    String added(String prefix, String element) {
        String name = prefix + part(element);
        elements.put(name, element);
        return name;
    }

    private String pair(String prefix, List<String> kinds) {
        String name = prefix + "Of" + part(kinds.get(0)) + "To" + part(kinds.get(1));
        elements.put(name, kinds.get(0) + " " + kinds.get(1));
        return name;
    }

    /** A kind within the name of an added class, which is none of the sources'. */
    String part(String kind) {
        String name = mangled(kind);
        while (isTaken(name)) name += "2";
        return name;
    }

    /** Members within the names of the classes of a candidate's collection, which no other has. */
    String heldPart(List<String> members) {
        String wanted = "Held" + members.stream().map(Kinds::mangled).collect(java.util.stream.Collectors.joining("To"));
        String name = wanted;
        for (int i = 2; isTaken(name) || program.classes.containsKey(name) || elements.containsKey("ListOf" + name) || elements.containsKey("MapOf" + name); i++) name = wanted + i;
        return name;
    }

    /** Says what the members of a candidate's collection are, by the names of its classes. */
    void register(Held.One one) {
        String members = String.join(" ", one.members());
        for (String prefix : one.isMap() ? List.of("MapOf", "PairOf") : List.of("ListOf", "SetOf", "DequeOf", "IteratorOf")) elements.put(prefix + one.part(), members);
        elements.put(one.kind(), members);
    }

    /** The class of a collection's cells. */
    String cellOf(String kind) {
        return kind.endsWith(">") ? "CellOf" + part(elementOf(kind)) : (isMap(kind) ? "PairOf" : "CellOf") + partOf(kind);
    }

    /** What is behind the prefix of an added class. */
    static String partOf(String kind) {
        return kind.replaceFirst("^(Sorted|Linked)?(List|Set|Map|Deque|Cell|Pair|Iterator)Of", "");
    }

    private boolean isTaken(String part) {
        return program.classes.keySet().stream().anyMatch(name ->
                name.matches("(List|(Linked|Sorted)?(Set|Map)|Deque|Cell|Pair|Iterator|Array|Slot)Of" + java.util.regex.Pattern.quote(part)));
    }

    static String mangled(String kind) {
        String name = kind.replace("[]", "Array").replaceAll("[^\\p{L}\\p{N}_$]", "");
        return Character.toUpperCase(name.charAt(0)) + name.substring(1);
    }

    /** Whether collections of these members need a class of their own. */
    boolean isOwned(String element) {
        return owned.contains(element) || isBoxable(element) || isBox(element) || isEnum(element) || element.contains("<") || hasEquals(element)
                || program.classes.containsKey("HashSet") || program.classes.containsKey("LinkedList");
    }

    boolean own(String element) {
        return owned.add(element);
    }

    boolean hasEquals(String kind) {
        TypeElement type = program.classes.get(kind);
        return type != null && program.equality(type) != null;
    }

    /** The elements of an array or a collection. */
    String elementOf(String kind) {
        if (kind.endsWith("[]")) return kind.substring(0, kind.length() - 2);
        if (kind.endsWith(">")) return kind.substring(kind.indexOf('<') + 1, kind.length() - 1);
        return elements.getOrDefault(kind, "?");
    }

    boolean isAdded(String kind) {
        return elements.containsKey(kind);
    }

    /** A kind as it is written outside its class, with the names of outer classes. */
    String qualified(String whole) {
        String kind = printed(whole);
        TypeElement type = program.classes.get(kind.replace("[]", ""));
        boolean nested = type != null && Program.outermost(type) != type;
        return nested ? Program.outermost(type).getSimpleName() + "." + kind : kind;
    }

    boolean isList(String kind) {
        return kind.endsWith(">") || isAdded(kind) && kind.matches("(List|(Sorted|Linked)?Set)Of.*");
    }

    boolean isMap(String kind) {
        return isAdded(kind) && kind.matches("(Sorted|Linked)?MapOf.*");
    }

    // ---- kinds of variables, results and expressions

    String of(Element element) {
        if (element instanceof ExecutableElement method && program.recordField(method) != null) return read(of(program.recordField(method)));
        Held.One collection = heldBy(element);
        if (collection != null) return collection.kind();
        TypeMirror type = element instanceof ExecutableElement method ? method.getReturnType() : element.asType();
        String kind = given.containsKey(element) ? given.get(element) : kind(type);
        if (kind.endsWith("[]") && flow.isScratch((Object) element)) return scratch(kind, type);
        if (kind.startsWith("PairOf") && loops.containsKey(element)) return pairOf(loops.get(element), kind);
        if (kind.startsWith("?") && isOpen(type) || kind.matches("(Iterator|Pair)Of.*")) return inferred(element, kind);
        if (!isBoxable(kind) || type.getKind().isPrimitive()) return kind;
        if (element.getKind() == ElementKind.FIELD && fin.counts(program, Program.classOf(element)))
                return mayBeNullInCandidates(element) ? "~" + kind : kind;
        return isNullable(element) ? boxOf(kind) : kind;
    }

    /** The class of the pairs that a loop over a map's entries goes through. */
    private String pairOf(ExpressionTree over, String declared) {
        ExpressionTree map = Program.bare(over) instanceof MethodInvocationTree call ? receiver(call) : null;
        String kind = map == null ? "?" : of(map);
        return isMap(kind) ? "PairOf" + partOf(kind) : declared;
    }

    // ---- the collections of candidates

    /** Finds the variables that hold the collections of candidates' fields, once it is known what flows where. */
    void settleHeld() {
        held.fields().forEach((field, name) -> {
            String other = heldRoots.putIfAbsent(flow.root(field), name);
            if (other != null && !other.equals(name)) notes.refuse(program.place(program.trees.getTree(field)),
                    "the collections " + other + " and " + name + " meet in one variable", "use a variable for each, or one name in the finitization");
        });
    }

    /** The collection of candidates that a variable holds, or null. */
    Held.One heldBy(Element element) {
        if (element instanceof VariableElement field && held.has(field)) return held.of(field);
        String name = heldRoots.isEmpty() ? null : heldRoots.get(flow.root(element));
        return name == null ? null : held.of(name);
    }

    /** The collection of candidates that an expression may be, or null. */
    Held.One heldBy(ExpressionTree tree) {
        String name = heldRoots.isEmpty() ? null : heldRoots.get(flow.root(tree));
        return name == null ? null : held.of(name);
    }

    /** Whether the type of a variable says less than what comes into it. */
    private boolean isOpen(TypeMirror type) {
        if (type.getKind() == TypeKind.TYPEVAR || type.getKind() == TypeKind.WILDCARD) return true;
        if (type instanceof ArrayType array) return isOpen(array.getComponentType());
        return type instanceof DeclaredType && !type.toString().matches("java\\.lang\\.(String|Float|Double|Number|CharSequence)");
    }

    private boolean mayBeNullInCandidates(Element field) {
        String key = Program.classOf(field).getSimpleName() + "." + field.getSimpleName();
        return Finitization.hasNull(fin.fields().getOrDefault(key, List.of())) || isNullIn(field);
    }

    /** Whether code writes null into a field whose domain has none. */
    private boolean isNullIn(Element field) {
        if (!asked.add(field)) return false;
        try {
            return flowingInto(field).stream().anyMatch(this::mayBeNull);
        } finally {
            asked.remove(field);
        }
    }

    /** Whether null is among numbers in a domain, of this kind where one is said. */
    boolean hasNone(String wanted) {
        return fin.fields().keySet().stream().map(this::kindOfKey).anyMatch(kind -> wanted.isEmpty() ? kind.startsWith("~") : kind.equals(wanted));
    }

    /** What the values of a key of the finitization are. */
    private String kindOfKey(String key) {
        if (key.endsWith("[].*")) return elementOf(arrayKind(key.substring(0, key.length() - 2)));
        return field(key) == null ? "?" : of(field(key));
    }

    /** Says that a loop over an expression gives a variable its elements. */
    void loop(Element variable, ExpressionTree over) {
        loops.put(variable, over);
    }

    /** Says that collections of numbers or truth values may have null among their members. */
    void boxMembers(String kind) {
        boxedMembers.add(kind);
    }

    /** Whether a place of a candidate holds a number or truth value that may be null. */
    static boolean isStored(String kind) {
        return kind.equals("~int") || kind.equals("~long") || kind.equals("~boolean");
    }

    /** What reading a place of a kind gives. */
    static String read(String kind) {
        return isStored(kind) ? boxOf(kind.substring(1)) : kind;
    }

    /** The class of an array of the predicate's own: its elements begin as Java's do. */
    String scratch(String array, TypeMirror type) {
        TypeMirror component = type instanceof ArrayType whole ? whole.getComponentType() : null;
        String element = elementOf(array);
        if (element.endsWith("[]")) return added("ArrayOf", scratch(element, component));
        return added("ArrayOf", component != null && !component.getKind().isPrimitive() ? boxOf(element.replace("~", "")) : element);
    }

    private String inferred(Element element, String declared) {
        if (!asked.add(element)) return declared;
        try {
            for (ExpressionTree from : flowingInto(element)) {
                String kind = of(from);
                if (!kind.startsWith("?") && !kind.equals("null")) return kind;
            }
            return declared;
        } finally {
            asked.remove(element);
        }
    }

    /** Whether null may come into a variable or result whose other values are numbers. */
    private boolean isNullable(Element element) {
        if (loops.containsKey(element) && isBox(elementOf(of(loops.get(element))))) return true;
        if (element.getKind() == ElementKind.FIELD) return !element.getModifiers().contains(Modifier.STATIC);
        if (!asked.add(element)) return false;
        try {
            return flowingInto(element).stream().anyMatch(this::mayBeNull);
        } finally {
            asked.remove(element);
        }
    }

    private boolean mayBeNull(ExpressionTree tree) {
        String kind = of(tree);
        return kind.equals("null") || isBox(kind);
    }

    /** What flows into a variable or result, or into one of a method that overrides its method or is overridden by it. */
    List<ExpressionTree> flowingInto(Element element) {
        List<ExpressionTree> result = new ArrayList<>();
        for (Element one : linked.getOrDefault(element, Set.of(element))) result.addAll(flow.into(one));
        return result;
    }

    java.util.Collection<Set<Element>> linked() {
        return linked.values();
    }

    /** Says that a method overrides another, so that their parameters and results have one kind. */
    void link(ExecutableElement method, ExecutableElement above) {
        link((Element) method, (Element) above);
        for (int i = 0; i < method.getParameters().size(); i++) link(method.getParameters().get(i), above.getParameters().get(i));
    }

    void link(Element a, Element b) {
        Set<Element> both = new LinkedHashSet<>(linked.getOrDefault(a, Set.of(a)));
        both.addAll(linked.getOrDefault(b, Set.of(b)));
        both.forEach(one -> linked.put(one, both));
    }

    String of(ExpressionTree tree) {
        return read(placeOf(tree));
    }

    /** The kind of an expression, or of the place that it is. */
    String placeOf(ExpressionTree tree) {
        ExpressionTree bare = Program.bare(tree);
        if (bare instanceof AssignmentTree assignment) return of(assignment.getVariable());
        if (bare instanceof ArrayAccessTree access) return elementOf(of(access.getExpression()));
        if (bare instanceof ConditionalExpressionTree choice) {
            TypeMirror type = program.type(bare);
            return type != null && type.getKind().isPrimitive() ? kind(type) : either(of(choice.getTrueExpression()), of(choice.getFalseExpression()));
        }
        if (bare instanceof MethodInvocationTree call) {
            String kind = result(call);
            return kind.endsWith("[]") && flow.isScratch(bare) ? scratch(kind, program.type(bare)) : kind;
        }
        if (bare instanceof LambdaExpressionTree lambda) return program.nameOf(lambda);
        if ((bare instanceof com.sun.source.tree.NewClassTree || bare instanceof TypeCastTree) && heldBy(bare) != null) return heldBy(bare).kind();
        if (bare instanceof NewArrayTree && flow.isScratch(bare)) return scratch(kind(program.type(bare)), program.type(bare));
        TypeMirror type = program.type(bare);
        String kind = type == null ? "?" : kind(type);
        if (bare instanceof TypeCastTree cast) {
            String from = of(cast.getExpression());
            if (type != null && type.getKind().isPrimitive()) return kind;
            return kind.startsWith("?") && isOpen(type) || boxOf(kind).equals(from) ? from : kind;
        }
        boolean named = bare instanceof IdentifierTree || bare instanceof MemberSelectTree;
        Element element = named ? program.element(bare) : null;
        if (element instanceof VariableElement variable && program.isOwn(element)
                && element.getKind() != ElementKind.ENUM_CONSTANT
                && !List.of("this", "super").contains(variable.getSimpleName().toString())) return of(element);
        return kind;
    }

    private String either(String left, String right) {
        if (left.equals("null")) return boxOf(right);
        if (right.equals("null")) return boxOf(left);
        if (isBox(left)) return left;
        if (isBox(right)) return right;
        return program.classes.containsKey(left) && program.classes.containsKey(right)
                && program.isBelow(program.classes.get(left), program.classes.get(right)) ? right : left;
    }

    ExpressionTree receiver(MethodInvocationTree call) {
        return call.getMethodSelect() instanceof MemberSelectTree select ? select.getExpression() : null;
    }

    /** The lambda that a call runs, where it is one alone that its receiver may be. */
    LambdaExpressionTree lambda(MethodInvocationTree call) {
        ExpressionTree receiver = receiver(call);
        LambdaExpressionTree lambda = receiver == null ? null : program.lambdas.get(of(receiver));
        return lambda != null && program.functionOf(lambda).getSimpleName().equals(program.element(call).getSimpleName()) ? lambda : null;
    }

    /** What a lambda gives. */
    String resultOf(LambdaExpressionTree lambda) {
        ExecutableElement function = program.functionOf(lambda);
        if (program.isOwn(function)) return of(function);
        if (function.getReturnType().getKind().isPrimitive() || function.getReturnType().getKind() == TypeKind.VOID) return kind(function.getReturnType());
        String result = "?" + function.getReturnType();
        for (ExpressionTree from : flow.into(lambda)) {
            String kind = of(from);
            result = result.startsWith("?") ? kind : either(result, kind);
        }
        return result;
    }

    /** The method of the sources that a call of a library's method comes to, as `compareTo` of Comparable. */
    ExecutableElement target(MethodInvocationTree call) {
        ExecutableElement method = (ExecutableElement) program.element(call);
        if (program.isOwn(method)) return method;
        ExpressionTree receiver = receiver(call);
        if (method == null || receiver == null || method.getModifiers().contains(Modifier.STATIC)) return null;
        TypeElement type = program.classes.get(of(receiver));
        return type == null ? null : program.overriding(type, method);
    }

    private String result(MethodInvocationTree call) {
        ExecutableElement own = target(call);
        if (own != null) return of(own);
        LambdaExpressionTree lambda = lambda(call);
        if (lambda != null) return resultOf(lambda);
        ExpressionTree receiver = receiver(call);
        ExecutableElement method = (ExecutableElement) program.element(call);
        if (method != null && receiver != null && Collected.qualified(method).equals("java.util.Optional.orElse"))
                return either(of(receiver), of(call.getArguments().get(0)));
        String declared = method == null || program.type(call) == null ? "?" : kind(program.type(call));
        if (method == null || receiver == null) return declared;
        if (Program.classOf(method).getQualifiedName().contentEquals("java.util.Objects")
                && method.getSimpleName().toString().startsWith("requireNonNull")) {
            return of(call.getArguments().get(0));
        }
        String kind = of(receiver);
        String name = method.getSimpleName().toString();
        if (isList(kind) && !kind.endsWith(">") && name.equals("iterator")) return "IteratorOf" + partOf(kind);
        if (isAdded(kind) && kind.startsWith("PairOf")) return elements.get(kind).split(" ")[name.equals("getKey") ? 0 : 1];
        if (isBoxable(declared) && !method.getReturnType().getKind().isPrimitive()) {
            String member = isMap(kind) ? elementOf(kind).replaceFirst(".* ", "") : isList(kind) || kind.startsWith("IteratorOf") ? elementOf(kind) : declared;
            if (isMap(kind) && name.endsWith("Key")) member = elementOf(kind).replaceFirst(" .*", "");
            if (isBox(member)) return member;
        }
        boolean nullable = isBoxable(declared) && !method.getReturnType().getKind().isPrimitive()
                && MAY_GIVE_NULL.contains(name) && !Program.classOf(method).getSimpleName().contentEquals("Stack");
        return nullable && (isMap(kind) || isList(kind) && !name.matches("get|remove|put.*")) ? boxOf(declared) : declared;
    }
}
