package bounds;

import com.sun.source.tree.ClassTree;
import com.sun.source.tree.MethodTree;
import com.sun.source.tree.NewClassTree;
import com.sun.source.util.TreePath;
import com.sun.source.util.TreePathScanner;
import java.util.ArrayList;
import java.util.LinkedHashMap;
import java.util.LinkedHashSet;
import java.util.List;
import java.util.Map;
import java.util.Set;
import java.util.regex.Matcher;
import java.util.regex.Pattern;
import java.util.stream.Collectors;
import javax.lang.model.element.ElementKind;
import javax.lang.model.element.ExecutableElement;
import javax.lang.model.element.Modifier;
import javax.lang.model.element.TypeElement;
import javax.lang.model.element.VariableElement;
import javax.lang.model.type.ArrayType;
import javax.lang.model.type.DeclaredType;
import javax.lang.model.type.TypeKind;
import javax.lang.model.type.TypeMirror;
import javax.lang.model.util.ElementFilter;
import sources.Fault;
import sources.Program;
import sources.Reached;

/** A first finitization. Candidates are the root, and what the read fields of candidates may hold. */
final class First {
    private static final int MOST = 3;
    private static final int FUEL = 100_000;
    private static final String COUNTS = "(?i).*(size|count|length|height|depth|level|rank|degree|capacity|free|used)|n|num.*";
    private static final String PLACES = "(?i).*(head|tail|front|rear|top|first|last|index|next|prev|parent)";
    private static final String BALANCES = "(?i).*balance.*|bf";
    /** Which collection a field has whose type is none that there are objects of. */
    private static final Map<String, String> COLLECTIONS = Map.ofEntries(Map.entry("List", "ArrayList"), Map.entry("Collection", "ArrayList"),
            Map.entry("Iterable", "ArrayList"), Map.entry("Queue", "LinkedList"), Map.entry("Deque", "ArrayDeque"), Map.entry("Set", "HashSet"),
            Map.entry("SortedSet", "TreeSet"), Map.entry("Map", "HashMap"), Map.entry("SortedMap", "TreeMap"), Map.entry("Stack", "Stack"),
            Map.entry("Vector", "Vector"), Map.entry("LinkedHashSet", "LinkedHashSet"), Map.entry("LinkedHashMap", "LinkedHashMap"));
    private final Program program;
    private final TypeElement root;
    private final ExecutableElement tested;
    private final Reached reached;
    private final Set<TypeElement> candidates = new LinkedHashSet<>();
    private final Map<String, String> fields = new LinkedHashMap<>();
    private final Map<String, String> params = new LinkedHashMap<>();
    /** Array types with how many classes' fields hold one. */
    private final Map<String, Integer> arrays = new LinkedHashMap<>();
    /** Collections by their names. */
    private final Set<String> collections = new LinkedHashSet<>();
    private final List<VariableElement> open = new ArrayList<>();

    First(Program program, TypeElement root, String method) throws Fault {
        this.program = program;
        this.root = root;
        this.tested = method == null ? null : program.method(root, method);
        this.reached = new Reached(program).from(program.predicateOf(root));
        if (tested != null) reached.from(tested);
        open.addAll(reached.fields);
        add(root);
        if (tested != null) {
            for (VariableElement parameter : tested.getParameters()) {
                params.put(method + "." + parameter.getSimpleName(), domain(parameter.asType(), parameter.getSimpleName().toString()));
            }
        }
        collect();
    }

    /** Adds a class of candidates, unless it is abstract or an interface. */
    private void add(TypeElement type) {
        boolean enumerated = type.getKind() == ElementKind.ENUM;
        boolean whole = type.getKind() != ElementKind.INTERFACE && !type.getModifiers().contains(Modifier.ABSTRACT);
        if (!whole || enumerated || !candidates.add(type) || type.getKind() != ElementKind.RECORD) return;
        // Adapt keeps all components of a record.
        for (VariableElement field : ElementFilter.fieldsIn(type.getEnclosedElements())) {
            boolean component = !field.getModifiers().contains(Modifier.STATIC) && !reached.fields.contains(field);
            if (component && !open.contains(field)) open.add(field);
        }
    }

    /** Gives the read fields of candidates their domains, which adds candidates. */
    private void collect() {
        boolean more = true;
        while (more) {
            more = false;
            for (VariableElement field : List.copyOf(open)) {
                TypeElement declaring = (TypeElement) field.getEnclosingElement();
                if (candidates.stream().noneMatch(type -> program.isBelow(type, declaring))) continue;
                open.remove(field);
                more = true;
                String name = field.getSimpleName().toString();
                String collection = collectionOf(field);
                fields.put(declaring.getSimpleName() + "." + name, collection != null ? "[\"" + collection + "\"]  # `\"null\"` too, where it may be null"
                        : isTestedForNull(field) ? withNull(domain(field.asType(), name)) : domain(field.asType(), name));
            }
        }
    }

    /** Whether the source looks whether a field of a box's type, or of any, is null. */
    private boolean isTestedForNull(VariableElement field) {
        String text = program.sourceOf(program.trees.getPath(field).getCompilationUnit()).text();
        boolean any = field.asType().getKind() == TypeKind.TYPEVAR || field.asType().toString().matches("java\\.lang\\.(Integer|Long|Boolean|Object)");
        return any && Pattern.compile("\\b" + field.getSimpleName() + "\\s*[!=]=\\s*null\\b").matcher(text).find();
    }

    private static String withNull(String domain) {
        return domain.startsWith("[\"null\"") ? domain : domain.replaceFirst("\\[", "[\"null\", ").replaceFirst("  # `\"null\"` too, where it may be null", "");
    }

    /** The domain of a field or parameter, with a comment. */
    private String domain(TypeMirror type, String name) {
        if (type instanceof ArrayType array) return "[\"" + arrayOf(array) + "\"]  # `\"null\"` too, where it may be null";
        String simple = simpleName(type);
        switch (simple) {
            case "boolean", "Boolean" -> { return "[false, true]"; }
            case "byte", "short", "int", "long", "Byte", "Short" -> { return numbers(name); }
            case "char", "Character" -> { return "[{ from = 97, to = 99 }]  # 'a' to 'c'"; }
            case "float", "Float", "double", "Double" -> { return "[{ from = 0, to = 2 }]  # a " + simple + ": Adapt takes int and long alone"; }
            case "Integer", "Long" -> { return "[{ from = 1, to = 3 }]  # `\"null\"` too, where it may be null"; }
            default -> { }
        }
        if (!(program.types.asElement(type) instanceof TypeElement named)) return "[{ from = 1, to = 3 }]  # values of any type: numbers, or a class of the sources";
        if (!program.isOwn(named)) {
            boolean any = simple.equals("Object") || simple.equals("Comparable") || simple.equals("Number");
            return any ? "[{ from = 1, to = 3 }]  # values of any type: numbers, or a class of the sources"
                    : "[\"null\"]  # a " + simple + ", of which there are no candidates yet";
        }
        if (named.getKind() == ElementKind.ENUM) return "[\"" + simple + "\"]  # all constants; or some of their names";
        List<TypeElement> below = program.classes.values().stream().filter(other -> program.isBelow(other, named)).toList();
        below.forEach(this::add);
        String names = below.stream().filter(candidates::contains).map(other -> ", \"" + other.getSimpleName() + "\"").collect(Collectors.joining());
        return "[\"null\"" + names + "]";
    }

    // ---- collections

    /** The name of the collection that a field holds, whose members get a domain too; null where it holds none. */
    private String collectionOf(VariableElement field) {
        String declared = program.types.erasure(field.asType()).toString();
        if (!declared.startsWith("java.util.") || !(field.asType() instanceof DeclaredType type) || type.getTypeArguments().isEmpty()) return null;
        String made = madeFor(field);
        String simple = made != null && COLLECTIONS.containsValue(made) ? made : COLLECTIONS.getOrDefault(simpleName(type), simpleName(type));
        if (!COLLECTIONS.containsValue(simple)) return null;
        List<? extends TypeMirror> members = type.getTypeArguments();
        String name = simple + "<" + members.stream().map(this::memberName).collect(Collectors.joining(", ")) + ">";
        if (!collections.add(name)) return name;
        for (int i = 0; i < members.size(); i++) {
            String key = name + (members.size() == 1 ? ".*" : i == 0 ? ".key" : ".value");
            fields.put(key, domain(members.get(i), "element").replaceFirst("\"null\", (?=\")", ""));
        }
        return name;
    }

    private String memberName(TypeMirror type) {
        String name = type.getKind() == TypeKind.TYPEVAR ? type.toString() : program.types.erasure(type).toString();
        return name.substring(name.lastIndexOf('.') + 1);
    }

    /** The class of which the sources make a collection for a field. */
    private String madeFor(VariableElement field) {
        String text = program.sourceOf(program.trees.getPath(field).getCompilationUnit()).text();
        Matcher made = Pattern.compile("\\b" + field.getSimpleName() + "\\s*=\\s*new\\s+(?:java\\.util\\.)?(\\w+)\\s*<").matcher(text);
        return made.find() ? made.group(1) : null;
    }

    private static String numbers(String name) {
        if (name.matches(PLACES)) return "[{ from = -1, to = 3 }]";
        if (name.matches(BALANCES)) return "[{ from = -1, to = 1 }]";
        return name.matches(COUNTS) ? "[{ from = 0, to = 3 }]" : "[{ from = 0, to = 2 }]";
    }

    private String simpleName(TypeMirror type) {
        String name = program.types.erasure(type).toString();
        if (type.getKind() == TypeKind.TYPEVAR) return "a type parameter";
        return name.substring(name.lastIndexOf('.') + 1);
    }

    /** The name of an array type, whose elements get a domain too. */
    private String arrayOf(ArrayType array) {
        TypeMirror component = array.getComponentType();
        TypeMirror erased = program.types.erasure(component);
        String name = component instanceof ArrayType inner ? arrayOf(inner) : erased.toString().substring(erased.toString().lastIndexOf('.') + 1);
        if (!(component instanceof ArrayType) && component.getKind() == TypeKind.TYPEVAR && !name.equals("Object") && !name.equals("Comparable")) name = "Object";
        name += "[]";
        if (arrays.merge(name, 1, Integer::sum) == 1) {
            boolean numbers = component.getKind().isPrimitive() || component instanceof ArrayType;
            String domain = domain(component, "element");
            fields.put(name + ".*", numbers || domain.contains("null\"") ? domain : "[\"null\", " + domain.substring(1));
        }
        return name;
    }

    /** How many objects of its own a new root has: those that stay in every structure, as sentinels. */
    private int madeByRoot(TypeElement type) {
        int[] count = {0};
        new TreePathScanner<Void, Void>() {
            @Override
            public Void visitNewClass(NewClassTree creation, Void none) {
                var constructor = program.trees.getElement(getCurrentPath());
                TreePath holder = getCurrentPath();
                while (!(holder.getLeaf() instanceof MethodTree) && !(holder.getLeaf() instanceof ClassTree)) holder = holder.getParentPath();
                boolean begins = holder.getLeaf() instanceof ClassTree
                        || holder.getLeaf() instanceof MethodTree method && method.getReturnType() == null && method.getParameters().isEmpty();
                if (begins && constructor != null && constructor.getEnclosingElement() == type) count[0]++;
                return super.visitNewClass(creation, none);
            }

            @Override
            public Void visitClass(ClassTree inner, Void none) {
                return program.trees.getElement(getCurrentPath()) == root ? super.visitClass(inner, none) : null;
            }
        }.scan(program.trees.getPath(root), null);
        return type == root ? 0 : count[0];
    }

    String text() {
        StringBuilder text = new StringBuilder("# A first finitization of " + root.getSimpleName() + ", by tools/bounds: bounds of " + MOST
                + ". Raise one at a time; leave out what you don't mean.\n");
        text.append("root = \"").append(root.getSimpleName()).append("\"\n");
        text.append("fuel = ").append(FUEL).append("  # units of a run; more where a listing ends with `spent`\n[objects]\n");
        for (TypeElement type : candidates) {
            int own = madeByRoot(type);
            String why = type == root ? "  # the structure itself; more only where structures refer to others" : own > 0 ? "  # " + MOST + ", and " + own + " that a new " + root.getSimpleName() + " has" : "";
            boolean held = fields.values().stream().anyMatch(domain -> domain.contains("\"" + type.getSimpleName() + "\""));
            text.append(type.getSimpleName()).append(" = ").append(type == root ? held ? MOST : 1 : MOST + own).append(type == root && held ? "" : why).append("\n");
        }
        if (!arrays.isEmpty()) text.append("[arrays]\n");
        arrays.forEach((name, holders) -> text.append("\"").append(name).append("\" = { count = ").append(count(name))
                .append(", lengths = [{ from = 0, to = ").append(MOST).append(" }] }\n"));
        if (!collections.isEmpty()) text.append("[collections]\n");
        collections.forEach(name -> text.append("\"").append(name).append("\" = { count = ").append(count(name)).append(", sizes = [{ from = 0, to = ").append(MOST).append(" }] }\n"));
        text.append("[fields]\n");
        ordered(fields).forEach((name, domain) -> text.append("\"").append(name).append("\" = ").append(domain).append("\n"));
        if (!params.isEmpty()) text.append("[params]\n");
        params.forEach((name, domain) -> text.append("\"").append(name).append("\" = ").append(domain).append("\n"));
        return text.toString();
    }

    /** The fields as their classes declare them, and then the elements of arrays. */
    private Map<String, String> ordered(Map<String, String> domains) {
        Map<String, String> ordered = new LinkedHashMap<>();
        for (TypeElement type : program.classes.values()) {
            for (VariableElement field : ElementFilter.fieldsIn(type.getEnclosedElements())) {
                String name = type.getSimpleName() + "." + field.getSimpleName();
                if (domains.containsKey(name)) ordered.put(name, domains.get(name));
            }
        }
        domains.forEach(ordered::putIfAbsent);
        return ordered;
    }

    /** How many arrays of a type: one for each field of the root that has one, three where others have. */
    private int count(String name) {
        int count = 0;
        for (Map.Entry<String, String> entry : fields.entrySet()) {
            if (entry.getValue().contains("\"" + name + "\"")) count += entry.getKey().startsWith(root.getSimpleName() + ".") ? 1 : MOST;
        }
        return Math.min(Math.max(count, 1), 2 * MOST);
    }
}
