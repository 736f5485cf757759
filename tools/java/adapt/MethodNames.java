package adapt;

import com.sun.source.tree.MethodTree;
import java.util.Collection;
import java.util.Comparator;
import java.util.HashMap;
import java.util.List;
import java.util.Map;
import java.util.stream.Collectors;
import javax.lang.model.element.ElementKind;
import javax.lang.model.element.ExecutableElement;
import javax.lang.model.element.Modifier;
import javax.lang.model.element.TypeElement;
import javax.lang.model.type.ExecutableType;

/** The names of kept methods and of constructors that become methods. */
final class MethodNames {
    private static final Map<String,
            String> RESERVED = Map.of("equals", "isEqualTo", "hashCode", "hash", "toString", "text", "clone", "copy",
            "finalize", "end", "getClass", "type");
    private final Program program;
    private final Reach reach;
    private final Notes notes;
    private final Map<ExecutableElement, String> names = new HashMap<>();

    MethodNames(Program program, Reach reach, Notes notes) {
        this.program = program;
        this.reach = reach;
        this.notes = notes;
        List<ExecutableElement> methods = reach.kept.stream().filter(ExecutableElement.class::isInstance)
                .map(ExecutableElement.class::cast).filter(program::isOwn)
                .sorted(Comparator.comparingInt(this::rank).thenComparingInt(this::position)).toList();
        methods.forEach(this::name);
        methods.forEach(this::warnOfPrivate);
    }

    String of(ExecutableElement method) {
        return names.get(method);
    }

    Collection<String> all() {
        return names.values();
    }

    /** The predicate and the method under test keep their names. */
    private int rank(ExecutableElement method) {
        return method.equals(reach.predicate) ? 0 : method.equals(reach.tested) ? 1 : 2;
    }

    private int position(ExecutableElement method) {
        MethodTree tree = program.trees.getTree(method);
        return tree == null || program.path(tree) == null ? 0 : program.start(tree);
    }

    private static String described(ExecutableElement method) {
        return method.getSimpleName() + method.getParameters().stream()
                .map(p -> p.asType().toString().replaceAll("<[^<>]*>|[\\w.]*\\.", ""))
                .collect(Collectors.joining(", ", "(", ")"));
    }

    /** Whether a class has a constructor that becomes a method, since it has several. */
    boolean hasSeveral(TypeElement type) {
        return type.getEnclosedElements().stream()
                .filter(e -> e.getKind() == ElementKind.CONSTRUCTOR && reach.kept.contains(e)
                && (type.getKind() == ElementKind.RECORD || program.trees.getTree(e) != null)).count() > 1;
    }

    private void name(ExecutableElement method) {
        ExecutableElement above = names.keySet().stream().filter(other -> sameMethod(method, other)).findFirst().orElse(null);
        if (above != null) {
            names.put(method, names.get(above));
            return;
        }
        TypeElement type = Program.classOf(method);
        boolean constructor = method.getKind() == ElementKind.CONSTRUCTOR;
        String plain = constructor ? "init" + type.getSimpleName()
                : RESERVED.getOrDefault(method.getSimpleName().toString(), method.getSimpleName().toString());
        String wanted = isTaken(plain, type) && method.getModifiers().contains(Modifier.PRIVATE)
                && !overloaded(method) ? plain + "Of" + type.getSimpleName() : plain;
        String name = wanted;
        for (int i = 2; isTaken(name, type); i++) name = wanted + i;
        names.put(method, name);
        if (!constructor && program.isWritten(method) && !name.contentEquals(method.getSimpleName()))
                notes.changed(program.place(program.trees.getTree(method)),
                "the method " + described(method) + " is named " + name);
    }

    private boolean overloaded(ExecutableElement method) {
        return names.keySet().stream()
                .anyMatch(other -> Program.classOf(other).equals(Program.classOf(method))
                && other.getSimpleName().equals(method.getSimpleName()));
    }

    private boolean sameMethod(ExecutableElement a, ExecutableElement b) {
        return program.elements.overrides(a, b, Program.classOf(a)) || program.elements.overrides(b, a, Program.classOf(b));
    }

    private boolean isTaken(String name, TypeElement type) {
        return names.entrySet().stream()
                .anyMatch(entry -> entry.getValue().equals(name) && related(Program.classOf(entry.getKey()), type));
    }

    private boolean related(TypeElement a, TypeElement b) {
        if (program.isBelow(a, b) || program.isBelow(b, a)) return true;
        return program.classes.values().stream().anyMatch(type -> program.isBelow(type, a) && program.isBelow(type, b));
    }

    private void warnOfPrivate(ExecutableElement method) {
        if (!program.isWritten(method) || !method.getModifiers().contains(Modifier.PRIVATE) || method.getKind() == ElementKind.CONSTRUCTOR) return;
        for (ExecutableElement other : names.keySet()) {
            TypeElement below = Program.classOf(other);
            if (other == method || below.equals(Program.classOf(method)) || !program.isBelow(below, Program.classOf(method)))
                    continue;
            if (!other.getSimpleName().equals(method.getSimpleName())
                    || !program.types.isSubsignature((ExecutableType) other.asType(),
                    (ExecutableType) method.asType())) continue;
            notes.warn(program.place(program.trees.getTree(method)),
                    "in korat " + described(other) + " of " + below.getSimpleName()
                    + " would override this private method: one of them is renamed");
        }
    }
}
