package adapt;

import com.sun.source.tree.NewClassTree;
import com.sun.source.tree.ParameterizedTypeTree;
import com.sun.source.tree.Tree;
import java.util.Set;
import javax.lang.model.element.ExecutableElement;
import javax.lang.model.type.TypeKind;

/** What is known of the library's collections. */
final class Collected {
    private static final Set<String> MAKERS =
            Set.of("java.util.List.of", "java.util.Set.of", "java.util.Arrays.asList", "java.util.Collections.singleton",
            "java.util.Collections.singletonList");

    private Collected() {}

    static String qualified(ExecutableElement method) {
        return Program.classOf(method).getQualifiedName() + "." + method.getSimpleName();
    }

    /** Whether a method makes a collection of its arguments. */
    static boolean makes(ExecutableElement method) {
        return MAKERS.contains(qualified(method));
    }

    /** Whether a method copies an array. */
    static boolean isCopy(ExecutableElement method) {
        return qualified(method).matches("java\\.util\\.Arrays\\.copyOf(Range)?")
                || method.getSimpleName().contentEquals("clone");
    }

    /** Whether a creation needs more than the subset's collections have. */
    static boolean needsOwn(NewClassTree tree) {
        String name = tree.getIdentifier() instanceof ParameterizedTypeTree type ? type.getType().toString()
                : tree.getIdentifier().toString();
        return name.matches("(.*\\.)?(ArrayDeque|LinkedHashSet|TreeSet)") || !tree.getArguments().isEmpty()
                && tree.getArguments().get(0).getKind() != Tree.Kind.INT_LITERAL;
    }

    /** Whether the subset's own collections have the method, maybe by another name. */
    static boolean isBuiltIn(ExecutableElement method, String kind) {
        String call = method.getSimpleName() + "/" + method.getParameters().size();
        boolean byIndex = !method.getParameters().isEmpty() && method.getParameters().get(0).asType().getKind() == TypeKind.INT;
        if (Set.of("add/1", "contains/1", "remove/1", "size/0", "isEmpty/0").contains(call)) return !byIndex;
        boolean list = kind.startsWith("LinkedList<");
        if (Program.classOf(method).getSimpleName().contentEquals("Stack")) return false;
        return list && Set.of("removeFirst/0", "remove/0", "pop/0", "addLast/1", "offer/1", "offerLast/1").contains(call);
    }
}
