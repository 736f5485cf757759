package adapt;

import com.sun.source.tree.ClassTree;
import com.sun.source.tree.MethodTree;
import com.sun.source.tree.Tree;
import java.util.ArrayList;
import java.util.HashSet;
import java.util.List;
import java.util.Set;
import java.util.stream.Collectors;
import javax.lang.model.element.ElementKind;
import javax.lang.model.element.ExecutableElement;
import javax.lang.model.element.TypeElement;
import javax.lang.model.element.VariableElement;

/** Records as classes. */
final class Records {
    private final Rewriter rewriter;
    private final Expressions expressions;
    private final Program program;
    private final Kinds kinds;
    private final Reach reach;
    private final Library library;
    private final MethodNames names;
    private final Set<MethodTree> written = new HashSet<>();

    Records(Rewriter rewriter, Expressions expressions, Program program, Kinds kinds, Reach reach, Library library, MethodNames names) {
        this.rewriter = rewriter;
        this.expressions = expressions;
        this.program = program;
        this.kinds = kinds;
        this.reach = reach;
        this.library = library;
        this.names = names;
    }

    /** Whether a constructor is written already. */
    boolean isWritten(MethodTree tree) {
        return written.contains(tree);
    }

    String text(ClassTree tree, TypeElement type, boolean inner) {
        List<VariableElement> fields = Program.fieldsOf(type);
        StringBuilder text = new StringBuilder((inner ? "static " : "") + "class " + program.nameOf(type) + rewriter.superclass(tree, type) + " {");
        for (VariableElement field : fields) text.append(" ").append(rewriter.type(tree, kinds.of(field))).append(" ").append(field.getSimpleName()).append(";");
        MethodTree canonical = canonical(tree, type, fields);
        if (reach.made.contains(type)) text.append(" ").append(constructor(tree, type, fields, canonical));
        for (VariableElement field : fields) text.append(accessor(tree, type, field));
        text.append(equality(tree, type, fields));
        int open = rewriter.open(program.source(tree).text(), tree);
        List<? extends Tree> members = tree.getMembers().stream().filter(member -> program.start(member) > open).toList();
        if (canonical != null) written.add(canonical);
        return text + rewriter.members(program.source(tree), open + 1, program.end(tree) - 1, members) + "}";
    }

    /** The constructor of all components where it is written, compact or not. */
    private MethodTree canonical(ClassTree tree, TypeElement type, List<VariableElement> fields) {
        for (Tree member : tree.getMembers()) {
            if (!(member instanceof MethodTree method) || program.end(method) <= program.start(method)) continue;
            if (!(program.element(method) instanceof ExecutableElement constructor) || constructor.getKind() != ElementKind.CONSTRUCTOR) continue;
            if (isCanonical(constructor, fields) && program.text(method).matches("(?s)(\\w+\\s+)*" + type.getSimpleName() + "\\s*[({].*")) return method;
        }
        return null;
    }

    private static boolean isCanonical(ExecutableElement constructor, List<VariableElement> fields) {
        return constructor.getParameters().stream().map(one -> one.asType().toString()).toList()
                .equals(fields.stream().map(one -> one.asType().toString()).toList());
    }

    private String constructor(ClassTree tree, TypeElement type, List<VariableElement> fields, MethodTree written) {
        ExecutableElement element = type.getEnclosedElements().stream().filter(one -> one.getKind() == ElementKind.CONSTRUCTOR)
                .map(ExecutableElement.class::cast).filter(one -> isCanonical(one, fields)).findFirst().orElseThrow();
        boolean method = names.hasSeveral(type);
        String name = method ? program.nameOf(type) + " " + names.of(element) : program.nameOf(type);
        if (method && names.of(element) == null) return "";
        StringBuilder text = new StringBuilder(name + "(" + element.getParameters().stream()
                .map(one -> rewriter.type(tree, kinds.of(one)) + " " + one.getSimpleName()).collect(Collectors.joining(", ")) + ") { ");
        boolean compact = written == null || !program.source(written).text().substring(program.start(written), program.start(written.getBody())).contains("(");
        if (written != null) text.append(rewriter.of(written.getBody())).append(" ");
        for (int i = 0; compact && i < fields.size(); i++) {
            String field = fields.get(i).getSimpleName().toString();
            text.append("this.").append(field).append(" = ").append(expressions.converted(field, kinds.of(element.getParameters().get(i)), kinds.of(fields.get(i)))).append("; ");
        }
        return text.append(method ? "return this; }" : "}").toString();
    }

    private String accessor(ClassTree tree, TypeElement type, VariableElement field) {
        ExecutableElement accessor = program.method(type, field.getSimpleName().toString(), 0);
        if (accessor == null || !reach.kept.contains(accessor) || program.recordField(accessor) == null) return "";
        String read = expressions.read(field.getSimpleName().toString(), kinds.of(field));
        return " " + rewriter.type(tree, kinds.of(accessor)) + " " + names.of(accessor) + "() { return "
                + (kinds.held.has(field) ? expressions.wholeness.read(kinds.held.of(field), read) : read) + "; }";
    }

    /** The `equals` that a record has of itself. */
    private String equality(ClassTree tree, TypeElement type, List<VariableElement> fields) {
        ExecutableElement equals = program.equality(type);
        if (equals == null || !reach.kept.contains(equals) || program.isWritten(equals)) return "";
        List<String> tests = new ArrayList<>();
        for (VariableElement field : fields) {
            String kind = kinds.of(field);
            String a = field.getSimpleName().toString();
            String b = "other." + a;
            if (kinds.isList(kind) || kinds.isMap(kind)) rewriter.refused(tree, "a record that is compared by a collection", "declare its `equals`");
            if (kinds.hasEquals(kind)) tests.add(library.method("areEqual@", kind, "(a == b || a != null && " + expressions.equality(kind) + ")") + "(" + a + ", " + b + ")");
            else if (Kinds.isBox(kind)) tests.add(expressions.equality(kind).replaceAll("\\(a, b\\)", "(" + a + ", " + b + ")"));
            else tests.add(a + " == " + b);
        }
        String name = program.nameOf(type);
        return " boolean " + names.of(equals) + "(" + name + " other) { return other != null" + tests.stream().map(test -> " && " + test)
                .collect(Collectors.joining()) + "; }";
    }
}
