package sources;

import com.sun.source.tree.ClassTree;
import com.sun.source.tree.CompilationUnitTree;
import com.sun.source.tree.Tree;
import com.sun.source.util.JavacTask;
import com.sun.source.util.TreePath;
import com.sun.source.util.TreePathScanner;
import com.sun.source.util.Trees;
import java.io.IOException;
import java.net.URI;
import java.nio.file.Files;
import java.nio.file.Path;
import java.util.ArrayList;
import java.util.LinkedHashMap;
import java.util.List;
import java.util.Locale;
import java.util.Map;
import javax.lang.model.element.Element;
import javax.lang.model.element.ElementKind;
import javax.lang.model.element.ExecutableElement;
import javax.lang.model.element.TypeElement;
import javax.lang.model.type.TypeKind;
import javax.lang.model.util.ElementFilter;
import javax.lang.model.util.Elements;
import javax.lang.model.util.Types;
import javax.tools.Diagnostic;
import javax.tools.DiagnosticCollector;
import javax.tools.JavaFileObject;
import javax.tools.SimpleJavaFileObject;
import javax.tools.ToolProvider;

/** Sources as javac understands them: trees with their elements, and the classes by their simple names. */
public final class Program {
    /** A file with its tree. */
    public record Source(Path file, String text, CompilationUnitTree unit) {}

    public final List<Source> sources = new ArrayList<>();
    public final Trees trees;
    public final Types types;
    public final Elements elements;
    public final Map<String, TypeElement> classes = new LinkedHashMap<>();

    private Program(JavacTask task) {
        trees = Trees.instance(task);
        types = task.getTypes();
        elements = task.getElements();
    }

    public static String textOf(Path file) throws Fault {
        try {
            return Files.readString(file);
        } catch (IOException fault) {
            throw new Fault(2, "can't read " + file);
        }
    }

    public static Program of(List<Path> files) throws Fault {
        Map<Path, String> texts = new LinkedHashMap<>();
        for (Path file : files) texts.put(file, textOf(file));
        return of(texts);
    }

    public static Program of(Map<Path, String> texts) throws Fault {
        var compiler = ToolProvider.getSystemJavaCompiler();
        if (compiler == null) throw new Fault(2, "this Java has no compiler: a JDK of version 17 or later is needed");
        DiagnosticCollector<JavaFileObject> messages = new DiagnosticCollector<>();
        List<JavaFileObject> inputs = new ArrayList<>();
        texts.forEach((file, text) -> inputs.add(new Input(file, text)));
        List<String> options = List.of("-proc:none", "-nowarn", "-Xlint:none");
        JavacTask task = (JavacTask) compiler.getTask(null, null, messages, options, null, inputs);
        Program program = new Program(task);
        try {
            var files = texts.entrySet().iterator();
            for (CompilationUnitTree unit : task.parse()) {
                var file = files.next();
                program.sources.add(new Source(file.getKey(), file.getValue(), unit));
            }
            task.analyze();
        } catch (IOException fault) {
            throw new Fault(2, "can't compile: " + fault.getMessage());
        }
        for (var message : messages.getDiagnostics()) {
            if (message.getKind() == Diagnostic.Kind.ERROR) throw errorOf(message);
        }
        program.sources.forEach(program::findClasses);
        return program;
    }

    private static Fault errorOf(Diagnostic<? extends JavaFileObject> message) {
        String place = message.getSource() instanceof Input input ? input.file + ":" + message.getLineNumber() + ": " : "";
        return new Fault(1, place + "javac says: " + message.getMessage(Locale.ENGLISH).lines().findFirst().orElse(""));
    }

    private void findClasses(Source source) {
        new TreePathScanner<Void, Void>() {
            @Override
            public Void visitClass(ClassTree tree, Void none) {
                if (trees.getElement(getCurrentPath()) instanceof TypeElement type && !tree.getSimpleName().isEmpty())
                    classes.putIfAbsent(type.getSimpleName().toString(), type);
                return super.visitClass(tree, none);
            }
        }.scan(new TreePath(source.unit), null);
    }

    /** Whether a class, field or method is one of the sources. */
    public boolean isOwn(Element element) {
        return element != null && trees.getPath(element) != null;
    }

    public boolean isBelow(TypeElement type, TypeElement above) {
        return types.isSubtype(types.erasure(type.asType()), types.erasure(above.asType()));
    }

    /** The predicate of a class, its own or inherited; none where it has none. */
    public ExecutableElement predicateOf(TypeElement type) {
        for (ExecutableElement method : ElementFilter.methodsIn(elements.getAllMembers(type))) {
            if (method.getSimpleName().contentEquals("repOk") && method.getParameters().isEmpty() && isOwn(method)
                    && method.getReturnType().getKind() == TypeKind.BOOLEAN) return method;
        }
        return null;
    }

    /** The class of this name, or the first one with a predicate that no other one's fields hold. */
    public TypeElement root(String name) throws Fault {
        if (name != null) {
            TypeElement named = classes.get(name);
            if (named == null) throw new Fault(1, "the sources have no class " + name);
            if (predicateOf(named) == null) throw new Fault(1, name + " has no `boolean repOk()`: write one");
            return named;
        }
        List<TypeElement> able = classes.values().stream().filter(type -> type.getKind() == ElementKind.CLASS)
                .filter(type -> !type.getModifiers().contains(javax.lang.model.element.Modifier.ABSTRACT))
                .filter(type -> predicateOf(type) != null).toList();
        if (able.isEmpty()) throw new Fault(1, "no class of the sources has a `boolean repOk()`: write one, which says whether an object is valid");
        return able.stream().filter(type -> able.stream().noneMatch(other -> other != type && holds(other, type)))
                .findFirst().orElse(able.get(0));
    }

    private boolean holds(TypeElement holder, TypeElement held) {
        return ElementFilter.fieldsIn(elements.getAllMembers(holder)).stream()
                .anyMatch(field -> types.isSameType(types.erasure(field.asType()), types.erasure(held.asType())));
    }

    /** The method of a class with this name, its own or inherited, that the sources have. */
    public ExecutableElement method(TypeElement type, String name) throws Fault {
        List<ExecutableElement> found = ElementFilter.methodsIn(elements.getAllMembers(type)).stream()
                .filter(method -> method.getSimpleName().contentEquals(name) && isOwn(method)).toList();
        if (found.isEmpty()) throw new Fault(1, type.getSimpleName() + " has no method " + name);
        if (found.size() > 1) throw new Fault(1, type.getSimpleName() + " has " + found.size() + " methods named " + name + ": give this one a name of its own");
        return found.get(0);
    }

    public Source sourceOf(CompilationUnitTree unit) {
        return sources.stream().filter(source -> source.unit == unit).findFirst().orElseThrow();
    }

    public int start(CompilationUnitTree unit, Tree tree) {
        return (int) trees.getSourcePositions().getStartPosition(unit, tree);
    }

    public int end(CompilationUnitTree unit, Tree tree) {
        return (int) trees.getSourcePositions().getEndPosition(unit, tree);
    }

    private static final class Input extends SimpleJavaFileObject {
        final Path file;
        private final String text;

        Input(Path file, String text) {
            super(URI.create("text:///" + file.getFileName().toString().replace(' ', '_')), Kind.SOURCE);
            this.file = file;
            this.text = text;
        }

        @Override
        public CharSequence getCharContent(boolean ignored) {
            return text;
        }
    }
}
