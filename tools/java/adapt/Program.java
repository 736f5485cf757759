package adapt;

import com.sun.source.tree.ClassTree;
import com.sun.source.tree.CompilationUnitTree;
import com.sun.source.tree.ExpressionTree;
import com.sun.source.tree.LambdaExpressionTree;
import com.sun.source.tree.LineMap;
import com.sun.source.tree.MethodTree;
import com.sun.source.tree.NewClassTree;
import com.sun.source.tree.ParenthesizedTree;
import com.sun.source.tree.Tree;
import com.sun.source.tree.VariableTree;
import com.sun.source.util.JavacTask;
import com.sun.source.util.SourcePositions;
import com.sun.source.util.TreePath;
import com.sun.source.util.TreePathScanner;
import com.sun.source.util.Trees;
import java.io.IOException;
import java.net.URI;
import java.nio.file.Path;
import java.util.ArrayList;
import java.util.HashMap;
import java.util.HashSet;
import java.util.IdentityHashMap;
import java.util.Iterator;
import java.util.LinkedHashMap;
import java.util.List;
import java.util.Locale;
import java.util.Map;
import java.util.Set;
import java.util.regex.Matcher;
import java.util.regex.Pattern;
import javax.lang.model.element.Element;
import javax.lang.model.element.ElementKind;
import javax.lang.model.element.ExecutableElement;
import javax.lang.model.element.Modifier;
import javax.lang.model.element.TypeElement;
import javax.lang.model.element.VariableElement;
import javax.lang.model.type.TypeKind;
import javax.lang.model.type.TypeMirror;
import javax.lang.model.util.Elements;
import javax.lang.model.util.Types;
import javax.tools.Diagnostic;
import javax.tools.DiagnosticCollector;
import javax.tools.JavaCompiler;
import javax.tools.JavaFileObject;
import javax.tools.SimpleJavaFileObject;
import javax.tools.ToolProvider;

/** The sources, as the compiler understands them. */
final class Program {
    /** A file with its tree. */
    record Source(String name, String text, CompilationUnitTree unit) {}

    final List<Source> sources = new ArrayList<>();
    final Trees trees;
    final Types types;
    final Elements elements;
    /** The classes of the sources by their simple names, in order. */
    final Map<String, TypeElement> classes = new LinkedHashMap<>();
    /** Every name that stands in the sources. */
    final Set<String> names = new HashSet<>();
    private final SourcePositions positions;
    private final Map<Tree, TreePath> paths = new IdentityHashMap<>();
    private final Map<Element, VariableTree> declarations = new HashMap<>();
    private final Map<Element, String> given = new LinkedHashMap<>();
    /** The lambdas of the sources by the names of the classes that they become. */
    final Map<String, LambdaExpressionTree> lambdas = new LinkedHashMap<>();
    private final Map<Tree, String> lambdaNames = new LinkedHashMap<>();

    private Program(JavacTask task) {
        trees = Trees.instance(task);
        types = task.getTypes();
        elements = task.getElements();
        positions = trees.getSourcePositions();
    }

    static Program compile(Map<String, String> texts) throws Fault {
        JavaCompiler compiler = ToolProvider.getSystemJavaCompiler();
        if (compiler == null) throw new Fault(2, "this Java has no compiler: a JDK is needed");
        DiagnosticCollector<JavaFileObject> found = new DiagnosticCollector<>();
        List<JavaFileObject> files = new ArrayList<>();
        texts.forEach((name, text) -> files.add(new TextFile(name, text)));
        JavacTask task = (JavacTask) compiler.getTask(null, null, found, List.of("-proc:none", "-Xlint:none"), null, files);
        try {
            Program program = new Program(task);
            Iterator<Map.Entry<String, String>> entries = texts.entrySet().iterator();
            for (CompilationUnitTree unit : task.parse()) {
                Map.Entry<String, String> entry = entries.next();
                program.sources.add(new Source(entry.getKey(), entry.getValue(), unit));
            }
            task.analyze();
            refuseErrors(found);
            program.sources.forEach(program::index);
            program.index();
            return program;
        } catch (IOException e) {
            throw new Fault(2, "can't compile: " + e.getMessage());
        }
    }

    private static void refuseErrors(DiagnosticCollector<JavaFileObject> found) throws Fault {
        for (Diagnostic<? extends JavaFileObject> diagnostic : found.getDiagnostics()) {
            if (diagnostic.getKind() != Diagnostic.Kind.ERROR) continue;
            String file = diagnostic.getSource() == null ? "" : ((TextFile) diagnostic.getSource()).name + ":";
            String message = diagnostic.getMessage(Locale.ENGLISH).lines().findFirst().orElse("");
            throw new Fault(1, file + diagnostic.getLineNumber() + ":" + diagnostic.getColumnNumber() + ": javac says: "
                    + message);
        }
    }

    private static final class TextFile extends SimpleJavaFileObject {
        final String name;
        private final String text;

        TextFile(String name, String text) {
            super(URI.create("text:///" + Path.of(name).getFileName().toString().replace(' ', '_')), Kind.SOURCE);
            this.name = name;
            this.text = text;
        }

        @Override
        public CharSequence getCharContent(boolean ignored) {
            return text;
        }
    }

    private void index(Source source) {
        new TreePathScanner<Void, Void>() {
            @Override
            public Void scan(Tree tree, Void nothing) {
                if (tree != null) paths.put(tree,
                        new TreePath(getCurrentPath() == null ? new TreePath(source.unit) : getCurrentPath(), tree));
                return super.scan(tree, nothing);
            }

            @Override
            public Void visitClass(ClassTree tree, Void nothing) {
                if (element(tree) instanceof TypeElement type) {
                    if (tree.getSimpleName().isEmpty()) given.put(type, "");
                    else classes.putIfAbsent(type.getSimpleName().toString(), type);
                }
                return super.visitClass(tree, nothing);
            }

            @Override
            public Void visitVariable(VariableTree tree, Void nothing) {
                if (element(tree) != null) declarations.put(element(tree), tree);
                return super.visitVariable(tree, nothing);
            }

            @Override
            public Void visitLambdaExpression(LambdaExpressionTree tree, Void nothing) {
                lambdaNames.put(tree, "");
                return super.visitLambdaExpression(tree, nothing);
            }
        }.scan(new TreePath(source.unit), null);
    }

    private void index() {
        for (Source source : sources) {
            Matcher words = Pattern.compile("[\\p{L}_$][\\p{L}\\p{N}_$]*").matcher(source.text);
            while (words.find()) names.add(words.group());
        }
        for (Element type : List.copyOf(given.keySet())) {
            List<? extends TypeMirror> faces = ((TypeElement) type).getInterfaces();
            TypeMirror above = faces.isEmpty() ? ((TypeElement) type).getSuperclass() : faces.get(0);
            String name = freshName(types.asElement(above).getSimpleName() + "1");
            given.put(type, name);
            classes.put(name, (TypeElement) type);
        }
        for (Tree lambda : List.copyOf(lambdaNames.keySet())) {
            Element face = type(lambda) == null ? null : types.asElement(type(lambda));
            String name = freshName((face == null ? "Function" : face.getSimpleName()) + "1");
            lambdaNames.put(lambda, name);
            lambdas.put(name, (LambdaExpressionTree) lambda);
        }
    }

    /** A name that stands nowhere in the sources, made of a given one, and from now on taken. */
    String freshName(String wanted) {
        String name = wanted;
        for (int i = 2; !names.add(name); i++) name = wanted + i;
        return name;
    }

    /** The name of a class, which an anonymous one gets. */
    String nameOf(TypeElement type) {
        return given.getOrDefault(type, type.getSimpleName().toString());
    }

    String nameOf(LambdaExpressionTree lambda) {
        return lambdaNames.get(lambda);
    }

    /** The tree of a local variable. */
    Tree declaration(Element variable) {
        return declarations.get(variable);
    }

    /** Whether a class is declared within a method. */
    boolean isLocal(ClassTree tree) {
        Tree around = parent(tree);
        return !(around instanceof ClassTree) && !(around instanceof CompilationUnitTree);
    }

    /** The class within a method of which a creation makes an object, or null. */
    ClassTree localClass(NewClassTree tree) {
        if (tree.getClassBody() != null) return tree.getClassBody();
        ClassTree made = element(tree) == null ? null : trees.getTree(classOf(element(tree)));
        return made != null && isLocal(made) ? made : null;
    }

    /** The lambdas around a place within its class, the innermost first. */
    List<LambdaExpressionTree> lambdasAround(Tree tree) {
        List<LambdaExpressionTree> result = new ArrayList<>();
        for (TreePath path = paths.get(tree).getParentPath(); path != null && !(path.getLeaf() instanceof ClassTree); path = path.getParentPath())
            if (path.getLeaf() instanceof LambdaExpressionTree lambda) result.add(lambda);
        return result;
    }

    /** The one method that a lambda is. */
    ExecutableElement functionOf(LambdaExpressionTree lambda) {
        TypeElement face = (TypeElement) types.asElement(type(lambda));
        for (Element member : elements.getAllMembers(face)) {
            boolean ofObject = classOf(member).getQualifiedName().contentEquals("java.lang.Object") || member.getSimpleName().toString().matches("equals|hashCode|toString");
            if (member instanceof ExecutableElement method && member.getModifiers().contains(Modifier.ABSTRACT) && !ofObject) return method;
        }
        return null;
    }

    TreePath path(Tree tree) {
        return paths.get(tree);
    }

    Element element(Tree tree) {
        TreePath path = paths.get(tree);
        return path == null ? null : trees.getElement(path);
    }

    TypeMirror type(Tree tree) {
        TreePath path = paths.get(tree);
        return path == null ? null : trees.getTypeMirror(path);
    }

    Tree parent(Tree tree) {
        TreePath path = paths.containsKey(tree) ? paths.get(tree).getParentPath() : null;
        return path == null ? null : path.getLeaf();
    }

    Source source(Tree tree) {
        CompilationUnitTree unit = paths.get(tree).getCompilationUnit();
        return sources.stream().filter(source -> source.unit == unit).findFirst().orElseThrow();
    }

    int start(Tree tree) {
        return (int) positions.getStartPosition(paths.get(tree).getCompilationUnit(), tree);
    }

    int end(Tree tree) {
        return (int) positions.getEndPosition(paths.get(tree).getCompilationUnit(), tree);
    }

    String text(Tree tree) {
        return source(tree).text.substring(start(tree), end(tree));
    }

    String place(Tree tree) {
        Source source = source(tree);
        LineMap lines = source.unit.getLineMap();
        return source.name + ":" + lines.getLineNumber(start(tree)) + ":" + lines.getColumnNumber(start(tree));
    }

    boolean isOwn(Element element) {
        return element != null && classOf(element) != null && trees.getTree(classOf(element)) != null;
    }

    /** The class that an element is or stands in. */
    static TypeElement classOf(Element element) {
        while (element != null && !(element instanceof TypeElement)) element = element.getEnclosingElement();
        return (TypeElement) element;
    }

    static TypeElement outermost(TypeElement type) {
        while (classOf(type.getEnclosingElement()) != null) type = classOf(type.getEnclosingElement());
        return type;
    }

    TypeElement superclass(TypeElement type) {
        TypeMirror above = type.getSuperclass();
        return above.getKind() == TypeKind.DECLARED ? (TypeElement) types.asElement(above) : null;
    }

    boolean isBelow(TypeElement type, TypeElement above) {
        return types.isSubtype(types.erasure(type.asType()), types.erasure(above.asType()));
    }

    /** A method of a class or what it inherits from the sources, by name and number of parameters. */
    ExecutableElement method(TypeElement type, String name, int parameters) {
        for (Element member : elements.getAllMembers(type)) {
            if (member instanceof ExecutableElement method && method.getKind() == ElementKind.METHOD && isOwn(member)
                    && method.getSimpleName().contentEquals(name) && method.getParameters().size() == parameters) return method;
        }
        return null;
    }

    /** A method of the sources by which a class overrides one, or which it inherits: of its interfaces' methods the lowest. */
    ExecutableElement overriding(TypeElement type, ExecutableElement above) {
        for (Element member : elements.getAllMembers(type)) {
            if (overrides(member, above, type) && classOf(member).getKind() != ElementKind.INTERFACE) return (ExecutableElement) member;
        }
        ExecutableElement lowest = null;
        for (TypeElement face : classes.values()) {
            if (face.getKind() != ElementKind.INTERFACE || !isBelow(type, face)) continue;
            for (Element member : face.getEnclosedElements()) {
                if (overrides(member, above, type) && (lowest == null || isBelow(face, classOf(lowest)))) lowest = (ExecutableElement) member;
            }
        }
        return lowest;
    }

    private boolean overrides(Element member, ExecutableElement above, TypeElement type) {
        return member instanceof ExecutableElement method && method.getKind() == ElementKind.METHOD && isOwn(member) && elements.overrides(method, above, type);
    }

    /** A class's own `equals` of objects. */
    ExecutableElement equality(TypeElement type) {
        ExecutableElement equals = method(type, "equals", 1);
        boolean ofObjects = equals != null && equals.getParameters().get(0).asType().toString().equals("java.lang.Object");
        return ofObjects ? equals : null;
    }

    /** Whether a method has a text, and is none that a record has of itself. */
    boolean isWritten(ExecutableElement method) {
        MethodTree tree = trees.getTree(method);
        return tree != null && paths.containsKey(tree) && end(tree) > start(tree) && tree.getBody() != null && end(tree.getBody()) > start(tree.getBody());
    }

    /** The component that an accessor of a record gives, where the record has it of itself. */
    VariableElement recordField(ExecutableElement method) {
        TypeElement type = classOf(method);
        if (type.getKind() != ElementKind.RECORD || !method.getParameters().isEmpty() || method.getModifiers().contains(Modifier.STATIC) || isWritten(method)) return null;
        return fieldsOf(type).stream().filter(field -> field.getSimpleName().equals(method.getSimpleName())).findFirst().orElse(null);
    }

    /** The fields of objects of a class, in their order. */
    static List<VariableElement> fieldsOf(TypeElement type) {
        return type.getEnclosedElements().stream().filter(one -> one.getKind() == ElementKind.FIELD && !one.getModifiers().contains(Modifier.STATIC))
                .map(VariableElement.class::cast).toList();
    }

    /** A class's own `hashCode`. */
    ExecutableElement hashing(TypeElement type) {
        return method(type, "hashCode", 0);
    }

    /** Whether a class below this one has its own `equals`, and this one doesn't. */
    boolean isComparedBelow(TypeElement type) {
        return equality(type) == null
                && classes.values().stream().anyMatch(below -> isBelow(below, type) && equality(below) != null);
    }

    /** The method or constructor that a node stands in. */
    ExecutableElement methodAround(Tree tree) {
        for (TreePath path = paths.get(tree); path != null; path = path.getParentPath()) {
            if (path.getLeaf() instanceof MethodTree method) return (ExecutableElement) element(method);
        }
        return null;
    }

    TypeElement classAround(Tree tree) {
        for (TreePath path = paths.get(tree); path != null; path = path.getParentPath()) {
            if (path.getLeaf() instanceof ClassTree type) return (TypeElement) element(type);
        }
        return null;
    }

    static ExpressionTree bare(ExpressionTree tree) {
        while (tree instanceof ParenthesizedTree inner) tree = inner.getExpression();
        return tree;
    }

    static boolean isNull(ExpressionTree tree) {
        return bare(tree).getKind() == Tree.Kind.NULL_LITERAL;
    }
}
