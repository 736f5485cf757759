package adapt;

import com.sun.source.tree.ArrayAccessTree;
import com.sun.source.tree.BlockTree;
import com.sun.source.tree.ClassTree;
import com.sun.source.tree.CompilationUnitTree;
import com.sun.source.tree.ExpressionTree;
import com.sun.source.tree.IdentifierTree;
import com.sun.source.tree.ImportTree;
import com.sun.source.tree.LambdaExpressionTree;
import com.sun.source.tree.MemberSelectTree;
import com.sun.source.tree.MethodTree;
import com.sun.source.tree.ModifiersTree;
import com.sun.source.tree.StatementTree;
import com.sun.source.tree.Tree;
import com.sun.source.tree.VariableTree;
import com.sun.source.util.TreeScanner;
import java.util.ArrayList;
import java.util.Comparator;
import java.util.HashSet;
import java.util.List;
import java.util.Map;
import java.util.Set;
import java.util.stream.Collectors;
import javax.lang.model.element.Element;
import javax.lang.model.element.ElementKind;
import javax.lang.model.element.ExecutableElement;
import javax.lang.model.element.Modifier;
import javax.lang.model.element.TypeElement;
import javax.lang.model.element.VariableElement;
import javax.lang.model.type.DeclaredType;
import javax.lang.model.type.TypeKind;
import javax.lang.model.type.TypeMirror;

/** Writes the sources anew: each tree as it stands, but for what the subset lacks. */
final class Rewriter {
    private final Program program;
    private final Kinds kinds;
    final Reach reach;
    private final Library library;
    private final Notes notes;
    private final Outers outers;
    private final Carried carried;
    private final Records records;
    private final MethodNames names;
    private final Expressions expressions;
    private final Statements statements;
    private final List<String> hoisted = new ArrayList<>();

    Rewriter(Program program, Kinds kinds, Reach reach, Library library, Notes notes, Outers outers) {
        this.outers = outers;
        this.program = program;
        this.kinds = kinds;
        this.reach = reach;
        this.library = library;
        this.notes = notes;
        names = new MethodNames(program, reach, notes);
        library.take(names.all());
        if (reach.predicate != null) library.host = program.classes.get(kinds.fin.root());
        expressions = new Expressions(this, program, kinds, reach, library, notes, names, outers);
        carried = new Carried(this, expressions, program, kinds, reach, outers);
        records = new Records(this, expressions, program, kinds, reach, library, names);
        statements = new Statements(this, expressions, program, kinds, reach, library, notes);
    }

    // ---- texts of trees

    /** The text of a statement or an expression. */
    String of(Tree tree) {
        if (tree instanceof ClassTree local) return local(local);
        if (tree instanceof StatementTree statement) return statement.accept(statements, null);
        TypeMirror type = tree instanceof ExpressionTree ? program.type(tree) : null;
        if (type != null && Set.of(TypeKind.FLOAT, TypeKind.DOUBLE).contains(type.getKind()))
                return expressions.isDeclared((ExpressionTree) tree) ? program.text(tree) : refusedNumber(tree, type.toString());
        String text = tree.accept(expressions, null);
        boolean place = tree instanceof IdentifierTree || tree instanceof MemberSelectTree || tree instanceof ArrayAccessTree;
        if (!place) return text;
        String read = expressions.read(text, kinds.placeOf((ExpressionTree) tree));
        return kinds.held.has(program.element(tree)) ? expressions.wholeness.read(kinds.held.of((VariableElement) program.element(tree)), read) : read;
    }

    private String refusedNumber(Tree tree, String type) {
        return refused(tree, "`" + type + "` is no type of korat's", "write int or long, or keep it out of what repOk reads");
    }

    /** A tree's own text around the texts of its parts. */
    String plain(Tree tree) {
        return composed(tree, Map.of());
    }

    String composed(Tree tree, Map<Tree, String> given) {
        return composed(program.source(tree), program.start(tree), program.end(tree), parts(tree), given);
    }

    String composed(Program.Source source, int start, int end, List<? extends Tree> parts, Map<Tree, String> given) {
        StringBuilder text = new StringBuilder();
        int at = start;
        for (List<Tree> group : groups(parts)) {
            int from = program.start(group.get(0));
            int to = program.end(group.get(group.size() - 1));
            text.append(gap(source.text().substring(at, from)));
            String made = given.containsKey(group.get(0)) ? given.get(group.get(0)) : group.get(0) instanceof VariableTree
                    ? statements.variables(group) : of(group.get(0));
            text.append(padded(made, source.text().substring(from, to)));
            at = to;
        }
        return text.append(gap(source.text().substring(at, end))).toString();
    }

    /** The parts of a tree that stand in the source, in their order. */
    private List<Tree> parts(Tree tree) {
        List<Tree> found = new ArrayList<>();
        tree.accept(new TreeScanner<Void, Void>() {
            @Override
            public Void scan(Tree part, Void nothing) {
                if (part != null && program.end(part) > program.start(part)) found.add(part);
                return null;
            }
        }, null);
        found.sort(Comparator.comparingInt(program::start));
        return found;
    }

    /** Variables that are declared together stand in one group. */
    List<List<Tree>> groups(List<? extends Tree> trees) {
        List<List<Tree>> groups = new ArrayList<>();
        for (Tree tree : trees) {
            if (program.end(tree) <= program.start(tree)) continue;
            List<Tree> last = groups.isEmpty() ? null : groups.get(groups.size() - 1);
            boolean joined = last != null && tree instanceof VariableTree && last.get(0) instanceof VariableTree
                    && program.start(last.get(0)) == program.start(tree);
            if (joined) last.add(tree);
            else groups.add(new ArrayList<>(List.of(tree)));
        }
        return groups;
    }

    /** What stands between trees; a comment that would be taken for a contract gets a space. */
    static String gap(String text) {
        return text.replace("//@", "// @");
    }

    /** A text with as many lines as there were. */
    static String padded(String text, String before) {
        long missing = before.chars().filter(c -> c == '\n').count() - text.chars().filter(c -> c == '\n').count();
        return missing > 0 ? text + "\n".repeat((int) missing) : text;
    }

    String refused(Tree tree, String what, String rewrite) {
        notes.refuse(program.place(tree), what, rewrite);
        return program.text(tree);
    }

    /** A type as the subset has it. */
    String type(Tree at, String kind) {
        if (kind.startsWith("?")) return refusedType(at, kind.substring(1));
        if (kinds.isAdded(kind.replace("[]", ""))) library.need(kinds, kind.replace("[]", ""), expressions);
        if (Kinds.isBox(kind.replace("[]", ""))) library.box(kind.replace("[]", ""));
        return qualified(at, Kinds.printed(kind));
    }

    /** A nested class with its outer class's name where that is another one. */
    private String qualified(Tree at, String kind) {
        TypeElement around = program.classAround(at);
        String name = kind.endsWith(">") ? kinds.elementOf(kind) : kind;
        TypeElement type = program.classes.get(name.replace("[]", ""));
        if (type == null || around != null && Program.outermost(around) == Program.outermost(type)) return kind;
        return kind.replace(name, kinds.qualified(name));
    }

    /** A class of exceptions, as the subset has it. */
    String exception(Tree at) {
        String name = type(at, kinds.kind(program.type(at)));
        TypeElement replaced = Thrown.replaced(program, program.type(at));
        if (replaced != null) notes.changed(program.place(at), replaced.getSimpleName() + " became " + name + ", the nearest class of korat's above it");
        return name;
    }

    private String refusedType(Tree at, String type) {
        boolean ofLibrary = program.type(at) instanceof DeclaredType declared && !program.isOwn(declared.asElement());
        boolean parameter = type.length() <= 1 || Character.isUpperCase(type.charAt(0)) && !ofLibrary
                && program.elements.getTypeElement("java.lang." + type) == null
                && program.elements.getTypeElement("java.util." + type) == null && !type.contains(".");
        if (type.matches("(float|double|Float|Double)(\\[])*")) refusedNumber(at, type);
        else if (type.equals("String")) refused(at, "`String` is no type of korat's",
                "write a number or an object of a class of your own in its place");
        else if (type.equals("Object") && program.type(at) instanceof DeclaredType declared && !declared.getTypeArguments().isEmpty())
                refused(at, "a collection of `Object`", "name the class of its members");
        else if (parameter || type.matches("Object|Comparable|Number")) {
            refused(at, "nothing says what `" + type + "` is",
                    "give its values in the finitization's [fields], as [1, 2] or the name of a class of the sources");
        } else refused(at, "`" + type + "` has no place in korat", "write an array, linked nodes or a class of your own");
        return "int";
    }

    // ---- files and classes

    String source(Program.Source source) {
        CompilationUnitTree unit = source.unit();
        StringBuilder text = new StringBuilder();
        int at = 0;
        for (ImportTree tree : unit.getImports()) {
            text.append(gap(source.text().substring(at, program.start(tree))));
            String name = tree.getQualifiedIdentifier().toString();
            boolean kept = !tree.isStatic()
                    && Set.of("java.util.*", "java.util.HashSet", "java.util.LinkedList", "java.util.NoSuchElementException").contains(name);
            text.append(kept ? program.text(tree) : "");
            at = program.end(tree);
        }
        text.append(members(source, at, source.text().length(), unit.getTypeDecls()));
        return text.toString();
    }

    /** A file's text with all that was added, with the imports that it needs, and without spaces on empty lines. */
    String finished(Program.Source source, String text) {
        return withImports(text, source.unit()).replaceAll("(?m)^[ \\t]+$", "");
    }

    /** Imports of the two collections and the exception, where they were others. */
    private String withImports(String text, CompilationUnitTree unit) {
        StringBuilder imports = new StringBuilder();
        for (String name : List.of("HashSet", "LinkedList", "NoSuchElementException")) {
            boolean used = text.contains(name.endsWith("Exception") ? name : name + "<");
            if (used && !text.contains("import java.util." + name)
                    && !text.contains("import java.util.*")) imports.append("import java.util.").append(name).append("; ");
        }
        int at = unit.getPackage() == null ? 0 : program.end(unit.getPackage());
        return imports.length() == 0 ? text : text.substring(0, at) + (at > 0 ? " " : "")
                + (at > 0 ? imports.toString().strip() : imports) + text.substring(at);
    }

    /** Members, or classes of a file; the lines of those that are dropped are left empty. */
    String members(Program.Source source, int start, int end, List<? extends Tree> members) {
        StringBuilder text = new StringBuilder();
        int at = start;
        boolean keptBefore = true;
        List<? extends Tree> sorted = members.stream().sorted(Comparator.comparingInt(program::start)).toList();
        for (List<Tree> group : groups(sorted)) {
            int from = program.start(group.get(0));
            int to = program.end(group.get(group.size() - 1));
            String made = member(group);
            String gap = source.text().substring(at, from);
            boolean contract = reach.tested != null && group.get(0) == program.trees.getTree(reach.tested);
            if (contract) gap = expressions.wholeness.required(statements.clauses.contract(gap), reach.tested);
            text.append(made == null ? emptied(gap, keptBefore) : keptBefore ? contract ? gap : gap(gap)
                    : behindDropped(gap, contract));
            text.append(padded(made == null ? "" : made, source.text().substring(from, to)));
            keptBefore = made != null;
            at = to;
        }
        String rest = source.text().substring(at, end);
        return text.append(keptBefore ? gap(rest) : behindDropped(rest, false)).toString();
    }

    private static String emptied(String gap, boolean keptBefore) {
        int line = gap.indexOf('\n');
        return (keptBefore && line > 0 ? gap(gap.substring(0, line)) : "")
                + "\n".repeat((int) gap.chars().filter(c -> c == '\n').count());
    }

    private static String behindDropped(String gap, boolean contract) {
        int line = gap.indexOf('\n');
        String rest = line < 0 ? gap : gap.substring(line);
        return contract ? rest : gap(rest);
    }

    private String member(List<Tree> group) {
        Tree first = group.get(0);
        if (first instanceof ClassTree type) return type(type);
        if (first instanceof MethodTree method) return reach.kept.contains(program.element(method)) && !records.isWritten(method) ? method(method) : null;
        if (first instanceof VariableTree) return fields(group);
        if (first instanceof BlockTree block) {
            boolean runs = reach.made.contains(program.classAround(block)) && !block.isStatic() && !outers.isExtended(program.classAround(block));
            return runs ? refused(block, "an initializer block", "write it into the constructor") : null;
        }
        return "";
    }

    private boolean isKept(ClassTree tree) {
        return reach.kept.contains(program.element(tree))
                || tree.getMembers().stream().anyMatch(member -> member instanceof ClassTree inner && isKept(inner));
    }

    private String type(ClassTree tree) {
        if (!isKept(tree)) return null;
        TypeElement type = (TypeElement) program.element(tree);
        boolean inner = type.getEnclosingElement() instanceof TypeElement;
        if (reach.kept.contains(type) && program.classes.get(type.getSimpleName().toString()) != type)
                refused(tree, "two classes are named " + type.getSimpleName(), "rename one of them");
        String text = tree.getKind() == Tree.Kind.ENUM ? enumeration(tree, type, inner) : classText(tree, type, inner);
        boolean deep = inner && type.getEnclosingElement().getEnclosingElement() instanceof TypeElement;
        if (deep) {
            hoisted.add(text);
            notes.changed(program.place(tree),
                    "the class " + type.getSimpleName() + " moved out of " + type.getEnclosingElement().getSimpleName());
            return "";
        }
        if (!inner) return text;
        return text;
    }

    /** The classes that move to the end of the outermost one. */
    private String moved() {
        StringBuilder text = new StringBuilder();
        for (String one : hoisted) text.append("    ").append(one.strip()).append("\n");
        hoisted.clear();
        return text.toString();
    }

    /** A class within a method moves out of it. */
    String local(ClassTree tree) {
        TypeElement type = (TypeElement) program.element(tree);
        if (!reach.kept.contains(type)) return "";
        if (program.classes.get(program.nameOf(type)) != type) return refused(tree, "two classes are named " + program.nameOf(type), "rename one of them");
        hoisted.add(tree.getKind() == Tree.Kind.ENUM ? enumeration(tree, type, true) : classText(tree, type, true));
        return "";
    }

    /** A lambda becomes an object of a class of its own: its creation. */
    String lambda(LambdaExpressionTree tree) {
        hoisted.add(carried.lambda(tree, names));
        notes.changed(program.place(tree), "the lambda became an object of the added class " + program.nameOf(tree));
        return "new " + program.nameOf(tree) + "(" + String.join(", ", carried.arguments(tree, null)) + ")";
    }

    String kindOf(VariableTree variable) {
        return kinds.of((VariableElement) program.element(variable));
    }

    /** Declares a variable in front of the statements of the method that is written. */
    void declare(String text) {
        statements.declare(text);
    }

    Carried carried() {
        return carried;
    }

    private String classText(ClassTree tree, TypeElement type, boolean inner) {
        if (type.getKind() == ElementKind.RECORD) return records.text(tree, type, inner);
        Program.Source source = program.source(tree);
        int open = open(source.text(), tree);
        String before = source.text().substring(program.start(tree), open);
        String header = modifiers(tree.getModifiers(), inner ? "static" : "").replace("private ", "") + "class "
                + program.nameOf(type) + superclass(tree, type) + " {";
        noteHeader(tree, type, inner);
        refuseSilentSuper(tree, type);
        TypeElement above = program.superclass(type);
        if (above != null && program.isOwn(above) && outers.isExtended(above))
                refused(tree, "the superclass of " + program.nameOf(type) + " uses the object around it, or variables", "make it static, and give it what it needs");
        String added = outers.isExtended(type) ? carried.members(tree, type, reach.made.contains(type)) : "";
        String body = added + members(source, open + 1, program.end(tree) - 1, tree.getMembers());
        if (type.getNestingKind() == javax.lang.model.element.NestingKind.TOP_LEVEL) body += moved();
        boolean host = library.host != null && Program.outermost(library.host) == type;
        return leading(tree, header, before) + body + (host ? Library.PLACE : "") + "}";
    }

    /** Refuses a constructor that calls one of several of the superclass without saying so. */
    private void refuseSilentSuper(ClassTree tree, TypeElement type) {
        TypeElement above = program.superclass(type);
        if (above == null || !reach.made.contains(type) || !names.hasSeveral(above)) return;
        List<MethodTree> constructors = tree.getMembers().stream().filter(MethodTree.class::isInstance).map(MethodTree.class::cast)
                .filter(method -> method.getReturnType() == null && reach.kept.contains(program.element(method))
                        && program.end(method) > program.start(method)).toList();
        boolean said = constructors.stream().allMatch(constructor -> constructor.getBody().getStatements().stream().limit(1)
                .anyMatch(statement -> program.end(statement) > program.start(statement)
                        && program.text(statement).matches("(?s)(this|super)\\s*\\(.*")));
        if (!said || constructors.isEmpty()) refused(tree, "the superclass of " + type.getSimpleName() + " has several constructors", "give it one");
    }

    private void noteHeader(ClassTree tree, TypeElement type, boolean inner) {
        String place = program.place(tree);
        if (tree.getKind() == Tree.Kind.INTERFACE)
                notes.changed(place, "the interface " + type.getSimpleName() + " became a class");
        if (type.getKind() == ElementKind.CLASS && type.getModifiers().contains(Modifier.ABSTRACT))
                notes.changed(place, "the abstract class " + type.getSimpleName() + " became a class");
        if (!tree.getTypeParameters().isEmpty())
                notes.changed(place, "the type parameters of " + type.getSimpleName() + " are erased: " + erased(type));
        if (inner && !type.getModifiers().contains(Modifier.STATIC))
                notes.changed(place, "the class " + type.getSimpleName() + " became static");
    }

    private String erased(TypeElement type) {
        return type.getTypeParameters().stream().map(parameter -> {
            String kind = kinds.kind(parameter.asType());
            return parameter + " is " + (kind.startsWith("?") ? "not used" : kind);
        }).collect(Collectors.joining(", "));
    }

    /** The header with as many lines in front as the old one had. */
    private String leading(Tree tree, String header, String before) {
        long lines = before.chars().filter(c -> c == '\n').count();
        String text = program.source(tree).text();
        int line = text.lastIndexOf('\n', program.start(tree)) + 1;
        String indent = text.substring(line, program.start(tree));
        return lines == 0 ? header : "\n".repeat((int) lines) + (indent.isBlank() ? indent : "") + header;
    }

    private int firstBrace(String text, ClassTree tree) {
        return text.indexOf('{', Math.max(program.start(tree), program.end(tree.getModifiers())));
    }

    /** Where the brace of a class's body stands. */
    int open(String text, ClassTree tree) {
        int at = Math.max(program.start(tree), program.end(tree.getModifiers()));
        for (Tree part : parts(tree)) {
            boolean header = part instanceof VariableTree && tree.getKind() == Tree.Kind.RECORD && program.start(part) < firstBrace(text, tree)
                    || part == tree.getExtendsClause() || tree.getImplementsClause().contains(part)
                    || tree.getTypeParameters().contains(part);
            if (header) at = Math.max(at, program.end(part));
        }
        for (; text.charAt(at) != '{'; at++) {
            if (text.startsWith("//", at)) at = text.indexOf('\n', at);
            else if (text.startsWith("/*", at)) at = text.indexOf("*/", at) + 1;
        }
        return at;
    }

    String superclass(ClassTree tree, TypeElement type) {
        TypeElement above = program.superclass(type);
        List<TypeElement> interfaces = type.getInterfaces().stream().map(t -> (TypeElement) program.types.asElement(t))
                .filter(reach.kept::contains).filter(this::isUsed).toList();
        boolean own = above != null && program.isOwn(above);
        boolean thrown = above != null && !own && Thrown.nearest(program, above) != null;
        List<TypeElement> missing = interfaces.stream().filter(face -> !own || !program.isBelow(above, face))
                .filter(face -> interfaces.stream().noneMatch(other -> other != face && program.isBelow(other, face))).toList();
        if (missing.size() > 1 || (own || thrown) && !missing.isEmpty()) {
            refused(tree.getImplementsClause().isEmpty() ? tree : tree.getImplementsClause().get(0),
                    type.getSimpleName() + " would need two superclasses, " + (own || thrown ? above.getSimpleName() + ", " : "")
                    + missing, "let it extend one class");
        }
        if (own) return " extends " + above.getSimpleName();
        if (thrown) return " extends " + exception(tree.getExtendsClause());
        return missing.isEmpty() ? "" : " extends " + missing.get(0).getSimpleName();
    }

    /** Whether an interface says more than constants. */
    private boolean isUsed(TypeElement face) {
        return reach.kept.stream().anyMatch(e -> e instanceof ExecutableElement && Program.classOf(e).equals(face)
                || e instanceof VariableElement && program.types.asElement(e.asType()) == face)
                        || kinds.fin.objects().containsKey(face.getSimpleName().toString())
                        || face.getInterfaces().stream().map(above -> (TypeElement) program.types.asElement(above)).anyMatch(above -> reach.kept.contains(above) && isUsed(above));
    }

    /** Whether the members of one class are those of another by their simple names. */
    boolean seesByName(TypeElement from, TypeElement owner) {
        for (TypeElement at = from; at != null; at = Program.classOf(at.getEnclosingElement())) {
            for (TypeElement above = at; above != null && program.isOwn(above); above = program.superclass(above))
                    if (above.equals(owner)) return true;
        }
        return false;
    }

    private String enumeration(ClassTree tree, TypeElement type, boolean inner) {
        StringBuilder text =
                new StringBuilder(modifiers(tree.getModifiers(), inner ? "static" : "").replace("private ", "") + "class "
                + type.getSimpleName() + " {");
        int number = 0;
        for (Element member : type.getEnclosedElements()) {
            if (member.getKind() == ElementKind.ENUM_CONSTANT)
                    text.append(" static final int ").append(member.getSimpleName()).append(" = ").append(number++).append(";");
        }
        text.append(new Constants(this, expressions, program, kinds, reach).members(tree, type));
        notes.changed(program.place(tree), "the enum " + type.getSimpleName() + " became int constants");
        return text.append(" }").toString();
    }

    /** The modifiers that stay, and one that is added. */
    private static String modifiers(ModifiersTree tree, String added) {
        List<String> words = new ArrayList<>();
        for (Modifier modifier
                : List.of(Modifier.PUBLIC, Modifier.PROTECTED, Modifier.PRIVATE, Modifier.STATIC, Modifier.FINAL)) {
            if (tree.getFlags().contains(modifier) || modifier.toString().equals(added)) words.add(modifier.toString());
        }
        return words.isEmpty() ? "" : String.join(" ", words) + " ";
    }

    // ---- fields

    private String fields(List<Tree> group) {
        List<String> texts = new ArrayList<>();
        for (Tree tree : group) {
            VariableElement field = (VariableElement) program.element(tree);
            if (reach.kept.contains(field)) texts.add(field((VariableTree) tree, field));
        }
        return texts.isEmpty() ? null : joined(texts);
    }

    /** Declarations that begin alike become one. */
    static String joined(List<String> declarations) {
        StringBuilder text = new StringBuilder();
        String start = null;
        for (String declaration : declarations) {
            int cut = declaration.indexOf('\t');
            String begin = declaration.substring(0, cut);
            if (begin.equals(start)) text.append(", ").append(declaration.substring(cut + 1));
            else text.append(start == null ? "" : "; ").append(begin).append(" ").append(declaration.substring(cut + 1));
            start = begin;
        }
        return text.append(";").toString();
    }

    private String field(VariableTree tree, VariableElement field) {
        TypeElement type = Program.classOf(field);
        String kind = kinds.of(field);
        boolean constant = Bounds.isConstant(field);
        boolean isStatic = field.getModifiers().contains(Modifier.STATIC);
        String access = modifiers(tree.getModifiers(), constant ? "static" : "").replace("final ", "").strip();
        boolean visited = !kinds.held.fields().isEmpty() && kinds.fin.counts(program, type);
        if (visited) access = access.replace("private", "").strip();
        if (isStatic || constant) return constant(tree, field, kind, access, constant);
        if (hidesAnother(field, type))
                refused(tree, "the field `" + field + "` hides one of a superclass", "rename one of them");
        boolean counted = kinds.fin.counts(program, type);
        if (counted && !kinds.held.has(field) && (kinds.isList(kind) || kinds.isMap(kind) || isCollection(field))) {
            refused(tree, "the field `" + field + "` holds a collection that the finitization doesn't count",
                    "count it in [collections], and name it as the value of the field; or write an array or linked nodes in its place");
        } else if (counted && !kinds.fin.fields().containsKey(type.getSimpleName() + "." + field.getSimpleName())) {
            notes.warn(program.place(tree),
                    "the finitization has no values for " + type.getSimpleName() + "." + field.getSimpleName()
                    + ", which repOk reads: korat will say S2");
        }
        noteType(tree, field, kind);
        String start = (access.isEmpty() ? "" : access + " ") + type(tree, kind) + "\t" + field.getSimpleName();
        if (!reach.made.contains(type) || outers.isExtended(type)) return start;
        if (tree.getInitializer() != null) return start + " = " + expressions.value(tree.getInitializer(), kind);
        return Kinds.isEnum(kind) ? start + " = -1" : Kinds.isStored(kind) ? start + " = " + Expressions.number(Kinds.none(kind)) : start;
    }

    /** Whether a field is declared as one of the library's collections, whatever its members are. */
    private boolean isCollection(VariableElement field) {
        String type = program.types.erasure(field.asType()).toString();
        boolean iterator = type.endsWith("Iterator") || type.endsWith("Comparator") || type.contains(".function.") || type.matches(".*\\.(Optional|Random|Objects)");
        return type.startsWith("java.util.") && !iterator && !kinds.kind(field.asType()).equals(kinds.fin.root())
                && !kinds.of(field).equals(kinds.fin.root());
    }

    private boolean hidesAnother(VariableElement field, TypeElement type) {
        for (TypeElement above = program.superclass(type); above != null; above = program.superclass(above)) {
            if (above.getEnclosedElements().stream()
                    .anyMatch(e -> e.getKind() == ElementKind.FIELD && reach.kept.contains(e)
                    && e.getSimpleName().equals(field.getSimpleName()))) return true;
        }
        return false;
    }

    void noteType(VariableTree tree, Element variable, String kind) {
        if (tree.getType() == null) return;
        String before = program.end(tree.getType()) > program.start(tree.getType()) ? program.text(tree.getType()) : kind;
        if (!before.replace(" ", "").equals(kind) && !program.element(tree).asType().getKind().equals(TypeKind.TYPEVAR)) {
            notes.changed(program.place(tree), "`" + before + " " + variable.getSimpleName() + "` became " + kind);
        }
    }

    private String constant(VariableTree tree, VariableElement field, String kind, String access, boolean wasField) {
        Object value = field.getConstantValue();
        String start = (access.isEmpty() ? "static " : access.contains("static") ? access + " " : access + " static ")
                + "final " + type(tree, kind) + "\t" + field.getSimpleName() + " = ";
        if (wasField) notes.warn(program.place(tree),
                "the field `" + field
                + "` is final with a constant, which Java writes where it is read and korat would have as a slot; it is a constant now");
        if (value == null) {
            refused(tree, "`" + field + "` is a static field that isn't a constant number or boolean",
                    "write a constant, or pass the value on");
            return start + "0";
        }
        String text = value instanceof Boolean ? value.toString() : Expressions.number(value);
        boolean plain = tree.getInitializer() != null && program.text(tree.getInitializer()).matches("[-+*/%() 0-9]+")
                && !program.text(tree.getInitializer()).matches(".*\\b0[0-9].*");
        return start + (plain ? program.text(tree.getInitializer()) : text);
    }

    // ---- methods

    String method(MethodTree tree) {
        ExecutableElement method = (ExecutableElement) program.element(tree);
        TypeElement type = Program.classOf(method);
        boolean constructor = method.getKind() == ElementKind.CONSTRUCTOR;
        boolean asMethod = constructor && names.hasSeveral(type);
        String before = tree.getBody() == null ? program.text(tree)
                : program.source(tree).text().substring(program.start(tree), program.start(tree.getBody()));
        String parameters = method.getParameters().stream()
                .map(p -> type(program.trees.getTree(p), kinds.of(p)) + " " + p.getSimpleName())
                .collect(Collectors.joining(", "));
        boolean extended = constructor && outers.isExtended(type);
        if (extended) parameters = String.join(", ", carried.parameters(type)) + (parameters.isEmpty() ? "" : ", " + parameters);
        String result = constructor ? asMethod ? type.getSimpleName() + " " : "" : type(tree, kinds.of(method)) + " ";
        String name = constructor && !asMethod ? program.nameOf(type) : names.of(method);
        boolean ofConstant = !constructor && type.getKind() == ElementKind.ENUM && !method.getModifiers().contains(Modifier.STATIC);
        if (ofConstant) parameters = "int " + expressions.self() + (parameters.isEmpty() ? "" : ", " + parameters);
        String header = modifiers(tree.getModifiers(), ofConstant ? "static" : "").replace(constructor ? "final " : "\0", "") + result + name + "("
                + parameters + ")";
        if (!ofConstant && overridesOwn(method)) header = "@Override " + header;
        if (asMethod) notes.changed(program.place(tree), "the constructor became the method " + name);
        if (tree.getBody() == null) return leading(tree, header, before) + " { " + statements.trap(method) + " }";
        String body = statements.body(tree.getBody(), method);
        if (extended && !isChained(tree)) body = "{ " + carried.settings(tree, type) + body.substring(1);
        if (asMethod) body = body.substring(0, body.lastIndexOf('}')) + "return this; }";
        return leading(tree, header, before.stripTrailing()) + before.substring(before.stripTrailing().length()) + body;
    }

    /** Whether a constructor begins with a call of another one of its class. */
    private boolean isChained(MethodTree tree) {
        List<? extends StatementTree> statements = tree.getBody().getStatements();
        return !statements.isEmpty() && statements.get(0).toString().startsWith("this(");
    }

    private boolean overridesOwn(ExecutableElement method) {
        TypeElement type = Program.classOf(method);
        return reach.kept.stream()
                .anyMatch(e -> e instanceof ExecutableElement above && program.isOwn(above)
                && program.elements.overrides(method, above, type)
                && !above.equals(method)
                        && (Program.classOf(above).getKind() == ElementKind.CLASS || isUsed(Program.classOf(above))));
    }
}
