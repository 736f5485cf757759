package adapt;

import com.sun.source.tree.ClassTree;
import com.sun.source.tree.IdentifierTree;
import com.sun.source.tree.LambdaExpressionTree;
import com.sun.source.tree.MemberSelectTree;
import com.sun.source.tree.MethodTree;
import com.sun.source.tree.NewClassTree;
import com.sun.source.tree.Tree;
import com.sun.source.tree.VariableTree;
import com.sun.source.util.TreeScanner;
import java.util.ArrayList;
import java.util.HashMap;
import java.util.HashSet;
import java.util.LinkedHashSet;
import java.util.List;
import java.util.Map;
import java.util.Set;
import javax.lang.model.element.Element;
import javax.lang.model.element.ElementKind;
import javax.lang.model.element.Modifier;
import javax.lang.model.element.TypeElement;
import javax.lang.model.element.VariableElement;

/** Inner classes and lambdas that use the object around them or local variables around them: what each has to carry. */
final class Outers {
    private final Program program;
    private final Reach reach;
    private final Set<TypeElement> carrying = new HashSet<>();
    private final Set<LambdaExpressionTree> carryingLambdas = new HashSet<>();
    private final Map<Tree, List<VariableElement>> captured = new HashMap<>();
    private String name;
    private boolean more = true;

    Outers(Program program, Reach reach) {
        this.program = program;
        this.reach = reach;
        while (more) {
            more = false;
            for (Tree tree : reach.trees()) scanner.scan(tree, null);
        }
    }

    /** The name of the field that has the object around. */
    String name() {
        if (name == null) name = program.freshName("outer");
        return name;
    }

    private final TreeScanner<Void, Void> scanner = new TreeScanner<>() {
        @Override
        public Void visitIdentifier(IdentifierTree tree, Void nothing) {
            Element element = program.element(tree);
            String text = tree.getName().toString();
            if (text.equals("this") || text.equals("super")) mark(tree, program.classAround(tree));
            else if (isInstanceMember(element)) mark(tree, Program.classOf(element));
            return null;
        }

        @Override
        public Void visitMemberSelect(MemberSelectTree tree, Void nothing) {
            if (tree.getIdentifier().contentEquals("this") && program.element(tree.getExpression()) instanceof TypeElement owner) mark(tree, owner);
            else scan(tree.getExpression(), nothing);
            return null;
        }

        @Override
        public Void visitNewClass(NewClassTree tree, Void nothing) {
            TypeElement made = Program.classOf(program.element(tree));
            if (tree.getEnclosingExpression() == null && carrying.contains(made)) mark(tree, enclosing(made));
            return super.visitNewClass(tree, nothing);
        }

        @Override
        public Void visitLambdaExpression(LambdaExpressionTree tree, Void nothing) {
            return super.visitLambdaExpression(tree, nothing);
        }
    };

    /** Whether an element is one of objects of the sources that is named without one. */
    private boolean isInstanceMember(Element element) {
        if (!program.isOwn(element) || element.getModifiers().contains(Modifier.STATIC)) return false;
        if (element instanceof VariableElement field && field.getKind() == ElementKind.FIELD) return !Bounds.isConstant(field);
        return element.getKind() == ElementKind.METHOD;
    }

    private void mark(Tree at, TypeElement owner) {
        for (LambdaExpressionTree lambda : program.lambdasAround(at)) more |= carryingLambdas.add(lambda);
        for (TypeElement type = program.classAround(at); type != null && !program.isBelow(type, owner); type = enclosing(type)) {
            more |= carrying.add(type);
            for (LambdaExpressionTree lambda : program.lambdasAround(program.trees.getTree(type))) more |= carryingLambdas.add(lambda);
        }
    }

    static TypeElement enclosing(TypeElement type) {
        return Program.classOf(type.getEnclosingElement());
    }

    boolean has(TypeElement type) {
        return carrying.contains(type);
    }

    boolean has(LambdaExpressionTree lambda) {
        return carryingLambdas.contains(lambda);
    }

    /** How an object of a class around a place is reached there; nothing where it is `this`. */
    String path(Tree at, TypeElement owner) {
        List<String> steps = new ArrayList<>();
        if (!program.lambdasAround(at).isEmpty()) steps.add(name());
        for (TypeElement type = program.classAround(at); type != null && !program.isBelow(type, owner); type = enclosing(type)) steps.add(name());
        return String.join(".", steps);
    }

    /** The object around where one is made. */
    String instance(Tree at, TypeElement owner) {
        String path = path(at, owner);
        return path.isEmpty() ? "this" : path;
    }

    /** The local variables around a class or a lambda that it uses. */
    List<VariableElement> captured(Tree tree) {
        List<VariableElement> known = captured.get(tree);
        if (known != null) return known;
        Set<VariableElement> found = new LinkedHashSet<>();
        TreeScanner<Void, Void> uses = new TreeScanner<>() {
            @Override
            public Void visitIdentifier(IdentifierTree use, Void nothing) {
                Element element = program.element(use);
                boolean local = element != null && Set.of(ElementKind.LOCAL_VARIABLE, ElementKind.PARAMETER, ElementKind.BINDING_VARIABLE,
                        ElementKind.EXCEPTION_PARAMETER).contains(element.getKind());
                if (local && !isWithin(element, tree)) found.add((VariableElement) element);
                return null;
            }

            @Override
            public Void visitNewClass(NewClassTree made, Void nothing) {
                ClassTree local = program.localClass(made);
                if (local != null && local != tree) found.addAll(captured(local).stream().filter(one -> !isWithin(one, tree)).toList());
                return super.visitNewClass(made, nothing);
            }
        };
        captured.put(tree, List.of());
        if (tree instanceof ClassTree type) {
            if (!program.isLocal(type)) return List.of();
            for (Tree member : type.getMembers()) if (isReached(member)) uses.scan(member, null);
        } else {
            uses.scan(((LambdaExpressionTree) tree).getBody(), null);
        }
        captured.put(tree, List.copyOf(found));
        return captured.get(tree);
    }

    private boolean isReached(Tree member) {
        return !(member instanceof MethodTree) && !(member instanceof VariableTree) || reach.kept.contains(program.element(member));
    }

    private boolean isWithin(Element variable, Tree tree) {
        for (Tree at = program.declaration(variable); at != null; at = program.parent(at))
            if (at == tree) return true;
        return false;
    }

    /** Whether objects of a class are made with more than its constructors say. */
    boolean isExtended(TypeElement type) {
        return carrying.contains(type) || program.trees.getTree(type) != null && !captured(program.trees.getTree(type)).isEmpty();
    }
}
