package sources;

import com.sun.source.tree.EnhancedForLoopTree;
import com.sun.source.tree.IdentifierTree;
import com.sun.source.tree.MemberReferenceTree;
import com.sun.source.tree.MemberSelectTree;
import com.sun.source.tree.MethodInvocationTree;
import com.sun.source.tree.NewClassTree;
import com.sun.source.util.TreePath;
import com.sun.source.util.TreePathScanner;
import java.util.ArrayDeque;
import java.util.LinkedHashSet;
import java.util.Set;
import javax.lang.model.element.Element;
import javax.lang.model.element.ElementKind;
import javax.lang.model.element.ExecutableElement;
import javax.lang.model.element.Modifier;
import javax.lang.model.element.TypeElement;
import javax.lang.model.element.VariableElement;
import javax.lang.model.type.TypeMirror;
import javax.lang.model.util.ElementFilter;

/** The code that methods reach: methods with what overrides them, the instance fields named there, the classes of which it makes objects. */
public final class Reached {
    /** What the library's collections and loops call of a class. */
    private static final Set<String> CALLED_BY_LIBRARIES = Set.of("equals", "hashCode", "compareTo", "compare");
    private static final Set<String> CALLED_BY_LOOPS = Set.of("iterator", "hasNext", "next");
    private final Program program;
    public final Set<ExecutableElement> methods = new LinkedHashSet<>();
    public final Set<VariableElement> fields = new LinkedHashSet<>();
    public final Set<TypeElement> made = new LinkedHashSet<>();
    private final ArrayDeque<ExecutableElement> waiting = new ArrayDeque<>();
    private boolean librariesCall;
    private boolean loopsCall;

    public Reached(Program program) {
        this.program = program;
    }

    /** Adds what a method reaches. */
    public Reached from(ExecutableElement start) {
        reach(start);
        while (!waiting.isEmpty()) {
            scan(waiting.remove());
            if (waiting.isEmpty() && librariesCall) reachNamed(CALLED_BY_LIBRARIES);
            if (waiting.isEmpty() && loopsCall) reachNamed(CALLED_BY_LOOPS);
        }
        return this;
    }

    private void reach(ExecutableElement method) {
        if (!program.isOwn(method) || !methods.add(method)) return;
        waiting.add(method);
        for (TypeElement type : program.classes.values()) {
            for (ExecutableElement other : ElementFilter.methodsIn(type.getEnclosedElements())) {
                if (other != method && program.elements.overrides(other, method, type)) reach(other);
            }
        }
    }

    /** What a record's own accessors, `equals` and `hashCode` read, which have no code. */
    private void readOfRecord(ExecutableElement method) {
        String name = method.getSimpleName().toString();
        for (VariableElement field : ElementFilter.fieldsIn(method.getEnclosingElement().getEnclosedElements())) {
            boolean read = field.getSimpleName().contentEquals(name) && method.getParameters().isEmpty() || name.matches("equals|hashCode");
            if (read && !field.getModifiers().contains(Modifier.STATIC)) fields.add(field);
        }
    }

    private void reachNamed(Set<String> names) {
        for (TypeElement type : program.classes.values()) {
            boolean met = made.contains(type) || fields.stream().anyMatch(field -> field.getEnclosingElement() == type);
            for (ExecutableElement method : ElementFilter.methodsIn(type.getEnclosedElements())) {
                if (met && names.contains(method.getSimpleName().toString())) reach(method);
            }
        }
    }

    private void scan(ExecutableElement method) {
        new TreePathScanner<Void, Void>() {
            @Override
            public Void visitMethodInvocation(MethodInvocationTree call, Void none) {
                called(program.trees.getElement(new TreePath(getCurrentPath(), call.getMethodSelect())));
                return super.visitMethodInvocation(call, none);
            }

            @Override
            public Void visitMemberReference(MemberReferenceTree reference, Void none) {
                called(program.trees.getElement(getCurrentPath()));
                return super.visitMemberReference(reference, none);
            }

            @Override
            public Void visitNewClass(NewClassTree creation, Void none) {
                Element constructor = program.trees.getElement(getCurrentPath());
                if (constructor != null && constructor.getEnclosingElement() instanceof TypeElement type && program.isOwn(type)) made.add(type);
                called(constructor);
                return super.visitNewClass(creation, none);
            }

            @Override
            public Void visitEnhancedForLoop(EnhancedForLoopTree loop, Void none) {
                TypeMirror over = program.trees.getTypeMirror(new TreePath(getCurrentPath(), loop.getExpression()));
                loopsCall |= over != null && program.isOwn(program.types.asElement(over));
                return super.visitEnhancedForLoop(loop, none);
            }

            @Override
            public Void visitIdentifier(IdentifierTree name, Void none) {
                named(program.trees.getElement(getCurrentPath()));
                return super.visitIdentifier(name, none);
            }

            @Override
            public Void visitMemberSelect(MemberSelectTree select, Void none) {
                named(program.trees.getElement(getCurrentPath()));
                return super.visitMemberSelect(select, none);
            }
        }.scan(program.trees.getPath(method), null);
    }

    private void called(Element element) {
        if (!(element instanceof ExecutableElement method)) return;
        if (method.getEnclosingElement().getKind() == ElementKind.RECORD && program.isOwn(method.getEnclosingElement())) readOfRecord(method);
        if (program.isOwn(method)) reach(method);
        else librariesCall = true;
    }

    private void named(Element element) {
        if (element instanceof VariableElement field && field.getKind() == ElementKind.FIELD && program.isOwn(field)
                && !field.getModifiers().contains(Modifier.STATIC)) fields.add(field);
    }
}
