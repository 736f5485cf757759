package replay;

import com.sun.source.tree.CompilationUnitTree;
import com.sun.source.util.JavacTask;
import com.sun.source.util.Trees;
import java.io.IOException;
import java.util.ArrayList;
import java.util.List;
import java.util.Map;
import javax.lang.model.element.Element;
import javax.lang.model.element.ElementKind;
import javax.lang.model.element.TypeElement;
import javax.lang.model.util.Types;
import javax.tools.Diagnostic;
import javax.tools.DiagnosticCollector;
import javax.tools.JavaFileObject;

/**
 * Puts a counted step into each loop and method of the sources, and a note at each read of a field or an element, without a
 * change of their lines: `a.f` becomes `replayed.Steps.read(a, 7).f`, `a[i]` becomes `replayed.Steps.get(a, i)`. An array
 * that goes where its elements may be read unseen, as to a library, is noted as read whole.
 */
final class Rewriting {
    static final String STEP = " " + Sources.STEPS + ".step(); ";
    static final String READ = Sources.STEPS + ".read(";
    static final String GET = Sources.STEPS + ".get(";
    static final String WHOLE = Sources.STEPS + ".whole(";
    final Map<String, String> sources;
    private final List<CompilationUnitTree> units = new ArrayList<>();
    final List<String> noted = new ArrayList<>();
    final Trees trees;
    private final JavacTask task;

    Rewriting(Map<String, String> sources) throws Fault {
        this.sources = sources;
        DiagnosticCollector<JavaFileObject> messages = new DiagnosticCollector<>();
        List<Text> texts = new ArrayList<>();
        sources.forEach((name, source) -> texts.add(new Text(name, source)));
        task = (JavacTask) Sources.compiler().getTask(null, null, messages, Sources.options(), null, texts);
        trees = Trees.instance(task);
        try {
            task.parse().forEach(units::add);
            task.analyze();
        } catch (IOException fault) {
            throw new Fault("the sources can't be read: " + fault.getMessage());
        }
        if (messages.getDiagnostics().stream().anyMatch(message -> message.getKind() == Diagnostic.Kind.ERROR)) {
            throw Sources.firstError(messages);
        }
    }

    List<JavaFileObject> rewritten(boolean noting) throws Fault {
        List<JavaFileObject> texts = new ArrayList<>();
        for (CompilationUnitTree unit : units) {
            Insertions insertions = new Insertions(this, unit, noting);
            insertions.scan(unit, null);
            if (insertions.unnoted) {
                throw new Fault("a read that can't be noted");
            }
            String name = unit.getSourceFile().getName();
            StringBuilder text = new StringBuilder(sources.get(name));
            insertions.changed.forEach(text::setCharAt);
            insertions.added.descendingMap().forEach(text::insert);
            texts.add(new Text(name, text.toString()));
        }
        texts.add(new Text("replayed/Steps.java", Sources.STEPS_SOURCE));
        return texts;
    }

    /** The number of an instance field that the sources declare, or -1. */
    int number(Element element) {
        boolean field = element != null && element.getKind() == ElementKind.FIELD && trees.getTree(element) != null;
        if (!field || element.getModifiers().contains(javax.lang.model.element.Modifier.STATIC)) {
            return -1;
        }
        TypeElement declaring = (TypeElement) element.getEnclosingElement();
        String name = task.getElements().getBinaryName(declaring) + "." + element.getSimpleName();
        if (!noted.contains(name)) {
            noted.add(name);
        }
        return noted.indexOf(name);
    }

    boolean inherits(TypeElement below, Element above) {
        Types types = task.getTypes();
        return types.isSubtype(types.erasure(below.asType()), types.erasure(above.asType()));
    }
}
