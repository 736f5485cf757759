package adapt;

import com.sun.source.tree.ClassTree;
import com.sun.source.tree.MethodTree;
import com.sun.source.tree.Tree;
import javax.lang.model.element.ExecutableElement;

/** The contract lines in front of a method. */
final class Contracts {
    private Contracts() {}

    /** What is between a method and the member before it. */
    static String gap(Program program, MethodTree method) {
        ClassTree type = (ClassTree) program.parent(method);
        int from = program.start(type);
        for (Tree member : type.getMembers()) {
            if (program.end(member) <= program.start(method)) from = Math.max(from, program.end(member));
        }
        return program.source(method).text().substring(from, program.start(method));
    }

    static String before(Program program, ExecutableElement method) {
        return gap(program, program.trees.getTree(method)).lines().filter(line -> line.contains("//@"))
                .collect(java.util.stream.Collectors.joining("\n"));
    }
}
