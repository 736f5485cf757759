package replay;

import java.nio.file.Path;
import java.util.ArrayList;
import java.util.LinkedHashMap;
import java.util.List;
import java.util.Map;
import java.util.regex.Matcher;
import java.util.regex.Pattern;
import java.util.stream.Collectors;
import javax.lang.model.element.ExecutableElement;
import javax.lang.model.element.Modifier;
import javax.lang.model.element.TypeElement;
import javax.lang.model.type.TypeKind;
import sources.Program;

/** A method's contract as its source has it, and the sources with a method beside it that runs both. */
final class Contract {
    /** The added method, and the field that says which part of it runs. */
    static final String RUN = "korat$run";
    static final String PART = "korat$part";
    static final int OLDS = 0;
    static final int CALL = 1;
    static final int PREDICATE = 2;
    static final int CLAUSES = 3;
    /** What the added method answers where a clause of `signals` doesn't hold is this and the clause's number; of `ensures` the number. */
    static final int SIGNALS = 1_000_000;
    static final String THROWN = "korat$thrown";
    private static final Pattern LINE = Pattern.compile("//@\\s*(requires|ensures|signals)\\b(.*?);(?=\\s*(?://|$))");
    private static final Pattern HEAD = Pattern.compile("\\(\\s*([\\p{L}\\p{N}_$.\\s]*?[\\p{L}\\p{N}_$])(?:\\s+([\\p{L}\\p{N}_$]+))?\\s*\\)");
    final List<String> ensures = new ArrayList<>();
    final List<String> signals = new ArrayList<>();
    final List<String> parameters = new ArrayList<>();
    final Map<Path, String> texts = new LinkedHashMap<>();

    Contract(List<Path> files, String root, String name) throws Fault {
        try {
            Program program = Program.of(files);
            program.sources.forEach(source -> texts.put(source.file(), source.text()));
            TypeElement type = program.classes.get(root);
            if (type == null) {
                throw new Fault("the sources have no class " + root);
            }
            add(program, program.method(type, name));
        } catch (sources.Fault fault) {
            throw new Fault(fault.getMessage());
        }
    }

    private void add(Program program, ExecutableElement method) throws Fault {
        if (method.getModifiers().contains(Modifier.STATIC)) {
            throw new Fault(method.getSimpleName() + " is static: a test runs an instance method");
        }
        var path = program.trees.getPath(method);
        Program.Source source = program.sourceOf(path.getCompilationUnit());
        int start = program.start(source.unit(), path.getLeaf());
        int end = program.end(source.unit(), path.getLeaf());
        read(source.text(), start);
        method.getParameters().forEach(parameter -> parameters.add(parameter.getSimpleName().toString()));
        String text = source.text();
        texts.put(source.file(), text.substring(0, end) + added(method) + text.substring(end));
    }

    /** Takes the `ensures` and `signals` lines directly before a place. */
    private void read(String text, int start) {
        List<String> before = text.substring(0, start).lines().toList();
        for (int at = before.size() - 1; at >= 0; at--) {
            String line = before.get(at).strip();
            ensures.addAll(0, clauses(line, "ensures"));
            signals.addAll(0, clauses(line, "signals"));
            if (clauses(line, "ensures").isEmpty() && !line.isEmpty() && !line.startsWith("//") && !line.startsWith("*") && !line.startsWith("/*") && !line.startsWith("@")) {
                return;
            }
        }
    }

    private static List<String> clauses(String line, String word) {
        return LINE.matcher(line).results().filter(clause -> clause.group(1).equals(word)).map(clause -> clause.group(2).strip()).toList();
    }

    private String added(ExecutableElement method) throws Fault {
        String declared = method.getParameters().stream().map(parameter -> parameter.asType() + " " + parameter.getSimpleName())
                .collect(Collectors.joining(", "));
        StringBuilder olds = new StringBuilder();
        StringBuilder clauses = new StringBuilder();
        int[] count = {0};
        for (int at = 0; at < ensures.size(); at++) {
            String clause = withOlds(ensures.get(at), olds, count).replace("\\result", "korat$result");
            clauses.append(" if (!(").append(clause).append(")) return ").append(at + 1).append(";");
        }
        String caught = caught(olds, count);
        boolean answers = method.getReturnType().getKind() != TypeKind.VOID;
        String call = method.getSimpleName() + "(" + String.join(", ", parameters) + ");";
        return " static int " + PART + "; int " + RUN + "(" + declared + ") throws Throwable { " + PART + " = " + OLDS + ";" + olds
                + (caught.isEmpty() ? "" : " try {") + " " + PART + " = " + CALL + "; " + (answers ? "var korat$result = " : "") + call
                + JUDGED + clauses + " return 0; }" + (caught.isEmpty() ? "" : caught + " }");
    }

    private static final String JUDGED = " " + PART + " = " + PREDICATE + "; if (!repOk()) return -1; " + PART + " = " + CLAUSES + ";";

    /** What is done with an exception of the method: each clause of `signals` whose class it has is tested; without one it is thrown on. */
    private String caught(StringBuilder olds, int[] count) throws Fault {
        StringBuilder fits = new StringBuilder();
        StringBuilder clauses = new StringBuilder();
        for (int at = 0; at < signals.size(); at++) {
            Matcher head = HEAD.matcher(signals.get(at));
            if (!head.lookingAt()) {
                throw new Fault("`signals" + signals.get(at) + "` begins with no class");
            }
            String is = THROWN + " instanceof " + head.group(1);
            fits.append(at > 0 ? " || " : "").append(is);
            String clause = withOlds(signals.get(at).substring(head.end()).strip(), olds, count);
            String named = head.group(2) == null ? "" : head.group(1) + " " + head.group(2) + " = (" + head.group(1) + ") " + THROWN + "; ";
            clauses.append(" if (" + is + ") { " + named + "if (!(" + clause + ")) return " + (SIGNALS + at + 1) + "; }");
        }
        String ended = THROWN + " instanceof VirtualMachineError || " + THROWN + ".getClass().getName().startsWith(\"replayed.\")";
        return signals.isEmpty() ? "" : " catch (Throwable " + THROWN + ") { if (" + PART + " != " + CALL + " || " + ended + " || !(" + fits + ")) throw " + THROWN + ";"
                + JUDGED + clauses + " return 0; }";
    }

    /** A clause whose `\old(..)` are variables, which are set before the call. */
    private static String withOlds(String clause, StringBuilder olds, int[] count) {
        int place = clause.indexOf("\\old");
        if (place < 0) {
            return clause;
        }
        int open = clause.indexOf('(', place);
        int end = open;
        for (int depth = 0; end < clause.length(); end++) {
            depth += clause.charAt(end) == '(' ? 1 : clause.charAt(end) == ')' ? -1 : 0;
            if (depth == 0) {
                break;
            }
        }
        String name = "korat$old" + count[0]++;
        olds.append(" var ").append(name).append(" = ").append(clause, open, end + 1).append(";");
        return clause.substring(0, place) + name + withOlds(clause.substring(end + 1), olds, count);
    }
}
