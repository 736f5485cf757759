package adapt;

import com.sun.source.tree.BlockTree;
import com.sun.source.tree.ExpressionTree;
import com.sun.source.tree.IfTree;
import com.sun.source.tree.MethodTree;
import com.sun.source.tree.StatementTree;
import com.sun.source.tree.Tree;
import com.sun.source.tree.VariableTree;
import java.util.ArrayList;
import java.util.LinkedHashMap;
import java.util.List;
import java.util.Map;
import java.util.regex.MatchResult;
import java.util.regex.Matcher;
import java.util.regex.Pattern;
import javax.lang.model.element.Element;
import javax.lang.model.element.ExecutableElement;
import javax.lang.model.element.TypeElement;
import javax.lang.model.type.TypeKind;

/**
 * A contract as code: each clause is the initial value of a variable in a block that is written at the beginning of the method, so that
 * it is understood and rewritten as the method's own code, and taken out again.
 */
final class Clauses {
    private static final String BLOCK = "if (false /*korat$contract*/) {";
    private static final String RESULT = "korat$result";
    private static final String OLD = "korat$old";
    private static final String THROWN = "korat$thrown";
    private static final Pattern LINE = Pattern.compile("(//@\\s*(?:requires|ensures|signals)\\b)(.*?);(?=\\s*(?://|$))", Pattern.MULTILINE);
    /** The class of an exception, and its name. */
    private static final Pattern SIGNALS = Pattern.compile("\\s*\\(\\s*([\\p{L}\\p{N}_$.\\s]*?[\\p{L}\\p{N}_$])(?:\\s+([\\p{L}\\p{N}_$]+))?\\s*\\)");
    /** The clauses as they are rewritten, in the order of the source. */
    private final List<String> rewritten = new ArrayList<>();

    /** The sources with such a block, where the method has a contract. */
    static Map<String, String> inserted(Map<String, String> texts, String root, String name) throws Fault {
        Program program = Program.compile(texts);
        TypeElement type = program.classes.get(root);
        ExecutableElement method = type == null ? null : tested(program, type, name);
        MethodTree tree = method == null ? null : program.trees.getTree(method);
        if (tree == null || tree.getBody() == null) return texts;
        Program.Source source = program.source(tree);
        List<MatchResult> lines = LINE.matcher(Contracts.gap(program, tree)).results().toList();
        List<String> clauses = lines.stream().map(line -> line.group(2)).toList();
        if (clauses.isEmpty() || clauses.stream().anyMatch(clause -> clause.contains("/*"))) return texts;
        StringBuilder block = new StringBuilder(" " + BLOCK);
        if (method.getReturnType().getKind() != TypeKind.VOID) {
            List<String> arguments = method.getParameters().stream().map(parameter -> parameter.getSimpleName().toString()).toList();
            block.append(" ").append(program.text(tree.getReturnType())).append(" ").append(RESULT).append(" = ").append(name)
                    .append("(").append(String.join(", ", arguments)).append(");");
        }
        int[] olds = {0};
        for (int at = 0; at < clauses.size(); at++) {
            String text = clauses.get(at).replace("\\result", RESULT);
            Matcher signals = SIGNALS.matcher(text);
            boolean thrown = lines.get(at).group(1).endsWith("signals") && signals.lookingAt();
            text = withOlds(thrown ? text.substring(signals.end()) : text, block, olds);
            if (thrown) block.append(" { ").append(signals.group(1)).append(" ").append(signals.group(2) == null ? THROWN : signals.group(2)).append(" = null;");
            block.append(" boolean korat$clause").append(at).append(" = ").append(text.strip()).append(thrown ? "; }" : ";");
        }
        int open = program.start(tree.getBody()) + 1;
        Map<String, String> result = new LinkedHashMap<>(texts);
        result.put(source.name(), source.text().substring(0, open) + block + " }" + source.text().substring(open));
        refuseOther(result, program.place(tree), name);
        return result;
    }

    /** A clause in which each `\\old(..)` is a variable, which is declared in the block. */
    private static String withOlds(String clause, StringBuilder block, int[] count) {
        Matcher old = Pattern.compile("\\\\old\\s*\\(").matcher(clause);
        if (!old.find()) return clause;
        int end = old.end();
        for (int depth = 1; depth > 0 && end < clause.length(); end++) {
            if (clause.charAt(end) == '(') depth++;
            if (clause.charAt(end) == ')') depth--;
        }
        String name = OLD + count[0]++ + "$";
        block.append(" var ").append(name).append(" = ").append(clause, old.end(), end - 1).append(";");
        return clause.substring(0, old.start()) + name + withOlds(clause.substring(end), block, count);
    }

    private static void refuseOther(Map<String, String> texts, String place, String name) throws Fault {
        try {
            Program.compile(texts);
        } catch (Fault fault) {
            throw new Fault(1, place + ": the contract of " + name + ": " + fault.getMessage().replaceFirst("^.*?: javac says: ", "javac says: ")
                    .replace(RESULT, "\\result"));
        }
    }

    static ExecutableElement tested(Program program, TypeElement root, String name) {
        ExecutableElement tested = null;
        for (Element member : program.elements.getAllMembers(root)) {
            if (member instanceof ExecutableElement method && member.getSimpleName().contentEquals(name) && program.isOwn(member)) tested = method;
        }
        return tested;
    }

    /** The expressions of a method's contract. */
    static List<ExpressionTree> conditions(Program program, MethodTree method) {
        List<ExpressionTree> found = new ArrayList<>();
        for (StatementTree first : method.getBody().getStatements()) {
            if (!(first instanceof IfTree block) || !isBlock(program, block)) break;
            for (StatementTree statement : ((BlockTree) block.getThenStatement()).getStatements()) {
                VariableTree variable = condition(statement);
                if (!variable.getName().contentEquals(RESULT)) found.add(variable.getInitializer());
            }
        }
        return found;
    }

    /** The variable of a clause; of `signals` it comes after that of the exception. */
    private static VariableTree condition(StatementTree statement) {
        return (VariableTree) (statement instanceof BlockTree signals ? signals.getStatements().get(1) : statement);
    }

    /** The classes that the `signals` clauses of a block name. */
    static List<Tree> signalled(IfTree tree) {
        List<Tree> found = new ArrayList<>();
        for (StatementTree statement : ((BlockTree) tree.getThenStatement()).getStatements()) {
            if (statement instanceof BlockTree signals) found.add(((VariableTree) signals.getStatements().get(0)).getType());
        }
        return found;
    }

    /** The class of the exception and its name, of `signals`. */
    private static String head(StatementTree statement, Rewriter rewriter) {
        if (!(statement instanceof BlockTree signals)) return "";
        VariableTree thrown = (VariableTree) signals.getStatements().get(0);
        String name = thrown.getName().contentEquals(THROWN) ? "" : " " + thrown.getName();
        return "(" + rewriter.exception(thrown.getType()) + name + ") ";
    }

    static boolean isBlock(Program program, IfTree tree) {
        return program.text(tree).startsWith(BLOCK);
    }

    /** Takes the clauses of a block, as they are rewritten. */
    void take(IfTree tree, Rewriter rewriter, Expressions expressions, Program program, Library library) {
        Map<String, String> olds = new LinkedHashMap<>();
        for (StatementTree statement : ((BlockTree) tree.getThenStatement()).getStatements()) {
            VariableTree variable = condition(statement);
            String name = variable.getName().toString();
            if (name.equals(RESULT)) continue;
            boolean old = name.startsWith(OLD);
            String kind = old ? rewriter.kindOf(variable) : "boolean";
            String text = withoutNew(expressions.value(variable.getInitializer(), kind), library);
            if (text.matches("(?s).*(\\bnew\\b|\n).*")) {
                rewriter.refused(variable, "the contract's `" + program.text(variable.getInitializer()).replace(RESULT, "\\result") + "`",
                        "let it call a method of the class that says it");
            }
            if (old) olds.put(name, "\\old(" + text + ")");
            else rewritten.add(head(statement, rewriter) + shown(text, olds));
        }
    }

    /** A contract may make no object, but call a method that does. */
    private static String withoutNew(String text, Library library) {
        for (String box : List.of(Kinds.BOX, Kinds.LONG_BOX, Kinds.BOOLEAN_BOX)) {
            if (text.contains("new " + box + "(")) text = text.replace("new " + box + "(", library.method("new" + box) + "(");
        }
        return text;
    }

    private static String shown(String text, Map<String, String> olds) {
        String result = text.replace(RESULT, "\\result");
        for (Map.Entry<String, String> old : olds.entrySet()) result = result.replace(old.getKey(), old.getValue());
        return result;
    }

    /** What is in front of the method, with the clauses as they are rewritten. */
    String contract(String gap) {
        int[] at = {0};
        return LINE.matcher(gap).replaceAll(line -> Matcher.quoteReplacement(
                at[0] < rewritten.size() ? line.group(1) + " " + rewritten.get(at[0]++) + ";" : line.group()));
    }
}
