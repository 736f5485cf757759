package replay;

import com.sun.source.tree.BlockTree;
import com.sun.source.tree.IfTree;
import com.sun.source.tree.LiteralTree;
import com.sun.source.tree.MethodTree;
import com.sun.source.tree.ParenthesizedTree;
import com.sun.source.tree.ReturnTree;
import com.sun.source.tree.StatementTree;
import com.sun.source.tree.TryTree;
import com.sun.source.tree.UnaryTree;
import com.sun.source.tree.VariableTree;
import com.sun.source.util.TreePath;
import java.io.ByteArrayInputStream;
import java.io.IOException;
import java.nio.charset.StandardCharsets;
import java.util.ArrayList;
import java.util.List;
import java.util.Map;
import javax.lang.model.element.ExecutableElement;
import javax.lang.model.element.TypeElement;
import javax.lang.model.element.VariableElement;
import javax.lang.model.type.TypeKind;
import javax.lang.model.type.TypeMirror;
import sources.Program;

/** Writes a test of JUnit 5 for each row of a test of korat: the method is called, and its contract has to hold then. */
final class ContractTests {
    private static final String HEAD = """
            // Calls %2$s on each structure of %1$s in a test, of which there are %3$d: repOk and the method's contract have to hold then.
            // Written by Replay.
            %4$s
            import static org.junit.jupiter.api.Assertions.assertTrue;

            import java.lang.reflect.Array;
            import java.lang.reflect.Constructor;
            import java.lang.reflect.Field;
            import java.lang.reflect.InvocationTargetException;
            import java.lang.reflect.Method;
            import org.junit.jupiter.api.Test;

            @SuppressWarnings({"rawtypes", "unchecked"})
            class %1$sTest {
            """;
    private static final String MEMBERS = """

                private static Object get(Object holder, String name) throws Throwable {
                    for (Class<?> type = holder.getClass(); type != null; type = type.getSuperclass()) {
                        for (Field field : type.getDeclaredFields()) {
                            if (field.getName().equals(name)) {
                                field.setAccessible(true);
                                return field.get(holder);
                            }
                        }
                    }
                    throw new NoSuchFieldException(name);
                }

                private static Object call(Object holder, String name, Object... arguments) throws Throwable {
                    for (Class<?> type = holder.getClass(); type != null; type = type.getSuperclass()) {
                        for (Method method : type.getDeclaredMethods()) {
                            if (method.getName().equals(name) && method.getParameterCount() == arguments.length && !method.isBridge()) {
                                method.setAccessible(true);
                                try {
                                    return method.invoke(holder, arguments);
                                } catch (InvocationTargetException ended) {
                                    throw ended.getCause();
                                }
                            }
                        }
                    }
                    throw new NoSuchMethodException(name);
                }
            """;
    private final Model model;
    private final Contract contract;
    private final String name;
    private final Tests tests;
    private final Program program;
    private final ExecutableElement run;
    private final TypeMirror result;

    ContractTests(Model model, Finitization bounds, Order order) throws Fault {
        this.model = model;
        this.name = order.call.replaceAll("\\(.*", "");
        this.contract = new Contract(order.sources, bounds.classOf(bounds.root), name);
        this.tests = new Tests(model, name);
        try {
            this.program = Program.of(contract.texts);
            TypeElement root = program.classes.get(bounds.classOf(bounds.root));
            this.run = program.method(root, Contract.RUN);
            this.result = program.method(root, name).getReturnType();
        } catch (sources.Fault fault) {
            throw new Fault("the contract of " + name + ": " + fault.getMessage());
        }
    }

    /** Whether what was given are rows of a test. */
    static boolean isReport(byte[] given) {
        String text = new String(given, StandardCharsets.UTF_8);
        String last = text.stripTrailing().lines().reduce((before, line) -> line).orElse("");
        String first = text.lines().findFirst().orElse("");
        return last.contains(" failing ") || first.matches("[0-9.]+ (pass|ensures|signals|repOk|trap|check-trap|spent) .*");
    }

    String text(byte[] given) throws Fault, IOException {
        List<TestRow> rows = TestRow.read(new ByteArrayInputStream(given));
        TestRow.leaveOutersOut(model, rows);
        String folder = model.root.getPackageName();
        String type = model.root.getSimpleName();
        StringBuilder text = new StringBuilder(HEAD.formatted(type, name, rows.size(), folder.isEmpty() ? "" : "package " + folder + ";\n"));
        text.append(held());
        for (TestRow row : rows) {
            text.append(test(row));
        }
        text.append(MEMBERS).append(Tests.HELPERS);
        tests.compile(type + "Test.java", text.toString());
        return text.toString();
    }

    /** The method that calls the one under test and judges the result. */
    private String held() throws Fault {
        TreePath path = program.trees.getPath(run);
        Clause clause = new Clause(program, path);
        StringBuilder olds = new StringBuilder();
        StringBuilder clauses = new StringBuilder();
        List<StatementTree> statements = new ArrayList<>(((MethodTree) path.getLeaf()).getBody().getStatements());
        String caught = "";
        if (statements.get(statements.size() - 1) instanceof TryTree judging) {
            statements.addAll(judging.getBlock().getStatements());
            caught = caught(judging.getCatches().get(0).getBlock().getStatements(), clause);
        }
        for (StatementTree statement : statements) {
            if (statement instanceof VariableTree old && old.getName().toString().startsWith("korat$old")) {
                olds.append("        var " + old.getName() + " = " + clause.text(old.getInitializer()) + ";\n");
            } else if (statement instanceof IfTree judged && numberOf(judged) > 0) {
                clauses.append("        " + assertion(judged, contract.ensures.get(numberOf(judged) - 1), clause));
            }
        }
        StringBuilder declared = new StringBuilder("Object subject");
        StringBuilder arguments = new StringBuilder();
        for (VariableElement parameter : run.getParameters()) {
            declared.append(", " + (parameter.asType().getKind().isPrimitive() ? parameter.asType() : "Object") + " " + parameter.getSimpleName());
            arguments.append(", " + parameter.getSimpleName());
        }
        String cast = Clause.castOf(result);
        boolean answers = result.getKind() != TypeKind.VOID;
        String call = (cast.isEmpty() ? "" : "(" + cast + ") ") + "call(subject, \"" + name + "\"" + arguments + ");\n";
        String called = caught.isEmpty() ? "        " + (answers ? "var korat$result = " : "") + call
                : (answers ? "        " + (cast.isEmpty() ? "Object" : cast) + " korat$result;\n" : "")
                + "        try {\n            " + (answers ? "korat$result = " : "") + call + "        } catch (Throwable korat$thrown) {\n" + caught + "            return;\n        }\n";
        return "    private static void test(" + declared + ") throws Throwable {\n" + olds + called + VALID + clauses + "    }\n";
    }

    private static final String VALID = "        assertTrue(repOk(subject), \"repOk is false\");\n";

    /** The number that the added method answers where a clause doesn't hold; 0 of other statements. */
    private static int numberOf(IfTree tree) {
        return tree.getThenStatement() instanceof ReturnTree back && back.getExpression() instanceof LiteralTree number ? (int) number.getValue() : 0;
    }

    private static String assertion(IfTree judged, String line, Clause clause) throws Fault {
        UnaryTree negated = (UnaryTree) ((ParenthesizedTree) judged.getCondition()).getExpression();
        return "assertTrue(" + clause.text(negated.getExpression()) + ", \"" + line.replace("\\", "\\\\").replace("\"", "\\\"") + "\");\n";
    }

    /** What a test does with an exception of the method, as the added method does it. */
    private String caught(List<? extends StatementTree> statements, Clause clause) throws Fault {
        StringBuilder fits = new StringBuilder();
        StringBuilder clauses = new StringBuilder();
        for (StatementTree statement : statements) {
            if (!(statement instanceof IfTree judged) || !(judged.getThenStatement() instanceof BlockTree block)) {
                continue;
            }
            List<? extends StatementTree> parts = block.getStatements();
            IfTree last = (IfTree) parts.get(parts.size() - 1);
            String is = clause.text(((ParenthesizedTree) judged.getCondition()).getExpression());
            fits.append(fits.length() > 0 ? " || " : "").append(is);
            clauses.append("            if (" + is + ") {\n");
            if (parts.size() > 1) {
                clauses.append("                Object " + ((VariableTree) parts.get(0)).getName() + " = korat$thrown;\n");
            }
            clauses.append("                " + assertion(last, "signals " + contract.signals.get(numberOf(last) - Contract.SIGNALS - 1), clause) + "            }\n");
        }
        return "            if (!(" + fits + ")) {\n                throw korat$thrown;\n            }\n    " + VALID + clauses;
    }

    private String test(TestRow row) throws Fault {
        Map<Name, String> variables = Tests.variables(row.structure());
        Map<String, Object> values = row.values();
        StringBuilder arguments = new StringBuilder("object0");
        List<Class<?>> types = model.parameters(name, contract.parameters.size());
        for (int at = 0; at < types.size(); at++) {
            Object value = values.get(contract.parameters.get(at));
            String told = value instanceof Name object ? variables.get(object)
                    : Tests.written(model.converted(types.get(at), value, contract.parameters.get(at)));
            arguments.append(", ").append(told);
        }
        return "\n    // " + row.text() + "\n    @Test\n    void row_" + row.key().replace('.', '_') + "() throws Throwable {\n"
                + tests.building(row.structure()) + "        test(" + arguments + ");\n    }\n";
    }
}
