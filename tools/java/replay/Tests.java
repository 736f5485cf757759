package replay;

import java.lang.reflect.Array;
import java.lang.reflect.Constructor;
import java.lang.reflect.Field;
import java.lang.reflect.Method;
import java.util.ArrayList;
import java.util.HashMap;
import java.util.List;
import java.util.Locale;
import java.util.Map;
import javax.tools.JavaFileObject;

/** Writes a test of JUnit 5 for each row: a method is called on its structure, and the predicate has to hold then. */
final class Tests {
    private static final String HEAD = """
            // Calls %2$s on each structure of %1$s that was listed, of which there are %3$d: its repOk has to hold then too.
            // Written by Replay.
            %4$s
            import static org.junit.jupiter.api.Assertions.assertTrue;

            import java.lang.reflect.Array;
            import java.lang.reflect.Constructor;
            import java.lang.reflect.Field;
            import java.lang.reflect.Method;
            import org.junit.jupiter.api.Test;

            @SuppressWarnings({"rawtypes", "unchecked"})
            class %1$sTest {
                private static void test(%5$s subject) throws Throwable {
                    subject.%2$s;
                    assertTrue(repOk(subject), "repOk is false");
                }
            """;
    static final String HELPERS = """

                private static boolean repOk(Object subject) throws Throwable {
                    Method method = null;
                    for (Class<?> type = subject.getClass(); method == null; type = type.getSuperclass()) {
                        for (Method declared : type.getDeclaredMethods()) {
                            if (declared.getName().equals("repOk") && declared.getParameterCount() == 0) {
                                method = declared;
                            }
                        }
                    }
                    method.setAccessible(true);
                    return (boolean) method.invoke(subject);
                }

                /** An object of its class's constructor without parameters, or of none where there is no such one. */
                private static Object make(String name) throws Throwable {
                    Class<?> type = Class.forName(name);
                    try {
                        Constructor<?> plain = type.getDeclaredConstructor();
                        plain.setAccessible(true);
                        return plain.newInstance();
                    } catch (ReflectiveOperationException other) {
                        return bare(type);
                    }
                }

                private static Object bare(Class<?> type) throws Throwable {
                    Class<?> factory = Class.forName("sun.reflect.ReflectionFactory");
                    Method maker = factory.getMethod("newConstructorForSerialization", Class.class, Constructor.class);
                    Object known = factory.getMethod("getReflectionFactory").invoke(null);
                    return ((Constructor<?>) maker.invoke(known, type, Object.class.getDeclaredConstructor())).newInstance();
                }

                private static Object constant(String name, int place) throws Throwable {
                    return Class.forName(name).getEnumConstants()[place];
                }

                private static void set(Object holder, String name, Object value) throws Throwable {
                    Field field = null;
                    for (Class<?> type = holder.getClass(); field == null; type = type.getSuperclass()) {
                        for (Field declared : type.getDeclaredFields()) {
                            if (declared.getName().equals(name)) {
                                field = declared;
                            }
                        }
                    }
                    field.setAccessible(true);
                    field.set(holder, value);
                }
            }
            """;
    private static final String STUB_OF_TEST = "package org.junit.jupiter.api; public @interface Test { }";
    private static final String STUB_OF_ASSERTIONS = """
            package org.junit.jupiter.api;
            public class Assertions { public static void assertTrue(boolean held, String message) { } }
            """;
    private final Model model;
    private final String call;

    Tests(Model model, String call) {
        this.model = model;
        this.call = call;
    }

    String text(List<Row> rows) throws Fault {
        String folder = model.root.getPackageName();
        String line = folder.isEmpty() ? "" : "package " + folder + ";\n";
        String name = model.root.getSimpleName();
        StringBuilder text = new StringBuilder(HEAD.formatted(name, call, rows.size(), line, model.root.getCanonicalName()));
        for (Row row : rows) {
            text.append(test(row));
        }
        text.append(HELPERS);
        compile(name + "Test.java", text.toString());
        return text.toString();
    }

    /** Refuses a call that the class doesn't take. The two names of JUnit that the test uses are stubs here. */
    void compile(String name, String text) throws Fault {
        List<JavaFileObject> texts = new ArrayList<>(model.sources.texts);
        texts.add(new Text("Test.java", STUB_OF_TEST));
        texts.add(new Text("Assertions.java", STUB_OF_ASSERTIONS));
        texts.add(new Text(name, text));
        try {
            Sources.compile(texts);
        } catch (Fault fault) {
            throw new Fault("no test with " + call + ": " + fault.getMessage());
        }
    }

    private String test(Row row) throws Fault {
        String root = "(" + model.root.getCanonicalName() + ") object0";
        return "\n    // " + row.structure().canonical(model) + "\n    @Test\n    void row_" + row.key().replace('.', '_')
                + "() throws Throwable {\n" + building(row.structure()) + "        test(" + root + ");\n    }\n";
    }

    /** The variable of each object of a structure, in their order from `object0`, the root, on. */
    static Map<Name, String> variables(Structure structure) {
        Map<Name, String> variables = new HashMap<>();
        for (Name name : structure.objects().keySet()) {
            variables.put(name, "object" + variables.size());
        }
        return variables;
    }

    /** The statements that build a structure. */
    String building(Structure structure) throws Fault {
        Map<Name, String> variables = variables(structure);
        StringBuilder made = new StringBuilder();
        StringBuilder filled = new StringBuilder();
        for (Map.Entry<Name, Map<String, Object>> entry : structure.objects().entrySet()) {
            String variable = variables.get(entry.getKey());
            if (entry.getKey().isCollection()) {
                made.append("        Object " + variable + " = new " + model.collection(entry.getKey().type()).type().getName() + "();\n");
                filled.append(adding(entry.getKey(), variable, entry.getValue(), variables));
                continue;
            }
            made.append("        Object " + variable + " = " + making(entry.getKey(), entry.getValue().size()) + ";\n");
            for (Map.Entry<String, Object> slot : entry.getValue().entrySet()) {
                Object value = slot.getValue();
                String told = value instanceof Name ? variables.get(value) : told(entry.getKey(), slot.getKey(), value);
                filled.append("        " + setting(entry.getKey(), variable, slot.getKey(), told) + ";\n");
            }
            Field outer = entry.getKey().isIndexed() ? null : model.outer(model.classOf(entry.getKey().type()));
            if (outer != null) {
                filled.append("        " + setting(entry.getKey(), variable, outer.getName(), "object0") + ";\n");
            }
        }
        return made.append(filled).toString();
    }

    /** The statements that give a collection its members. */
    private String adding(Name name, String variable, Map<String, Object> slots, Map<Name, String> variables) throws Fault {
        Held one = model.collection(name.type());
        StringBuilder text = new StringBuilder();
        List<String> told = new ArrayList<>();
        for (Object value : slots.values()) {
            told.add(value instanceof Name ? variables.get(value) : written(model.converted(model.member(one, told.size()), value, name.type())));
            if (told.size() % one.slots().size() == 0) {
                String members = String.join(", ", told.subList(told.size() - one.slots().size(), told.size()));
                text.append("        ((java.util." + (one.isMap() ? "Map) " + variable + ").put(" : "Collection) " + variable + ").add(") + members + ");\n");
            }
        }
        return text.toString();
    }

    private String making(Name name, int size) throws Fault {
        if (!name.isArray()) {
            model.made(name);
            return "make(\"" + model.classOf(name.type()).getName() + "\")";
        }
        Class<?> component = model.component(name.type());
        String type = component.isPrimitive() ? component + ".class" : "Class.forName(\"" + component.getName() + "\")";
        return "Array.newInstance(" + type + ", " + size + ")";
    }

    private String setting(Name name, String variable, String key, String value) {
        return name.isArray()
                ? "Array.set(" + variable + ", " + key + ", " + value + ")"
                : "set(" + variable + ", \"" + key + "\", " + value + ")";
    }

    /** A value as Java writes it, of the type that its place has. */
    private String told(Name name, String key, Object value) throws Fault {
        Class<?> wanted = name.isArray() ? model.component(name.type()) : model.field(name, key).getType();
        return written(model.converted(wanted, value, name.type() + "." + key));
    }

    /** A number, a truth value, a character, a constant or null as Java writes it. */
    static String written(Object real) {
        if (real instanceof Enum<?> constant) {
            return "constant(\"" + constant.getDeclaringClass().getName() + "\", " + constant.ordinal() + ")";
        } else if (real instanceof Character character) {
            return "(char) " + (int) character;
        } else if (real instanceof Byte || real instanceof Short) {
            return "(" + real.getClass().getSimpleName().toLowerCase(Locale.ROOT) + ") " + real;
        }
        return real instanceof Long ? real + "L" : String.valueOf(real);
    }
}
