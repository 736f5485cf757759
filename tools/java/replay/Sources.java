package replay;

import java.nio.charset.StandardCharsets;
import java.nio.file.Path;
import java.util.ArrayList;
import java.util.HashMap;
import java.util.LinkedHashMap;
import java.util.List;
import java.util.Locale;
import java.util.Map;
import java.util.TreeMap;
import java.util.function.Consumer;
import java.util.function.IntConsumer;
import java.util.function.IntSupplier;
import java.util.function.ObjIntConsumer;
import javax.tools.Diagnostic;
import javax.tools.DiagnosticCollector;
import javax.tools.JavaCompiler;
import javax.tools.JavaFileObject;
import javax.tools.ToolProvider;

/** The classes of the sources, compiled in memory; loops and methods count their steps, and reads of fields are noted. */
final class Sources extends ClassLoader {
    static final String STEPS = "replayed.Steps";
    static final String STEPS_SOURCE = """
            package replayed;
            import java.util.function.*;
            public final class Steps implements IntConsumer, IntSupplier, Consumer<ObjIntConsumer<Object>> {
                private static int left;
                private static ObjIntConsumer<Object> reader;
                public static final class Spent extends Error { }
                public static void step() { if (--left < 0) throw new Spent(); }
                public static <T> T read(T object, int field) {
                    if (reader != null) reader.accept(object, field);
                    return object;
                }
                public static <T> T whole(T array) { return read(array, -1); }
                public static <T> T get(T[] array, int index) { return read(array, -2 - index)[index]; }
                public static boolean get(boolean[] array, int index) { return read(array, -2 - index)[index]; }
                public static byte get(byte[] array, int index) { return read(array, -2 - index)[index]; }
                public static char get(char[] array, int index) { return read(array, -2 - index)[index]; }
                public static short get(short[] array, int index) { return read(array, -2 - index)[index]; }
                public static int get(int[] array, int index) { return read(array, -2 - index)[index]; }
                public static long get(long[] array, int index) { return read(array, -2 - index)[index]; }
                public static float get(float[] array, int index) { return read(array, -2 - index)[index]; }
                public static double get(double[] array, int index) { return read(array, -2 - index)[index]; }
                public void accept(int steps) { left = steps; }
                public int getAsInt() { return left; }
                public void accept(ObjIntConsumer<Object> next) { reader = next; }
            }
            """;
    final List<JavaFileObject> texts;
    private final Map<String, byte[]> compiled;
    private final List<Class<?>> classes = new ArrayList<>();
    /** The fields whose reads are noted, as `class.field`, by their numbers; none where reads aren't noted. */
    final List<String> noted;
    private final Object steps;

    private Sources(List<JavaFileObject> texts, List<String> noted) throws Fault {
        super(Replay.class.getClassLoader());
        this.texts = texts;
        this.noted = noted;
        this.compiled = compile(texts);
        setDefaultAssertionStatus(true);
        try {
            for (String name : new TreeMap<>(compiled).keySet()) {
                classes.add(loadClass(name));
            }
            steps = loadClass(STEPS).getConstructor().newInstance();
        } catch (ReflectiveOperationException | LinkageError broken) {
            throw new Fault("a class can't be loaded: " + broken.getMessage());
        }
    }

    static Sources compiled(List<Path> files) throws Fault {
        Map<String, String> texts = new LinkedHashMap<>();
        for (Path file : files) {
            texts.put(file.toString(), Files.textOf(file));
        }
        Rewriting rewriting = new Rewriting(texts);
        try {
            return new Sources(rewriting.rewritten(true), rewriting.noted);
        } catch (Fault unnoted) {
            return new Sources(rewriting.rewritten(false), List.of());
        }
    }

    static Map<String, byte[]> compile(List<JavaFileObject> texts) throws Fault {
        JavaCompiler compiler = compiler();
        DiagnosticCollector<JavaFileObject> messages = new DiagnosticCollector<>();
        Memory memory = new Memory(compiler.getStandardFileManager(messages, Locale.ROOT, StandardCharsets.UTF_8));
        boolean good = compiler.getTask(null, memory, messages, options(), null, texts).call();
        if (!good) {
            throw firstError(messages);
        }
        Map<String, byte[]> compiled = new HashMap<>();
        memory.written.forEach((name, bytes) -> compiled.put(name, bytes.toByteArray()));
        return compiled;
    }

    static List<String> options() {
        return List.of("-proc:none", "-nowarn", "-Xlint:none", "-classpath", System.getProperty("java.class.path"));
    }

    static JavaCompiler compiler() throws Fault {
        JavaCompiler compiler = ToolProvider.getSystemJavaCompiler();
        if (compiler == null) {
            throw new Fault("this Java has no compiler: a JDK of version 17 or later has one");
        }
        return compiler;
    }

    static Fault firstError(DiagnosticCollector<JavaFileObject> messages) {
        for (Diagnostic<? extends JavaFileObject> message : messages.getDiagnostics()) {
            if (message.getKind() == Diagnostic.Kind.ERROR) {
                JavaFileObject source = message.getSource();
                String place = source == null ? "" : source.getName() + ":" + message.getLineNumber() + ": ";
                String lines = message.getMessage(Locale.ROOT).strip();
                return new Fault(place + lines.replaceAll("\\s*\\n\\s*", ", ").replaceAll(" +", " "));
            }
        }
        return new Fault("the sources aren't compiled");
    }

    @Override
    protected Class<?> findClass(String name) throws ClassNotFoundException {
        byte[] bytes = compiled.get(name);
        if (bytes == null) {
            throw new ClassNotFoundException(name);
        }
        return defineClass(name, withoutRecord(bytes), 0, bytes.length);
    }

    /** A class file whose attribute `Record` has another name, so that the fields of a record can be set. */
    private byte[] withoutRecord(byte[] bytes) {
        if (compiled.containsKey("Record")) return bytes;
        byte[] result = bytes.clone();
        byte[] name = {1, 0, 6, 'R', 'e', 'c', 'o', 'r', 'd'};
        for (int at = 0; at + name.length <= result.length; at++) {
            if (java.util.Arrays.equals(result, at, at + name.length, name, 0, name.length)) {
                result[at + name.length - 1] = '_';
            }
        }
        return result;
    }

    /** Gives a run so many steps. */
    void steps(int most) {
        ((IntConsumer) steps).accept(most);
    }

    /** How many steps the last run left. */
    int stepsLeft() {
        return ((IntSupplier) steps).getAsInt();
    }

    /** Whether the sources have the class of a stack's frame. */
    boolean isOwn(StackTraceElement frame) {
        return compiled.containsKey(frame.getClassName()) && !frame.getClassName().startsWith("replayed.");
    }

    /** Hands the reads of fields to a reader from now on. */
    @SuppressWarnings("unchecked")
    void reads(ObjIntConsumer<Object> reader) {
        ((Consumer<ObjIntConsumer<Object>>) steps).accept(reader);
    }

    /** The class that has this simple name, or `Outer.Inner`; none where no class has it. */
    Class<?> named(String name) throws Fault {
        Class<?> found = null;
        for (Class<?> type : classes) {
            String whole = type.getCanonicalName();
            if (whole != null && !whole.startsWith("replayed.") && ("." + whole).endsWith("." + name)) {
                if (found != null) {
                    throw new Fault("two classes of the sources are named " + name);
                }
                found = type;
            }
        }
        return found;
    }
}
