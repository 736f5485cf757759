package replay;

import java.lang.reflect.Array;
import java.lang.reflect.Field;
import java.lang.reflect.InvocationTargetException;
import java.lang.reflect.Method;
import java.util.ArrayDeque;
import java.util.ArrayList;
import java.util.Arrays;
import java.util.Collection;
import java.util.IdentityHashMap;
import java.util.LinkedHashMap;
import java.util.List;
import java.util.Map;
import java.util.Set;
import java.util.TreeMap;

/** A call of the method under test on the structure of a row, and what is there after it. */
final class Called {
    private static final int STEPS_FOR_FUEL = 10;
    private static final int STEPS_AT_MOST = 1_000_000;
    private final Model model;
    private final Contract contract;
    private final int steps;
    private final Method run;
    private final Field part;
    private final Map<Name, Object> objects = new LinkedHashMap<>();
    private final Map<Object, Name> names = new IdentityHashMap<>();
    private Object root;
    private Throwable thrown;

    Called(Model model, Contract contract, long fuel) throws Fault {
        this.model = model;
        this.contract = contract;
        this.steps = (int) Math.min(STEPS_FOR_FUEL * fuel, STEPS_AT_MOST);
        this.run = found();
        try {
            this.part = run.getDeclaringClass().getDeclaredField(Contract.PART);
            part.setAccessible(true);
            run.setAccessible(true);
        } catch (NoSuchFieldException never) {
            throw new Fault("the method can't be called");
        }
    }

    private Method found() throws Fault {
        for (Class<?> type = model.root; type != null; type = type.getSuperclass()) {
            for (Method method : type.getDeclaredMethods()) {
                if (method.getName().equals(Contract.RUN)) {
                    return method;
                }
            }
        }
        throw new Fault("the method can't be called");
    }

    /** Builds a row's structure and runs the method on it: the verdict here. */
    String verdict(TestRow row) throws Fault {
        build(row.structure());
        Object[] arguments = arguments(row.values());
        thrown = null;
        model.sources.steps(steps);
        try {
            int answer = (int) run.invoke(root, arguments);
            return answer == 0 ? "pass" : answer < 0 ? "repOk" : answer > Contract.SIGNALS ? "signals " + (answer - Contract.SIGNALS) : "ensures " + answer;
        } catch (InvocationTargetException ended) {
            thrown = ended.getCause();
            String kind = thrown.getClass().getSimpleName();
            return kind.matches("Spent|StackOverflowError") ? "spent" : (partOf() == Contract.CALL ? "trap " : "check-trap ") + kind;
        } catch (IllegalAccessException closed) {
            throw new Fault("the method can't be called");
        }
    }

    private int partOf() throws Fault {
        try {
            return part.getInt(null);
        } catch (IllegalAccessException closed) {
            throw new Fault("the method can't be called");
        }
    }

    private void build(Structure structure) throws Fault {
        objects.clear();
        names.clear();
        for (Map.Entry<Name, Map<String, Object>> entry : structure.objects().entrySet()) {
            Name name = entry.getKey();
            int size = entry.getValue().size();
            Object made = name.isArray() ? Array.newInstance(model.component(name.type()), size) : model.made(name);
            objects.put(name, made);
            names.put(made, name);
        }
        root = objects.get(structure.root());
        for (Map.Entry<Name, Map<String, Object>> entry : structure.objects().entrySet()) {
            new Builder(model).fillAll(entry.getKey(), objects.get(entry.getKey()), entry.getValue(), objects);
            model.join(objects.get(entry.getKey()), root);
        }
    }

    private Object[] arguments(Map<String, Object> values) throws Fault {
        Object[] arguments = new Object[contract.parameters.size()];
        for (int at = 0; at < arguments.length; at++) {
            String name = contract.parameters.get(at);
            Object value = values.get(name);
            Object known = value instanceof Name ? objects.get(value) : value;
            arguments[at] = model.converted(run.getParameterTypes()[at], known, name);
        }
        return arguments;
    }

    /** Whether the exception is of a class of this name, or of one below it. */
    boolean threw(String name) {
        for (Class<?> type = thrown == null ? null : thrown.getClass(); type != null; type = type.getSuperclass()) {
            if (type.getSimpleName().equals(name)) {
                return true;
            }
        }
        return false;
    }

    /** Where the exception was thrown, of the sources' own classes. */
    String exception() {
        if (thrown == null) {
            return null;
        }
        String place = "";
        for (StackTraceElement frame : thrown.getStackTrace()) {
            boolean own = !frame.getMethodName().startsWith("korat$") && !frame.getClassName().startsWith("replayed.")
                    && !frame.getClassName().startsWith("java.");
            if (own) {
                place = " in " + frame.getMethodName() + (frame.getLineNumber() > 0 ? ", line " + frame.getLineNumber() : "");
                break;
            }
        }
        String message = thrown.getMessage() == null || thrown.getMessage().contains("replayed.") ? "" : ": " + thrown.getMessage().lines().findFirst().orElse("");
        return thrown.getClass().getName() + message + place;
    }

    /** The structure as it is now, as a row writes one; objects of the row keep their names. Fields are those that rows have. */
    String now(Map<String, Set<String>> shown) throws Fault {
        Map<String, Integer> counts = new TreeMap<>();
        names.values().forEach(name -> counts.merge(name.type(), name.number() + 1, Math::max));
        StringBuilder text = new StringBuilder();
        ArrayDeque<Object> waiting = new ArrayDeque<>(List.of(root));
        Map<Object, Boolean> met = new IdentityHashMap<>();
        met.put(root, true);
        while (!waiting.isEmpty()) {
            Object object = waiting.remove();
            Name name = names.get(object);
            text.append(text.length() > 0 ? " " : "").append(name).append(isIndexed(object) ? '[' : '{');
            String between = "";
            for (Map.Entry<String, Object> slot : slots(object, name, shown).entrySet()) {
                text.append(between).append(isIndexed(object) ? "" : slot.getKey() + "=").append(told(slot.getValue(), counts, met, waiting));
                between = ",";
            }
            text.append(isIndexed(object) ? ']' : '}');
        }
        return text.toString();
    }

    private static boolean isIndexed(Object object) {
        return object.getClass().isArray() || isCollection(object);
    }

    private static boolean isCollection(Object object) {
        return object instanceof Collection<?> || object instanceof Map<?, ?>;
    }

    private Map<String, Object> slots(Object object, Name name, Map<String, Set<String>> shown) throws Fault {
        Map<String, Object> slots = new LinkedHashMap<>();
        if (isCollection(object)) {
            List<Object> members = new ArrayList<>();
            if (object instanceof Map<?, ?> map) {
                map.forEach((key, value) -> members.addAll(Arrays.asList(key, value)));
            } else {
                members.addAll((Collection<?>) object);
            }
            members.forEach(member -> slots.put(String.valueOf(slots.size()), member));
            return slots;
        }
        if (object.getClass().isArray()) {
            for (int at = 0; at < Array.getLength(object); at++) {
                slots.put(String.valueOf(at), Array.get(object, at));
            }
            return slots;
        }
        Set<String> wanted = shown.get(name.type());
        for (Map.Entry<String, Field> field : model.fields(object.getClass().getSimpleName()).entrySet()) {
            try {
                if (wanted == null || wanted.contains(field.getKey())) {
                    slots.put(field.getKey(), field.getValue().get(object));
                }
            } catch (IllegalAccessException closed) {
                throw new Fault(name.type() + "." + field.getKey() + " can't be read");
            }
        }
        return slots;
    }

    private String told(Object value, Map<String, Integer> counts, Map<Object, Boolean> met, ArrayDeque<Object> waiting) {
        boolean own = value != null && !(value instanceof Enum<?>)
                && (isIndexed(value) || value.getClass().getClassLoader() == model.sources || names.containsKey(value));
        if (!own) {
            return String.valueOf(value).replaceAll("[ ,]", "_");
        }
        String type = value.getClass().getSimpleName();
        Name name = names.computeIfAbsent(value, fresh -> new Name(type, counts.merge(type, 1, Integer::sum) - 1));
        if (met.put(value, true) == null) {
            waiting.add(value);
        }
        return name.toString();
    }
}
