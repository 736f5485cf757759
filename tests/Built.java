import java.lang.reflect.Array;
import java.lang.reflect.Field;
import java.lang.reflect.Method;
import java.lang.reflect.Modifier;
import java.util.ArrayList;
import java.util.HashMap;
import java.util.IdentityHashMap;
import java.util.List;
import java.util.Map;

/** Prints what the builders of KoratBuild build, as rows of `list` without keys: objects have numbers by class, as they are met. */
public class Built {
    private final List<Object> met = new ArrayList<>();
    private final Map<Object, String> names = new IdentityHashMap<>();
    private final Map<String, Integer> counts = new HashMap<>();

    public static void main(String[] words) throws Exception {
        Class<?> builders = Class.forName("KoratBuild");
        StringBuilder rows = new StringBuilder();
        for (int number = 0; number < Integer.parseInt(words[0]); number++) {
            Method builder = builders.getDeclaredMethod("b" + number);
            builder.setAccessible(true);
            rows.append(new Built().row(builder.invoke(null))).append('\n');
        }
        System.out.print(rows);
        if (builders.getDeclaredMethods().length != Integer.parseInt(words[0])) System.exit(1);
    }

    /** The row of a root: each object that is met, with its fields or elements. */
    private String row(Object root) throws Exception {
        name(root);
        List<String> shown = new ArrayList<>();
        for (int at = 0; at < met.size(); at++) shown.add(object(met.get(at)));
        return String.join(" ", shown);
    }

    private String object(Object object) throws Exception {
        List<String> parts = new ArrayList<>();
        if (object.getClass().isArray()) {
            for (int at = 0; at < Array.getLength(object); at++) parts.add(value(Array.get(object, at), object.getClass().getComponentType()));
            return names.get(object) + "[" + String.join(",", parts) + "]";
        }
        for (Field field : fields(object.getClass())) parts.add(field.getName() + "=" + value(field.get(object), field.getType()));
        return names.get(object) + "{" + String.join(",", parts) + "}";
    }

    /** The instance fields, inherited ones first. */
    private static List<Field> fields(Class<?> type) {
        if (type == null) return new ArrayList<>();
        List<Field> fields = fields(type.getSuperclass());
        for (Field field : type.getDeclaredFields()) {
            if (Modifier.isStatic(field.getModifiers())) continue;
            field.setAccessible(true);
            fields.add(field);
        }
        return fields;
    }

    private String value(Object value, Class<?> type) {
        return value == null || type.isPrimitive() ? String.valueOf(value) : name(value);
    }

    /** An object's name, which it has from where it is met first. */
    private String name(Object object) {
        return names.computeIfAbsent(object, unnamed -> {
            met.add(unnamed);
            String type = unnamed.getClass().getSimpleName();
            return type + "#" + (counts.merge(type, 1, Integer::sum) - 1);
        });
    }
}
