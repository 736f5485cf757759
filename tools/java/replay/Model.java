package replay;

import java.lang.invoke.MethodType;
import java.lang.reflect.Constructor;
import java.lang.reflect.Field;
import java.lang.reflect.Method;
import java.lang.reflect.Modifier;
import java.util.ArrayList;
import java.util.HashMap;
import java.util.HashSet;
import java.util.LinkedHashMap;
import java.util.LinkedHashSet;
import java.util.List;
import java.util.Map;
import java.util.Set;

/** The classes, fields and values that names, keys and values of rows stand for. */
final class Model {
    private static final int STEPS_OF_A_CONSTRUCTOR = 1_000_000;
    final Sources sources;
    private final Finitization bounds;
    final Class<?> root;
    private final Map<String, Class<?>> classes = new HashMap<>();
    private final Map<String, Map<String, Field>> fields = new HashMap<>();
    private final Map<String, Class<?>> components = new HashMap<>();
    private final Map<String, Held> collections = new HashMap<>();

    Model(Sources sources, Finitization bounds) throws Fault {
        this.sources = sources;
        this.bounds = bounds;
        for (Held one : bounds.held) {
            collections.put(one.folded(), one);
            classes.put(one.folded(), one.type());
        }
        this.root = type(bounds.classOf(bounds.root));
        if (root == Object.class) {
            throw new Fault("the sources have no class " + bounds.classOf(bounds.root));
        }
    }

    /** The class of this name; one that the sources don't have, as of elements of any kind, stands for `Object`. */
    Class<?> type(String name) throws Fault {
        Class<?> type = classes.get(name);
        if (type == null) {
            type = sources.named(name);
            type = type == null ? Object.class : type;
            classes.put(name, type);
        }
        return type;
    }

    /** The class of the object domain of this name. */
    Class<?> classOf(String domain) throws Fault {
        return type(bounds.classOf(domain));
    }

    /** The instance fields of a class by name, those of the superclass first. */
    Map<String, Field> fields(String name) throws Fault {
        Map<String, Field> known = fields.get(name);
        if (known == null) {
            known = new LinkedHashMap<>();
            collect(type(name), known);
            fields.put(name, known);
        }
        return known;
    }

    private void collect(Class<?> type, Map<String, Field> found) throws Fault {
        if (type == null || type.getClassLoader() != sources) {
            return;
        }
        collect(type.getSuperclass(), found);
        for (Field field : type.getDeclaredFields()) {
            if (!Modifier.isStatic(field.getModifiers()) && !field.isSynthetic()) {
                field.setAccessible(true);
                found.put(field.getName(), field);
            }
        }
    }

    Field field(String type, String name) throws Fault {
        Field field = fields(type).get(name);
        if (field == null) {
            throw new Fault("the sources have no field " + type + "." + name);
        }
        return field;
    }

    /** The field of an object's class. */
    Field field(Name object, String name) throws Fault {
        return field(bounds.classOf(object.type()), name);
    }

    /** The collection that a folded name stands for. */
    Held collection(String folded) {
        return collections.get(folded);
    }

    /** The class of the members of a collection at a place. */
    Class<?> member(Held one, int place) throws Fault {
        String name = one.members().get(place % one.members().size());
        try {
            return name.startsWith("java.lang.") ? Class.forName(name) : type(name);
        } catch (ClassNotFoundException none) {
            throw new Fault("no class " + name);
        }
    }

    /** These fields in the order in which the object's class has them. */
    List<String> ordered(Name object, Set<String> names) throws Fault {
        String type = bounds.classOf(object.type());
        List<String> all = new ArrayList<>(fields(type).keySet());
        all.retainAll(names);
        if (all.size() < names.size()) {
            for (String name : names) {
                field(type, name);
            }
        }
        return all;
    }

    /** What the elements of an array type are in the sources: that of the fields that hold such arrays. */
    Class<?> component(String array) throws Fault {
        Class<?> known = components.get(array);
        if (known == null) {
            known = found(array);
            components.put(array, known);
        }
        return known;
    }

    private Class<?> found(String array) throws Fault {
        Set<Class<?>> held = new LinkedHashSet<>();
        for (Map.Entry<String, List<Item>> entry : bounds.fields.entrySet()) {
            if (entry.getValue().stream().anyMatch(item -> array.equals(item.name()))) {
                Class<?> holder = holder(entry.getKey());
                held.add(holder.isArray() ? holder.getComponentType() : spelled(array));
            }
        }
        if (held.size() > 1) {
            throw new Fault(array + " stands for arrays of several types: " + held);
        }
        return held.isEmpty() ? spelled(array) : held.iterator().next();
    }

    /** The type of what has this key in the finitization: a field, or an array's elements. */
    private Class<?> holder(String key) throws Fault {
        int dot = key.lastIndexOf('.');
        String type = key.substring(0, Math.max(dot, 0));
        String name = key.substring(dot + 1);
        return name.equals("*") ? component(type) : field(type, name).getType();
    }

    /** The type of the elements as the array type's own name says it. */
    private Class<?> spelled(String array) throws Fault {
        String element = array.substring(0, array.length() - 2);
        if (element.endsWith("[]")) {
            return spelled(element).arrayType();
        }
        return switch (element.replaceAll("<.*", "")) {
            case "int" -> int.class;
            case "boolean" -> boolean.class;
            case "HashSet" -> HashSet.class;
            case "LinkedList" -> java.util.LinkedList.class;
            default -> type(element);
        };
    }

    /** What a number or a truth value of a row is where this type is wanted. */
    Object converted(Class<?> wanted, Object value, String place) throws Fault {
        Object fit = value instanceof Number number ? number(wanted, number.longValue()) : value;
        Object none = Structure.told(wanted == Long.class ? Long.MIN_VALUE : Finitization.NONE);
        if (none.equals(value) && bounds.hasNone && !wanted.isPrimitive() || wanted.isEnum() && Integer.valueOf(-1).equals(value)) {
            fit = null;
        }
        if (fit == null ? wanted.isPrimitive() : !boxed(wanted).isInstance(fit)) {
            throw new Fault(place + ": " + value + " is no " + wanted.getTypeName());
        }
        return fit;
    }

    private static Class<?> boxed(Class<?> type) {
        return MethodType.methodType(type).wrap().returnType();
    }

    /** The number as a value of the type: a character by its code, a constant of an enumeration by its place. */
    private static Object number(Class<?> wanted, long number) {
        if (wanted.isEnum()) {
            Object[] constants = wanted.getEnumConstants();
            return number >= 0 && number < constants.length ? constants[(int) number] : number;
        }
        Class<?> type = boxed(wanted);
        if (type == Long.class) {
            return number;
        } else if (type == Boolean.class && !wanted.isPrimitive() && (number == 0 || number == 1)) {
            return number == 1;
        } else if (type == Character.class && number == (char) number) {
            return (char) number;
        } else if (type == Byte.class && number == (byte) number) {
            return (byte) number;
        } else if (type == Short.class && number == (short) number) {
            return (short) number;
        }
        return Structure.told(number);
    }

    /** A new object of the name's class: of its constructor without parameters, or of none where it has no such one that returns. */
    Object made(Name name) throws Fault {
        if (name.isCollection()) {
            return collection(name.type()).made();
        }
        Class<?> type = classOf(name.type());
        if (Modifier.isAbstract(type.getModifiers()) || type.isEnum()) {
            throw new Fault(type.getSimpleName() + " has no objects of its own");
        }
        sources.steps(STEPS_OF_A_CONSTRUCTOR);
        try {
            Constructor<?> plain = type.getDeclaredConstructor();
            plain.setAccessible(true);
            return plain.newInstance();
        } catch (ReflectiveOperationException | LinkageError other) {
            return bare(type);
        }
    }

    private static Object bare(Class<?> type) throws Fault {
        try {
            Class<?> factory = Class.forName("sun.reflect.ReflectionFactory");
            Method maker = factory.getMethod("newConstructorForSerialization", Class.class, Constructor.class);
            Object known = factory.getMethod("getReflectionFactory").invoke(null);
            return ((Constructor<?>) maker.invoke(known, type, Object.class.getDeclaredConstructor())).newInstance();
        } catch (ReflectiveOperationException | LinkageError broken) {
            throw new Fault("no object of " + type.getSimpleName() + " can be made: " + broken);
        }
    }

    /** The field of an inner object that holds its outer one, where the root is that. */
    Field outer(Class<?> type) {
        for (Field field : type.getDeclaredFields()) {
            if (field.isSynthetic() && field.getName().startsWith("this$") && field.getType().isAssignableFrom(root)) {
                field.setAccessible(true);
                return field;
            }
        }
        return null;
    }

    /** Whether a name is that of the field by which an adapted class has its outer object: the class as it is written has none. */
    private boolean isOuter(String type, String name) {
        try {
            return !name.equals("*") && !fields(type).containsKey(name) && outer(type(type)) != null;
        } catch (Fault none) {
            return false;
        }
    }

    /** Leaves such fields out of the bounds and of rows, the outer object is the root; and gives collections their members. */
    void leaveOutersOut(List<Row> rows) throws Fault {
        for (Row row : rows) {
            Held.fold(bounds.held, row.structure());
        }
        bounds.fields.keySet().removeIf(key -> !key.contains(Name.COLLECTION) && isOuter(key.substring(0, Math.max(key.lastIndexOf('.'), 0)), key.substring(key.lastIndexOf('.') + 1)));
        for (Row row : rows) {
            row.structure().objects().forEach((name, slots) -> {
                if (!name.isIndexed()) {
                    slots.keySet().removeIf(key -> isOuter(bounds.classOf(name.type()), key));
                }
            });
        }
    }

    /** Makes the root the outer object of an inner one. */
    void join(Object object, Object root) throws Fault {
        Field outer = outer(object.getClass());
        if (outer != null) {
            set(outer, object, root);
        }
    }

    /** The types of the parameters of the root's method of this name, its own or inherited. */
    List<Class<?>> parameters(String name, int count) throws Fault {
        for (Class<?> type = root; type != null; type = type.getSuperclass()) {
            for (Method method : type.getDeclaredMethods()) {
                if (method.getName().equals(name) && method.getParameterCount() == count && !method.isBridge()) {
                    return List.of(method.getParameterTypes());
                }
            }
        }
        throw new Fault(root.getSimpleName() + " has no method " + name);
    }

    Method predicate() throws Fault {
        for (Class<?> type = root; type != null; type = type.getSuperclass()) {
            for (Method method : type.getDeclaredMethods()) {
                boolean named = method.getName().equals("repOk") && method.getParameterCount() == 0;
                if (named && method.getReturnType() == boolean.class) {
                    method.setAccessible(true);
                    return method;
                }
            }
        }
        throw new Fault(root.getSimpleName() + " has no 'boolean repOk()'");
    }

    void set(Field field, Object holder, Object value) throws Fault {
        try {
            field.set(holder, value);
        } catch (IllegalAccessException closed) {
            String place = field.getDeclaringClass().getSimpleName() + "." + field.getName();
            throw new Fault(place + " can't be set: its class is a record");
        }
    }
}
