package adapt;

import java.util.ArrayList;
import java.util.LinkedHashMap;
import java.util.List;
import java.util.Map;
import java.util.stream.Collectors;
import javax.lang.model.element.ElementKind;
import javax.lang.model.element.Modifier;
import javax.lang.model.element.TypeElement;
import javax.lang.model.element.VariableElement;
import javax.lang.model.type.ArrayType;
import javax.lang.model.type.TypeMirror;

/** The finitization of the adapted sources. */
final class Bounds {
    private final Kinds kinds;
    private final Program program;
    private final Reach reach;
    private final Notes notes;
    private final Outers outers;
    private Finitization fin;

    Bounds(Kinds kinds, Reach reach, Notes notes, Outers outers) {
        this.outers = outers;
        this.kinds = kinds;
        this.program = kinds.program;
        this.reach = reach;
        this.notes = notes;
    }

    String adapted(Finitization document) {
        fin = document;
        String none = kinds.hasNone("") ? "# In what Replay reads, null is " + Kinds.none("~int") + (kinds.hasNone("~long") ? ", of a Long " + Kinds.none("~long") : "") + ".\n" : "";
        String version = fin.written().second() ? "version = 2\n" : "";
        for (Held.One one : kinds.held.all()) none += "# In what Replay reads, " + one.made() + " is a java.util." + one.type() + " of " + String.join(" and ", one.real()) + ".\n";
        StringBuilder text = new StringBuilder(none + version + "root = \"" + fin.written().root() + "\"\nfuel = " + fin.fuel() + "\n");
        table(text, "objects", objects());
        table(text, "arrays", arrays());
        table(text, "fields", fields());
        table(text, "params", params());
        return text.toString();
    }

    private static void table(StringBuilder text, String name, Map<String, String> entries) {
        if (entries.isEmpty()) return;
        text.append("\n[").append(name).append("]\n");
        entries.forEach((key, value) ->
                text.append(name.equals("objects") ? key : "\"" + key + "\"").append(" = ").append(value).append("\n"));
    }

    private Map<String, String> objects() {
        Map<String, String> result = new LinkedHashMap<>();
        fin.written().domains().forEach((name, domain) -> {
            TypeElement type = program.classes.get(domain.type());
            if (type != null && type.getKind() == ElementKind.ENUM) return;
            result.put(name, counted(domain.type(), domain.count()));
        });
        for (Held.One one : kinds.held.all()) {
            result.put(one.made(), counted(one.made(), kinds.held.count(one)));
            result.put(one.cell(), counted(one.cell(), kinds.held.cells(one)));
            notes.changed(fin.name(), one.name() + " became the class " + one.made());
        }
        return result;
    }

    private String counted(String type, long count) {
        return fin.written().second() ? "{ class = \"" + type + "\", count = " + count + " }" : String.valueOf(count);
    }

    /** The fields of a collection and of its cells. */
    private void addCollection(Map<String, String> result, Held.One one) {
        result.put(one.base() + ".first", "[\"null\", \"" + one.cell() + "\"]");
        result.put(one.base() + ".size", domain(kinds.held.sizes(one), null, ""));
        List<String> slots = one.isMap() ? List.of(".key", ".value") : List.of(".item");
        for (int i = 0; i < slots.size(); i++) {
            List<Object> items = fin.written().fields().getOrDefault(one.keys().get(i), List.of());
            checkRange(one.keys().get(i), items, one.real().get(i));
            result.put(one.cell() + slots.get(i), domain(items, program.classes.get(one.real().get(i)), one.members().get(i)));
        }
        result.put(one.cell() + ".next", "[\"null\", \"" + one.cell() + "\"]");
    }

    private Map<String, String> arrays() {
        Map<String, String> result = new LinkedHashMap<>();
        fin.arrays().forEach((name, bound) -> {
            String kind = Kinds.printed(kinds.arrayKind(name));
            if (kind.matches("\\?.*(float|double|String|Float|Double)\\[]")) {
                notes.refuse(fin.name(), "`" + name + "` is no type of korat's", "write int or long, or keep it out of what repOk reads");
                return;
            }
            if (kind.startsWith("?")) {
                notes.refuse(fin.name(), "nothing says what the elements of " + name + " are",
                        "name their values in [fields], as \"" + name + ".*\" = [1, 2]");
                return;
            }
            Object lengths = bound.getOrDefault("lengths", List.of());
            String text = "{ count = " + bound.get("count") + ", lengths = " + domain((List<?>) lengths, null, "") + " }";
            if (result.put(kind, text) != null) {
                notes.refuse(fin.name(),
                        "the arrays " + arrayNames(kind) + " become one type, " + kind + ", whose arrays can't be told apart",
                        "make the elements of one of them objects of a class of your own");
            }
            if (!kind.equals(name)) notes.changed(fin.name(), name + " became " + kind);
        });
        return result;
    }

    private String arrayNames(String kind) {
        return fin.arrays().keySet().stream().filter(name -> Kinds.printed(kinds.arrayKind(name)).equals(kind))
                .collect(Collectors.joining(" and "));
    }

    private Map<String, String> fields() {
        Map<String, String> result = new LinkedHashMap<>();
        fin.written().fields().forEach((key, items) -> {
            VariableElement field = kinds.field(key);
            if (fin.collections().containsKey(key.substring(0, Math.max(key.lastIndexOf('.'), 0)))) return;
            if (key.endsWith("[].*")) {
                String name = key.substring(0, key.length() - 2);
                String kind = kinds.arrayKind(name);
                String element = kinds.elementOf(kind);
                result.put(Kinds.printed(kind) + ".*", domain(items, program.classes.get(name.substring(0, name.length() - 2)), element));
                if (Kinds.printed(kind).equals("int[]")) checkRange(key, items, name.substring(0, name.length() - 2));
            } else if (field == null) {
                result.put(key, domain(items, null, ""));
            } else if (isConstant(field)) {
                notes.warn(fin.name(),
                        key + " is final with a constant: Java reads " + field.getConstantValue()
                        + " whatever the domain says, korat would have a slot; it is a constant now");
            } else {
                refuseLongs(key, field, kinds.of(field));
                checkRange(key, items, field.asType().toString());
                result.put(key, domain(items,
                        program.types.asElement(field.asType()) instanceof TypeElement type ? type : null, kinds.of(field)));
            }
        });
        addOuters(result);
        kinds.held.all().forEach(one -> addCollection(result, one));
        return result;
    }

    /** Refuses longs where the declared type says nothing of it, so that a number of a row might be an Integer too. */
    private void refuseLongs(String key, VariableElement place, String kind) {
        TypeMirror type = place.asType();
        while (type instanceof ArrayType array) type = array.getComponentType();
        boolean isCollection = kinds.held.has(place);
        if (!isCollection && Boxes.isAny(type) && kind.replaceAll("\\[]|~", "").matches("long|BoxedLong"))
            notes.refuse(fin.name(), key + " is declared as " + place.asType() + ", and its values are of type long", "declare it as long or Long");
    }

    /** The object around an object of an inner class that uses it is the one of its class. */
    private void addOuters(Map<String, String> result) {
        fin.objects().forEach((name, count) -> {
            TypeElement type = program.classes.get(name);
            if (type == null || count == 0 || !outers.has(type)) return;
            String around = Outers.enclosing(type).getSimpleName().toString();
            result.put(name + "." + outers.name(), "[\"" + domainOf(around) + "\"]");
            notes.changed(fin.name(), "objects of " + name + " got a field `" + outers.name() + "`, which is the " + around + " around them");
            if (fin.objects().getOrDefault(around, 0L) != 1)
                    notes.refuse(fin.name(), "objects of the inner class " + name + ", and not one " + around + " alone", "count one " + around);
        });
    }

    /** The object domain that has the objects of a class. */
    private String domainOf(String type) {
        return fin.written().domains().entrySet().stream()
                .filter(entry -> entry.getValue().type().equals(type) && entry.getValue().count() > 0)
                .map(Map.Entry::getKey).findFirst().orElse(type);
    }

    /** A final field whose value the compiler writes where it is read. */
    static boolean isConstant(VariableElement field) {
        return field.getModifiers().contains(Modifier.FINAL) && field.getConstantValue() != null
                && !field.getModifiers().contains(Modifier.STATIC);
    }

    private void checkRange(String key, List<Object> items, String type) {
        Map<String, long[]> ranges =
                Map.of("byte", new long[] {-128, 127}, "short", new long[] {-32768, 32767}, "char", new long[] {0, 65535},
                "Byte", new long[] {-128, 127}, "Short", new long[] {-32768, 32767}, "Character", new long[] {0, 65535});
        long[] range = ranges.get(type.substring(type.lastIndexOf('.') + 1));
        if (range == null) return;
        for (Object item : items) {
            long from = item instanceof Map<?,
                    ?> map ? (Long) map.get("from") : item instanceof Long number ? number : range[0];
            long to = item instanceof Map<?, ?> map ? (Long) map.get("to") : from;
            if (from < range[0] || to > range[1])
                    notes.refuse(fin.name(), key + " has values that no " + type + " has",
                    "keep them from " + range[0] + " to " + range[1]);
        }
    }

    private Map<String, String> params() {
        Map<String, String> result = new LinkedHashMap<>();
        fin.written().params().forEach((key, items) -> {
            if (reach.tested != null && key.startsWith(reach.tested.getSimpleName() + "."))
                    result.put(key, ofParameter(key, items));
            else notes.changed(fin.name(), "dropped params." + key + ", of a method that isn't kept");
        });
        return result;
    }

    private String ofParameter(String key, List<Object> items) {
        VariableElement parameter = reach.tested.getParameters().stream()
                .filter(one -> one.getSimpleName().contentEquals(key.substring(key.lastIndexOf('.') + 1))).findFirst().orElse(null);
        if (parameter == null) return domain(items, null, "");
        String kind = kinds.of(parameter);
        refuseLongs(key, parameter, kind);
        if (Kinds.isBoxable(Kinds.unboxOf(kind)) && Finitization.hasNull(items))
                notes.refuse(fin.name(), "null among the values of " + key, "leave it out: korat has no parameter that is a number or null");
        return domain(items, program.types.asElement(parameter.asType()) instanceof TypeElement type ? type : null, kind);
    }

    /** A domain as text; the constants of an enum are their numbers. */
    private String domain(List<?> items, TypeElement type, String kind) {
        boolean isEnum = type != null && type.getKind() == ElementKind.ENUM;
        List<String> constants = !isEnum ? List.of() : type.getEnclosedElements().stream()
                .filter(e -> e.getKind() == ElementKind.ENUM_CONSTANT).map(e -> e.getSimpleName().toString()).toList();
        List<String> texts = new ArrayList<>();
        for (Object item : items) {
            if (isEnum && "null".equals(item)) texts.add("-1");
            else if (Kinds.isStored(kind) && "null".equals(item)) texts.add(String.valueOf(Kinds.none(kind)));
            else if (kind.equals("~boolean") && item instanceof Boolean truth) texts.add(truth ? "1" : "0");
            else if (isEnum && item instanceof String name && fin.written().classOf(name).equals(type.getSimpleName().toString())) for (int i =
                    0; i < constants.size(); i++) texts.add(String.valueOf(i));
            else if (isEnum && constants.contains(item)) texts.add(String.valueOf(constants.indexOf(item)));
            else texts.add(text(item));
        }
        return "[" + String.join(", ", texts) + "]";
    }

    private String text(Object item) {
        if (item instanceof Map<?, ?> range) return "{ from = " + range.get("from") + ", to = " + range.get("to") + " }";
        if (!(item instanceof String name)) return String.valueOf(item);
        if (fin.collections().containsKey(name) && kinds.held.of(name) != null) return "\"" + kinds.held.of(name).made() + "\"";
        return "\"" + (name.endsWith("[]") ? Kinds.printed(kinds.arrayKind(name)) : name) + "\"";
    }
}
