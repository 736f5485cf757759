package adapt;

import java.util.LinkedHashMap;
import java.util.List;
import java.util.Map;
import javax.lang.model.element.TypeElement;

/**
 * A finitization: with the classes that names of object domains stand for, and as it is written. In version 1 a domain's name is
 * its class's.
 */
record Finitization(String name, String root, long fuel, Map<String, Long> objects,
        Map<String, Map<String, Object>> arrays, Map<String, Map<String, Object>> collections, Map<String, List<Object>> fields, Map<String, List<Object>> params, Written written) {

    /** An object domain: the class of its objects, and how many there are. */
    record Domain(String type, long count) {}

    /** The parts that name object domains, as they are written. */
    record Written(boolean second, String root, Map<String, Domain> domains, Map<String, List<Object>> fields, Map<String, List<Object>> params) {

        String classOf(String name) {
            return domains.containsKey(name) ? domains.get(name).type() : name;
        }

        private Map<String, List<Object>> ofClasses(Map<String, List<Object>> table) {
            Map<String, List<Object>> result = new LinkedHashMap<>();
            table.forEach((key, items) -> result.put(key, items.stream().map(item -> item instanceof String name ? classOf(name) : item).toList()));
            return result;
        }

        private Map<String, Long> counts() {
            Map<String, Long> result = new LinkedHashMap<>();
            domains.values().forEach(domain -> result.merge(domain.type(), domain.count(), Long::sum));
            return result;
        }
    }

    @SuppressWarnings("unchecked")
    static Finitization read(String path, String text) throws Fault {
        try {
            Map<String, Object> document = Toml.read(text);
            boolean second = Long.valueOf(2).equals(document.get("version"));
            check(document, "objects", second ? Map.class : Long.class);
            check(document, "arrays", Map.class);
            check(document, "collections", Map.class);
            check(document, "fields", List.class);
            check(document, "params", List.class);
            Map<String, Domain> domains = new LinkedHashMap<>();
            ((Map<String, Object>) document.getOrDefault("objects", Map.of())).forEach((name, value) -> domains.put(name, domain(name, value)));
            Written written = new Written(second, (String) document.get("root"), domains,
                    (Map<String, List<Object>>) document.getOrDefault("fields", Map.of()),
                    (Map<String, List<Object>>) document.getOrDefault("params", Map.of()));
            return new Finitization(path, written.classOf(written.root()), (Long) document.get("fuel"), written.counts(),
                    (Map<String, Map<String, Object>>) document.getOrDefault("arrays", Map.of()),
                    (Map<String, Map<String, Object>>) document.getOrDefault("collections", Map.of()),
                    written.ofClasses(written.fields()), written.ofClasses(written.params()), written);
        } catch (IllegalArgumentException | ClassCastException | NullPointerException e) {
            String where = e instanceof IllegalArgumentException ? " (" + e.getMessage() + ")" : "";
            throw new Fault(1, path + ": no finitization" + where + ": see docs/FINITIZATION.md");
        }
    }

    private static Domain domain(String name, Object value) {
        return value instanceof Map<?, ?> table ? new Domain((String) table.get("class"), (Long) table.get("count")) : new Domain(name, (Long) value);
    }

    private static void check(Map<String, Object> document, String table, Class<?> kind) {
        ((Map<?, ?>) document.getOrDefault(table, Map.of())).values().forEach(kind::cast);
    }

    boolean counts(String type) {
        return objects.getOrDefault(type, 0L) > 0;
    }

    /** Whether candidates have the fields of a class. */
    boolean counts(Program program, TypeElement type) {
        return program.classes.entrySet().stream()
                .anyMatch(entry -> counts(entry.getKey()) && program.isBelow(entry.getValue(), type));
    }

    /** The names in a domain, without null. */
    static List<String> names(List<Object> domain) {
        return domain.stream().filter(String.class::isInstance).map(String.class::cast).filter(name -> !name.equals("null"))
                .toList();
    }

    static boolean hasNull(List<Object> domain) {
        return domain.contains("null");
    }

    /** Whether a domain has a number that no int is. */
    static boolean hasLongs(List<Object> domain) {
        return domain.stream().anyMatch(item -> item instanceof Long number && number != number.intValue()
                || item instanceof Map<?, ?> range && range.values().stream().anyMatch(end -> end instanceof Long number && number != number.intValue()));
    }

    static boolean hasNumbers(List<Object> domain) {
        return domain.stream().anyMatch(item -> item instanceof Long || item instanceof Map);
    }
}
