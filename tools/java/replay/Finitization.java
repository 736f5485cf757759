package replay;

import java.nio.file.Path;
import java.util.ArrayList;
import java.util.LinkedHashMap;
import java.util.List;
import java.util.Map;

/** A finitization, as far as rows and their enumeration need it. */
final class Finitization {
    private static final int VALUES = 65_536;
    /** The number that Adapt has for null among numbers, of a Long the least one, in a finitization that says so in its first line. */
    static final int NONE = Integer.MIN_VALUE;
    boolean hasNone;
    private final Path file;
    String root;
    long fuel;
    /** How many objects each object domain has; in version 1 its name is its class's. */
    final Map<String, Integer> objects = new LinkedHashMap<>();
    private final Map<String, String> classes = new LinkedHashMap<>();
    final Map<String, Bound> arrays = new LinkedHashMap<>();
    final Map<String, List<Item>> fields = new LinkedHashMap<>();
    /** The classes that stand for the library's collections, and the sizes and members' values of each. */
    final List<Held> held = new ArrayList<>();
    final Map<String, List<Integer>> sizes = new LinkedHashMap<>();

    private Finitization(Path file) {
        this.file = file;
    }

    static Finitization of(Path file) throws Fault {
        Finitization bounds = new Finitization(file);
        String text = Files.textOf(file);
        bounds.hasNone = text.startsWith("# In what Replay reads, null is " + NONE);
        Map<String, Object> document = new Toml(file.toString(), text).document();
        boolean second = Long.valueOf(2).equals(document.get("version"));
        bounds.root = bounds.typed(String.class, document.get("root"), "root");
        bounds.fuel = bounds.typed(Long.class, document.get("fuel"), "fuel");
        for (Map.Entry<String, Object> entry : bounds.table(document, "objects").entrySet()) {
            bounds.objects(entry.getKey(), entry.getValue(), second);
        }
        for (Map.Entry<String, Object> entry : bounds.table(document, "arrays").entrySet()) {
            bounds.arrays.put(entry.getKey(), bounds.bound(entry.getValue(), "arrays." + entry.getKey()));
        }
        for (Map.Entry<String, Object> entry : bounds.table(document, "fields").entrySet()) {
            bounds.fields.put(entry.getKey(), bounds.domain(entry.getValue(), "fields." + entry.getKey()));
        }
        bounds.held.addAll(Held.of(text));
        for (Held one : bounds.held) {
            bounds.fold(one);
        }
        return bounds;
    }

    /** Counts a collection under its folded name, and drops what its cells have. */
    private void fold(Held one) throws Fault {
        Integer count = objects.remove(one.name());
        objects.remove(one.cell());
        objects.put(one.folded(), count == null ? 0 : count);
        classes.put(one.folded(), one.folded());
        List<Integer> lengths = new ArrayList<>();
        for (Item size : fields.getOrDefault(one.base() + ".size", List.of())) {
            for (long n = size.from(); n <= size.to(); n++) {
                lengths.add((int) n);
            }
        }
        sizes.put(one.folded(), lengths);
        for (String slot : one.slots()) {
            fields.put(one.folded() + "." + slot, fields.getOrDefault(one.cell() + "." + slot, List.of()));
            fields.remove(one.cell() + "." + slot);
        }
        fields.keySet().removeAll(List.of(one.base() + ".first", one.base() + ".size", one.cell() + ".next"));
        fields.replaceAll((key, items) -> items.stream().map(item -> one.name().equals(item.name()) ? new Item(0, -1, null, one.folded()) : item).toList());
    }

    private void objects(String name, Object value, boolean second) throws Fault {
        String item = "objects." + name;
        Map<String, Object> domain = second ? table(Map.of(item, value), item) : Map.of("class", name, "count", value);
        classes.put(name, typed(String.class, domain.get("class"), item));
        objects.put(name, count(domain.get("count"), item));
    }

    /** The class of an object domain; another name is a class's. */
    String classOf(String name) {
        return classes.getOrDefault(name, name);
    }

    Fault fault(String item, String what) {
        return new Fault(file + ": " + item + ": " + what);
    }

    private <T> T typed(Class<T> type, Object value, String item) throws Fault {
        if (!type.isInstance(value)) {
            String wanted = type == String.class ? "a text" : type == Long.class ? "an integer" : "an array";
            throw fault(item, value == null ? "not there" : "not " + wanted);
        }
        return type.cast(value);
    }

    @SuppressWarnings("unchecked")
    private Map<String, Object> table(Map<String, Object> holder, String key) throws Fault {
        Object value = holder.getOrDefault(key, Map.of());
        if (!(value instanceof Map)) {
            throw fault(key, "not a table");
        }
        return (Map<String, Object>) value;
    }

    private int count(Object value, String item) throws Fault {
        long count = typed(Long.class, value, item);
        if (count < 0 || count > 64) {
            throw fault(item, "not from 0 to 64");
        }
        return (int) count;
    }

    private Bound bound(Object value, String item) throws Fault {
        Map<String, Object> table = table(Map.of(item, value), item);
        List<Integer> lengths = new ArrayList<>();
        for (Item length : domain(table.get("lengths"), item)) {
            if (length.name() != null || length.truth() != null || length.from() < 0 || length.to() > 64) {
                throw fault(item, "a length that is none");
            }
            for (long n = length.from(); n <= length.to(); n++) {
                lengths.add((int) n);
            }
        }
        return new Bound(count(table.get("count"), item), lengths);
    }

    private List<Item> domain(Object value, String item) throws Fault {
        List<Item> items = new ArrayList<>();
        for (Object one : typed(List.class, value, item)) {
            items.add(item(one, item));
        }
        return items;
    }

    private Item item(Object value, String item) throws Fault {
        if (value instanceof Long number) {
            return new Item(number, number, null, null);
        } else if (value instanceof Boolean truth) {
            return new Item(0, -1, truth, null);
        } else if (value instanceof String name) {
            return new Item(0, -1, null, name);
        }
        Map<String, Object> range = table(Map.of(item, value), item);
        long from = typed(Long.class, range.get("from"), item);
        long to = typed(Long.class, range.get("to"), item);
        if (from <= to && (to - from < 0 || to - from >= VALUES)) {
            throw fault(item, "more than " + VALUES + " values");
        }
        return new Item(from, to, null, null);
    }
}
