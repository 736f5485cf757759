package replay;

import java.util.ArrayList;
import java.util.Collection;
import java.util.HashSet;
import java.util.LinkedHashMap;
import java.util.List;
import java.util.Map;
import java.util.Objects;
import java.util.Set;
import java.util.regex.Matcher;
import java.util.regex.Pattern;

/**
 * A class of an adapted source that stands for one of the library's collections, as the first lines of its finitization say. What rows and
 * bounds have as an object with a chain of cells is here an object with its members: of a map a key and its value in turn.
 */
record Held(String name, Class<?> type, List<String> members) {
    private static final Pattern LINE = Pattern.compile("(?m)^# In what Replay reads, ([\\w$]+) is a (java\\.util\\.\\w+) of ([\\w.$]+)(?: and ([\\w.$]+))?\\.$");

    static List<Held> of(String text) throws Fault {
        List<Held> found = new ArrayList<>();
        Matcher lines = LINE.matcher(text);
        while (lines.find()) {
            try {
                List<String> members = lines.group(4) == null ? List.of(lines.group(3)) : List.of(lines.group(3), lines.group(4));
                found.add(new Held(lines.group(1), Class.forName(lines.group(2)), members));
            } catch (ClassNotFoundException none) {
                throw new Fault("no class " + lines.group(2));
            }
        }
        return found;
    }

    boolean isMap() {
        return Map.class.isAssignableFrom(type);
    }

    private String part() {
        return name.replaceFirst("^.*?Of", "");
    }

    /** The class that has the first cell and the size. */
    String base() {
        return (isMap() ? "MapOf" : "ListOf") + part();
    }

    String cell() {
        return (isMap() ? "PairOf" : "CellOf") + part();
    }

    /** The fields of a cell that hold a member. */
    List<String> slots() {
        return isMap() ? List.of("key", "value") : List.of("item");
    }

    /** How its objects are named here. */
    String folded() {
        return name + Name.COLLECTION;
    }

    /** Replaces the cells of a structure's collections by their members. */
    static void fold(List<Held> all, Structure structure) throws Fault {
        if (all.isEmpty()) {
            return;
        }
        Map<String, Held> named = new LinkedHashMap<>();
        all.forEach(held -> named.put(held.name, held));
        List<String> cells = all.stream().map(Held::cell).toList();
        Map<Name, Map<String, Object>> folded = new LinkedHashMap<>();
        for (Map.Entry<Name, Map<String, Object>> entry : structure.objects().entrySet()) {
            Held held = named.get(entry.getKey().type());
            if (!cells.contains(entry.getKey().type())) {
                Map<String, Object> slots = held == null ? entry.getValue() : held.members(entry.getValue(), structure);
                slots.replaceAll((key, value) -> renamed(named, value));
                folded.put((Name) renamed(named, entry.getKey()), slots);
            }
        }
        structure.objects().clear();
        structure.objects().putAll(folded);
    }

    private static Object renamed(Map<String, Held> named, Object value) {
        return value instanceof Name name && named.containsKey(name.type()) ? new Name(named.get(name.type()).folded(), name.number()) : value;
    }

    private Map<String, Object> members(Map<String, Object> object, Structure structure) throws Fault {
        Map<String, Object> found = new LinkedHashMap<>();
        Object cell = object.get("first");
        for (Object left = object.get("size"); !Integer.valueOf(found.size() / slots().size()).equals(left); ) {
            Map<String, Object> slots = cell instanceof Name ? structure.objects().get(cell) : null;
            if (slots == null) {
                throw new Fault("a row has a collection that isn't whole: " + structure.objects());
            }
            slots().forEach(slot -> found.put(String.valueOf(found.size()), slots.get(slot)));
            cell = slots.get("next");
        }
        if (cell != null) {
            throw new Fault("a row has a collection that isn't whole: " + structure.objects());
        }
        return found;
    }

    Object made() throws Fault {
        try {
            return type.getDeclaredConstructor().newInstance();
        } catch (ReflectiveOperationException never) {
            throw new Fault("no object of " + type.getSimpleName() + " can be made");
        }
    }

    /** Gives a collection the members that its slots say. */
    @SuppressWarnings("unchecked")
    void fill(Object real, List<Object> values) {
        if (!isMap()) {
            Collection<Object> collection = (Collection<Object>) real;
            collection.clear();
            collection.addAll(values);
            return;
        }
        Map<Object, Object> map = (Map<Object, Object>) real;
        map.clear();
        for (int at = 0; at < values.size(); at += 2) {
            map.put(values.get(at), values.get(at + 1));
        }
    }

    private boolean isAscending() {
        return type.getSimpleName().matches("(Tree|Hash)(Set|Map)");
    }

    private boolean isDistinct() {
        return isMap() || Set.class.isAssignableFrom(type);
    }

    /** Whether members stand in the order in which a collection's are listed, each once where it has each once. */
    boolean isListed(List<Object> told) {
        int step = slots().size();
        for (int at = 0; isDistinct() && at < told.size(); at += step) {
            for (int before = isAscending() ? Math.max(at - step, 0) : 0; before < at; before += step) {
                if (isAscending() ? order(told.get(before)) >= order(told.get(at)) : Objects.equals(told.get(before), told.get(at))) {
                    return false;
                }
            }
        }
        return true;
    }

    /** The sizes for which there are members enough; all where there are for none. */
    List<Integer> possible(List<Integer> sizes, List<Choice> choices) {
        boolean unbounded = !isDistinct() || choices.stream().anyMatch(choice -> choice.type() != null);
        List<Integer> possible = sizes.stream().filter(size -> unbounded || size <= choices.size()).toList();
        return possible.isEmpty() ? sizes : possible;
    }

    /** Of the values that a slot may have, those with which the members before it are listed, and with which those after it can be. */
    List<Value> listed(List<Value> values, List<Object> told, int slot) {
        int step = slots().size();
        if (!isDistinct() || slot % step != 0) {
            return values;
        }
        if (!isAscending()) {
            Set<Object> before = new HashSet<>();
            for (int at = 0; at < slot; at += step) {
                before.add(told.get(at));
            }
            return values.stream().filter(value -> !before.contains(value.told())).toList();
        }
        if (slot > 0 && order(told.get(slot - step)) == Long.MAX_VALUE) {
            return List.of();
        }
        long least = slot == 0 ? Long.MIN_VALUE : order(told.get(slot - step)) + 1;
        long[] orders = values.stream().mapToLong(value -> order(value.told())).distinct().sorted().toArray();
        int after = (told.size() - slot) / step - 1;
        long most = after < orders.length ? orders[orders.length - 1 - after] : Long.MIN_VALUE;
        return values.stream().filter(value -> order(value.told()) >= least && order(value.told()) <= most).toList();
    }

    private static long order(Object told) {
        return told instanceof Boolean truth ? truth ? 1 : 0 : told instanceof Number number ? number.longValue() : Long.MIN_VALUE;
    }
}
