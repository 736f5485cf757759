package replay;

import java.util.ArrayDeque;
import java.util.HashMap;
import java.util.LinkedHashMap;
import java.util.Map;
import java.util.regex.Matcher;
import java.util.regex.Pattern;

/** A structure: for each reachable object its fields by name, or its elements by index. The first object is the root. */
record Structure(Map<Name, Map<String, Object>> objects) {
    private static final Pattern OBJECT = Pattern.compile("([^ #]+)#([0-9]+)([{\\[])(.*)[}\\]]");
    private static final Pattern REFERENCE = Pattern.compile("([^ #]+)#([0-9]+)");

    static Structure of(String text) throws Fault {
        Map<Name, Map<String, Object>> objects = new LinkedHashMap<>();
        for (String word : text.split(" ")) {
            Matcher parts = OBJECT.matcher(word);
            if (!parts.matches()) {
                throw new Fault("no object of a row: " + word);
            }
            Name name = new Name(parts.group(1), Integer.parseInt(parts.group(2)));
            objects.put(name, slots(parts.group(4), parts.group(3).equals("[")));
        }
        return new Structure(objects);
    }

    static Map<String, Object> slots(String text, boolean array) throws Fault {
        Map<String, Object> slots = new LinkedHashMap<>();
        for (String part : text.isEmpty() ? new String[0] : text.split(",")) {
            int end = array ? -1 : part.indexOf('=');
            String key = array ? String.valueOf(slots.size()) : part.substring(0, Math.max(end, 0));
            slots.put(key, value(part.substring(end + 1)));
        }
        return slots;
    }

    private static Object value(String text) throws Fault {
        Matcher reference = REFERENCE.matcher(text);
        if (reference.matches()) {
            return new Name(reference.group(1), Integer.parseInt(reference.group(2)));
        }
        return switch (text) {
            case "null" -> null;
            case "true" -> true;
            case "false" -> false;
            default -> number(text);
        };
    }

    private static Object number(String text) throws Fault {
        try {
            return told(Long.parseLong(text));
        } catch (NumberFormatException other) {
            throw new Fault("no value of a row: " + text);
        }
    }

    /** A number as the report has it: an Integer where it is one, else a Long. */
    static Object told(long number) {
        return number == (int) number ? (Object) (int) number : (Object) number;
    }

    Name root() {
        return objects.keySet().iterator().next();
    }

    /** The text with the objects numbered as they are met, which is the same for isomorphic structures alone. */
    String canonical(Model model) throws Fault {
        Map<Name, Name> names = new HashMap<>();
        Map<String, Integer> counts = new HashMap<>();
        ArrayDeque<Name> waiting = new ArrayDeque<>();
        StringBuilder text = new StringBuilder();
        meet(root(), names, counts, waiting);
        while (!waiting.isEmpty()) {
            Name name = waiting.remove();
            Map<String, Object> slots = objects.get(name);
            if (slots == null) {
                throw new Fault("a row names " + name + " and doesn't have it");
            }
            text.append(text.length() > 0 ? " " : "").append(names.get(name)).append(name.isIndexed() ? '[' : '{');
            String between = "";
            for (String key : name.isIndexed() ? slots.keySet() : model.ordered(name, slots.keySet())) {
                Object value = slots.get(key);
                Object told = value instanceof Name met ? meet(met, names, counts, waiting) : value;
                text.append(between).append(name.isIndexed() ? "" : key + "=").append(told);
                between = ",";
            }
            text.append(name.isIndexed() ? ']' : '}');
        }
        return text.toString();
    }

    private static Name meet(Name name, Map<Name, Name> names, Map<String, Integer> counts, ArrayDeque<Name> waiting) {
        return names.computeIfAbsent(name, met -> {
            waiting.add(met);
            return new Name(met.type(), counts.merge(met.type(), 1, Integer::sum) - 1);
        });
    }
}
