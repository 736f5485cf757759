package replay;

import java.lang.reflect.Array;
import java.lang.reflect.Field;
import java.util.ArrayList;
import java.util.LinkedHashMap;
import java.util.List;
import java.util.Map;

/** Builds the structures of rows. */
final class Builder {
    private final Model model;

    Builder(Model model) {
        this.model = model;
    }

    /** The root of a structure. */
    Object built(Structure structure) throws Fault {
        Map<Name, Object> objects = new LinkedHashMap<>();
        for (Map.Entry<Name, Map<String, Object>> entry : structure.objects().entrySet()) {
            objects.put(entry.getKey(), empty(entry.getKey(), entry.getValue().size()));
        }
        Object root = objects.get(structure.root());
        if (root.getClass() != model.root) {
            throw new Fault("a row begins with " + structure.root() + ", which is no " + model.root.getSimpleName());
        }
        for (Map.Entry<Name, Map<String, Object>> entry : structure.objects().entrySet()) {
            Object holder = objects.get(entry.getKey());
            fillAll(entry.getKey(), holder, entry.getValue(), objects);
            model.join(holder, root);
        }
        return root;
    }

    /** Gives an object what its slots say. */
    void fillAll(Name name, Object holder, Map<String, Object> slots, Map<Name, Object> objects) throws Fault {
        if (name.isCollection()) {
            Held one = model.collection(name.type());
            List<Object> members = new ArrayList<>();
            for (Object value : slots.values()) {
                members.add(model.converted(model.member(one, members.size()), known(value, objects), name.type()));
            }
            one.fill(holder, members);
            return;
        }
        for (Map.Entry<String, Object> slot : slots.entrySet()) {
            fill(name, holder, slot.getKey(), slot.getValue(), objects);
        }
    }

    private static Object known(Object value, Map<Name, Object> objects) throws Fault {
        Object known = value instanceof Name ? objects.get(value) : value;
        if (value instanceof Name && known == null) {
            throw new Fault("a row names " + value + " and doesn't have it");
        }
        return known;
    }

    private Object empty(Name name, int size) throws Fault {
        return name.isArray() ? Array.newInstance(model.component(name.type()), size) : model.made(name);
    }

    private void fill(Name name, Object holder, String key, Object value, Map<Name, Object> objects) throws Fault {
        Object known = known(value, objects);
        if (name.isArray()) {
            Array.set(holder, Integer.parseInt(key), model.converted(model.component(name.type()), known, name.type() + ".*"));
        } else {
            Field field = model.field(name, key);
            model.set(field, holder, model.converted(field.getType(), known, name.type() + "." + key));
        }
    }
}
