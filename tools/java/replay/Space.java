package replay;

import java.lang.reflect.Array;
import java.lang.reflect.Field;
import java.util.ArrayDeque;
import java.util.ArrayList;
import java.util.Arrays;
import java.util.HashMap;
import java.util.IdentityHashMap;
import java.util.LinkedHashMap;
import java.util.LinkedHashSet;
import java.util.List;
import java.util.Map;
import java.util.Set;
import java.util.function.ObjIntConsumer;

/**
 * Enumerates the structures within the bounds, at least one of each class of isomorphic ones. The predicate runs; the slots
 * that it reads are decided in this order, and of the objects not in use yet the first alone is a choice. Then the last
 * decision is changed. What it doesn't read can't change its answer, so it is varied only where that is true. Where reads
 * aren't noted, or on demand, each reachable slot counts as read. An array's length is decided where the array is.
 */
final class Space implements ObjIntConsumer<Object> {
    private final Model model;
    private final Finitization bounds;
    private final long most;
    private final boolean plain;
    private final Map<Field, List<Item>> domains = new HashMap<>();
    /** For each domain or array type and number the objects that may have it: of an array type one for each length. */
    private final Map<String, List<List<Cell>>> pools = new HashMap<>();
    private final Map<String, List<Cell>> used = new HashMap<>();
    private final Map<Object, Cell> cells = new IdentityHashMap<>();
    private final List<Decision> trail = new ArrayList<>();
    private Cell root;
    private long tried;

    /** What is done with a structure: whether there is to be a next one. */
    interface Taker {
        boolean take(Object root, Space space) throws Fault;
    }

    Space(Model model, Finitization bounds, long most, boolean plain) throws Fault {
        this.model = model;
        this.bounds = bounds;
        this.most = most;
        this.plain = plain || model.sources.noted.isEmpty();
        resolveFields();
        makeObjects();
    }

    private void resolveFields() throws Fault {
        for (Map.Entry<String, List<Item>> entry : bounds.fields.entrySet()) {
            int dot = Math.max(entry.getKey().lastIndexOf('.'), 0);
            String type = entry.getKey().substring(0, dot);
            String name = entry.getKey().substring(Math.min(dot + 1, entry.getKey().length()));
            if (!name.equals("*") && !type.endsWith(Name.COLLECTION)) {
                domains.put(model.field(type, name), entry.getValue());
            }
        }
    }

    private void makeObjects() throws Fault {
        for (Map.Entry<String, Integer> entry : bounds.objects.entrySet()) {
            List<List<Cell>> pool = pool(entry.getKey());
            for (int number = 0; number < entry.getValue(); number++) {
                Name name = new Name(entry.getKey(), number);
                pool.add(name.isCollection() ? collectionCells(name) : List.of(objectCell(name)));
            }
        }
        for (Map.Entry<String, Bound> entry : bounds.arrays.entrySet()) {
            List<List<Cell>> pool = pool(entry.getKey());
            for (int number = 0; number < entry.getValue().count(); number++) {
                pool.add(arrayCells(new Name(entry.getKey(), number), entry.getValue().lengths()));
            }
        }
    }

    private List<List<Cell>> pool(String type) {
        used.put(type, new ArrayList<>());
        return pools.computeIfAbsent(type, absent -> new ArrayList<>());
    }

    private Cell objectCell(Name name) throws Fault {
        List<Slot> slots = new ArrayList<>();
        for (Field field : model.fields(bounds.classOf(name.type())).values()) {
            List<Item> domain = domains.get(field);
            if (domain != null) {
                String place = field.getDeclaringClass().getSimpleName() + "." + field.getName();
                int number = model.sources.noted.indexOf(field.getDeclaringClass().getName() + "." + field.getName());
                slots.add(new Slot(field.getName(), field, number, choices(field.getType(), domain, place)));
            }
        }
        return cell(name, model.made(name), slots);
    }

    private List<Cell> arrayCells(Name name, List<Integer> lengths) throws Fault {
        Class<?> component = model.component(name.type());
        String key = name.type() + ".*";
        List<Choice> choices = choices(component, bounds.fields.getOrDefault(key, List.of()), key);
        List<Cell> variants = new ArrayList<>();
        for (int length : lengths) {
            List<Slot> slots = new ArrayList<>();
            for (int index = 0; index < length; index++) {
                slots.add(new Slot(String.valueOf(index), null, -1, choices));
            }
            variants.add(cell(name, Array.newInstance(component, length), slots));
        }
        return variants;
    }

    /** A collection of each size. */
    private List<Cell> collectionCells(Name name) throws Fault {
        Held one = model.collection(name.type());
        List<List<Choice>> choices = new ArrayList<>();
        for (String slot : one.slots()) {
            String key = name.type() + "." + slot;
            choices.add(choices(model.member(one, choices.size()), bounds.fields.get(key), key));
        }
        List<Cell> variants = new ArrayList<>();
        for (int size : one.possible(bounds.sizes.get(name.type()), choices.get(0))) {
            List<Slot> slots = new ArrayList<>();
            while (slots.size() < size * choices.size()) {
                slots.add(new Slot(String.valueOf(slots.size()), null, -1, choices.get(slots.size() % choices.size())));
            }
            variants.add(cell(name, one.made(), slots));
        }
        return variants;
    }

    private List<Choice> choices(Class<?> wanted, List<Item> domain, String place) throws Fault {
        List<Choice> choices = new ArrayList<>();
        for (Item item : domain) {
            Integer constant = item.name() == null ? null : constant(wanted, item.name());
            if (constant != null) {
                choices.add(new Choice(constant, model.converted(wanted, constant, place), null));
            } else if (item.name() != null && !item.name().equals("null")) {
                choices.add(objects(wanted, item.name(), place));
            } else if (item.name() != null || item.truth() != null) {
                choices.add(new Choice(item.truth(), model.converted(wanted, item.truth(), place), null));
            }
            for (long number = item.from(); number <= item.to(); number++) {
                Object told = Structure.told(number);
                choices.add(new Choice(told, model.converted(wanted, told, place), null));
                if (number == Long.MAX_VALUE) {
                    break;
                }
            }
        }
        return choices;
    }

    /** The number of a constant of an enumeration, by its name. */
    private static Integer constant(Class<?> wanted, String name) {
        for (Object constant : wanted.isEnum() ? wanted.getEnumConstants() : new Object[0]) {
            if (((Enum<?>) constant).name().equals(name)) {
                return ((Enum<?>) constant).ordinal();
            }
        }
        return null;
    }

    private Choice objects(Class<?> wanted, String type, String place) throws Fault {
        Class<?> given = type.endsWith("]") ? model.component(type).arrayType() : model.classOf(type);
        if (!wanted.isAssignableFrom(given)) {
            throw new Fault(place + ": " + type + " is no " + wanted.getTypeName());
        }
        return new Choice(null, null, type);
    }

    private Cell cell(Name name, Object real, List<Slot> slots) {
        Cell cell = new Cell(name, real, slots);
        cells.put(real, cell);
        return cell;
    }

    /** Hands over each structure, until one is the last. */
    void run(Taker taker) throws Fault {
        List<List<Cell>> roots = pools.getOrDefault(bounds.root, List.of());
        if (roots.isEmpty()) {
            return;
        }
        root = roots.get(0).get(0);
        used.get(bounds.root).add(root);
        for (Cell cell : cells.values()) {
            model.join(cell.real, root.real);
        }
        for (Cell cell : cells.values()) {
            fillUndecided(cell, false);
        }
        model.sources.reads(this);
        do {
            tried++;
            if (tried > most) {
                throw new Fault("more than " + most + " structures within these bounds, and about " + share()
                        + " % of the choices were tried, without a difference so far but those above: smaller bounds, or a larger --most");
            }
            for (Cell cell : cells.values()) {
                fillUndecided(cell, true);
            }
        } while (taker.take(root.real, this) && advanced());
    }

    /** Gives the slots that aren't decided the first of their values. It changes alone where it is an array, of another length. */
    private void fillUndecided(Cell cell, boolean arraysAlone) throws Fault {
        for (int slot = 0; slot < cell.told.length; slot++) {
            boolean array = cell.held[slot] != null && cell.held[slot].name.isIndexed();
            if (!cell.decided[slot] && (array || !arraysAlone)) {
                put(cell, slot, values(cell, slot).get(0));
            }
        }
    }

    /** The values that a slot may have now: of a collection's member those with which it is listed, where there are any. */
    private List<Value> values(Cell cell, int slot) throws Fault {
        List<Value> values = values(cell.slots.get(slot));
        if (!cell.name.isCollection()) {
            return values;
        }
        List<Value> listed = model.collection(cell.name.type()).listed(values, Arrays.asList(cell.told), slot);
        return listed.isEmpty() ? values : listed;
    }

    private List<Value> values(Slot slot) throws Fault {
        List<Value> values = new ArrayList<>();
        for (Choice choice : slot.choices()) {
            if (choice.type() == null) {
                values.add(new Value(choice.told(), choice.real(), null));
                continue;
            }
            List<Cell> known = used.getOrDefault(choice.type(), List.of());
            List<List<Cell>> pool = pools.getOrDefault(choice.type(), List.of());
            for (Cell cell : known) {
                values.add(new Value(cell.name, cell.real, null));
            }
            for (Cell cell : known.size() < pool.size() ? pool.get(known.size()) : List.<Cell>of()) {
                values.add(new Value(cell.name, cell.real, cell));
            }
        }
        if (values.isEmpty()) {
            throw new Fault("a slot without values: " + slot.key());
        }
        return values;
    }

    private void put(Cell cell, int slot, Value value) throws Fault {
        cell.told[slot] = value.told();
        cell.held[slot] = value.told() instanceof Name ? cells.get(value.real()) : null;
        Field field = cell.slots.get(slot).field();
        if (field != null) {
            model.set(field, cell.real, value.real());
        } else if (cell.name.isCollection()) {
            if (cell.isWhole(slot, value.real())) {
                refill(cell);
            }
        } else {
            Array.set(cell.real, slot, value.real());
        }
    }

    /** A read by a run: of a field by its number, of an array whole (-1), or of an element (-2 less its index). */
    @Override
    public void accept(Object object, int number) {
        Cell cell = cells.get(object);
        if (cell == null) {
            return;
        }
        if (number < 0) {
            int index = -2 - number;
            if (number == -1) {
                decideAll(cell);
            } else if (index >= 0 && index < cell.slots.size()) {
                decide(cell, index);
                decideCollection(cell.held[index]);
            }
            return;
        }
        for (int slot = 0; slot < cell.slots.size(); slot++) {
            if (cell.slots.get(slot).number() == number) {
                decide(cell, slot);
                if (!cell.slots.get(slot).field().getType().isArray()) {
                    decideArray(cell.held[slot]);
                }
            }
        }
    }

    /** Decides a slot for its first value, which it holds but for a collection's: what runs before it is decided don't read that. */
    private void decide(Cell cell, int slot) {
        if (!cell.decided[slot]) {
            try {
                Decision decision = new Decision(cell, slot, values(cell, slot));
                if (cell.name.isCollection()) {
                    put(cell, slot, decision.values.get(0));
                }
                use(decision);
            } catch (Fault never) {
                throw new IllegalStateException(never);
            }
        }
    }

    /** Decides the elements of an array, and of the arrays in it. */
    private void decideAll(Cell array) {
        for (int index = 0; index < array.slots.size(); index++) {
            decide(array, index);
            decideArray(array.held[index]);
        }
    }

    private void decideArray(Cell held) {
        if (held != null && held.name.isIndexed()) {
            decideAll(held);
        }
    }

    /** Decides the members of a collection, whose reads aren't seen. */
    private void decideCollection(Cell held) {
        if (held != null && held.name.isCollection()) {
            decideAll(held);
        }
    }

    /** Gives a collection the members that its slots hold. */
    private void refill(Cell cell) {
        model.collection(cell.name.type()).fill(cell.real, Arrays.asList(cell.members));
    }

    /** Whether the members of all collections that are reachable, and were read, are in the order in which they are listed. */
    boolean isListed() {
        return reachable(false).stream().allMatch(cell -> !cell.name.isCollection() || cell.slots.isEmpty() || !cell.decided[0]
                || model.collection(cell.name.type()).isListed(Arrays.asList(cell.told)));
    }

    /** How much of all choices, in percent, is before the present ones, as if the choices at each slot had equal shares. */
    private String share() {
        double share = 0;
        double width = 100;
        for (Decision decision : trail) {
            width /= decision.values.size();
            share += width * decision.index;
        }
        return share < 10 ? String.format(java.util.Locale.ROOT, "%.1f", share) : String.valueOf(Math.round(share));
    }

    private void use(Decision decision) {
        trail.add(decision);
        decision.cell.decided[decision.slot] = true;
        Cell fresh = decision.values.get(decision.index).fresh();
        if (fresh != null) {
            used.get(fresh.name.type()).add(fresh);
        }
    }

    /** Takes the last decision that has a further value to that; false where none has one. */
    private boolean advanced() throws Fault {
        while (!trail.isEmpty()) {
            Decision last = trail.remove(trail.size() - 1);
            last.cell.decided[last.slot] = false;
            Cell fresh = last.values.get(last.index).fresh();
            if (fresh != null) {
                used.get(fresh.name.type()).remove(fresh);
            }
            last.index++;
            if (last.index < last.values.size()) {
                put(last.cell, last.slot, last.values.get(last.index));
                use(last);
                return true;
            }
            put(last.cell, last.slot, last.values.get(0));
        }
        return false;
    }

    /** The reachable objects as they are met. */
    private Set<Cell> reachable(boolean deciding) {
        Set<Cell> met = new LinkedHashSet<>(Set.of(root));
        ArrayDeque<Cell> waiting = new ArrayDeque<>(met);
        while (!waiting.isEmpty()) {
            Cell cell = waiting.remove();
            for (int slot = 0; slot < cell.told.length; slot++) {
                if (deciding) {
                    decide(cell, slot);
                }
                if (cell.held[slot] != null && met.add(cell.held[slot])) {
                    waiting.add(cell.held[slot]);
                }
            }
        }
        return met;
    }

    /** Decides what is reachable, where the predicate holds or each slot counts as read. */
    void decideReachable(boolean held) {
        if (held || plain) {
            reachable(true);
        }
    }

    Structure structure() {
        Map<Name, Map<String, Object>> objects = new LinkedHashMap<>();
        for (Cell cell : reachable(false)) {
            Map<String, Object> slots = new LinkedHashMap<>();
            for (int slot = 0; slot < cell.told.length; slot++) {
                slots.put(cell.slots.get(slot).key(), cell.told[slot]);
            }
            objects.put(cell.name, slots);
        }
        return new Structure(objects);
    }

    @Override
    public String toString() {
        return structure().objects().toString();
    }
}
