package adapt;

import java.util.ArrayList;
import java.util.HashSet;
import java.util.LinkedHashMap;
import java.util.List;
import java.util.Map;
import java.util.Set;
import javax.lang.model.element.ExecutableElement;
import javax.lang.model.element.TypeElement;
import javax.lang.model.element.VariableElement;

/**
 * Writes the tests that the collections of a candidate are whole: each has a chain of as many cells as its size says, in the order that its
 * class has, and shares none with another. Each is tested where its field is read, and all that are reachable where the predicate is true.
 */
final class Wholeness {
    private final Expressions expressions;
    private final Program program;
    private final Kinds kinds;
    private final Reach reach;
    private final Library library;
    private String all;
    private String visited;

    Wholeness(Expressions expressions, Program program, Kinds kinds, Reach reach, Library library) {
        this.expressions = expressions;
        this.program = program;
        this.kinds = kinds;
        this.reach = reach;
        this.library = library;
    }

    /** A collection as a field has it: a trap where it isn't whole. */
    String read(Held.One one, String text) {
        String test = test(one);
        return library.own("wholeOf" + one.part(), "static " + one.kind() + " $(" + one.kind() + " held) { return held == null || " + test
                + "(held) ? held : 1 / 0 == 0 ? null : held; }") + "(" + text + ")";
    }

    private String test(Held.One one) {
        library.need(kinds, one.kind(), expressions);
        library.need(kinds, one.made(), expressions);
        library.keep(one.made());
        String cell = one.cell();
        String item = one.isMap() ? ".key" : ".item";
        String before = "";
        String step = "";
        if (one.isAscending()) {
            before = cell + " before = null; ";
            step = "if (before != null && !(" + Library.isLess(one.members().get(0), "before" + item, "cell" + item) + ")) return false; before = cell; ";
        } else if (one.isDistinct()) {
            step = "for (" + cell + " other = held.first; other != cell; other = other.next) if (other" + item + " == cell" + item + ") return false; ";
        }
        return library.own("isWholeOf" + one.part(), "static boolean $(" + one.kind() + " held) { " + before + cell + " cell = held.first; for (int left = held.size; left > 0; left--) { "
                + "if (cell == null) return false; " + step + "cell = cell.next; } return cell == null; }");
    }

    /** The method that tests all collections that can be reached from an object of the predicate's class. */
    String all() {
        if (all == null) all = library.own("areWhole", "static boolean $(" + declaring(reach.predicate) + " item) { return " + rooted("new " + visited() + "()", reach.predicate) + "; }");
        return all;
    }

    private String declaring(ExecutableElement method) {
        return kinds.qualified(program.nameOf(Program.classOf(method)));
    }

    /** The visit of an object as the root, which a method's class declares. */
    private String rooted(String visits, ExecutableElement method) {
        String root = kinds.fin.root();
        if (program.nameOf(Program.classOf(method)).equals(root)) return visits + "." + visit(root) + "(item)";
        return "(!(item instanceof " + kinds.qualified(root) + ") || " + visits + "." + visit(root) + "((" + kinds.qualified(root) + ") item))";
    }

    /** The precondition that the collections that the arguments of a method reach are whole too; null where they reach none. */
    String required(ExecutableElement method) {
        Set<String> leading = kinds.held.fields().isEmpty() ? Set.of() : leading();
        List<String> parameters = new ArrayList<>();
        List<String> visits = new ArrayList<>();
        List<String> arguments = new ArrayList<>();
        for (VariableElement parameter : method.getParameters()) {
            String name = parameter.getSimpleName().toString();
            List<String> names = Finitization.names(kinds.fin.params().getOrDefault(method.getSimpleName() + "." + name, List.of())).stream().filter(leading::contains).distinct().toList();
            if (names.isEmpty()) continue;
            parameters.add(kinds.qualified(kinds.of(parameter)) + " " + name);
            arguments.add(name);
            names.forEach(one -> visits.add(visited("visits.", kinds.qualified(kinds.of(parameter)), name, one)));
        }
        if (visits.isEmpty()) return null;
        String visited = visited();
        return library.own("areWholeWith", "static boolean $(" + declaring(method) + " item, " + String.join(", ", parameters) + ") { " + visited + " visits = new " + visited + "(); return "
                + rooted("visits", method) + " && " + String.join(" && ", visits) + "; }") + "(this, " + String.join(", ", arguments) + ")";
    }

    /** What is in front of the method under test, with that precondition as its first, if it may be on an empty line. */
    String required(String gap, ExecutableElement method) {
        String clause = required(method);
        if (clause == null) return gap;
        int first = gap.indexOf("//@");
        int line = (first < 0 ? gap.lastIndexOf('\n') : gap.lastIndexOf('\n', first)) + 1;
        String before = line == 0 ? gap.substring(0, Math.max(first, 0)) + "\n" : gap.substring(0, line);
        String rest = gap.substring(line == 0 ? Math.max(first, 0) : line);
        return before.replaceFirst("(\\n)[ \\t]*\\n$", "$1") + "    //@ requires " + clause + ";\n" + rest;
    }

    /** The class that visits what is reachable. */
    private String visited() {
        if (visited != null) return visited;
        visited = program.freshName("Visited");
        Set<String> leading = leading();
        StringBuilder text = new StringBuilder("// What of a candidate was met.\nclass " + visited + " {\n");
        for (String name : leading) text.append(met(name));
        for (String name : leading) text.append("    boolean ").append(visit(name)).append("(").append(type(name)).append(" item) { if (item == null || !met").append(part(name))
                .append(".add(item)) return true; ").append(body(name, leading)).append(" }\n");
        library.add(visited, name -> text + "}\n");
        return visited;
    }

    private String met(String name) {
        String cells = kinds.fin.collections().containsKey(name) ? "    HashSet<" + kinds.held.of(name).cell() + "> cells" + part(name) + " = new HashSet<" + kinds.held.of(name).cell() + ">();\n" : "";
        return "    HashSet<" + type(name) + "> met" + part(name) + " = new HashSet<" + type(name) + ">();\n" + cells;
    }

    private String part(String name) {
        return kinds.fin.collections().containsKey(name) ? kinds.held.of(name).part() : Kinds.mangled(name);
    }

    private String visit(String name) {
        return "visit" + part(name);
    }

    /** The class of what a name in the finitization stands for. */
    private String type(String name) {
        return kinds.fin.collections().containsKey(name) ? kinds.held.of(name).kind() : kinds.qualified(name.endsWith("]") ? kinds.arrayKind(name) : name);
    }

    // ---- what leads to a collection

    private Set<String> leading() {
        Set<String> result = new java.util.LinkedHashSet<>();
        Set<String> names = new java.util.LinkedHashSet<>(kinds.fin.objects().keySet());
        names.add(kinds.fin.root());
        names.addAll(kinds.fin.arrays().keySet());
        names.addAll(kinds.fin.collections().keySet());
        for (String name : names) if (leads(name, new HashSet<>())) result.add(name);
        result.add(kinds.fin.root());
        return result;
    }

    private boolean leads(String name, Set<String> seen) {
        if (kinds.fin.collections().containsKey(name)) return kinds.held.of(name) != null;
        return seen.add(name) && places(name).values().stream().anyMatch(names -> names.stream().anyMatch(one -> leads(one, seen)));
    }

    /** The places of what a name stands for, with the names of what they may hold. */
    private Map<String, List<String>> places(String name) {
        Map<String, List<String>> result = new LinkedHashMap<>();
        if (kinds.fin.collections().containsKey(name)) {
            Held.One one = kinds.held.of(name);
            List<String> members = one.isMap() ? List.of("cell.key", "cell.value") : List.of("cell.item");
            for (int i = 0; i < members.size(); i++) result.put(members.get(i), domain(one.keys().get(i)));
        } else if (name.endsWith("]")) {
            result.put("item[i]", domain(name + ".*"));
        } else {
            TypeElement type = program.classes.get(name);
            for (TypeElement at = type; at != null && program.isOwn(at); at = program.superclass(at)) {
                for (VariableElement field : Program.fieldsOf(at)) result.put("item." + field.getSimpleName(), domain(program.nameOf(at) + "." + field.getSimpleName()));
            }
        }
        return result;
    }

    private List<String> domain(String key) {
        return Finitization.names(kinds.fin.fields().getOrDefault(key, List.of()));
    }

    // ---- the visits

    private String body(String name, Set<String> leading) {
        List<String> visits = new ArrayList<>();
        places(name).forEach((place, names) -> names.stream().filter(leading::contains).distinct().forEach(one -> visits.add(visited("", kindOf(name, place), place, one))));
        String both = visits.isEmpty() ? "true" : String.join(" && ", visits);
        if (kinds.fin.collections().containsKey(name)) {
            Held.One one = kinds.held.of(name);
            return "if (!" + test(one) + "(item)) return false; for (" + one.cell() + " cell = item.first; cell != null; cell = cell.next) if (!cells" + part(name) + ".add(cell)"
                    + (visits.isEmpty() ? "" : " || !(" + both + ")") + ") return false; return true;";
        }
        return name.endsWith("]") ? "for (int i = 0; i < item.length; i++) if (!(" + both + ")) return false; return true;" : "return " + both + ";";
    }

    /** The visit of what a place holds, if it is of the class of a name. */
    private String visited(String visits, String kind, String place, String name) {
        if (kind.equals(type(name)) || name.endsWith("]") || kinds.fin.collections().containsKey(name)) return visits + visit(name) + "(" + place + ")";
        return "(!(" + place + " instanceof " + type(name) + ") || " + visits + visit(name) + "((" + type(name) + ") " + place + "))";
    }

    private String kindOf(String holder, String place) {
        if (kinds.fin.collections().containsKey(holder)) return kinds.qualified(kinds.held.of(holder).members().get(place.endsWith(".value") ? 1 : 0));
        if (holder.endsWith("]")) return kinds.qualified(kinds.elementOf(kinds.arrayKind(holder)));
        for (TypeElement at = program.classes.get(holder); at != null && program.isOwn(at); at = program.superclass(at)) {
            for (VariableElement field : Program.fieldsOf(at)) if (place.equals("item." + field.getSimpleName())) return kinds.qualified(kinds.of(field));
        }
        return "?";
    }
}
