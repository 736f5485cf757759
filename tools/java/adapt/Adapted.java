package adapt;

import java.util.LinkedHashMap;
import java.util.Map;

/** What adapting makes: the sources by their names, the finitization, and what is to be said of them. */
public record Adapted(Map<String, String> sources, String finitization, Notes notes) {

    /** Adapts sources, given by their names, to a finitization, with a method under test or without one. */
    public static Adapted of(String name, String text, Map<String, String> sources, String method) throws Fault {
        Finitization fin = Finitization.read(name, text);
        Notes notes = new Notes();
        Program program = Program.compile(method == null ? sources : Clauses.inserted(sources, fin.root(), method));
        Kinds kinds = new Kinds(program, fin, notes);
        Reach reach = new Reach(program, kinds, fin, notes);
        reach.from(method);
        new Checks(program, kinds, reach, notes).all();
        Library library = new Library(program);
        Outers outers = new Outers(program, reach);
        Rewriter rewriter = new Rewriter(program, kinds, reach, library, notes, outers);
        Map<String, String> made = new LinkedHashMap<>();
        for (Program.Source source : program.sources) made.put(source.name(), rewriter.source(source));
        made.replaceAll((path, whole) -> whole.replace(Library.PLACE, library.methods()));
        String first = made.keySet().iterator().next();
        made.put(first, made.get(first) + library.classes(made.values()));
        for (Program.Source source : program.sources) made.computeIfPresent(source.name(), (path, whole) -> rewriter.finished(source, whole));
        return new Adapted(made, new Bounds(kinds, reach, notes, outers).adapted(fin), notes);
    }
}
