// Writes a first finitization of a class to standard output: each field that its predicate reads, and bounds of 3.
//
//     tools/bounds [--method M] [--root CLASS] A.java..

package bounds;

import java.nio.file.Path;
import java.util.ArrayList;
import java.util.List;
import sources.Fault;
import sources.Program;

public final class Bounds {
    private static final String USAGE = "usage: tools/bounds [--method M] [--root CLASS] SOURCE..";

    private Bounds() {}

    public static void main(String[] words) {
        try {
            System.out.print(written(words));
        } catch (Fault fault) {
            System.err.println("bounds: " + fault.getMessage());
            System.exit(fault.status);
        } catch (RuntimeException e) {
            System.err.println("bounds: a fault of its own: " + e + " at " + e.getStackTrace()[0]);
            System.exit(70);
        }
    }

    private static String written(String[] words) throws Fault {
        List<Path> files = new ArrayList<>();
        String method = null;
        String root = null;
        for (int i = 0; i < words.length; i++) {
            boolean option = words[i].equals("--method") || words[i].equals("--root");
            if (!option && words[i].startsWith("-") || option && i + 1 == words.length) throw new Fault(2, USAGE);
            if (!option) files.add(Path.of(words[i]));
            else if (words[i].equals("--method")) method = words[++i];
            else root = words[++i];
        }
        if (files.isEmpty()) throw new Fault(2, USAGE);
        Program program = Program.of(files);
        return new First(program, program.root(root), method).text();
    }
}
