// Runs the mutants that `mutate --keep` keeps on this Java virtual machine, on every structure that a test listed, and compares what
// is noticed with its answers.
//
//     MutantsOnJvm FIN METHOD REPORT FOLDER SOURCE..
//
// A line for each mutant of which this machine says something else, and at last `same S differ D uncompiled U`. A mutant is noticed
// here where a row that passes without it doesn't pass with it; `uncompiled` are those that javac refuses, as one that reads a local
// variable before it has a value.

package replay;

import java.io.IOException;
import java.io.InputStream;
import java.io.PrintStream;
import java.nio.file.Path;
import java.util.ArrayList;
import java.util.List;

public final class MutantsOnJvm {
    private final Finitization bounds;
    private final String method;
    private final List<TestRow> passing;

    private MutantsOnJvm(Finitization bounds, String method, List<TestRow> passing) {
        this.bounds = bounds;
        this.method = method;
        this.passing = passing;
    }

    public static void main(String[] words) throws Exception {
        PrintStream out = System.out;
        System.setOut(System.err);
        Finitization bounds = Finitization.of(Path.of(words[0]));
        List<TestRow> rows;
        try (InputStream report = java.nio.file.Files.newInputStream(Path.of(words[2]))) {
            rows = TestRow.read(report);
        }
        MutantsOnJvm here = new MutantsOnJvm(bounds, words[1], rows.stream().filter(TestRow::passes).toList());
        System.exit(here.compare(out, Path.of(words[3]), List.of(words).subList(4, words.length)));
    }

    private int compare(PrintStream out, Path folder, List<String> sources) throws IOException, Fault {
        int same = 0;
        int differing = 0;
        int uncompiled = 0;
        for (String answer : java.nio.file.Files.readAllLines(folder.resolve("answers"))) {
            String[] parts = answer.split(" ", 3);
            Sources compiled;
            Contract contract;
            try {
                contract = new Contract(files(folder.resolve(parts[0]), sources), bounds.classOf(bounds.root), method);
                compiled = After.compiled(contract);
            } catch (Fault refused) {
                out.println("uncompiled " + parts[2] + ": " + refused.getMessage());
                uncompiled++;
                continue;
            }
            String noticed = noticed(compiled, contract);
            boolean agrees = parts[1].equals("noticed") == (noticed != null);
            same += agrees ? 1 : 0;
            differing += agrees ? 0 : 1;
            if (!agrees) {
                out.println("differs " + parts[2] + ": " + parts[1] + ", and here " + (noticed == null ? "all rows pass" : noticed));
            }
        }
        out.println("same " + same + " differ " + differing + " uncompiled " + uncompiled);
        return differing == 0 ? 0 : 1;
    }

    /** The sources, where the folder has one of the name in its place. */
    private static List<Path> files(Path folder, List<String> sources) {
        List<Path> files = new ArrayList<>();
        for (String source : sources) {
            Path changed = folder.resolve(Path.of(source).getFileName());
            files.add(java.nio.file.Files.exists(changed) ? changed : Path.of(source));
        }
        return files;
    }

    /** The first row that doesn't pass here, with its verdict; none where all pass. */
    private String noticed(Sources compiled, Contract contract) throws Fault {
        Model model = new Model(compiled, bounds);
        Called called = new Called(model, contract, bounds.fuel);
        for (TestRow row : passing) {
            String verdict = called.verdict(row);
            if (!verdict.equals("pass")) {
                return verdict + " of " + row.key();
            }
        }
        return null;
    }
}
