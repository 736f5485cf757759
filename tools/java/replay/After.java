// Shows what failing rows of a test leave behind: runs the method on a Java virtual machine, on the smallest structure of each
// verdict, and prints the structure after the call, the exception, and the clause that failed.
//
//     ./korat test fin.toml put A.java | tools/after fin.toml put A.java..

package replay;

import java.io.IOException;
import java.io.InputStream;
import java.io.PrintStream;
import java.nio.charset.StandardCharsets;
import java.nio.file.Path;
import java.util.ArrayList;
import java.util.Comparator;
import java.util.HashMap;
import java.util.LinkedHashMap;
import java.util.LinkedHashSet;
import java.util.List;
import java.util.Map;
import java.util.Set;

public final class After {
    private static final String USAGE = "usage: tools/after FIN METHOD SOURCE.. with a report of a test on standard input";

    private After() {}

    public static void main(String[] words) {
        PrintStream out = new PrintStream(System.out, false, StandardCharsets.UTF_8);
        System.setOut(System.err);
        int status = 2;
        try {
            status = run(words, System.in, out);
        } catch (Fault fault) {
            System.err.println("after: " + fault.getMessage());
        } catch (IOException fault) {
            System.err.println("after: standard input: " + fault.getMessage());
        }
        out.flush();
        System.exit(status);
    }

    public static int run(String[] words, InputStream report, PrintStream out) throws Fault, IOException {
        if (words.length < 3 || words[0].startsWith("-")) {
            throw new Fault(USAGE);
        }
        Finitization bounds = Finitization.of(Path.of(words[0]));
        List<Path> files = new ArrayList<>();
        for (String word : List.of(words).subList(2, words.length)) {
            files.add(Path.of(word));
        }
        Contract contract = new Contract(files, bounds.classOf(bounds.root), words[1]);
        Model model = new Model(compiled(contract), bounds);
        Called called = new Called(model, contract, bounds.fuel);
        List<TestRow> rows = TestRow.read(report);
        TestRow.leaveOutersOut(model, rows);
        Map<String, Set<String>> shown = new HashMap<>();
        for (TestRow row : rows) {
            row.structure().objects().forEach((name, slots) -> shown.computeIfAbsent(name.type(), type -> new LinkedHashSet<>()).addAll(slots.keySet()));
        }
        return show(rows, called, contract, shown, out);
    }

    static Sources compiled(Contract contract) throws Fault, IOException {
        Path folder = java.nio.file.Files.createTempDirectory("after");
        List<Path> files = new ArrayList<>();
        try {
            for (Map.Entry<Path, String> text : contract.texts.entrySet()) {
                Path file = java.nio.file.Files.createDirectory(folder.resolve(String.valueOf(files.size()))).resolve(text.getKey().getFileName());
                files.add(java.nio.file.Files.writeString(file, text.getValue()));
            }
            return Sources.compiled(files);
        } finally {
            for (Path file : files) {
                java.nio.file.Files.delete(file);
                java.nio.file.Files.delete(file.getParent());
            }
            java.nio.file.Files.delete(folder);
        }
    }

    /** The smallest row of each verdict, and how many rows end here as they did; 1 where one doesn't. */
    private static int show(List<TestRow> rows, Called called, Contract contract, Map<String, Set<String>> shown, PrintStream out) throws Fault {
        Map<String, TestRow> smallest = new LinkedHashMap<>();
        Map<String, Integer> counts = new HashMap<>();
        int differing = 0;
        for (TestRow row : rows.stream().sorted(Comparator.comparingInt(TestRow::size)).toList()) {
            String here = called.verdict(row);
            if (!agrees(row.verdict(), here, called)) {
                out.println("differs " + row.text() + ": here " + here);
                differing++;
            }
            counts.merge(row.verdict(), 1, Integer::sum);
            if (!row.passes()) {
                smallest.putIfAbsent(row.verdict(), row);
            }
        }
        for (TestRow row : smallest.values()) {
            tell(row, counts.get(row.verdict()), called, contract, shown, out);
        }
        out.println("failing " + rows.stream().filter(row -> !row.passes()).count() + " of " + rows.size()
                + (differing == 0 ? ", the same on this JVM" : ", and " + differing + " differ on this JVM"));
        return differing == 0 ? 0 : 1;
    }

    private static void tell(TestRow row, int count, Called called, Contract contract, Map<String, Set<String>> shown, PrintStream out) throws Fault {
        called.verdict(row);
        out.println(row.verdict() + ", " + (count == 1 ? "1 row" : "the smallest of " + count + " rows") + meaning(row.verdict(), contract));
        out.println("    key    " + row.key() + (row.arguments().isEmpty() ? "" : " (" + row.arguments() + ")"));
        out.println("    before " + row.text().substring(row.text().indexOf(row.structure().root() + "{")));
        out.println("    after  " + called.now(shown));
        if (called.exception() != null && !row.verdict().equals("spent")) {
            out.println("    thrown " + called.exception());
        }
    }

    private static String meaning(String verdict, Contract contract) {
        if (verdict.startsWith("ensures ")) {
            int number = Integer.parseInt(verdict.substring(8));
            return number <= contract.ensures.size() ? ": `" + contract.ensures.get(number - 1) + "` is false after the call" : "";
        } else if (verdict.startsWith("signals ")) {
            int number = Integer.parseInt(verdict.substring(8));
            return number <= contract.signals.size() ? ": `" + contract.signals.get(number - 1) + "` is false of the exception" : "";
        } else if (verdict.equals("repOk")) {
            return ": the structure isn't valid after the call";
        } else if (verdict.startsWith("check-trap")) {
            return ": the contract ends in an exception";
        }
        return verdict.equals("spent") ? ": the call doesn't end, or needs more fuel" : "";
    }

    /** Whether two verdicts say the same. An exception that the subset doesn't have is another one there, or one of a class above it. */
    private static boolean agrees(String row, String here, Called called) {
        boolean traps = row.startsWith("trap ") && here.startsWith("trap ") || row.startsWith("check-trap ") && here.startsWith("check-trap ");
        boolean foreign = row.endsWith("ArithmeticException") || row.endsWith("NoReturn") || row.endsWith("ArrayTooLong")
                || called.threw(row.substring(row.lastIndexOf(' ') + 1));
        return row.equals(here) || traps && foreign;
    }
}
