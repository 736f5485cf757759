// Adapts small classes, lists what was made by the program, and compares the listing with the original on this Java virtual machine.
//
//     Meaning KORAT FOLDER [--some N] [--only PLACE] TABLE..
//     Meaning KORAT FOLDER --random N [--seed S] [--tested N] [--held N]
//     Meaning KORAT FOLDER --folders FOLDER..
//
// A line for each class that doesn't what its table says, and at last `A agree, W warned, R refused, S spent, F failed`. FOLDER is where it
// may write.

package meaning;

import adapt.Adapted;
import java.io.ByteArrayInputStream;
import java.io.ByteArrayOutputStream;
import java.io.IOException;
import java.io.OutputStream;
import java.io.PrintStream;
import java.nio.charset.StandardCharsets;
import java.nio.file.Files;
import java.nio.file.Path;
import java.util.ArrayList;
import java.util.LinkedHashMap;
import java.util.List;
import java.util.Map;
import java.util.TreeMap;
import java.util.stream.Stream;
import replay.After;
import replay.Endless;
import replay.Session;

public final class Meaning {
    private final String korat;
    private final Path work;
    private final Map<String, Integer> counts = new TreeMap<>();
    private int failed;

    private Meaning(String korat, Path work) {
        this.korat = korat;
        this.work = work;
    }

    public static void main(String[] words) throws Exception {
        PrintStream out = System.out;
        System.setOut(new PrintStream(OutputStream.nullOutputStream()));
        System.exit(run(out, words));
    }

    public static int run(PrintStream out, String[] words) throws Exception {
        Meaning meaning = new Meaning(words[0], Path.of(words[1]));
        List<String> tables = new ArrayList<>();
        Map<String, String> options = new LinkedHashMap<>();
        for (int i = 2; i < words.length; i++) {
            if (words[i].startsWith("--")) options.put(words[i], words[++i]);
            else tables.add(words[i]);
        }
        if (options.containsKey("--random")) meaning.random(out, options);
        else if (options.containsKey("--folders")) {
            tables.add(0, options.get("--folders"));
            for (String folder : tables) meaning.report(out, ofFolder(Path.of(folder)));
        } else {
            List<Case> cases = new ArrayList<>();
            for (String table : tables) cases.addAll(Case.read(Path.of(table)));
            String only = options.get("--only");
            cases.removeIf(one -> only != null && !one.place().equals(only) && !one.place().startsWith(only + "."));
            int some = Math.min(cases.size(), Integer.parseInt(options.getOrDefault("--some", "1000000")));
            for (int i = 0; i < some; i++) meaning.report(out, cases.get((int) ((long) i * cases.size() / some)));
        }
        out.println(meaning.counts.getOrDefault("agree", 0) + " agree, " + meaning.counts.getOrDefault("warned", 0) + " warned, "
                + meaning.counts.getOrDefault("refused", 0) + " refused, " + meaning.counts.getOrDefault("spent", 0) + " spent, " + meaning.failed + " failed");
        return meaning.failed == 0 ? 0 : 1;
    }

    private void random(PrintStream out, Map<String, String> options) throws Exception {
        int count = Integer.parseInt(options.get("--random"));
        long seed = Long.parseLong(options.getOrDefault("--seed", "1"));
        for (int i = 0; i < count; i++) report(out, new RandomClass(seed + i, false, false).made());
        int tested = Integer.parseInt(options.getOrDefault("--tested", "0"));
        for (int i = 0; i < tested; i++) report(out, new RandomClass(seed + i, true, false).made());
        int held = Integer.parseInt(options.getOrDefault("--held", "0"));
        for (int i = 0; i < held; i++) report(out, new RandomClass(seed + i, i % 2 == 1, true).made());
    }

    /** A folder with a finitization, sources and `wanted`: the first line of a case. */
    private static Case ofFolder(Path folder) throws IOException {
        Path wanted = folder.resolve("wanted");
        String[] words = (Files.exists(wanted) ? Files.readString(wanted).strip().replaceAll("[\\[\\]]", "") : "agree").split(" ", 2);
        StringBuilder text = new StringBuilder();
        try (Stream<Path> files = Files.list(folder)) {
            for (Path file : files.filter(path -> path.toString().endsWith(".java")).sorted().toList()) text.append(Files.readString(file));
        }
        return new Case(folder.getFileName().toString(), words[0], words.length > 1 ? words[1] : "", null,
                Files.readString(folder.resolve("fin.toml")), text.toString());
    }

    private void report(PrintStream out, Case one) throws Exception {
        String[] result = tried(one);
        boolean right = result[0].equals(one.expected()) && result[1].contains(one.part());
        if (one.expected().equals("any")) right = result[0].matches("agree|warned|refused|spent");
        counts.merge(result[0], 1, Integer::sum);
        if (right) return;
        failed++;
        out.println("failed: " + one.place() + ": " + String.join(": ", result) + (one.expected().equals("any") ? "" : ", and not " + one.expected() + " " + one.part()));
        Path kept = work.resolve("failed-" + one.place());
        Files.createDirectories(kept);
        Files.writeString(kept.resolve(one.file()), one.source());
        Files.writeString(kept.resolve("fin.toml"), one.finitization());
        Path made = work.resolve("adapted").resolve(one.file());
        if (!result[0].matches("refused|fault") && Files.exists(made)) Files.copy(made, kept.resolve("Adapted.java"), java.nio.file.StandardCopyOption.REPLACE_EXISTING);
        out.flush();
    }

    /** What came of it, and more of that: agree, warned, refused, spent, differ, no check, fault. */
    private String[] tried(Case one) throws Exception {
        Adapted adapted;
        try {
            adapted = Adapted.of("fin.toml", one.finitization(), Map.of(one.file(), one.source()), one.method());
        } catch (adapt.Fault fault) {
            return new String[] {"fault", fault.getMessage()};
        } catch (RuntimeException | Error fault) {
            return new String[] {"fault", fault + " at " + Stream.of(fault.getStackTrace()).limit(4).toList()};
        }
        if (adapted.notes().refused()) return new String[] {"refused", String.join(" ~ ", adapted.notes().refusals())};
        Path folder = Files.createDirectories(work.resolve("adapted"));
        Path original = Files.createDirectories(work.resolve("original"));
        Files.writeString(original.resolve(one.file()), one.source());
        Files.writeString(folder.resolve(one.file()), adapted.sources().get(one.file()));
        Files.writeString(folder.resolve("fin.toml"), adapted.finitization());
        Path listing = work.resolve("listing");
        int status = called(listing, "list", folder.resolve("fin.toml").toString(), folder.resolve(one.file()).toString());
        String rows = Files.readString(listing);
        if (status == 5) return new String[] {"spent", endless(folder.resolve("fin.toml"), original.resolve(one.file()))};
        if (status != 0) return new String[] {"no check", status + " " + rows.lines().reduce((a, b) -> b).orElse("")};
        String difference = replayed(folder.resolve("fin.toml"), original.resolve(one.file()), rows);
        if (difference == null && one.method() != null) difference = tested(one, folder.resolve(one.file()), original.resolve(one.file()), folder.resolve("fin.toml"));
        if (difference != null) return new String[] {"differ", difference + " " + adapted.notes().warnings()};
        return adapted.notes().warnings().isEmpty() ? new String[] {"agree", ""}
                : new String[] {"warned", String.join(" ~ ", adapted.notes().warnings())};
    }

    /** Where the class's own predicate doesn't end. */
    private static String endless(Path finitization, Path source) {
        Endless.Found found = Endless.of(finitization, List.of(source));
        return found == null ? "" : found.file() + ":" + found.line() + ": " + found.what() + " doesn't end on " + found.structure();
    }

    private int called(Path report, String... words) throws IOException, InterruptedException {
        List<String> call = new ArrayList<>(List.of(korat));
        call.addAll(List.of(words));
        return new ProcessBuilder(call).redirectOutput(report.toFile()).redirectErrorStream(true).start().waitFor();
    }

    /** The first row of a test that ends otherwise here, or none. */
    private String tested(Case one, Path made, Path original, Path finitization) throws IOException, InterruptedException {
        Path report = work.resolve("report");
        int status = called(report, "test", finitization.toString(), one.method(), made.toString());
        if (status > 1) return "no report: " + Files.readString(report).lines().reduce((a, b) -> b).orElse("");
        ByteArrayOutputStream told = new ByteArrayOutputStream();
        PrintStream out = new PrintStream(told, true, StandardCharsets.UTF_8);
        String[] answer = {""};
        Thread thread = new Thread(null, () -> {
            try (java.io.InputStream rows = Files.newInputStream(report)) {
                if (After.run(new String[] {finitization.toString(), one.method(), original.toString()}, rows, out) == 0) answer[0] = null;
                else answer[0] = told.toString(StandardCharsets.UTF_8).lines().findFirst().orElse("");
            } catch (Exception | Error fault) {
                answer[0] = String.valueOf(fault);
            }
        }, "after", 1 << 28);
        thread.start();
        thread.join();
        return answer[0];
    }

    private String replayed(Path finitization, Path source, String rows) throws InterruptedException {
        ByteArrayOutputStream told = new ByteArrayOutputStream();
        PrintStream report = new PrintStream(told, true, StandardCharsets.UTF_8);
        Session session = new Session(new String[] {"--all", finitization.toString(), source.toString()},
                new ByteArrayInputStream(rows.getBytes(StandardCharsets.UTF_8)), report, report);
        Thread thread = new Thread(null, session, "replay", 1 << 28);
        thread.setDaemon(true);
        thread.start();
        int status = session.await(thread);
        return status == 0 ? null : told.toString(StandardCharsets.UTF_8).lines().findFirst().orElse("") + " (" + rows.lines().count() + " lines)";
    }
}
