// Makes classes of the subset that korat takes out of classes as their authors wrote them.
//
//     tools/adapt [--method M] fin.toml A.java.. -o adapted/
//
// It keeps what `repOk` (and the method M with its contract) reaches and drops the rest, rewrites what the subset lacks,
// and writes the sources and the finitization below the folder. It prints what it changed and what to be warned of; what
// it can't do it names, all in one pass, each with a rewrite, and then it writes nothing.

package adapt;

import java.io.IOException;
import java.io.OutputStream;
import java.io.PrintStream;
import java.nio.file.Files;
import java.nio.file.Path;
import java.util.ArrayList;
import java.util.HashMap;
import java.util.HashSet;
import java.util.LinkedHashMap;
import java.util.List;
import java.util.Map;
import java.util.Set;
import replay.Endless;

public final class Adapt {
    private static final String USAGE = "usage: tools/adapt [--method M] FIN SOURCE.. -o FOLDER";

    private Adapt() {}

    public static void main(String[] words) {
        try {
            System.exit(run(Words.of(words)));
        } catch (Fault fault) {
            System.err.println("Adapt: " + fault.getMessage());
            System.exit(fault.status);
        } catch (RuntimeException e) {
            System.err.println("Adapt: a fault of its own: " + e + " at " + e.getStackTrace()[0]);
            System.exit(70);
        }
    }

    private static int run(Words words) throws Fault {
        Map<String, String> texts = new LinkedHashMap<>();
        for (Path source : words.sources()) texts.put(source.toString(), textOf(source));
        Adapted adapted = Adapted.of(words.fin().toString(), textOf(words.fin()), texts, words.method());
        adapted.notes().print();
        if (adapted.notes().refused()) return 1;
        Map<Path, String> made = new LinkedHashMap<>();
        adapted.sources().forEach((name, text) -> made.put(words.folder().resolve(Path.of(name).getFileName()), text));
        made.put(words.folder().resolve(words.fin().getFileName()), adapted.finitization());
        write(words.folder(), made);
        int status = checked(List.copyOf(made.keySet()));
        if (status == 0) warnOfEndless(words, texts);
        return status;
    }

    /** Runs the predicate on some structures, and warns of one on which it doesn't end. What the class prints goes nowhere. */
    private static void warnOfEndless(Words words, Map<String, String> texts) {
        PrintStream out = System.out;
        PrintStream nowhere = new PrintStream(OutputStream.nullOutputStream());
        System.setOut(nowhere);
        System.setErr(nowhere);
        Endless.Found found = Endless.of(words.folder().resolve(words.fin().getFileName()), words.sources());
        if (found != null) out.println(warning(found, texts));
    }

    static String warning(Endless.Found found, Map<String, String> texts) {
        String name = found.file();
        for (String path : texts.keySet()) if (Path.of(path).getFileName().toString().equals(found.file())) name = path;
        String line = texts.getOrDefault(name, "").lines().skip(found.line() - 1).findFirst().orElse("");
        return name + ":" + found.line() + ":" + (line.length() - line.stripLeading().length() + 1) + ": warning: " + found.what() + " doesn't end on "
                + found.structure() + "; let it remember or count what it meets, else the listing ends there, with `spent`";
    }

    /** Lets the program check what was written, where it is built: 1 where it isn't accepted. */
    private static int checked(List<Path> files) throws Fault {
        String program = System.getenv("KORAT_PROGRAM");
        if (program == null || !Files.isExecutable(Path.of(program))) return 0;
        List<String> words = new ArrayList<>(List.of(program, "check"));
        words.add(files.get(files.size() - 1).toString());
        files.subList(0, files.size() - 1).forEach(file -> words.add(file.toString()));
        try {
            Process process = new ProcessBuilder(words).redirectInput(ProcessBuilder.Redirect.from(new java.io.File("/dev/null")))
                    .redirectError(ProcessBuilder.Redirect.DISCARD).start();
            String answer = new String(process.getInputStream().readAllBytes(), java.nio.charset.StandardCharsets.UTF_8).strip();
            if (process.waitFor() == 0) return 0;
            System.err.println("korat doesn't accept what was written: " + answer);
            return 1;
        } catch (IOException e) {
            return 0;
        } catch (InterruptedException e) {
            throw new Fault(2, "interrupted");
        }
    }

    private static String textOf(Path path) throws Fault {
        try {
            return Files.readString(path);
        } catch (IOException | java.io.UncheckedIOException e) {
            throw new Fault(2, "can't read " + path);
        }
    }

    private static void write(Path folder, Map<Path, String> texts) throws Fault {
        try {
            Files.createDirectories(folder);
            for (Map.Entry<Path, String> entry : texts.entrySet()) Files.writeString(entry.getKey(), entry.getValue());
        } catch (IOException e) {
            throw new Fault(2, "can't write " + e.getMessage());
        }
    }

    /** The words of a call. */
    private record Words(Path fin, List<Path> sources, Path folder, String method) {
        static Words of(String[] words) throws Fault {
            List<Path> files = new ArrayList<>();
            Map<String, String> options = new HashMap<>();
            for (int i = 0; i < words.length; i++) {
                boolean option = words[i].equals("-o") || words[i].equals("--method");
                if (!option && words[i].startsWith("-")) throw new Fault(2, "no option " + words[i] + "; " + USAGE);
                if (!option) files.add(Path.of(words[i]));
                else if (i + 1 == words.length || options.put(words[i], words[++i]) != null) throw new Fault(2, USAGE);
            }
            if (files.size() < 2 || !options.containsKey("-o")) throw new Fault(2, USAGE);
            Words result = new Words(files.get(0), files.subList(1, files.size()), Path.of(options.get("-o")),
                    options.get("--method"));
            result.refuseOverwriting();
            return result;
        }

        private void refuseOverwriting() throws Fault {
            Set<Path> targets = new HashSet<>();
            List<Path> files = new ArrayList<>(sources);
            files.add(fin);
            for (Path file : files) {
                if (file.getFileName() == null) throw new Fault(2, "can't read " + file);
                Path target = folder.resolve(file.getFileName()).toAbsolutePath().normalize();
                if (!targets.add(target)) throw new Fault(2, "two files are named " + file.getFileName());
                if (target.equals(file.toAbsolutePath().normalize())) throw new Fault(2, file + " would be overwritten");
            }
        }
    }
}
