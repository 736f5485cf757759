package meaning;

import java.nio.file.Path;
import java.util.ArrayList;
import java.util.List;
import java.util.regex.Matcher;
import java.util.regex.Pattern;

/**
 * A class to adapt, and what has to come of it: `agree`, `warned` with a part of the warning, or `refused` with a part of the
 * refusal.
 */
record Case(String place, String expected, String part, String method, String finitization, String source) {
    private static final Pattern HEAD = Pattern.compile("(agree|warned|refused)(?: \\[(.*?)])?(?: --method (\\w+))?: ?(.*)");
    private static final Pattern CHOICE = Pattern.compile("\\{\\{(.*?)}}", Pattern.DOTALL);
    private static final String BETWEEN = "\0";
    private static final String PLAIN = "root = \"Cell\"\nfuel = 100000\nobjects.Cell = 1\n";

    /**
     * Reads a table. A line that begins with a word of what is expected begins a case; the lines after it that begin with two
     * spaces go on, of which those that begin with `# ` belong to the finitization. Of `{{a|b}}` each is taken once, and
     * `{{=}}` is the same again, in the finitization too; of `{{a~x|b~y}}` it is x with a.
     */
    static List<Case> read(Path file) throws java.io.IOException {
        List<Case> cases = new ArrayList<>();
        List<String> lines = java.nio.file.Files.readAllLines(file);
        for (int i = 0; i < lines.size(); i++) {
            Matcher head = HEAD.matcher(lines.get(i));
            if (!head.matches()) {
                if (lines.get(i).isBlank() || lines.get(i).startsWith("# ")) continue;
                throw new IllegalArgumentException(file + ":" + (i + 1) + ": no case");
            }
            String place = file.getFileName() + ":" + (i + 1);
            StringBuilder text = new StringBuilder(head.group(4));
            StringBuilder bounds = new StringBuilder();
            for (; i + 1 < lines.size() && lines.get(i + 1).startsWith("  "); i++) {
                String line = lines.get(i + 1).substring(2);
                if (line.startsWith("# ")) bounds.append(line.substring(2)).append('\n');
                else text.append('\n').append(line);
            }
            List<String> variants = variants(text + BETWEEN + bounds);
            for (int n = 0; n < variants.size(); n++) {
                String[] parts = variants.get(n).split(BETWEEN, 2);
                cases.add(of(place + (variants.size() > 1 ? "." + (n + 1) : ""), head.group(1),
                        head.group(2) == null ? "" : head.group(2), head.group(3), parts[1], parts[0]));
            }
        }
        return cases;
    }

    /** A case of the members of Cell, which has a number v from 0 to 3, or of whole classes. */
    static Case of(String place, String expected, String part, String method, String bounds, String text) {
        boolean whole = Pattern.compile("(^|\n)(public )?(final |abstract )?class Cell\\b").matcher(text).find();
        String source = whole ? text + "\n" : "import java.util.*;\nimport java.util.function.*;\n\nclass Cell {\n    int v;\n    " + text.replace("\n", "\n    ") + "\n}\n";
        String head = bounds.contains("root =") ? "" : PLAIN;
        String fields = whole || bounds.contains("Cell.v\"") ? "" : "fields.\"Cell.v\" = [{ from = 0, to = 3 }]\n";
        return new Case(place, expected, part, method, head + fields + bounds, source);
    }

    /** The name of the file, which is that of a public class where there is one. */
    String file() {
        Matcher open = Pattern.compile("(?m)^public (?:(?:final|abstract|sealed) )*(?:class|interface|record|enum) (\\w+)").matcher(source);
        return (open.find() ? open.group(1) : "Cell") + ".java";
    }

    private static List<String> variants(String text) {
        List<String> result = new ArrayList<>();
        Matcher choice = CHOICE.matcher(text);
        if (!choice.find()) return List.of(text);
        for (String one : choice.group(1).split("\\|(?![|])(?<![|]\\|)", -1)) {
            String[] parts = one.replace("\\p", "|").split("~", 2);
            String rest = text.substring(choice.end()).replace("{{=}}", parts[parts.length - 1]);
            result.addAll(variants(text.substring(0, choice.start()) + parts[0] + rest));
        }
        return result;
    }
}
