package replay;

import java.io.BufferedReader;
import java.io.IOException;
import java.io.InputStream;
import java.io.InputStreamReader;
import java.nio.charset.StandardCharsets;
import java.util.ArrayList;
import java.util.LinkedHashMap;
import java.util.List;
import java.util.Map;
import java.util.regex.Matcher;
import java.util.regex.Pattern;

/** A row of a test: its key, verdict and arguments as the row writes them, and the structure before the call. */
record TestRow(String key, String verdict, String arguments, Structure structure, String text) {
    private static final Pattern ROW = Pattern.compile(
            "([0-9.]+) (pass|ensures [0-9]+|signals [0-9]+|repOk|trap [^ ]+|check-trap [^ ]+|spent) (?:\\(([^ ]*)\\) )?(.*)");

    private static final Pattern END = Pattern.compile("valid [0-9]+ failing [0-9]+ tried [0-9]+|more [0-9.]+|spent [0-9.]+|out of memory");

    static TestRow of(String line) throws Fault {
        Matcher parts = ROW.matcher(line);
        if (!parts.matches()) {
            throw new Fault("standard input is no report of a test: '" + line + "' is no row");
        }
        String arguments = parts.group(3) == null ? "" : parts.group(3);
        return new TestRow(parts.group(1), parts.group(2), arguments, Structure.of(parts.group(4)), line);
    }

    /** The rows of a report of a test. */
    static List<TestRow> read(InputStream report) throws Fault, IOException {
        List<TestRow> rows = new ArrayList<>();
        BufferedReader reader = new BufferedReader(new InputStreamReader(report, StandardCharsets.UTF_8));
        String line = reader.readLine();
        for (; line != null && !END.matcher(line).matches(); line = reader.readLine()) {
            rows.add(of(line));
        }
        if (line == null) {
            throw new Fault("standard input is no report of a test: it has no last line");
        }
        return rows;
    }

    /** Leaves the fields out that stand for outer objects. */
    static void leaveOutersOut(Model model, List<TestRow> rows) throws Fault {
        model.leaveOutersOut(rows.stream().map(row -> new Row(row.text, row.structure)).toList());
    }

    /** The arguments by name: null, a truth value, a number, or the name of an object. */
    Map<String, Object> values() throws Fault {
        return arguments.isEmpty() ? new LinkedHashMap<>() : Structure.slots(arguments, false);
    }

    boolean passes() {
        return verdict.equals("pass");
    }

    /** The smaller the structure, the better it shows what is wrong. */
    int size() {
        return structure.objects().size() * 1000 + text.length();
    }
}
