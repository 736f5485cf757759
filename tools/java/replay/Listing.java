package replay;

import java.io.BufferedReader;
import java.io.IOException;
import java.io.InputStream;
import java.io.InputStreamReader;
import java.nio.charset.StandardCharsets;
import java.util.ArrayList;
import java.util.List;
import java.util.regex.Pattern;

/** What `list` wrote. */
record Listing(List<Row> rows, String end, boolean whole) {
    private static final Pattern END = Pattern.compile("valid [0-9]+ tried [0-9]+|more [0-9.]+|spent [0-9.]+");

    static Listing of(InputStream input) throws Fault, IOException {
        List<Row> rows = new ArrayList<>();
        BufferedReader reader = new BufferedReader(new InputStreamReader(input, StandardCharsets.UTF_8));
        String end = reader.readLine();
        for (String line = reader.readLine(); line != null; line = reader.readLine()) {
            int blank = end.indexOf(' ');
            if (!end.matches("[0-9.]+ .*")) {
                throw new Fault("standard input is no listing: '" + end + "' is no row");
            }
            rows.add(new Row(end, Structure.of(end.substring(blank + 1))));
            end = line;
        }
        if (end == null || !END.matcher(end).matches()) {
            throw new Fault("standard input is no listing: " + (end == null ? "it is empty" : "it ends with '" + end + "'"));
        }
        return new Listing(rows, end, end.startsWith("valid"));
    }
}
