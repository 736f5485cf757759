package replay;

import java.io.PrintStream;
import java.util.HashMap;
import java.util.HashSet;
import java.util.LinkedHashMap;
import java.util.List;
import java.util.Map;
import java.util.Set;

/** What was found, against what was listed. */
final class Comparison {
    private final Model model;
    private final Judge judge;
    private final PrintStream out;
    private final Map<String, Row> unmet = new LinkedHashMap<>();
    private final Set<String> found = new HashSet<>();
    private int agreed;
    private int differing;

    Comparison(Model model, Judge judge, PrintStream out) {
        this.model = model;
        this.judge = judge;
        this.out = out;
    }

    void rows(List<Row> rows) throws Fault {
        Builder builder = new Builder(model);
        Map<String, Row> seen = new HashMap<>();
        for (Row row : rows) {
            String text = row.structure().canonical(model);
            Object root = builder.built(row.structure());
            String why = judge.why(root, row.text());
            Row twin = seen.putIfAbsent(text, row);
            if (why != null) {
                differs("differs " + row.text() + ": " + judge.placed(why, root));
            } else if (twin != null) {
                differs("too many " + row.text() + ": isomorphic to " + twin.key());
            } else {
                agreed++;
                unmet.put(text, row);
            }
        }
    }

    private void differs(String line) {
        out.println(line);
        differing++;
    }

    /** A structure within the bounds, with what the predicate says of it; true. */
    boolean candidate(Object root, Space space) throws Fault {
        String why = judge.why(root, space);
        space.decideReachable(why == null);
        if (why == null && space.isListed()) {
            String text = space.structure().canonical(model);
            if (found.add(text) && unmet.remove(text) == null) {
                differs("missing " + text);
            }
        }
        isUndecided(why, root, space);
        return true;
    }

    /** A structure within the bounds, of which those alone are named on which the predicate doesn't end; false at the first. */
    boolean endless(Object root, Space space) throws Fault {
        String why = judge.why(root, space);
        space.decideReachable(why == null);
        return !isUndecided(why, root, space);
    }

    private boolean isUndecided(String why, Object root, Space space) throws Fault {
        boolean undecided = Judge.isEndless(why) && space.isListed();
        if (undecided) {
            differs("undecided " + space.structure().canonical(model) + ": " + judge.placed(why, root));
        }
        return undecided;
    }

    /** The rows that no structure within the bounds is. */
    void surplus() {
        for (Row row : unmet.values()) {
            agreed--;
            differs("too many " + row.text() + ": not within the bounds");
        }
    }

    int end() {
        out.println("agree " + agreed + (differing == 0 ? "" : " differ " + differing));
        return differing == 0 ? 0 : 1;
    }
}
