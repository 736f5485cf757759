package adapt;

import java.util.LinkedHashSet;
import java.util.List;
import java.util.Set;

/** What is said of the sources: changes and warnings on standard output, refusals on standard error. */
public final class Notes {
    private final Set<String> changes = new LinkedHashSet<>();
    private final Set<String> warnings = new LinkedHashSet<>();
    private final Set<String> refusals = new LinkedHashSet<>();

    void changed(String place, String what) {
        changes.add(place + ": " + what);
    }

    void warn(String place, String what) {
        warnings.add(place + ": warning: " + what);
    }

    void refuse(String place, String what, String rewrite) {
        refusals.add(place + ": " + what + "; " + rewrite);
    }

    public boolean refused() {
        return !refusals.isEmpty();
    }

    public List<String> warnings() {
        return List.copyOf(warnings);
    }

    public List<String> refusals() {
        return List.copyOf(refusals);
    }

    void print() {
        if (!refused()) changes.forEach(System.out::println);
        warnings.forEach(System.out::println);
        refusals.forEach(System.err::println);
    }
}
