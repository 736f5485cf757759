package replay;

/** A mistake in what was given, in one line. */
final class Fault extends Exception {
    private static final long serialVersionUID = 1L;

    Fault(String line) {
        super(line.lines().findFirst().orElse(""));
    }
}
