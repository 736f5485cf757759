package sources;

/** A mistake in what was given, in one line, and the status that the call ends with. */
public final class Fault extends Exception {
    private static final long serialVersionUID = 1L;
    public final int status;

    public Fault(int status, String line) {
        super(line.lines().findFirst().orElse(""));
        this.status = status;
    }
}
