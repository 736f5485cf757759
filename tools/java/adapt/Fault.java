package adapt;

/** An end of the program, with its status. */
public final class Fault extends Exception {
    private static final long serialVersionUID = 1;
    final int status;

    Fault(int status, String message) {
        super(message);
        this.status = status;
    }
}
