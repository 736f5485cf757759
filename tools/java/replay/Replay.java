// Replays the rows of a listing on a Java virtual machine: builds the structure of each row from the original sources, runs
// its `repOk`, and prints `agree N` or the rows that differ. With --all it enumerates the structures within the bounds as
// well, and names those that are missing or too many; with --junit it writes a test for each row instead.
//
//     ./korat list fin.toml A.java | tools/replay [--all [--plain] [--most N]] [--junit CALL] fin.toml A.java..

package replay;

import java.io.PrintStream;
import java.nio.charset.StandardCharsets;

public final class Replay {
    private static final int STACK_BYTES = 1 << 29;

    private Replay() {}

    public static void main(String[] words) throws InterruptedException {
        PrintStream out = new PrintStream(System.out, false, StandardCharsets.UTF_8);
        // What the tested class prints is no part of the report.
        System.setOut(System.err);
        Session session = new Session(words, System.in, out, System.err);
        Thread thread = new Thread(null, session, "replay", STACK_BYTES);
        thread.setDaemon(true);
        thread.start();
        int status = session.await(thread);
        out.flush();
        System.exit(status);
    }
}
