package replay;

import java.nio.file.Path;
import java.util.List;

/** Looks for a structure within the bounds on which the predicate doesn't end, as on a cycle that it doesn't look for. */
public final class Endless {
    private static final long RUNS = 20_000;
    private static final long STEPS = 5_000_000;
    private static final int STACK_BYTES = 1 << 28;
    private static final int MILLISECONDS = 60_000;

    private Endless() {}

    /** A structure on which the predicate stays in a loop, or a method that calls itself, of this file and line. */
    public record Found(String file, int line, String what, String structure) {}

    /** The first such structure; null where none was met within some runs, or where nothing can be run. */
    public static Found of(Path finitization, List<Path> files) {
        Found[] found = {null};
        Thread thread = new Thread(null, () -> {
            try {
                found[0] = searched(finitization, files);
            } catch (Fault | RuntimeException | Error unknown) {
                found[0] = null;
            }
        }, "endless", STACK_BYTES);
        thread.setDaemon(true);
        thread.start();
        try {
            thread.join(MILLISECONDS);
        } catch (InterruptedException stopped) {
            Thread.currentThread().interrupt();
        }
        return thread.isAlive() ? null : found[0];
    }

    private static Found searched(Path finitization, List<Path> files) throws Fault {
        Finitization bounds = Finitization.of(finitization);
        Sources sources = Sources.compiled(files);
        Model model = new Model(sources, bounds);
        model.leaveOutersOut(List.of());
        Judge judge = new Judge(model, bounds.fuel);
        Found[] found = {null};
        long[] left = {STEPS};
        new Space(model, bounds, RUNS, false).run((root, space) -> {
            String why = judge.why(root, space);
            left[0] -= judge.stepsOf(why);
            if (Judge.isEndless(why) && space.isListed()) {
                Round round = judge.round(root);
                StackTraceElement frame = round.frame();
                found[0] = frame == null ? null : new Found(frame.getFileName(), frame.getLineNumber(), round.what(), space.structure().canonical(model));
                return false;
            }
            space.decideReachable(why == null);
            return left[0] > 0;
        });
        return found[0];
    }
}
