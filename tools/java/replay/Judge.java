package replay;

import java.lang.invoke.MethodHandle;
import java.lang.invoke.MethodHandles;
import java.lang.invoke.MethodType;
import java.util.List;
import java.util.stream.Stream;

/** Runs the predicate. A run that throws is false; one that takes too many steps has an answer of its own. */
final class Judge {
    private static final int STEPS_FOR_FUEL = 10;
    private static final int STEPS_AT_MOST = 1_000_000;
    private final Sources sources;
    private final int most;
    private final MethodHandle predicate;
    volatile long runs;
    volatile boolean running;
    private volatile Object now = "";

    Judge(Model model, long fuel) throws Fault {
        this.sources = model.sources;
        this.most = (int) Math.min(STEPS_FOR_FUEL * fuel, STEPS_AT_MOST);
        try {
            MethodHandle found = MethodHandles.lookup().unreflect(model.predicate());
            this.predicate = found.asType(MethodType.methodType(boolean.class, Object.class));
        } catch (IllegalAccessException never) {
            throw new Fault("repOk can't be called");
        }
    }

    /** Null where the predicate holds, else why it doesn't. */
    String why(Object root, Object subject) {
        now = subject;
        runs++;
        running = true;
        sources.steps(most);
        try {
            return (boolean) predicate.invokeExact(root) ? null : "repOk is false";
        } catch (Throwable thrown) {
            boolean spent = thrown.getClass().getName().equals(Sources.STEPS + "$Spent");
            return spent ? "repOk takes more than " + most + " steps" : "repOk throws " + thrown.getClass().getName();
        } finally {
            running = false;
        }
    }

    /** Whether an answer is that of a run without an end. */
    static boolean isEndless(String why) {
        return why != null && why.endsWith(" steps");
    }

    /** How many steps the run took that had this answer. */
    int stepsOf(String why) {
        return isEndless(why) ? most : most - sources.stepsLeft();
    }

    /** As `why` says it, of a run without an end also the loop or method in which it stays. */
    String placed(String why, Object root) {
        return isEndless(why) ? why + round(root).text() : why;
    }

    Round round(Object root) {
        return new Round(this, Math.min(most, Round.STEPS), root);
    }

    /** Where a run of so many steps is stopped, in the sources alone; nothing where it ends before. */
    List<StackTraceElement> stopped(Object root, int steps) {
        sources.steps(steps);
        try {
            boolean ended = (boolean) predicate.invokeExact(root);
            return List.of();
        } catch (Throwable thrown) {
            return Stream.of(thrown.getStackTrace()).filter(sources::isOwn).toList();
        }
    }

    String subject() {
        return now.toString();
    }
}
