package replay;

import java.util.ArrayList;
import java.util.HashMap;
import java.util.List;
import java.util.Map;

/** The loop or the method in which a run without an end stays, found by where runs of a step less each are stopped. */
final class Round {
    /** Enough to be in it. */
    static final int STEPS = 20_000;
    /** More than one round of it takes as a rule. */
    private static final int RUNS = 128;
    private static final int CALLS = 200;
    private final List<List<StackTraceElement>> stacks = new ArrayList<>();
    private final int steps;
    private final StackTraceElement call;
    private final StackTraceElement loop;

    Round(Judge judge, int steps, Object root) {
        this.steps = steps;
        for (int less = 0; less < Math.min(RUNS, steps / 2); less++) {
            List<StackTraceElement> stack = judge.stopped(root, steps - less);
            if (!stack.isEmpty()) {
                stacks.add(stack);
            }
        }
        call = stacks.isEmpty() ? null : call();
        loop = loop();
    }

    /** A text to add to what is said of the run; empty where nothing is known. */
    String text() {
        StackTraceElement frame = frame();
        String place = frame == null ? "" : " at " + frame.getFileName() + ":" + frame.getLineNumber();
        return frame == null ? "" : call == null ? ", in the loop" + place : ", in " + call.getMethodName() + ", which calls itself" + place;
    }

    /** A place in the loop or the call by which the method calls itself; none where nothing is known. */
    StackTraceElement frame() {
        return call == null ? loop : call;
    }

    /** What is there. */
    String what() {
        return call == null ? "this loop" : "`" + call.getMethodName() + "`, which calls itself here,";
    }

    /** A call of the method that the stack has many of; none where it has no such one. */
    private StackTraceElement call() {
        Map<String, List<StackTraceElement>> calls = new HashMap<>();
        for (StackTraceElement frame : stacks.get(0)) {
            calls.computeIfAbsent(frame.getClassName() + "." + frame.getMethodName(), none -> new ArrayList<>()).add(frame);
        }
        List<StackTraceElement> most = List.of();
        for (List<StackTraceElement> frames : calls.values()) {
            most = frames.size() > most.size() ? frames : most;
        }
        return most.size() < Math.min(CALLS, Math.max(steps / 8, 3)) ? null : most.get(1);
    }

    /** The stack is never lower than at the loop's own step, and of loops in one method the outermost comes first. */
    private StackTraceElement loop() {
        StackTraceElement found = null;
        int depth = stacks.stream().mapToInt(List::size).min().orElse(0);
        for (List<StackTraceElement> stack : stacks) {
            StackTraceElement top = stack.get(0);
            if (stack.size() == depth && (found == null || top.getLineNumber() < found.getLineNumber())) {
                found = top;
            }
        }
        return found;
    }
}
