package books;

import java.util.Map;

public class TrafficLight {
    public enum Signal {
        RED(30), GREEN(20), YELLOW(5);

        private final int duration;

        Signal(int duration) {
            this.duration = duration;
        }

        int duration() {
            return duration;
        }

        Signal next() {
            return values()[(ordinal() + 1) % values().length];
        }
    }

    private Signal now = Signal.RED;
    private Signal before;
    private int seconds;

    public void tick() {
        if (++seconds >= now.duration()) {
            before = now;
            now = now.next();
            seconds = 0;
        }
    }

    public boolean repOk() {
        if (seconds < 0 || seconds >= now.duration()) return false;
        return before == null ? now == Signal.RED : before.next() == now;
    }
}
