package replay;

import java.nio.file.Path;
import java.util.ArrayList;
import java.util.List;

/** The words of a call. */
final class Order {
    private static final String USAGE = "usage: tools/replay [--all [--plain] [--most N]] [--junit CALL] FIN SOURCE..";
    private static final long MOST = 20_000_000;
    boolean all;
    boolean plain;
    long most = MOST;
    String call;
    Path finitization;
    final List<Path> sources = new ArrayList<>();

    static Order of(String[] words) throws Fault {
        Order order = new Order();
        for (int i = 0; i < words.length; i++) {
            switch (words[i]) {
                case "--all" -> order.all = true;
                case "--plain" -> order.plain = true;
                case "--most" -> order.most = number(value(words, ++i));
                case "--junit" -> order.call = value(words, ++i);
                default -> order.file(words[i]);
            }
        }
        if (order.sources.isEmpty()) {
            throw new Fault(USAGE);
        }
        if (order.all && order.call != null) {
            throw new Fault("--all and --junit don't go together");
        }
        if (!order.all && (order.plain || order.most != MOST)) {
            throw new Fault("--plain and --most go with --all");
        }
        return order;
    }

    private void file(String word) throws Fault {
        if (word.startsWith("-")) {
            throw new Fault("no option: " + word);
        }
        if (finitization == null) {
            finitization = Path.of(word);
        } else {
            sources.add(Path.of(word));
        }
    }

    private static String value(String[] words, int index) throws Fault {
        if (index == words.length) {
            throw new Fault("no value behind " + words[index - 1]);
        }
        return words[index];
    }

    private static long number(String word) throws Fault {
        if (!word.matches("[1-9][0-9]{0,17}")) {
            throw new Fault("no number: " + word);
        }
        return Long.parseLong(word);
    }
}
