package books;

import java.util.HashMap;
import java.util.HashSet;
import java.util.Map;
import java.util.Set;

public class DependencyGraph {
    private enum Color { WHITE, GREY, BLACK }

    static class Task {
        Edge edges;
        Task next;
    }

    static class Edge {
        Task to;
        Edge rest;
    }

    private Task first;

    boolean repOk() {
        Map<Task, Color> colors = new HashMap<>();
        for (Task t = first; t != null; t = t.next) {
            if (colors.put(t, Color.WHITE) != null) return false;
        }
        Set<Edge> edges = new HashSet<>();
        for (Task t = first; t != null; t = t.next) {
            for (Edge e = t.edges; e != null; e = e.rest) {
                if (!edges.add(e) || !colors.containsKey(e.to)) return false;
            }
        }
        for (Task t = first; t != null; t = t.next) {
            if (colors.get(t) == Color.WHITE && hasCycle(t, colors)) return false;
        }
        return true;
    }

    private static boolean hasCycle(Task t, Map<Task, Color> colors) {
        colors.put(t, Color.GREY);
        for (Edge e = t.edges; e != null; e = e.rest) {
            switch (colors.get(e.to)) {
                case GREY:
                    return true;
                case WHITE:
                    if (hasCycle(e.to, colors)) return true;
                    break;
                default:
                    break;
            }
        }
        colors.put(t, Color.BLACK);
        return false;
    }
}
