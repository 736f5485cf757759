import java.util.ArrayDeque;
import java.util.Deque;
import java.util.HashMap;
import java.util.Map;

/** A directed graph without cycles, in adjacency lists. */
public class Dag {

    public static final class Edge {
        private final Vertex to;
        private final Edge next;

        Edge(Vertex to, Edge next) {
            this.to = to;
            this.next = next;
        }
    }

    public static final class Vertex {
        private Edge edges;

        public void connect(Vertex to) {
            edges = new Edge(to, edges);
        }

        public int degree() {
            int degree = 0;
            for (Edge edge = edges; edge != null; edge = edge.next) degree++;
            return degree;
        }
    }

    private Vertex[] vertices = new Vertex[0];
    private int edgeCount;

    /** Kahn's algorithm. */
    private boolean isAcyclic() {
        Map<Vertex, Integer> incoming = new HashMap<>();
        for (Vertex vertex : vertices) {
            incoming.put(vertex, 0);
        }
        for (Vertex vertex : vertices) {
            for (Edge edge = vertex.edges; edge != null; edge = edge.next) {
                incoming.put(edge.to, incoming.get(edge.to) + 1);
            }
        }
        Deque<Vertex> ready = new ArrayDeque<>();
        for (Map.Entry<Vertex, Integer> entry : incoming.entrySet()) {
            if (entry.getValue() == 0) {
                ready.addLast(entry.getKey());
            }
        }
        int removed = 0;
        while (!ready.isEmpty()) {
            Vertex vertex = ready.removeFirst();
            removed++;
            for (Edge edge = vertex.edges; edge != null; edge = edge.next) {
                incoming.merge(edge.to, -1, Integer::sum);
                if (incoming.get(edge.to) == 0) {
                    ready.addLast(edge.to);
                }
            }
        }
        return removed == vertices.length;
    }

    public boolean repOk() {
        if (vertices == null) return false;
        Map<Edge, Vertex> owners = new HashMap<>();
        int total = 0;
        outer:
        for (int i = 0; i < vertices.length; i++) {
            if (vertices[i] == null) return false;
            for (int j = 0; j < i; j++) {
                if (vertices[i] == vertices[j]) return false;
            }
            for (Edge edge = vertices[i].edges; edge != null; edge = edge.next) {
                if (owners.containsKey(edge)) return false;
                owners.put(edge, vertices[i]);
                total++;
                boolean known = false;
                for (Vertex vertex : vertices) {
                    if (vertex == edge.to) known = true;
                }
                if (!known) return false;
                if (total > edgeCount) break outer;
            }
        }
        return total == edgeCount && isAcyclic();
    }
}
