import java.util.HashSet;
import java.util.LinkedList;

// A directed graph without cycles: all its vertices are reached from the first one.
class Graph {
    static class Vertex {
        Edge edges;
    }

    static class Edge {
        Vertex target;
        Edge next;
    }

    Vertex start;

    boolean repOk() {
        if (start == null) return false;
        HashSet<Vertex> done = new HashSet<Vertex>();
        HashSet<Vertex> open = new HashSet<Vertex>();
        HashSet<Edge> used = new HashSet<Edge>();
        return visit(start, open, done, used);
    }

    // Goes through all that a vertex reaches, depth first; no edge belongs to two vertices, and no vertex is met while it is open.
    private boolean visit(Vertex vertex, HashSet<Vertex> open, HashSet<Vertex> done, HashSet<Edge> used) {
        if (done.contains(vertex)) return true;
        if (!open.add(vertex)) return false;
        LinkedList<Vertex> targets = new LinkedList<Vertex>();
        for (Edge edge = vertex.edges; edge != null; edge = edge.next) {
            if (!used.add(edge)) return false;
            if (edge.target == null || targets.contains(edge.target)) return false;
            targets.add(edge.target);
            if (!visit(edge.target, open, done, used)) return false;
        }
        open.remove(vertex);
        done.add(vertex);
        return true;
    }
}
