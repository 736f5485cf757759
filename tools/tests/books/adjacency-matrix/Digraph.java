package books;

public class Digraph {
    private final boolean[][] matrix;
    private int edges;

    public Digraph(int vertices) {
        matrix = new boolean[vertices][vertices];
    }

    public void addEdge(int v, int w) {
        if (!matrix[v][w]) edges++;
        matrix[v][w] = true;
    }

    public boolean repOk() {
        int found = 0;
        for (boolean[] row : matrix) {
            if (row.length != matrix.length) return false;
            for (boolean edge : row) {
                if (edge) found++;
            }
        }
        for (int v = 0; v < matrix.length; v++) {
            for (int w = v + 1; w < matrix.length; w++) if (matrix[v] == matrix[w]) return false;
        }
        return found == edges && !hasCycle();
    }

    private boolean hasCycle() {
        boolean[] marked = new boolean[matrix.length];
        boolean[] onPath = new boolean[matrix.length];
        for (int v = 0; v < matrix.length; v++) {
            if (!marked[v] && dfs(v, marked, onPath)) return true;
        }
        return false;
    }

    private boolean dfs(int v, boolean[] marked, boolean[] onPath) {
        marked[v] = true;
        onPath[v] = true;
        for (int w = 0; w < matrix.length; w++) {
            if (!matrix[v][w]) continue;
            if (onPath[w]) return true;
            if (!marked[w] && dfs(w, marked, onPath)) return true;
        }
        onPath[v] = false;
        return false;
    }
}
