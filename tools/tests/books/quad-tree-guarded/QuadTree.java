package books;

import java.util.EnumMap;

public class QuadTree {
    enum Corner { NORTH_EAST, SOUTH_WEST }

    static class Quad {
        Corner corner;
        boolean point;
        Quad ne, sw;
    }

    private Quad root;

    private int count(Quad quad, Corner expected, int depth) {
        if (quad == null) return 0;
        if (depth > 3) throw new IllegalStateException("a cycle");
        if (quad.corner != expected) throw new IllegalStateException("quad in the wrong corner");
        boolean inner = quad.ne != null || quad.sw != null;
        if (inner && quad.point) throw new IllegalStateException();
        return 1 + count(quad.ne, Corner.NORTH_EAST, depth + 1) + count(quad.sw, Corner.SOUTH_WEST, depth + 1);
    }

    boolean repOk() {
        try {
            return count(root, null, 0) > 0;
        } catch (IllegalStateException e) {
            return false;
        }
    }
}
