package books;

import java.util.EnumMap;

public class QuadTree {
    enum Corner { NORTH_EAST, SOUTH_WEST }

    static class Quad {
        Corner corner;
        boolean point;
        Quad ne, sw;
    }

    private Quad root;

    private int count(Quad quad, Corner expected) {
        if (quad == null) return 0;
        if (quad.corner != expected) throw new IllegalStateException("quad in the wrong corner");
        boolean inner = quad.ne != null || quad.sw != null;
        if (inner && quad.point) throw new IllegalStateException();
        return 1 + count(quad.ne, Corner.NORTH_EAST) + count(quad.sw, Corner.SOUTH_WEST);
    }

    boolean repOk() {
        try {
            return count(root, null) > 0;
        } catch (IllegalStateException e) {
            return false;
        }
    }
}
