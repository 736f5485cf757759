// Disjoint sets as trees of parents: a root is its own parent and ranks above its children.
class DisjointSet {
    static class Element {
        Element parent;
        int rank;
    }

    Element[] elements;

    boolean repOk() {
        if (elements == null) return false;
        for (int i = 0; i < elements.length; i++) {
            if (elements[i] == null) return false;
            for (int j = 0; j < i; j++) {
                if (elements[j] == elements[i]) return false;
            }
        }
        for (int i = 0; i < elements.length; i++) {
            Element parent = elements[i].parent;
            if (!holds(parent)) return false;
            if (parent != elements[i] && parent.rank <= elements[i].rank) return false;
        }
        return true;
    }

    private boolean holds(Element element) {
        for (int i = 0; i < elements.length; i++) {
            if (elements[i] == element) return true;
        }
        return false;
    }
}
