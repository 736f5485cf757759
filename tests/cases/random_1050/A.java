class R { static final int K = -3 % 2; N a; M m; int[] p; N[] q; int k; boolean repOk() { if (true) return false || true; int x1 = 1; do { x1++; LinkedList<N> x2 = new LinkedList<>(); } while (x1 < 2); --x1; HashSet<N> x3 = new HashSet<N>(); return (x3.remove(this.m)) == (((N) (m.next)).b); } }
class M extends N { N other; int f(int y) { return this.f(7); } }
