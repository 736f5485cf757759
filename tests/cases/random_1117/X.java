class N { int v; N next; boolean b; int f(int y) { return +v; } static int g(int a, boolean c) { return c ? a : a + 1; } }
class H { int x = 1; N n; H(int a) { x += a; } int inc() { return ++x; } }
class M extends N { N other; int f(int y) { return super.f(y) + (y | (this.v)); } }
class R { static final int K = 2; N a; M m; int[] p; N[] q; int k; boolean repOk() { if (true || (false || false)) return (this.a) == null; if (true) return (R.K) > 0; for (int i0 = 0; i0 < 2; i0++) { LinkedList<N> x2 = new LinkedList<>(); if (((N) (this.m.next)).b) { H x3 = new H(p.length); boolean x4 = true; } } return m == null; } }
