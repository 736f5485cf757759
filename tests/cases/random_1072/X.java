class R { static final int K = 1 << 2; N a; M m; int[] p; N[] q; int k; boolean repOk() { if (!((this.m) == a)) return a instanceof N; for (int i0 = 0; i0 < 3; i0++) { if ((this.a) instanceof M) continue; if ((((N[]) null).length) < (-(this.k))) { if (a.b) return !false; if (((N) (this.m.other)).b) return i0 < 0; } } if ((+7) >= (m.f(k))) return a.b; int x2 = 1; do { x2++; LinkedList<N> x3 = new LinkedList<>(); } while (x2 < 2); return m instanceof M; } }
class N { int v; N next; boolean b; int f(int y) { return y; } static int g(int a, boolean c) { return c ? a : a + 1; } }
class H { int x = 1; N n; H(int a) { x += a; } int inc() { return ++x; } }
class M extends N { N other; int f(int y) { return ((int[]) null)[(next.v) | (this.f(this.v))]; } }
