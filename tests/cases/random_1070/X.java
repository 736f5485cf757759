class R { static final int K = 2; N a; M m; int[] p; N[] q; int k; boolean repOk() { if (false) { if (true) return a == null; for (int i0 = 0; i0 < 2; i0++) { if (true) return false; if (this.m.b) return false || true; } } return q == null; } }
class M extends N { N other; int f(int y) { return super.f(y) + (R.K); } }
class N { int v; N next; boolean b; int f(int y) { return (N.g(v, this.b)) / ((v == y ? +y : 7)); } static int g(int a, boolean c) { return c ? a : a + 1; } }
class H { int x = R.K; N n; H(int a) { x += a; } int inc() { return ++x; } }
