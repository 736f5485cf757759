class N { int v; N next; boolean b; int f(int y) { return R.K; } static int g(int a, boolean c) { return c ? a : a + 1; } }
class R { static final int K = 2; N a; M m; int[] p; N[] q; int k; boolean repOk() { if ((this.p) == null) return false; if ((this.p) != null) return K >= (this.k); M x1 = this.m; return p == null; } }
class H { int x = 2 + 3; N n; H(int a) { x += a; } int inc() { return ++x; } }
class M extends N { N other; int f(int y) { return super.f(y) + (7 + y); } }
