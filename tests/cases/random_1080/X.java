class H { int x = R.K; N n; H(int a) { x += a; } int inc() { return ++x; } }
class M extends N { N other; int f(int y) { return super.f(y) + (y & v); } }
class R { static final int K = 1 << 2; N a; M m; int[] p; N[] q; int k; boolean repOk() { for (int i0 = 0; i0 < 3; i0++) { if (((this.k) | i0) < ((int) i0)) { if (k != (this.p[i0])) return this.m.b; } else { if (a instanceof M) return !false; if (m instanceof N) return (this.m) == null; } } return (this.a) instanceof N; } }
class N { int v; N next; boolean b; int f(int y) { return ((M) null).v; } static int g(int a, boolean c) { return c ? a : a + 1; } }
