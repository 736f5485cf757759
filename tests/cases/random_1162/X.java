class M extends N { N other; int f(int y) { return super.f(y) + (3 * 7); } }
class R { static final int K = -3 % 2; N a; M m; int[] p; N[] q; int k; boolean repOk() { if ((this.q) == null) { if (true) return k <= k; } N x1 = (false ? this.m : null); while (x1 != null) {  x1 = x1.next; if (3 < 1) break; } for (int i1 = 0; i1 < 2; i1++) { boolean x3 = false || ((R.K) > i1); } return (this.m.other) != (q[this.k]); } }
class N { int v; N next; boolean b; int f(int y) { return -y; } static int g(int a, boolean c) { return c ? a : a + 1; } }
class H { int x = R.K; N n; H(int a) { x += a; } int inc() { return ++x; } }
