class M extends N { N other; int f(int y) { return super.f(y) + (((int[]) null)[7]); } }
class R { static final int K = -3 % 2; N a; M m; int[] p; N[] q; int k; boolean repOk() { if ((7 | K) >= k) return (this.q) == null; M x1 = m; return (this.q) != null; } }
class N { int v; N next; boolean b; int f(int y) { return 1; } static int g(int a, boolean c) { return c ? a : a + 1; } }
class H { int x = 2 + 3; N n; H(int a) { x += a; } int inc() { return ++x; } }
