class R { static final int K = 2; N a; M m; int[] p; N[] q; int k; boolean repOk() { N x1 = this.a; while (x1 != null) {  x1 = x1.next; if (false) break; } return ((0 ^ 7) >> 7) <= (+((this.k) ^ K)); } }
class H { int x = 2 + 3; N n; H(int a) { x += a; } int inc() { return ++x; } }
class N { int v; N next; boolean b; int f(int y) { return ((int[]) null)[v]; } static int g(int a, boolean c) { return c ? a : a + 1; } }
class M extends N { N other; int f(int y) { return super.f(y) + 1; } }
