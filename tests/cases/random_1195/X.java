class N { int v; N next; boolean b; int f(int y) { return (~(this.v)) >> (+7); } static int g(int a, boolean c) { return c ? a : a + 1; } }
class H { int x = 2 + 3; N n; H(int a) { x += a; } int inc() { return ++x; } }
class R { static final int K = 1 << 2; N a; M m; int[] p; N[] q; int k; boolean repOk() { int[] x1; if (((this.k) == k) != (false & true)) return 7 != 3; return a instanceof M; } }
class M extends N { N other; int f(int y) { return super.f(y) + (other.v); } }
