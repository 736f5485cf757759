class R { static final int K = 1 << 2; N a; M m; int[] p; N[] q; int k; boolean repOk() { int x1; return true; } }
class H { int x = 2 + 3; N n; H(int a) { x += a; } int inc() { return ++x; } }
class M extends N { N other; int f(int y) { return super.f(y) + (+v); } }
class N { int v; N next; boolean b; int f(int y) { return (this.b ? N.g((this.b ? R.K : v), y == (R.K)) : 0); } static int g(int a, boolean c) { return c ? a : a + 1; } }
