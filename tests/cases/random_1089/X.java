class H { int x = 1; N n; H(int a) { x += a; } int inc() { return ++x; } }
class N { int v; N next; boolean b; int f(int y) { return (+(((int[]) null)[7])) - y; } static int g(int a, boolean c) { return c ? a : a + 1; } }
class M extends N { N other; int f(int y) { return super.f(y) + (next.f(R.K)); } }
class R { static final int K = -3 % 2; N a; M m; int[] p; N[] q; int k; boolean repOk() { if (7 == k) return true || true; return (this.a.v) >= ((N.g(0, true)) * k); } }
