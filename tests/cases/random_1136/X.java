class M extends N { N other; int f(int y) { return (7 ^ (((int[]) null).length)) % (this.v); } }
class H { int x = 1; N n; H(int a) { x += a; } int inc() { return ++x; } }
class R { static final int K = -3 % 2; N a; M m; int[] p; N[] q; int k; boolean repOk() { if (((-2147483648) < 1) && (!false)) return true | true; if (m instanceof N) return (this.m) == null; int[] x1 = p; return 7 < ((7 != K ? m.v : 1)); } }
class N { int v; N next; boolean b; int f(int y) { return v; } static int g(int a, boolean c) { return c ? a : a + 1; } }
