class N { int v; N next; boolean b; int f(int y) { return y >>> (((N) (((N[]) null)[v])).f(N.g(v, this.b))); } static int g(int a, boolean c) { return c ? a : a + 1; } }
class H { int x = 2 + 3; N n; H(int a) { x += a; } int inc() { return ++x; } }
class M extends N { N other; int f(int y) { return super.f(y) + (v >>> y); } }
class R { static final int K = -3 % 2; N a; M m; int[] p; N[] q; int k; boolean repOk() { boolean x1 = true; if (true) return x1; N x2 = ((M) ((M) m)).other; return ((int) (7 / (this.k))) > (this.m.f(~7)); } }
