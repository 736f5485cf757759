class M extends N { N other; int f(int y) { return super.f(y) + (this.v); } }
class H { int x = 1; N n; H(int a) { x += a; } int inc() { return ++x; } }
class N { int v; N next; boolean b; int f(int y) { return ((M) ((M) (((N[]) null)[v]))).v; } static int g(int a, boolean c) { return c ? a : a + 1; } }
class R { static final int K = 1 << 2; N a; M m; int[] p; N[] q; int k; boolean repOk() { for (int i0 = 0; i0 < 3; i0++) { N[] x2; } if (!(a == null)) { int x3 = (m == null ? k : 7 << 1); N x4 = a; } for (int i4 = 0; i4 < 3; i4++) { if (false) return m != (this.m); } return true; } }
