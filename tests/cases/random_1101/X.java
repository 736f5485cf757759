class R { static final int K = -3 % 2; N a; M m; int[] p; N[] q; int k; boolean repOk() { if (false) return !true; if (((false ? 3 : 3)) < (k % K)) { H x1 = new H(N.g(7, false)); } if ((m.other) == m) return q != null; if ((false ^ true) != (q == null)) return true || true; return true; } }
class M extends N { N other; int f(int y) { return super.f(y) + y; } }
class H { int x = 1; N n; H(int a) { x += a; } int inc() { return ++x; } }
class N { int v; N next; boolean b; int f(int y) { return y * 1; } static int g(int a, boolean c) { return c ? a : a + 1; } }
