class M extends N { N other; int f(int y) { return super.f(y) + 7; } }
class R { static final int K = -3 % 2; N a; M m; int[] p; N[] q; int k; boolean repOk() { if ((false && false) && (false || false)) return true & false; if ((m.f(k)) != 3) { if ((this.m.other) == null) return false || true; } else { boolean x1 = (~0) >= (~(this.k)); if (((this.a) != null) && (a != m)) { H x2 = new H((int) (this.k)); if (((this.k) % k) >= (K ^ 7)) return false; } } int x3 = (int) (this.k); return (!((this.p) == null)) ^ (!(x3 == (this.k))); } }
class H { int x = R.K; N n; H(int a) { x += a; } int inc() { return ++x; } }
class N { int v; N next; boolean b; int f(int y) { return R.K; } static int g(int a, boolean c) { return c ? a : a + 1; } }
