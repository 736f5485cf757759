class M extends N { N other; int f(int y) { return y; } }
class R { static final int K = 1 << 2; N a; M m; int[] p; N[] q; int k; boolean repOk() { if ((true || true) || (m == null)) return true || true; if (true) { if ((q[K]) instanceof N) { if ((false && true) && (7 <= (R.K))) return (this.k) < k; } if (false) return true | true; } else { int[] x1 = p; if (a.b) { N x2; } else { if ((x1.length) > ((true ? this.k : K))) return (-2147483648) < K; if (a == ((true ? a : this.a))) return false; } } return ((N.g(k, false)) ^ (~(this.k))) >= ((false ? k | k : this.a.f(this.k))); } }
class N { int v; N next; boolean b; int f(int y) { return (this.b ? 2 : y); } static int g(int a, boolean c) { return c ? a : a + 1; } }
class H { int x = R.K; N n; H(int a) { x += a; } int inc() { return ++x; } }
