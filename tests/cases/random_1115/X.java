class N { int v; N next; boolean b; int f(int y) { return ((R.K) | (N.g(2, b))) >> ((((int[]) null)[y]) << (((M) null).v)); } static int g(int a, boolean c) { return c ? a : a + 1; } }
class R { static final int K = 1 << 2; N a; M m; int[] p; N[] q; int k; boolean repOk() { if ((this.q) == null) return false != true; if (a == (this.m)) { LinkedList<N> x1 = new LinkedList<>(); if (x1.remove(null)) { if (!(k >= K)) return x1.add(null); if (((true ? 3 : K)) <= (p[k])) return false && true; } } N x2 = this.m; return ((this.q) == null) != (K < (-2147483648)); } }
class M extends N { N other; int f(int y) { return ((y ^ y) ^ 0) & ((next.v) ^ (this.v)); } }
class H { int x = R.K; N n; H(int a) { x += a; } int inc() { return ++x; } }
