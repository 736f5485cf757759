class M extends N { N other; int f(int y) { return this.v; } }
class H { int x = R.K; N n; H(int a) { x += a; } int inc() { return ++x; } }
class N { int v; N next; boolean b; int f(int y) { return ((int[]) null)[(int) ((-2147483648) >> (this.v))]; } static int g(int a, boolean c) { return c ? a : a + 1; } }
class R { static final int K = 1 << 2; N a; M m; int[] p; N[] q; int k; boolean repOk() { LinkedList<N> x1 = new LinkedList<>(); return ((x1.size()) ^ k) >= ((true || false ? (this.k) & k : 7)); } }
