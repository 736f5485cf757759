class R { static final int K = 2; N a; M m; int[] p; N[] q; int k; boolean repOk() { LinkedList<N> x1 = new LinkedList<>(); if ((p.length) <= (k / K)) { M x2 = m; for (int i2 = 0; i2 < 3; i2++) { if ((this.m.v) == K) return 2 > (this.k); boolean x4 = ((N) (q[0])).b; } } N x5 = (m == null ? x1.removeFirst() : (true ? this.a : null)); for (int i5 = 0; i5 < 3; i5++) { if (x1.add(this.m)) return true & true; } return (m.v) >= (((N) (m.other)).f(((N[]) null).length)); } }
class N { int v; N next; boolean b; int f(int y) { return +(((int[]) null).length); } static int g(int a, boolean c) { return c ? a : a + 1; } }
class M extends N { N other; int f(int y) { return ((N[]) null).length; } }
class H { int x = 1; N n; H(int a) { x += a; } int inc() { return ++x; } }
