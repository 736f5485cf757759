class M extends N { N other; int f(int y) { return super.f(y) + (((N[]) null).length); } }
class R { static final int K = 1 << 2; N a; M m; int[] p; N[] q; int k; boolean repOk() { int x1 = 0; do { x1++; if (!(true && false)) return (this.a) == a; } while (x1 < 2); if (this.m.b) return this.m.b; return (N.g(7, (R.K) >= (R.K))) > ((this.m.b ? (this.k) >>> 7 : x1)); } }
