class M extends N { N other; int f(int y) { return super.f(y) + (((N[]) null).length); } }
class R { static final int K = -3 % 2; N a; M m; int[] p; N[] q; int k; boolean repOk() { if (((this.a) != null) & (!false)) { if (q == null) return (this.k) > k; } return false; } }
