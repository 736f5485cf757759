class R { static final int K = -3 % 2; N a; M m; int[] p; N[] q; int k; boolean repOk() { int x1 = 0; do { x1++; if (((N) ((false ? a : m))).b) return !false; } while (x1 < 2); return ((false || true ? (this.k) + 0 : x1 * x1)) < (((int) (this.k)) ^ (3 | (this.k))); } }
class H { int x = 1; N n; H(int a) { x += a; } int inc() { return ++x; } }
