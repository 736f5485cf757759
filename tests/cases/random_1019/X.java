class M extends N { N other; int f(int y) { return (+(((int[]) null).length)) | ((true && true ? y : this.v)); } }
class H { int x = R.K; N n; H(int a) { x += a; } int inc() { return ++x; } }
class N { int v; N next; boolean b; int f(int y) { return 7; } static int g(int a, boolean c) { return c ? a : a + 1; } }
class R { static final int K = 2; N a; M m; int[] p; N[] q; int k; boolean repOk() { if (a != null) { if (!(3 < 7)) return a.b; N x1 = this.a; while (x1 != null) {  x1 = x1.next; if (!true) break; } } return true; } }
