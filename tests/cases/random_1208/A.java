class N { int v; N next; boolean b; int f(int y) { return 7; } static int g(int a, boolean c) { return c ? a : a + 1; } }
class R { static final int K = -3 % 2; N a; M m; int[] p; N[] q; int k; boolean repOk() { int x1; int x2 = K; --x2; return true; } }
