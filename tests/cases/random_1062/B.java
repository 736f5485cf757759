class N { int v; N next; boolean b; int f(int y) { return R.K; } static int g(int a, boolean c) { return c ? a : a + 1; } }
class H { int x = R.K; N n; H(int a) { x += a; } int inc() { return ++x; } }