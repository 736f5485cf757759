class H { int x = R.K; N n; H(int a) { x += a; } int inc() { return ++x; } }
class N { int v; N next; boolean b; int f(int y) { return 7; } static int g(int a, boolean c) { return c ? a : a + 1; } }