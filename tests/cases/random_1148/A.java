class H { int x = R.K; N n; H(int a) { x += a; } int inc() { return ++x; } }
class N { int v; N next; boolean b; int f(int y) { return ~(N.g(((int[]) null).length, false || (this.b))); } static int g(int a, boolean c) { return c ? a : a + 1; } }
