class N { int v; N next; boolean b; int f(int y) { return (int) (~(N.g(y, false))); } static int g(int a, boolean c) { return c ? a : a + 1; } }
class H { int x = 2 + 3; N n; H(int a) { x += a; } int inc() { return ++x; } }
