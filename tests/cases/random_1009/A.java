class N { int v; N next; boolean b; int f(int y) { return y; } static int g(int a, boolean c) { return c ? a : a + 1; } }
class M extends N { N other; int f(int y) { return super.f(y) + (N.g(this.v, b)); } }
