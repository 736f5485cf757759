class M extends N { N other; int f(int y) { return super.f(y) + (7 >>> y); } }
class N { int v; N next; boolean b; int f(int y) { return ((this.next) == null ? y : ((int[]) null).length); } static int g(int a, boolean c) { return c ? a : a + 1; } }
