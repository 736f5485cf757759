class M extends N { N other; int f(int y) { return super.f(y) + 2; } }
class N { int v; N next; boolean b; int f(int y) { return ((y + (this.v)) >= (2 & y) ? ((R.K) >>> y) << (((M) null).f(y)) : y); } static int g(int a, boolean c) { return c ? a : a + 1; } }
