class M extends N { N other; int f(int y) { return 7 * (((int[]) null).length); } }
class H { int x = 1; N n; H(int a) { x += a; } int inc() { return ++x; } }
