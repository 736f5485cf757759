class H { int x = 1; N n; H(int a) { x += a; } int inc() { return ++x; } }
class M extends N { N other; int f(int y) { return super.f(y) + (y ^ (R.K)); } }