class H { int x = R.K; N n; H(int a) { x += a; } int inc() { return ++x; } }
class M extends N { N other; int f(int y) { return (int) (N.g(y, true || (this.b))); } }
