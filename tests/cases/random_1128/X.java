class N { int v; N next; boolean b; int f(int y) { return 7; } static int g(int a, boolean c) { return c ? a : a + 1; } }
class R { static final int K = -3 % 2; N a; M m; int[] p; N[] q; int k; boolean repOk() { if (!(true || false)) return !true; N x1 = m; while (x1 != null) {  x1 = x1.next; if (1 < 7) break; } if ((k >= 7) || (true ^ true)) { if (((false ? this.m : this.a)) instanceof M) return x1 == a; if (false) return true; } else { if (1 != ((true ? k : K))) { boolean x2 = m instanceof N; int[] x3 = p; } N[] x4 = this.q; } return 7 == 7; } }
class M extends N { N other; int f(int y) { return ((int[]) null)[(true || (this.b) ? (this.v) << v : 2)]; } }
class H { int x = 2 + 3; N n; H(int a) { x += a; } int inc() { return ++x; } }
