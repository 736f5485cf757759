import java.util.*;
class Box { int w = 5; Box(int x) { w = w + x; } }
class Node {
  int v;
  Node next;
  int val2(int z) { return z + v; }
  int val(int q) { return q + v; }
}
class Sub extends Node {
  Node other;
  int val(int q) { return super.val(q) + v; }
}
class R {
  static final int K = 3 * (4 - 1);
  int a;
  boolean f;
  Node n;
  static int st(int x) { return x * K - (x >> 1); }
  int h(int x, int y) { return x % y; }
  boolean repOk() {
    if ((((f != f) || f) ^ (!(n != n)))) {
      int v1 = (a / 3);
    } else {
      ;
    }
    Box v2 = new Box(R.st(a));
    return true;
  }
  //@ ensures (n == null) && \old(((n instanceof Sub) & f));
  //@ requires f;
  int m(Node o) {
    Box v3 = new Box(o.next.val(a));
    for (int v4 = 0; v4 < 1; v4++) {
      n = new Node();
    }
    v3.w += (a >> a);
    if ((!f)) return v3.w;
    a = (((a != a) ? 0 : 4) >>> 2);
    return a;
  }
}
