import java.util.*;
class Box { int w = 5; Box(int x) { w = w + x; } }
class Node {
  int v;
  Node next;
  int val2(int z) { return z + v; }
  int val(int q) { return v * 2 - q; }
}
class Sub extends Node {
  Node other;
  int val(int q) { return super.val(q) + v; }
}
class R {
  static final int K = 3 * (4 - 1);
  int a;
  boolean f;
  Node n;
  static int st(int x) { return x * K - (x >> 1); }
  int h(int x, int y) { return x - y; }
  boolean repOk() {
    boolean v1 = ((f ? f : (n != n)) != (f == (a != a)));
    ;
    return true;
  }
  //@ ensures (3 > 2) && \old(((3 + a) < a));
  //@ ensures n == \old((f ? n : n));
  boolean m() {
    n.next.v += (2147483647 >>> a);
    a += ((a << 0) * a);
    int v2 = 0;
    while (v2++ < 3 && (n != null)) {
      int v3 = R.st(n.val(a));
    }
    return (a > n.v);
  }
}
