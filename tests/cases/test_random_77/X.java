import java.util.*;
class Box { int w = 5; Box(int x) { w = w + x; } }
class Node {
  int v;
  Node next;
  int val2(int z) { return z + v; }
  int val(int q) { return next == null ? v : next.v + q; }
}
class Sub extends Node {
  Node other;
  int val(int q) { return super.val(q) + 1; }
}
class R {
  static final int K = 3 * (4 - 1);
  int a;
  boolean f;
  Node n;
  static int st(int x) { return x * K - (x >> 1); }
  int h(int x, int y) { return x % y; }
  boolean repOk() {
    return true;
  }
  //@ ensures a == \old(a) + (31 << 31);
  //@ ensures a == \old(a) + 4;
  //@ ensures (a != a) || \old(f);
  boolean m(Node o) {
    boolean v1 = (!(a < 2));
    int v2 = 0;
    do {
      n = new Node();
      if (f) return v1;
    } while (++v2 < 3 & ((a <= 0) ? (a < 0) : (a < a)));
    f = ((o instanceof Node) ? (n instanceof Node) : (v1 | (a < a)));
    a -= a;
    o.next = o;
    return f;
  }
}
