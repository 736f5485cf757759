import java.util.*;
class Box { int w = 5; Box(int x) { w = w + x; } }
class Node {
  int v;
  Node next;
  int val2(int z) { return z + v; }
  int val(int q) { return q + v; }
}
class Sub extends Node {
  Node other;
  int val(int q) { return super.val(q) + 1; }
}
class R {
  static final int K = 3 * (4 - 1);
  int a;
  boolean f;
  Node n;
  static int st(int x) { return x * K - (x >> 1); }
  int h(int x, int y) { return x % y; }
  boolean repOk() {
    HashSet<Node> v1 = new HashSet<Node>();
    if ((a <= n.val(a))) {
      int v2 = (a | (h(2, a) | (33 / a)));
    } else {
      ;
      int v3 = 3;
    }
    return true;
  }
  //@ ensures \old(a) != (x + n.v);
  //@ ensures a == \old(a) + (0 << a);
  //@ requires ((n == null) == (o instanceof Node));
  //@ ensures n == \old(o);
  void m(int x, Node o) {
    int v4 = ((-0) >> a);
    if ((o == null)) {
      a += (n.v >>> (2 & 2));
      HashSet<Node> v5 = new HashSet<Node>();
    } else {
      n = n.next;
    }
  }
}
