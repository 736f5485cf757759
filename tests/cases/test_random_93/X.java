import java.util.*;
class Box { int w = 5; Box(int x) { w = w + x; } }
class Node {
  int v;
  Node next;
  int val2(int z) { return z + v; }
  int val(int q) { return next == null ? v : next.v + q; }
}
class Sub extends Node {
  Node other;
  int val(int q) { return super.val(q) + v; }
}
class R {
  static final int K = 3 * (4 - 1);
  int a;
  boolean f;
  Node n;
  static int st(int x) { return x * K - (x >> 1); }
  int h(int x, int y) { return x % y; }
  boolean repOk() {
    int v1 = ((a >>> (~1)) >> n.val((a + 7)));
    return (a == a) || a >= 0;
  }
  //@ requires (n != null);
  //@ ensures ((2 != a) & f);
  void m() {
    int v2 = 0;
    while (v2++ < 3 && ((a == a) || f)) {
      Node v3 = ((v2 < a) ? n : n.next);
      int v4 = 0;
      while (v4++ < 3 && (n == null)) {
        ;
      }
      Node v5 = v3;
    }
    if (((n.next == null) ? f : (n instanceof Node))) {
    } else {
      n.next.next = n;
      int[] v6 = new int[3];
    }
  }
}
