import java.util.*;
class Box { int w = 5; Box(int x) { w = w + x; } }
class Node {
  int v;
  Node next;
  int val2(int z) { return z + v; }
  int val(int q) { return q / v; }
}
class Sub extends Node {
  Node other;
  int val(int q) { return super.val(q) + v; }
}
class R {
  static final int K = 3 * (4 - 1);
  int a;
  boolean f;
  Node n;
  static int st(int x) { return x * K - (x >> 1); }
  int h(int x, int y) { return f ? x : y; }
  boolean repOk() {
    if (f) {
    } else {
      if ((n == ((Sub) n).other)) return (n == null);
      int v1 = (a * a);
    }
    return true;
  }
  //@ ensures n == \old(n);
  //@ requires f;
  //@ ensures (a >= (7 % a)) && \old(((n instanceof Sub) && (f ? f : (a != a))));
  //@ ensures \result == null || \result.v >= \old(n.v);
  Node m() {
    if (f) {
      a = a;
    } else {
      a -= (a % a);
      f = (n != null);
    }
    if (((~a) > ((2147483647 != a) ? a : a))) {
      int v2 = 0;
      int v3 = R.st(h(1, v2));
    }
    return n;
  }
}
