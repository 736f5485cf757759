import java.util.*;
class Box { int w = 5; Box(int x) { w = w + x; } }
class Node {
  int v;
  Node next;
  int val2(int z) { return z + v; }
  int val(int q) { return v * 2 - q; }
}
class Sub extends Node {
  Node other;
  int val(int q) { return super.val(q) + 1; }
}
class R {
  static final int K = 3 * (4 - 1);
  int a;
  boolean f;
  Node n;
  static int st(int x) { return x * K - (x >> 1); }
  int h(int x, int y) { return x % y; }
  boolean repOk() {
    return (!(a < a)) || a >= 0;
  }
  //@ requires f;
  //@ ensures a == \old(a) + (2 * a);
  Node m(int x) {
    boolean v1 = (x > n.v);
    ((a < x) ? n : n).next = n;
    n.next.next = ((0 != x) ? n : n).next;
    return n;
  }
}
