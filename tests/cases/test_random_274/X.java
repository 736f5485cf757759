import java.util.*;
class Box { int w = 5; Box(int x) { w = w + x; } }
class Node {
  int v;
  Node next;
  int val2(int z) { return z + v; }
  int val(int q) { return next == null ? v : next.v + q; }
}
class Sub extends Node {
  Node other;
  int val(int q) { return super.val(q) + v; }
}
class R {
  static final int K = 3 * (4 - 1);
  int a;
  boolean f;
  Node n;
  static int st(int x) { return x * K - (x >> 1); }
  int h(int x, int y) { return x % y; }
  boolean repOk() {
    return (f != (2 >= a));
  }
  //@ ensures n == \old(n);
  //@ ensures a == \old(a) + (x - 2);
  //@ ensures a == \old(a) + (~x);
  int m(int x) {
    ;
    return (++x);
  }
}
