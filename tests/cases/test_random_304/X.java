import java.util.*;
class Box { int w = 5; Box(int x) { w = w + x; } }
class Node {
  int v;
  Node next;
  int val2(int z) { return z + v; }
  int val(int q) { return next == null ? v : next.v + q; }
}
class Sub extends Node {
  Node other;
  int val(int q) { return super.val(q) + v; }
}
class R {
  static final int K = 3 * (4 - 1);
  int a;
  boolean f;
  Node n;
  static int st(int x) { return x * K - (x >> 1); }
  int h(int x, int y) { return x % y; }
  boolean repOk() {
    return f || a >= 0;
  }
  //@ ensures a == \old(a) + a;
  //@ ensures ((a < x) ^ (x < x)) && \old(((a <= x) == f));
  //@ requires ((a < x) ? f : f);
  Node m(int x) {
    a += (x | (f ? x : a));
    a -= R.st((1 - x));
    return n;
  }
}
