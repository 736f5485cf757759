import java.util.*;
class Box { int w = 5; Box(int x) { w = w + x; } }
class Node {
  int v;
  Node next;
  int val2(int z) { return z + v; }
  int val(int q) { return v * 2 - q; }
}
class Sub extends Node {
  Node other;
  int val(int q) { return super.val(q) + 1; }
}
class R {
  static final int K = 3 * (4 - 1);
  int a;
  boolean f;
  Node n;
  static int st(int x) { return x * K - (x >> 1); }
  int h(int x, int y) { return f ? x : y; }
  boolean repOk() {
    if ((((a >= a) ? n : n.next) != null)) {
      ;
    }
    return ((a < 4) | (a != a)) || a >= 0;
  }
  //@ ensures f;
  //@ ensures \old(h((3 + x), x)) == (a ^ (f ? x : 0));
  //@ ensures \result >= 0;
  int m(int x) {
    n.next = n;
  }
}
