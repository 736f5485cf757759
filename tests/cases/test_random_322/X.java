import java.util.*;
class Box { int w = 5; Box(int x) { w = w + x; } }
class Node {
  int v;
  Node next;
  int val2(int z) { return z + v; }
  int val(int q) { return v * 2 - q; }
}
class Sub extends Node {
  Node other;
  int val(int q) { return super.val(q) + 1; }
}
class R {
  static final int K = 3 * (4 - 1);
  int a;
  boolean f;
  Node n;
  static int st(int x) { return x * K - (x >> 1); }
  int h(int x, int y) { return a + x + y; }
  boolean repOk() {
    boolean v1 = (f ? (n == n) : (a > a));
    if ((n instanceof Sub)) return v1;
    return true;
  }
  //@ ensures (n != null);
  //@ requires ((f & (a != 3)) ? (a < 2) : (a == a));
  Node m() {
    ;
    a = (a | a);
    return n;
  }
}
