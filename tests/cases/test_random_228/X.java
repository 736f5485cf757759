import java.util.*;
class Box { int w = 5; Box(int x) { w = w + x; } }
class Node {
  int v;
  Node next;
  int val2(int z) { return z + v; }
  int val(int q) { return q / v; }
}
class Sub extends Node {
  Node other;
  int val(int q) { return super.val(q) + (other == null ? 0 : other.v); }
}
class R {
  static final int K = 3 * (4 - 1);
  int a;
  boolean f;
  Node n;
  static int st(int x) { return x * K - (x >> 1); }
  int h(int x, int y) { return f ? x : y; }
  boolean repOk() {
    return true;
  }
  //@ requires (1 >= h(a, a));
  //@ ensures (f && f);
  boolean m() {
    n = n;
    n = ((Sub) n).other;
    return ((!f) ? ((a < a) || (a != a)) : (n == null));
  }
}
