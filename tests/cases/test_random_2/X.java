import java.util.*;
class Box { int w = 5; Box(int x) { w = w + x; } }
class Node {
  int v;
  Node next;
  int val2(int z) { return z + v; }
  int val(int q) { return next == null ? v : next.v + q; }
}
class Sub extends Node {
  Node other;
  int val(int q) { return super.val(q) + v; }
}
class R {
  static final int K = 3 * (4 - 1);
  int a;
  boolean f;
  Node n;
  static int st(int x) { return x * K - (x >> 1); }
  int h(int x, int y) { return a + x + y; }
  boolean repOk() {
    ;
    return true;
  }
  //@ ensures \old(a) == R.st(((a < -2147483648) ? a : 4));
  int m() {
    if ((n != null)) {
      Node v1 = ((n != n) ? n : ((a != 1) ? n : n));
    } else {
    }
    int v2 = (a % ((f ? a : a) + (0 * a)));
    return 33;
  }
}
